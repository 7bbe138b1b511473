//! Document 01's cases A to M, C as request S-3 has it, each with all that the program certify prints for it.

use super::{constant, fixed, free, multiplexer, operator, register, secret, RecordBytes, Table};
use model::Operator::{Add, Equal, ShiftLeft, Subtract, Xor};

/// A case: its table, and all that is printed for it.
pub struct Case {
    pub name: &'static str,
    pub table: Vec<u8>,
    pub printed: &'static str,
}

/// Every case, and a loop of more than one wire.
pub fn document_cases() -> Vec<Case> {
    [variations_of_a(), registers(), rules(), lengths(), loops_and_values()].into_iter().flatten().collect()
}

/// The case of a table of these records.
pub fn case(name: &'static str, records: Table, printed: &'static str) -> Case {
    Case { name, table: records.as_flattened().to_vec(), printed }
}

/// The table of case A with this record 1.
pub fn case_a(record_1: RecordBytes) -> [RecordBytes; 7] {
    [
        secret(8),
        record_1,
        constant(8, 5),
        register(8, 0, 4),
        multiplexer(8, 1, 5, 3),
        operator(Add, 8, 3, 2),
        operator(Equal, 1, 0, 2),
    ]
}

/// Cases A to D, which differ in record 1.
fn variations_of_a() -> Vec<Case> {
    let a = "rounds 1\n0 marked\n1 open\n2 always 5\n3 open\n4 open\n5 open\n6 marked\n";
    let b = "rounds 0\n0 marked\n1 always 0\n2 always 5\n3 always 0\n4 always 0\n5 always 5\n6 marked\n";
    let c = "rounds 1\n0 marked\n1 open\n2 always 5\n3 open\n4 open\n5 open\n6 marked\n";
    let d = "rounds 1\n0 marked\n1 marked\n2 always 5\n3 marked\n4 marked\n5 marked\n6 marked\n";
    vec![
        case("A", case_a(free(1)).to_vec(), a),
        case("B", case_a(fixed(1, 0)).to_vec(), b),
        case("C", case_a(fixed(1, 1)).to_vec(), c),
        case("D", case_a(secret(1)).to_vec(), d),
    ]
}

/// Cases E, with its registers in both orders, and F.
fn registers() -> Vec<Case> {
    let p_first = vec![constant(8, 1), register(8, 0, 0), register(8, 0, 1)];
    let q_first = vec![register(8, 0, 1), register(8, 0, 2), constant(8, 1)];
    let bound_met = vec![register(8, 0, 1), multiplexer(8, 0, 2, 3), secret(8), constant(8, 1)];
    vec![
        case("E", p_first, "rounds 2\n0 always 1\n1 open\n2 open\n"),
        case("E, q first", q_first, "rounds 2\n0 open\n1 open\n2 always 1\n"),
        case("F", bound_met, "rounds 2\n0 marked\n1 marked\n2 marked\n3 always 1\n"),
    ]
}

/// Cases G to J.
fn rules() -> Vec<Case> {
    let narrowed = vec![secret(1), constant(2, 1), constant(2, 3), multiplexer(1, 0, 1, 2)];
    let difference = vec![constant(4, 2), constant(4, 5), operator(Subtract, 4, 0, 1)];
    let shifted_by = |n| vec![constant(32, 1), constant(32, n), operator(ShiftLeft, 32, 0, 1)];
    let itself = vec![secret(8), operator(Xor, 8, 0, 0)];
    vec![
        case("G", narrowed, "rounds 0\n0 marked\n1 always 1\n2 always 3\n3 always 1\n"),
        case("H", difference, "rounds 0\n0 always 2\n1 always 5\n2 always 13\n"),
        case("I", shifted_by(31), "rounds 0\n0 always 1\n1 always 31\n2 always 2147483648\n"),
        case("I, by 32", shifted_by(32), "rounds 0\n0 always 1\n1 always 32\n2 always 0\n"),
        case("J", itself, "rounds 0\n0 marked\n1 marked\n"),
    ]
}

/// Case K.
fn lengths() -> Vec<Case> {
    vec![
        Case { name: "K, empty", table: vec![], printed: "rounds 0\n" },
        Case { name: "K, 65,552 bytes", table: vec![0; 65_552], printed: "refused 1 at 0\n" },
        Case { name: "K, 17 bytes", table: vec![0; 17], printed: "refused 2 at 0\n" },
    ]
}

/// Cases L and M, and the loop of more than one wire.
fn loops_and_values() -> Vec<Case> {
    let longer = vec![free(8), operator(Add, 8, 0, 2), multiplexer(8, 0, 0, 1)];
    vec![
        case("L", vec![operator(Add, 8, 0, 0)], "refused 11 at 1\n0\n"),
        case("L, a register", vec![register(8, 7, 0)], "rounds 0\n0 always 7\n"),
        case("a longer loop", longer, "refused 11 at 2\n1 2\n"),
        case("M, 255", vec![constant(8, 255)], "rounds 0\n0 always 255\n"),
        case("M, 256", vec![constant(8, 256)], "refused 10 at 0\n"),
    ]
}
