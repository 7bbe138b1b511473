//! Registers with an enable, as request S-2 has them, in tables worked by hand: each with all that the program
//! certify prints for it.

use super::document_cases::{case, Case};
use super::{constant, enabled, fixed, free, multiplexer, operator, register, secret, RecordBytes};
use model::Operator::Add;

/// Every case.
pub fn enable_cases() -> Vec<Case> {
    [enables(), its_own(), later_rounds(), loops()].into_iter().flatten().collect()
}

/// Data, an enable, and their register of width 4 with power-on value 7. Its name has the enable first.
fn enabled_by(name: &'static str, data: RecordBytes, enable: RecordBytes, printed: &'static str) -> Case {
    case(name, vec![data, enable, enabled(4, 7, 0, 1)], printed)
}

/// Every fact of the enable with facts of the data. At width 4 the constant 23 is 7, the power-on value.
fn enables() -> Vec<Case> {
    let (same, other) = (constant(8, 23), constant(8, 8));
    vec![
        enabled_by("0, free", free(8), constant(8, 0), "rounds 0\n0 open\n1 always 0\n2 always 7\n"),
        enabled_by("0, secret", secret(8), fixed(8, 0), "rounds 0\n0 marked\n1 always 0\n2 always 7\n"),
        enabled_by("0, 8", other, fixed(1, 0), "rounds 0\n0 always 8\n1 always 0\n2 always 7\n"),
        enabled_by("3, free", free(8), constant(8, 3), "rounds 1\n0 open\n1 always 3\n2 open\n"),
        enabled_by("3, secret", secret(8), constant(8, 3), "rounds 1\n0 marked\n1 always 3\n2 marked\n"),
        enabled_by("3, 23", same, constant(8, 3), "rounds 0\n0 always 23\n1 always 3\n2 always 7\n"),
        enabled_by("3, 8", other, constant(8, 3), "rounds 1\n0 always 8\n1 always 3\n2 open\n"),
        // The enable's remainder by 2^4 is 0, and the enable is not.
        enabled_by("16, 8", other, constant(8, 16), "rounds 1\n0 always 8\n1 always 16\n2 open\n"),
        // A fixed enable with n 3 is 0 until it is poked, and open.
        enabled_by("fixed, 23", same, fixed(8, 3), "rounds 0\n0 always 23\n1 open\n2 always 7\n"),
        enabled_by("fixed, 8", other, fixed(8, 3), "rounds 1\n0 always 8\n1 open\n2 open\n"),
        enabled_by("fixed, secret", secret(8), fixed(8, 3), "rounds 1\n0 marked\n1 open\n2 marked\n"),
        enabled_by("free, 23", same, free(1), "rounds 0\n0 always 23\n1 open\n2 always 7\n"),
        enabled_by("free, 8", other, free(1), "rounds 1\n0 always 8\n1 open\n2 open\n"),
        enabled_by("free, free", free(8), free(1), "rounds 1\n0 open\n1 open\n2 open\n"),
        enabled_by("free, secret", secret(8), free(1), "rounds 1\n0 marked\n1 open\n2 marked\n"),
        enabled_by("secret, 23", same, secret(1), "rounds 0\n0 always 23\n1 marked\n2 always 7\n"),
        enabled_by("secret, 8", other, secret(1), "rounds 1\n0 always 8\n1 marked\n2 marked\n"),
        enabled_by("secret, free", free(8), secret(1), "rounds 1\n0 open\n1 marked\n2 marked\n"),
        enabled_by("secret, secret", secret(8), secret(8), "rounds 1\n0 marked\n1 marked\n2 marked\n"),
    ]
}

/// A register that is its own enable, its own data, or both.
fn its_own() -> Vec<Case> {
    let enable = |power_on: u32, data: RecordBytes| vec![data, enabled(4, power_on, 0, 1)];
    let data = |enable: RecordBytes| vec![enable, enabled(4, 7, 1, 0)];
    vec![
        case("its own enable, 0, free", enable(0, free(8)), "rounds 0\n0 open\n1 always 0\n"),
        case("its own enable, 0, secret", enable(0, secret(8)), "rounds 0\n0 marked\n1 always 0\n"),
        case("its own enable, 0, 8", enable(0, constant(8, 8)), "rounds 0\n0 always 8\n1 always 0\n"),
        case("its own enable, 7, free", enable(7, free(8)), "rounds 1\n0 open\n1 open\n"),
        case("its own enable, 7, secret", enable(7, secret(8)), "rounds 1\n0 marked\n1 marked\n"),
        case("its own enable, 7, 23", enable(7, constant(8, 23)), "rounds 0\n0 always 23\n1 always 7\n"),
        case("its own enable, 7, 8", enable(7, constant(8, 8)), "rounds 1\n0 always 8\n1 open\n"),
        case("its own data, 3", data(constant(8, 3)), "rounds 0\n0 always 3\n1 always 7\n"),
        case("its own data, free", data(free(8)), "rounds 0\n0 open\n1 always 7\n"),
        case("its own data, secret", data(secret(8)), "rounds 0\n0 marked\n1 always 7\n"),
        case("its own enable and data", vec![enabled(4, 7, 0, 0)], "rounds 0\n0 always 7\n"),
    ]
}

/// Data and enables that change in some round.
fn later_rounds() -> Vec<Case> {
    let held = vec![
        constant(8, 1),
        register(8, 0, 2),
        operator(Add, 8, 1, 0),
        constant(8, 0),
        enabled(8, 7, 1, 3),
    ];
    let p_first = vec![constant(8, 1), register(8, 0, 0), enabled(8, 0, 0, 1)];
    let q_first = vec![enabled(8, 0, 2, 1), register(8, 0, 2), constant(8, 1)];
    let marked_later = vec![free(8), secret(1), register(1, 1, 1), enabled(8, 0, 0, 2)];
    let bound_met = vec![enabled(8, 0, 3, 1), multiplexer(8, 0, 2, 3), secret(8), constant(8, 1)];
    let each_other = vec![enabled(8, 0, 2, 1), enabled(8, 0, 2, 0), secret(8)];
    vec![
        case("beside a counter", held, "rounds 1\n0 always 1\n1 open\n2 open\n3 always 0\n4 always 7\n"),
        case("E by an enable", p_first, "rounds 2\n0 always 1\n1 open\n2 open\n"),
        case("E by an enable, q first", q_first, "rounds 2\n0 open\n1 open\n2 always 1\n"),
        case("open, then marked", marked_later, "rounds 2\n0 open\n1 marked\n2 marked\n3 marked\n"),
        case("F by an enable", bound_met, "rounds 2\n0 marked\n1 marked\n2 marked\n3 always 1\n"),
        case("never enabled", each_other, "rounds 0\n0 always 0\n1 always 0\n2 marked\n"),
    ]
}

/// Loops that a register with an enable breaks, and one beside it.
fn loops() -> Vec<Case> {
    let by_data = vec![free(8), operator(Add, 8, 2, 0), enabled(8, 0, 1, 0)];
    let by_enable = vec![free(8), operator(Add, 8, 2, 0), enabled(8, 0, 0, 1)];
    let beside = vec![enabled(8, 0, 1, 2), operator(Add, 8, 0, 2), operator(Add, 8, 1, 0)];
    vec![
        case("a loop broken by its data", by_data, "rounds 1\n0 open\n1 open\n2 open\n"),
        case("a loop broken by its enable", by_enable, "rounds 1\n0 open\n1 open\n2 open\n"),
        case("a loop beside it", beside, "refused 11 at 2\n1 2\n"),
    ]
}
