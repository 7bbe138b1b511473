//! Tables trimmed by hand: by their own certificates, which are worked out by hand too, and by others.

use super::document_cases::case_a;
use super::trims::{certificate_with, Given};
use super::{constant, enabled, fixed, free, multiplexer, operator, register, secret, RecordBytes, Table};
use model::Fact::{self, Always, Marked, Open};
use model::Operator::{Add, And, Equal, Less, Or, Subtract, Xor};

/// A case: what is given, and the trimmed table with the number that each of its records had.
pub struct TrimCase {
    pub name: &'static str,
    pub given: Given,
    pub trimmed: Vec<u8>,
    pub numbers: Vec<u16>,
    /// Whether the certificate is the table's own.
    pub is_own: bool,
}

/// Every case.
pub fn trim_cases() -> Vec<TrimCase> {
    let own = [of_a(), of_b(), cuts(), multiplexers(), through_registers(), empty()];
    let foreign = [constants(), inputs(), other_facts()];
    let own = own.into_iter().flatten();
    let foreign = foreign.into_iter().flatten().map(|case| TrimCase { is_own: false, ..case });
    own.chain(foreign).collect()
}

/// A table and what the certificate calls its variables.
type Certified = (Table, Vec<Fact>);

/// The case of a certified table and of these kept variables, with the records that are written, each behind
/// the number that it had.
fn case(
    name: &'static str,
    (table, facts): &Certified,
    kept: &[u16],
    written: &[(u16, RecordBytes)],
) -> TrimCase {
    let table = table.as_flattened().to_vec();
    let given = Given { table, certificate: certificate_with(facts), kept: kept.to_vec() };
    let (numbers, records): (Vec<u16>, Table) = written.iter().copied().unzip();
    TrimCase { name, given, trimmed: records.as_flattened().to_vec(), numbers, is_own: true }
}

/// The records of a table, each behind its number.
fn all(table: &[RecordBytes]) -> Vec<(u16, RecordBytes)> {
    (0..).zip(table.iter().copied()).collect()
}

/// Case A, in which record 2 alone is always a number, and is a constant already.
fn of_a() -> Vec<TrimCase> {
    let table = case_a(free(1)).to_vec();
    let a = &(table.clone(), vec![Marked, Open, Always(5), Open, Open, Open, Marked]);
    let inputs = [(0, secret(8)), (1, free(1))];
    let with_match = [&inputs[..], &[(2, constant(8, 5)), (6, operator(Equal, 1, 0, 2))]].concat();
    vec![
        case("A, no variable kept", a, &[], &inputs),
        case("A, an input kept", a, &[1], &inputs),
        case("A, both inputs kept", a, &[1, 0], &inputs),
        case("A, the constant kept", a, &[2], &all(&table[..3])),
        case("A, the register kept", a, &[3], &all(&table[..6])),
        case("A, the sum kept", a, &[5], &all(&table[..6])),
        case("A, the comparison kept", a, &[6], &with_match),
        case("A, the comparison kept often", a, &[6, 0, 6, 6, 2, 6], &with_match),
        case("A, all kept", a, &[0, 1, 2, 3, 4, 5, 6], &all(&table)),
        case("A, some kept that reach all", a, &[6, 4], &all(&table)),
    ]
}

/// Case B, in which the register and what hangs on it are always a number.
fn of_b() -> Vec<TrimCase> {
    let table = case_a(fixed(1, 0)).to_vec();
    let b = &(table, vec![Marked, Always(0), Always(5), Always(0), Always(0), Always(5), Marked]);
    let inputs = [(0, secret(8)), (1, fixed(1, 0))];
    let and = |more: &[(u16, RecordBytes)]| [&inputs[..], more].concat();
    let [three, four, five] = [(3, constant(8, 0)), (4, constant(8, 0)), (5, constant(8, 5))];
    let (two, six) = ((2, constant(8, 5)), (6, operator(Equal, 1, 0, 2)));
    vec![
        case("B, no variable kept", b, &[], &inputs),
        case("B, the register kept", b, &[3], &and(&[three])),
        case("B, the choice and the register kept", b, &[4, 3], &and(&[three, four])),
        case("B, the sum kept", b, &[5], &and(&[five])),
        case("B, the sum and the comparison kept", b, &[5, 6], &and(&[two, five, six])),
        case("B, all kept", b, &[0, 1, 2, 3, 4, 5, 6], &and(&[two, three, four, five, six])),
    ]
}

/// What is called always becomes a constant and reaches nothing, so that what fed it is dropped.
fn cuts() -> Vec<TrimCase> {
    let never_enabled = (
        vec![free(8), constant(1, 0), operator(Add, 8, 0, 0), enabled(8, 7, 2, 1), operator(Xor, 8, 3, 0)],
        vec![Open, Always(0), Open, Always(7), Open],
    );
    let fed_by_itself =
        (vec![free(4), register(8, 7, 1), operator(Add, 8, 1, 0)], vec![Open, Always(7), Open]);
    let of_constants = (
        vec![constant(4, 9), constant(4, 8), operator(Add, 4, 0, 1), operator(Or, 8, 2, 4), free(8)],
        vec![Always(9), Always(8), Always(1), Open, Open],
    );
    let in_the_way = (
        vec![
            operator(Or, 8, 1, 1),
            free(8),
            operator(Add, 8, 1, 1),
            operator(Less, 1, 1, 2),
            enabled(8, 0, 2, 3),
        ],
        vec![Open; 5],
    );
    let enabled_remains =
        [(1, free(8)), (2, operator(Add, 8, 0, 0)), (3, operator(Less, 1, 0, 1)), (4, enabled(8, 0, 1, 2))];
    vec![
        case(
            "a register that is never enabled",
            &never_enabled,
            &[4],
            &[(0, free(8)), (3, constant(8, 7)), (4, operator(Xor, 8, 1, 0))],
        ),
        case(
            "a register fed by itself",
            &fed_by_itself,
            &[2],
            &[(0, free(4)), (1, constant(8, 7)), (2, operator(Add, 8, 1, 0))],
        ),
        case(
            "an operator on constants",
            &of_constants,
            &[3],
            &[(2, constant(4, 1)), (3, operator(Or, 8, 0, 2)), (4, free(8))],
        ),
        case("a register with an enable that remains", &in_the_way, &[4], &enabled_remains),
    ]
}

/// All three uses of a multiplexer remain, also of an arm that its control passes over, unless it is called
/// always itself.
fn multiplexers() -> Vec<TrimCase> {
    let passed_over = (
        vec![
            free(8),
            constant(1, 0),
            operator(Add, 8, 0, 0),
            operator(Xor, 8, 0, 0),
            multiplexer(8, 1, 2, 3),
            operator(Or, 8, 4, 0),
        ],
        vec![Open, Always(0), Open, Open, Open, Open],
    );
    let constant_arm = (
        vec![
            free(1),
            constant(8, 3),
            constant(8, 4),
            operator(Add, 8, 1, 2),
            operator(Subtract, 8, 0, 1),
            multiplexer(8, 0, 3, 4),
        ],
        vec![Open, Always(3), Always(4), Always(7), Open, Open],
    );
    let same_arms = (
        vec![secret(1), constant(2, 1), constant(2, 3), multiplexer(1, 0, 1, 2), operator(And, 1, 3, 0)],
        vec![Marked, Always(1), Always(3), Always(1), Marked],
    );
    let arm_replaced = [
        (0, free(1)),
        (1, constant(8, 3)),
        (3, constant(8, 7)),
        (4, operator(Subtract, 8, 0, 1)),
        (5, multiplexer(8, 0, 2, 3)),
    ];
    vec![
        case("an arm that is passed over", &passed_over, &[4], &all(&passed_over.0[..5])),
        case("an arm that is a constant", &constant_arm, &[5], &arm_replaced),
        case(
            "G, and what uses it",
            &same_arms,
            &[4],
            &[(0, secret(1)), (3, constant(1, 1)), (4, operator(And, 1, 1, 0))],
        ),
    ]
}

/// Registers that reach each other, and themselves.
fn through_registers() -> Vec<TrimCase> {
    let each_other = (vec![free(1), register(8, 1, 2), register(8, 2, 1)], vec![Open; 3]);
    let two_counters = (
        vec![
            register(8, 0, 1),
            operator(Add, 8, 0, 4),
            register(8, 0, 3),
            operator(Add, 8, 2, 4),
            constant(8, 1),
        ],
        vec![Open, Open, Open, Open, Always(1)],
    );
    let second = [(2, register(8, 0, 1)), (3, operator(Add, 8, 0, 2)), (4, constant(8, 1))];
    let own_enable = (vec![constant(8, 1), free(8), enabled(8, 5, 1, 2)], vec![Always(1), Open, Open]);
    let open_loop = (
        vec![free(8), enabled(8, 4, 2, 3), operator(Add, 8, 1, 0), constant(1, 0)],
        vec![Open, Always(4), Open, Always(0)],
    );
    let opened = [(0, free(8)), (1, constant(8, 4)), (2, operator(Add, 8, 1, 0))];
    vec![
        case("registers that feed each other, not kept", &each_other, &[], &[(0, free(1))]),
        case("registers that feed each other, one kept", &each_other, &[2], &all(&each_other.0)),
        case("one counter of two", &two_counters, &[3], &second),
        case("both counters", &two_counters, &[3, 0], &all(&two_counters.0)),
        case("its own enable", &own_enable, &[2], &[(1, free(8)), (2, enabled(8, 5, 0, 1))]),
        case("a loop that the certificate opens", &open_loop, &[2], &opened),
        case("a register that the certificate cuts off", &open_loop, &[1], &opened[..2]),
    ]
}

/// The empty table.
fn empty() -> Vec<TrimCase> {
    vec![case("the empty table", &(vec![], vec![]), &[], &[])]
}

/// A constant becomes what it is called, where that is always.
fn constants() -> Vec<TrimCase> {
    let facts = vec![Always(6), Always(5), Open, Marked];
    let written = [6, 5, 5, 5].map(|n| constant(8, n));
    let four = (vec![constant(8, 5); 4], facts);
    vec![
        case("constants", &four, &[0, 1, 2, 3], &all(&written)),
        case("a constant called another", &four, &[0], &all(&written[..1])),
        case("a constant called open", &four, &[2], &[(2, constant(8, 5))]),
    ]
}

/// An input remains an input, whatever it is called.
fn inputs() -> Vec<TrimCase> {
    let table = vec![fixed(4, 9), free(4), secret(4), operator(Add, 4, 0, 1)];
    let facts = vec![Always(3), Always(15), Always(0), Open];
    let certified = (table.clone(), facts);
    vec![
        case("inputs called always", &certified, &[3], &all(&table)),
        case("inputs called always, and kept", &certified, &[2, 0, 1], &all(&table[..3])),
    ]
}

/// Certificates that call more, or less, than is so.
fn other_facts() -> Vec<TrimCase> {
    let b = case_a(fixed(1, 0)).to_vec();
    let all_marked = (b.clone(), vec![Marked; 7]);
    let all_ones = (case_a(free(1)).to_vec(), vec![Always(1); 7]);
    let ones = [(0, secret(8)), (1, free(1)), (4, constant(8, 1)), (6, constant(1, 1))];
    let not_its_power_on = (vec![register(4, 1, 1), operator(Add, 4, 0, 0)], vec![Always(9), Open]);
    let nines = [constant(4, 9), operator(Add, 4, 0, 0)];
    vec![
        case("B, all called marked", &all_marked, &[5], &all(&b[..6])),
        case("A, all called always 1", &all_ones, &[6, 4], &ones),
        case("a register called another number", &not_its_power_on, &[1], &all(&nines)),
    ]
}
