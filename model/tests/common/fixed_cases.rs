//! Fixed inputs, as request S-3 has them, in tables worked by hand: each with all that the program certify
//! prints for it. A fixed input holds 0 until its n is poked into it, so that it is always 0 where n is 0,
//! else open.

use super::document_cases::{case, Case};
use super::{constant, enabled, fixed, free, multiplexer, operator, register, secret, RecordBytes};
use model::Operator::{Add, Equal, Xor};

/// Every case.
pub fn fixed_cases() -> Vec<Case> {
    [alone(), operands(), controls(), arms(), registers(), together()].into_iter().flatten().collect()
}

/// One input. An n that is not 0 can have low bits, or whole bytes, that are.
fn alone() -> Vec<Case> {
    let one = |name, w, n| {
        case(name, vec![fixed(w, n)], if n == 0 { "rounds 0\n0 always 0\n" } else { "rounds 0\n0 open\n" })
    };
    vec![
        one("fixed to 0, width 1", 1, 0),
        one("fixed to 1, width 1", 1, 1),
        one("fixed to 0, width 32", 32, 0),
        one("fixed to 2, width 2", 2, 2),
        one("fixed to 256, width 9", 9, 256),
        one("fixed to 2^16, width 32", 32, 1 << 16),
        one("fixed to 2^31, width 32", 32, 1 << 31),
        one("fixed to 2^32 - 1, width 32", 32, u32::MAX),
    ]
}

/// An operator on an input that is fixed, to 9 or to 0, and on another operand.
fn operands() -> Vec<Case> {
    let add = |name, n: u32, other: RecordBytes, printed| {
        case(name, vec![fixed(4, n), other, operator(Add, 4, 0, 1)], printed)
    };
    let itself = vec![fixed(4, 9), operator(Xor, 4, 0, 0), operator(Equal, 1, 0, 0)];
    vec![
        add("9 + 5", 9, constant(4, 5), "rounds 0\n0 open\n1 always 5\n2 open\n"),
        add("9 + 0", 9, fixed(4, 0), "rounds 0\n0 open\n1 always 0\n2 open\n"),
        add("9 + 9", 9, fixed(4, 9), "rounds 0\n0 open\n1 open\n2 open\n"),
        add("9 + secret", 9, secret(4), "rounds 0\n0 open\n1 marked\n2 marked\n"),
        add("0 + 5", 0, constant(4, 5), "rounds 0\n0 always 0\n1 always 5\n2 always 5\n"),
        add("0 + 0", 0, fixed(4, 0), "rounds 0\n0 always 0\n1 always 0\n2 always 0\n"),
        add("0 + free", 0, free(4), "rounds 0\n0 always 0\n1 open\n2 open\n"),
        add("0 + secret", 0, secret(4), "rounds 0\n0 always 0\n1 marked\n2 marked\n"),
        case("9 with itself", itself, "rounds 0\n0 open\n1 open\n2 open\n"),
    ]
}

/// A control that is fixed. With n 9 either arm may be taken, and a secret one marks the choice; with n 0 the
/// first arm is passed over.
fn controls() -> Vec<Case> {
    let choice = |name, n: u32, [b, c]: [RecordBytes; 2], printed| {
        case(name, vec![fixed(4, n), b, c, multiplexer(4, 0, 1, 2)], printed)
    };
    let (five, same, six) = (constant(4, 5), constant(8, 21), constant(4, 6));
    let equal = "rounds 0\n0 open\n1 always 5\n2 always 21\n3 always 5\n";
    let unequal = "rounds 0\n0 open\n1 always 5\n2 always 6\n3 open\n";
    let marked_by_b = "rounds 0\n0 open\n1 marked\n2 always 6\n3 marked\n";
    let marked_by_c = "rounds 0\n0 open\n1 always 5\n2 marked\n3 marked\n";
    let six_taken = "rounds 0\n0 always 0\n1 always 5\n2 always 6\n3 always 6\n";
    let passed_over = "rounds 0\n0 always 0\n1 marked\n2 always 6\n3 always 6\n";
    let secret_taken = "rounds 0\n0 always 0\n1 always 5\n2 marked\n3 marked\n";
    let fixed_taken = "rounds 0\n0 always 0\n1 always 5\n2 open\n3 open\n";
    vec![
        choice("control 9, equal arms", 9, [five, same], equal),
        choice("control 9, unequal arms", 9, [five, six], unequal),
        choice("control 9, secret B", 9, [secret(4), six], marked_by_b),
        choice("control 9, secret C", 9, [five, secret(4)], marked_by_c),
        choice("control 0, unequal arms", 0, [five, six], six_taken),
        choice("control 0, secret B", 0, [secret(4), six], passed_over),
        choice("control 0, secret C", 0, [five, secret(4)], secret_taken),
        choice("control 0, fixed C", 0, [five, fixed(4, 9)], fixed_taken),
    ]
}

/// An arm that is fixed, to 9 or to 0, beside a constant of the same number.
fn arms() -> Vec<Case> {
    let choice = |name, n: u32, control: RecordBytes, printed| {
        case(name, vec![control, fixed(4, n), constant(4, n), multiplexer(4, 0, 1, 2)], printed)
    };
    let nine_taken = "rounds 0\n0 always 0\n1 open\n2 always 9\n3 always 9\n";
    vec![
        choice("arm 9, free", 9, free(1), "rounds 0\n0 open\n1 open\n2 always 9\n3 open\n"),
        choice("arm 9, secret", 9, secret(1), "rounds 0\n0 marked\n1 open\n2 always 9\n3 marked\n"),
        choice("arm 9, 1", 9, constant(1, 1), "rounds 0\n0 always 1\n1 open\n2 always 9\n3 open\n"),
        choice("arm 9, 0", 9, constant(1, 0), nine_taken),
        choice("arm 0, free", 0, free(1), "rounds 0\n0 open\n1 always 0\n2 always 0\n3 always 0\n"),
        choice("arm 0, secret", 0, secret(1), "rounds 0\n0 marked\n1 always 0\n2 always 0\n3 always 0\n"),
    ]
}

/// A register whose data is fixed. One with n as power-on value takes 0 at a tick before the poke.
fn registers() -> Vec<Case> {
    let fed_by = |name, data: RecordBytes, power_on: u32, printed| {
        case(name, vec![data, register(4, power_on, 0)], printed)
    };
    let kept = vec![fixed(4, 0), fixed(4, 9), enabled(4, 9, 1, 0)];
    vec![
        fed_by("data 9, power-on 9", fixed(4, 9), 9, "rounds 1\n0 open\n1 open\n"),
        fed_by("data 9, power-on 0", fixed(4, 9), 0, "rounds 1\n0 open\n1 open\n"),
        fed_by("data 16 at width 4, power-on 0", fixed(8, 16), 0, "rounds 1\n0 open\n1 open\n"),
        fed_by("data 0, power-on 0", fixed(4, 0), 0, "rounds 0\n0 always 0\n1 always 0\n"),
        fed_by("data 0, power-on 9", fixed(4, 0), 9, "rounds 1\n0 always 0\n1 open\n"),
        case("data 9, power-on 9, enable 0", kept, "rounds 0\n0 always 0\n1 open\n2 always 9\n"),
    ]
}

/// Inputs fixed to 9 and to 0 at all places of operands; and a control that a register takes from a fixed
/// input with its n as power-on value, so that the secret arm is passed over at first, or for good.
fn together() -> Vec<Case> {
    let everywhere = vec![
        fixed(4, 9),
        fixed(4, 0),
        secret(4),
        register(4, 9, 0),
        register(4, 0, 1),
        multiplexer(4, 0, 1, 2),
        multiplexer(4, 1, 2, 0),
        enabled(4, 5, 2, 0),
        enabled(4, 5, 2, 1),
        operator(Add, 4, 0, 1),
    ];
    let printed = concat!(
        "rounds 1\n0 open\n1 always 0\n2 marked\n3 open\n4 always 0\n",
        "5 marked\n6 open\n7 marked\n8 always 5\n9 open\n",
    );
    let control = |n: u32, choice: RecordBytes| {
        vec![fixed(1, n), register(1, n, 0), constant(8, 5), secret(8), choice]
    };
    let (at_first, for_good) = (control(1, multiplexer(8, 1, 2, 3)), control(0, multiplexer(8, 1, 3, 2)));
    let marked = "rounds 1\n0 open\n1 open\n2 always 5\n3 marked\n4 marked\n";
    let not_marked = "rounds 0\n0 always 0\n1 always 0\n2 always 5\n3 marked\n4 always 5\n";
    vec![
        case("9 and 0 everywhere", everywhere, printed),
        case("passed over at first", at_first, marked),
        case("passed over for good", for_good, not_marked),
    ]
}
