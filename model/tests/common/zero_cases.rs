//! Known zeros that decide an operator, as request S-7 has them, in tables worked by hand: each with all that
//! the program certify prints for it.

use super::document_cases::{case, Case};
use super::{constant, enabled, fixed, free, multiplexer, operator, register, secret, RecordBytes};
use model::Operator::{self, Add, And, Equal, Less, Or, ShiftLeft, ShiftRight, Subtract, Xor};

/// Every case.
pub fn zero_cases() -> Vec<Case> {
    [decided(), not_decided(), no_zeros(), behind_others(), gates()].into_iter().flatten().collect()
}

/// A, B and the operator of them at width 8.
fn of_two(name: &'static str, code: Operator, [a, b]: [RecordBytes; 2], printed: &'static str) -> Case {
    case(name, vec![a, b, operator(code, 8, 0, 1)], printed)
}

/// Zeros that decide: of an and either operand, of a shift A, of less B.
fn decided() -> Vec<Case> {
    let (zero, tied) = (constant(8, 0), fixed(8, 0));
    let marked_zero = "rounds 0\n0 marked\n1 always 0\n2 always 0\n";
    let zero_marked = "rounds 0\n0 always 0\n1 marked\n2 always 0\n";
    let open_zero = "rounds 0\n0 open\n1 always 0\n2 always 0\n";
    let zero_open = "rounds 0\n0 always 0\n1 open\n2 always 0\n";
    vec![
        of_two("secret and 0", And, [secret(8), zero], marked_zero),
        of_two("secret and tied 0", And, [secret(8), tied], marked_zero),
        of_two("0 and secret", And, [zero, secret(8)], zero_marked),
        of_two("tied 0 and secret", And, [tied, secret(8)], zero_marked),
        of_two("free and 0", And, [free(8), zero], open_zero),
        of_two("tied 0 and free", And, [tied, free(8)], zero_open),
        of_two("fixed to 9 and 0", And, [fixed(8, 9), zero], open_zero),
        of_two("0 to the left by secret", ShiftLeft, [zero, secret(8)], zero_marked),
        of_two("tied 0 to the left by free", ShiftLeft, [tied, free(8)], zero_open),
        of_two("tied 0 to the right by secret", ShiftRight, [tied, secret(8)], zero_marked),
        of_two("0 to the right by free", ShiftRight, [zero, free(8)], zero_open),
        of_two("secret less than 0", Less, [secret(8), zero], marked_zero),
        of_two("free less than tied 0", Less, [free(8), tied], open_zero),
        of_two("0 and 0", And, [zero, tied], "rounds 0\n0 always 0\n1 always 0\n2 always 0\n"),
        // Of any width.
        of_two("secret of 1 bit and 0 of 32", And, [secret(1), constant(32, 0)], marked_zero),
        of_two("secret of 32 bits and 0 of 1", And, [secret(32), constant(1, 0)], marked_zero),
    ]
}

/// The other operand of a shift and of less, and the other operators.
fn not_decided() -> Vec<Case> {
    let zero = constant(8, 0);
    let marked_zero = "rounds 0\n0 marked\n1 always 0\n2 marked\n";
    let zero_marked = "rounds 0\n0 always 0\n1 marked\n2 marked\n";
    let open_zero = "rounds 0\n0 open\n1 always 0\n2 open\n";
    let zero_open = "rounds 0\n0 always 0\n1 open\n2 open\n";
    vec![
        of_two("secret to the left by 0", ShiftLeft, [secret(8), zero], marked_zero),
        of_two("secret to the right by 0", ShiftRight, [secret(8), zero], marked_zero),
        of_two("free to the left by 0", ShiftLeft, [free(8), zero], open_zero),
        of_two("free to the right by 0", ShiftRight, [free(8), zero], open_zero),
        of_two("0 less than secret", Less, [zero, secret(8)], zero_marked),
        of_two("0 less than free", Less, [zero, free(8)], zero_open),
        of_two("secret or 0", Or, [secret(8), zero], marked_zero),
        of_two("0 or free", Or, [zero, free(8)], zero_open),
        of_two("secret xor 0", Xor, [secret(8), zero], marked_zero),
        of_two("0 + secret", Add, [zero, secret(8)], zero_marked),
        of_two("secret - 0", Subtract, [secret(8), zero], marked_zero),
        of_two("0 - free", Subtract, [zero, free(8)], zero_open),
        of_two("secret equal 0", Equal, [secret(8), zero], marked_zero),
        of_two("0 equal free", Equal, [zero, free(8)], zero_open),
    ]
}

/// What is no known zero decides nothing, whatever the result is.
fn no_zeros() -> Vec<Case> {
    let with = |name, code, other: RecordBytes, printed| of_two(name, code, [secret(8), other], printed);
    let itself = vec![secret(8), operator(Xor, 8, 0, 0), operator(Less, 8, 0, 0), operator(Equal, 8, 0, 0)];
    vec![
        with("secret or 255", Or, constant(8, 255), "rounds 0\n0 marked\n1 always 255\n2 marked\n"),
        with(
            "secret to the left by 32",
            ShiftLeft,
            constant(8, 32),
            "rounds 0\n0 marked\n1 always 32\n2 marked\n",
        ),
        with(
            "secret to the right by 8",
            ShiftRight,
            constant(8, 8),
            "rounds 0\n0 marked\n1 always 8\n2 marked\n",
        ),
        // 256 is 0 at the and's width, and the operand is not 0.
        with("secret and 256", And, constant(16, 256), "rounds 0\n0 marked\n1 always 256\n2 marked\n"),
        with("secret and fixed to 9", And, fixed(8, 9), "rounds 0\n0 marked\n1 open\n2 marked\n"),
        with("secret less than 1", Less, constant(8, 1), "rounds 0\n0 marked\n1 always 1\n2 marked\n"),
        case("secret with itself", itself, "rounds 0\n0 marked\n1 marked\n2 marked\n3 marked\n"),
    ]
}

/// A zero that was decided decides in turn, and is a control, an arm and an enable.
fn behind_others() -> Vec<Case> {
    let row = vec![
        secret(8),
        fixed(8, 0),
        operator(And, 8, 0, 1),
        operator(ShiftLeft, 8, 2, 0),
        operator(Less, 8, 0, 3),
        operator(And, 8, 4, 0),
        multiplexer(8, 5, 0, 2),
        enabled(8, 0, 0, 6),
        operator(Or, 8, 0, 7),
    ];
    let printed = concat!(
        "rounds 0\n0 marked\n1 always 0\n2 always 0\n3 always 0\n4 always 0\n5 always 0\n",
        "6 always 0\n7 always 0\n8 marked\n",
    );
    vec![case("a row of zeros", row, printed)]
}

/// A bus whose gate is tied to 0, fixed to 1 or free; whose gate is the register that takes it; whose gate is a
/// register that opens in the first round; and gates in a row.
fn gates() -> Vec<Case> {
    let gated = |enable| vec![secret(8), enable, operator(And, 8, 0, 1), register(8, 0, 2)];
    let own = vec![secret(8), operator(And, 8, 0, 2), register(8, 0, 1)];
    let own_7 = vec![secret(8), operator(And, 8, 0, 2), register(8, 7, 1)];
    let opens =
        vec![secret(8), constant(8, 1), register(8, 0, 1), operator(And, 8, 0, 2), register(8, 0, 3)];
    // Each gate opens the next, a round later.
    let row = vec![
        free(8),
        register(8, 0, 0),
        operator(And, 8, 0, 1),
        register(8, 0, 2),
        operator(And, 8, 3, 0),
        register(8, 0, 4),
    ];
    vec![
        case("tied gate", gated(fixed(8, 0)), "rounds 0\n0 marked\n1 always 0\n2 always 0\n3 always 0\n"),
        case("gate fixed to 1", gated(fixed(8, 1)), "rounds 1\n0 marked\n1 open\n2 marked\n3 marked\n"),
        case("free gate", gated(free(8)), "rounds 1\n0 marked\n1 open\n2 marked\n3 marked\n"),
        case("its own gate, 0", own, "rounds 0\n0 marked\n1 always 0\n2 always 0\n"),
        case("its own gate, 7", own_7, "rounds 1\n0 marked\n1 marked\n2 marked\n"),
        case("gate opens", opens, "rounds 2\n0 marked\n1 always 1\n2 open\n3 marked\n4 marked\n"),
        case("gates in a row", row, "rounds 3\n0 open\n1 open\n2 open\n3 open\n4 open\n5 open\n"),
    ]
}
