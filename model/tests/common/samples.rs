//! Sample tables: orders and loops of several shapes, each field of each kind of record damaged, and several
//! grounds at once. Each that meets none of grounds 1 to 10 has one order of its wires or one loop. Apart
//! from these: a table of one record of each sort, and one of every rule.

use super::{
    constant, enabled, fixed, free, multiplexer, operator, register, secret, RecordBytes, Table,
    MOST_RECORDS,
};
use model::{read_records, remainder, Operator};

/// An add of width 8 that uses a variable twice.
pub fn add(variable: u16) -> RecordBytes {
    operator(Operator::Add, 8, variable, variable)
}

/// One record of each sort that grounds 7 to 10 and 15 to 17 tell apart, and no loop.
pub fn one_of_each() -> [RecordBytes; 8] {
    [
        fixed(4, 9),
        free(4),
        secret(4),
        constant(4, 15),
        operator(Operator::Add, 4, 0, 1),
        multiplexer(4, 0, 1, 2),
        register(4, 1, 5),
        enabled(4, 2, 5, 6),
    ]
}

/// The places of the records of `one_of_each`.
pub const FIXED: usize = 0;
pub const FREE: usize = 1;
pub const SECRET: usize = 2;
pub const CONSTANT: usize = 3;
pub const OPERATOR: usize = 4;
pub const MULTIPLEXER: usize = 5;
pub const REGISTER: usize = 6;
pub const ENABLED: usize = 7;

/// Boundary values of the rules, the shifts' among them.
pub const BOUNDARY_VALUES: [u32; 7] = [0, 1, 5, 31, 32, 1 << 31, u32::MAX];

/// The places of the inputs among the operands of `every_rule`, behind the constants, and the n of the first.
pub const FIXED_OPERAND: u16 = BOUNDARY_VALUES.len() as u16;
pub const ZERO_OPERAND: u16 = FIXED_OPERAND + 1;
pub const FREE_OPERAND: u16 = FIXED_OPERAND + 2;
pub const SECRET_OPERAND: u16 = FIXED_OPERAND + 3;
pub const FIXED_N: u32 = 5;

/// Every rule on every choice of operands, with results of width w. The operands are a constant for each of
/// the boundary values, then inputs: one fixed to a number, one fixed to 0, a free and a secret one.
pub fn every_rule(w: u8) -> Table {
    let inputs = [fixed(32, FIXED_N), fixed(32, 0), free(32), secret(32)];
    let operands = [&BOUNDARY_VALUES.map(|n| constant(32, n))[..], &inputs].concat();
    let all = 0..operands.len() as u16;
    let pairs: Vec<(u16, u16)> = all.clone().flat_map(|a| all.clone().map(move |b| (a, b))).collect();
    let operators = Operator::BY_CODE.into_iter();
    let operators = operators.flat_map(|code| pairs.iter().map(move |&(a, b)| operator(code, w, a, b)));
    let multiplexers = all.clone().flat_map(|a| pairs.iter().map(move |&(b, c)| multiplexer(w, a, b, c)));
    let power_ons = [0, 1, remainder(u32::MAX, u32::from(w))];
    let registers = all.flat_map(|a| power_ons.map(|n| register(w, n, a)));
    let with_enables = pairs.iter().flat_map(|&(a, b)| power_ons.map(|n| enabled(w, n, a, b)));
    let records: Table = operators.chain(multiplexers).chain(registers).chain(with_enables).collect();
    [operands, records].concat()
}

/// Every sample.
pub fn samples() -> Vec<Table> {
    [orders(), loops(), values(), damaged_fields(), first_grounds(), lengths()].concat()
}

/// Tables without a loop.
fn orders() -> Vec<Table> {
    let last = MOST_RECORDS - 1;
    vec![
        // The empty table.
        vec![],
        // The longest chain of wires, each after the wire that it uses.
        (0..=last).map(|i| if i == 0 { constant(8, 1) } else { add(i - 1) }).collect(),
        // The longest chain of wires, each before the wire that it uses.
        (0..=last).map(|i| if i == last { constant(8, 1) } else { add(i + 1) }).collect(),
        // A chain through each use of a multiplexer and of an operator in turn.
        vec![
            multiplexer(8, 1, 6, 6),
            multiplexer(8, 6, 2, 6),
            multiplexer(8, 6, 6, 3),
            operator(Operator::Xor, 8, 4, 6),
            operator(Operator::Less, 8, 6, 5),
            constant(8, 1),
            free(8),
        ],
        // A wire that two others use, one of which uses the other.
        vec![operator(Operator::And, 8, 2, 1), add(2), constant(8, 3)],
        // Case A, but that its last record uses 4 and not 2: its order is then the only one.
        vec![
            secret(8),
            free(1),
            constant(8, 5),
            register(8, 0, 4),
            multiplexer(8, 1, 5, 3),
            operator(Operator::Add, 8, 3, 2),
            operator(Operator::Equal, 1, 0, 4),
        ],
        // Case E: registers in a row.
        vec![constant(1, 1), register(1, 0, 0), register(1, 0, 1)],
        // Case F: a register, and the wire that feeds it and is controlled by it.
        vec![register(1, 0, 1), multiplexer(1, 0, 2, 3), secret(1), constant(1, 1)],
        // Case L: a register fed by itself.
        vec![register(8, 7, 0)],
        // A loop broken by a register.
        vec![add(2), add(0), register(8, 0, 1)],
        // A loop broken by a register with an enable: through its data, through its enable, and through both.
        vec![add(2), add(0), enabled(8, 0, 1, 3), free(8)],
        vec![add(2), add(0), enabled(8, 0, 3, 1), free(8)],
        vec![add(2), add(0), enabled(8, 0, 1, 0)],
        // A register fed and enabled by itself.
        vec![enabled(8, 7, 0, 0)],
        // Registers among wires.
        vec![register(8, 1, 4), add(4), register(8, 2, 2), add(1), constant(8, 9), register(8, 3, 3)],
        // Registers with and without an enable among wires.
        vec![add(2), enabled(8, 1, 0, 4), add(5), register(8, 2, 1), enabled(8, 3, 4, 2), constant(8, 9)],
        // Inputs and registers only.
        vec![fixed(8, 255), register(8, 0, 0), free(8), register(8, 0, 1), secret(8)],
        vec![enabled(8, 1, 1, 2), enabled(8, 0, 2, 0), free(8), register(8, 3, 1)],
    ]
}

/// Tables with a loop.
fn loops() -> Vec<Table> {
    vec![
        // The longest loop.
        (0..MOST_RECORDS).map(|i| add((i + 1) % MOST_RECORDS)).collect(),
        // A loop against the order of the records.
        vec![add(3), add(0), add(1), add(2)],
        // Case L: an add that uses itself twice.
        vec![add(0)],
        // A wire that uses itself behind others.
        vec![constant(8, 1), add(0), operator(Operator::Or, 8, 1, 2), add(2)],
        // A loop further on, whose lowest wire is not the one that is entered.
        vec![add(1), add(3), add(3), add(4), add(2)],
        // A loop through each use of a multiplexer, beside a register and an input.
        vec![
            free(1),
            multiplexer(8, 0, 2, 4),
            register(8, 0, 1),
            multiplexer(8, 0, 1, 0),
            multiplexer(8, 3, 2, 0),
        ],
        // A loop beside a register with an enable, whose data and enable are on it and which it uses.
        vec![enabled(8, 0, 1, 2), operator(Operator::And, 8, 0, 2), add(1)],
        // A loop of two wires, one of which uses a wire outside, and which a wire outside uses.
        vec![constant(8, 1), operator(Operator::Subtract, 8, 2, 0), add(1), add(2)],
    ]
}

/// Case M, and the largest value of the largest width.
fn values() -> Vec<Table> {
    vec![vec![constant(8, 255)], vec![constant(8, 256)], vec![constant(32, u32::MAX)]]
}

/// A record of each kind with one field changed, behind a sound record. What is changed in all of them:
/// the kind, the width, byte 3, bytes 10 and 11, each variable number and the value.
fn damaged_fields() -> Vec<Table> {
    // Each record with the least byte 2 that its kind does not have.
    let sound = [
        (fixed(1, 1), 3),
        (free(1), 3),
        (secret(1), 3),
        (constant(1, 1), 1),
        (operator(Operator::Add, 1, 0, 0), 9),
        (multiplexer(1, 0, 0, 0), 1),
        (register(1, 1, 0), 1),
        (enabled(1, 1, 0, 0), 1),
    ];
    // A variable number becomes 2 or 256, the value at least 2: neither used nor unused ones can be so.
    let changes = [
        [(0, 6), (0, 255), (1, 0), (1, 33), (1, 255), (2, 255), (3, 1), (10, 1), (11, 1)].as_slice(),
        &[(4, 2), (5, 1), (6, 2), (7, 1), (8, 2), (9, 1), (12, 2), (13, 1), (14, 1), (15, 128)],
    ]
    .concat();
    let damaged = |&(record, choices): &(RecordBytes, u8)| {
        let changes = [changes.as_slice(), &[(2, choices)]].concat();
        changes.into_iter().map(move |change| vec![constant(1, 1), changed(record, &[change])])
    };
    let tables: Vec<Table> = sound.iter().flat_map(damaged).collect();
    assert!(tables.iter().all(|table| read_records(table.as_flattened()).is_err()));
    tables
}

/// The record with some of its bytes changed.
pub fn changed(mut record: RecordBytes, changes: &[(usize, u8)]) -> RecordBytes {
    for &(place, byte) in changes {
        record[place] = byte;
    }
    record
}

/// Tables that meet several grounds, of which the first is the answer.
fn first_grounds() -> Vec<Table> {
    // Grounds 5 to 10, each by one byte of a register in a table of one record.
    let of_register = [(0, 6), (1, 33), (2, 1), (3, 1), (4, 1), (15, 128)];
    // Of one with an enable 8 by C, which is past the table too, and 9 by B.
    let of_enabled = [(0, 6), (1, 33), (2, 1), (8, 1), (6, 1), (15, 128)];
    let repaired = |record: RecordBytes, changes: [(usize, u8); 6]| {
        (0..changes.len()).map(move |from| vec![changed(record, &changes[from..])])
    };
    let plain = repaired(register(31, 0, 0), of_register);
    let grounds: Vec<Table> = plain.chain(repaired(enabled(31, 0, 0, 0), of_enabled)).collect();
    for (table, ground) in grounds.iter().zip((5..=10).cycle()) {
        assert_eq!(read_records(table.as_flattened()).unwrap_err().ground, ground);
    }
    let sound = constant(8, 1);
    let records = vec![
        // Two grounds on each of two records: the first record's come first, and of these the lower.
        vec![changed(add(0), &[(1, 0), (5, 1)]), changed(sound, &[(0, 6), (13, 1)])],
        vec![changed(sound, &[(3, 1), (13, 1)]), changed(add(0), &[(1, 0), (2, 9)])],
        // A refusal on a later record, behind a loop.
        vec![add(0), sound, sound, changed(sound, &[(2, 1)]), sound],
        // A refusal on a last record, whose place takes two bytes.
        [vec![sound; 299], vec![add(300)]].concat(),
    ];
    [grounds, records].concat()
}

/// A table that is too long by one record.
fn lengths() -> Vec<Table> {
    vec![vec![constant(1, 1); usize::from(MOST_RECORDS) + 1]]
}
