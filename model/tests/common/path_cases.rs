//! Rows from marked variables to secret inputs, found by hand.

use super::document_cases::case_a;
use super::samples::add;
use super::shapes::{ring, turned};
use super::{
    constant, enabled, fixed, free, multiplexer, operator, register, secret, RecordBytes, Table,
    MOST_RECORDS,
};
use model::Operator::{And, Equal, Xor};

/// A case: a table, a marked variable, and its row.
pub struct PathCase {
    pub name: &'static str,
    pub table: Vec<u8>,
    pub variable: u32,
    pub row: Vec<u16>,
}

/// Every case.
pub fn path_cases() -> Vec<PathCase> {
    let by_kind = [of_documents(), registers(), enables(), tied_controls(), other_controls(), not_marked()];
    let by_shape = [equally_short(), feedback(), long_rows()];
    by_kind.into_iter().chain(by_shape).flatten().flatten().collect()
}

/// The cases of a table, each with its row, which begins with the variable.
fn cases(name: &'static str, table: &[RecordBytes], rows: &[&[u16]]) -> Vec<PathCase> {
    let case = |row: &&[u16]| {
        let table = table.as_flattened().to_vec();
        PathCase { name, table, variable: row[0].into(), row: row.to_vec() }
    };
    rows.iter().map(case).collect()
}

/// An xor of width 8.
fn xor(a: u16, b: u16) -> RecordBytes {
    operator(Xor, 8, a, b)
}

/// Document 01's cases with a secret that is read.
fn of_documents() -> Vec<Vec<PathCase>> {
    let f = [register(8, 0, 1), multiplexer(8, 0, 2, 3), secret(8), constant(8, 1)];
    vec![
        cases("a secret input", &[secret(8)], &[&[0]]),
        cases("A", &case_a(free(1)), &[&[0], &[6, 0]]),
        cases("B", &case_a(fixed(1, 0)), &[&[0], &[6, 0]]),
        cases("D", &case_a(secret(1)), &[&[0], &[1], &[3, 4, 1], &[4, 1], &[5, 3, 4, 1], &[6, 0]]),
        cases("F", &f, &[&[0, 1, 2], &[1, 2], &[2]]),
        cases("J", &[secret(8), xor(0, 0)], &[&[1, 0]]),
    ]
}

/// A register is a step like any other, whatever it powers up with.
fn registers() -> Vec<Vec<PathCase>> {
    let two = [register(8, 0, 1), register(8, 7, 2), secret(8)];
    let beside_a_wire = [secret(8), register(8, 0, 0), add(0), xor(1, 1), xor(1, 2)];
    vec![
        cases("two registers", &two, &[&[0, 1, 2], &[1, 2]]),
        cases("a register and a wire", &beside_a_wire, &[&[3, 1, 0], &[4, 1, 0]]),
    ]
}

/// Both the data and the enable are uses.
fn enables() -> Vec<Vec<PathCase>> {
    let by = |a: u16, b: u16| [secret(8), free(8), secret(8), enabled(8, 0, a, b)];
    let enable_nearer = [secret(1), register(8, 0, 0), enabled(8, 0, 1, 0)];
    let data_nearer = [secret(1), register(8, 0, 0), enabled(8, 0, 0, 1)];
    let enable_alone = [enabled(8, 0, 1, 2), constant(8, 3), operator(Equal, 1, 3, 1), secret(8)];
    vec![
        cases("data", &by(2, 1), &[&[3, 2]]),
        cases("enable", &by(1, 2), &[&[3, 2]]),
        cases("data and enable, data lower", &by(0, 2), &[&[3, 0]]),
        cases("data and enable, enable lower", &by(2, 0), &[&[3, 0]]),
        cases("the enable is nearer", &enable_nearer, &[&[2, 0]]),
        cases("the data is nearer", &data_nearer, &[&[2, 0]]),
        cases("the enable alone is marked", &enable_alone, &[&[0, 2, 3]]),
    ]
}

/// The arm that an always control passes over is not a use, though it would make the row shorter.
fn tied_controls() -> Vec<Vec<PathCase>> {
    // The secret input in the arm passed over, a register behind it in the arm taken, and the control.
    let takes_c = |control: [RecordBytes; 2]| {
        [secret(8), register(8, 0, 0), control[0], control[1], multiplexer(8, 3, 0, 1)]
    };
    let takes_b = |control: [RecordBytes; 2]| {
        [secret(8), register(8, 0, 0), control[0], control[1], multiplexer(8, 3, 1, 0)]
    };
    let row: &[&[u16]] = &[&[4, 1, 0]];
    let [zero, one] = [constant(1, 0), constant(1, 1)];
    vec![
        cases("constant 0", &takes_c([zero, zero]), row),
        cases("constant 1", &takes_b([one, one]), row),
        cases("constant 4, not cut to the width", &takes_b([one, constant(4, 4)]), row),
        cases("an input fixed to 0", &takes_c([zero, fixed(1, 0)]), row),
        cases("a register always 0", &takes_c([zero, register(1, 0, 2)]), row),
        cases("a register always 0, fed by itself", &takes_c([zero, register(8, 0, 3)]), row),
        cases("a register always 1", &takes_b([one, register(1, 1, 2)]), row),
        cases("a register never enabled", &takes_b([zero, enabled(8, 9, 0, 2)]), row),
        cases("a zero that decides", &takes_c([zero, operator(And, 8, 0, 2)]), row),
        cases("the same arm twice", &[secret(8), zero, multiplexer(8, 1, 0, 0)], &[&[2, 0]]),
    ]
}

/// A control that is open or marked passes over no arm, and a marked one is a step itself.
fn other_controls() -> Vec<Vec<PathCase>> {
    let arms = |control: RecordBytes| [secret(8), register(8, 0, 0), control, multiplexer(8, 2, 0, 1)];
    let marked_control = [secret(1), constant(8, 1), constant(8, 2), multiplexer(8, 0, 1, 2)];
    let nearest = [secret(8), add(0), add(1), secret(1), multiplexer(8, 3, 2, 1)];
    let lowest = [secret(1), secret(8), secret(8), multiplexer(8, 2, 1, 0)];
    vec![
        cases("a free control", &arms(free(1)), &[&[3, 0]]),
        cases("an input fixed to 1, which is open", &arms(fixed(1, 1)), &[&[3, 0]]),
        cases("a marked register", &arms(register(1, 1, 1)), &[&[3, 0]]),
        cases("a marked control, constant arms", &marked_control, &[&[3, 0]]),
        cases("a marked control nearer than the arms", &nearest, &[&[4, 3]]),
        cases("control and arms equally near", &lowest, &[&[3, 0]]),
    ]
}

/// No row goes through a variable that is not marked, whatever that uses.
fn not_marked() -> Vec<Vec<PathCase>> {
    let decided = [secret(8), constant(8, 0), operator(And, 8, 0, 1), register(8, 0, 0), xor(2, 3)];
    let same_arms =
        [secret(1), constant(2, 1), constant(2, 3), multiplexer(1, 0, 1, 2), register(1, 0, 0), xor(3, 4)];
    let never_enabled = [secret(8), constant(1, 0), enabled(8, 0, 0, 1), add(0), xor(2, 3)];
    vec![
        cases("a zero decides", &decided, &[&[4, 3, 0]]),
        cases("G", &same_arms, &[&[5, 4, 0]]),
        cases("a register never enabled", &never_enabled, &[&[4, 3, 0]]),
    ]
}

/// Of equally short rows the lowest number at the first difference decides; a longer row never does.
fn equally_short() -> Vec<Vec<PathCase>> {
    let lowest_is_longer = [xor(1, 4), add(2), add(3), secret(8), add(5), secret(8)];
    let first_decides = [xor(2, 1), add(5), add(3), secret(8), free(8), secret(8)];
    let two_secrets = [secret(8), secret(8), xor(1, 0)];
    let then_longer = [xor(1, 2), xor(6, 3), add(4), add(5), secret(8), secret(8), add(7), add(5)];
    vec![
        cases("the lowest use is farther", &lowest_is_longer, &[&[0, 4, 5], &[1, 2, 3]]),
        cases("the first difference decides", &first_decides, &[&[0, 1, 5], &[2, 3]]),
        cases("the lower of two secret inputs", &two_secrets, &[&[2, 0]]),
        cases("a lower number on a longer row", &then_longer, &[&[0, 2, 4], &[1, 3, 5], &[6, 7, 5]]),
        cases("many", &ladder(20), &[&ladder_row(20)]),
        cases("many, in reverse", &turned(&ladder(20)), &[&turned_ladder_row(20)]),
    ]
}

/// Two secret inputs and so many steps of two variables, each of which uses both of the step below: the rows from
/// the last double with each step.
fn ladder(steps: u16) -> Table {
    let both = |step: u16| [xor(2 * step - 1, 2 * step - 2); 2];
    [[secret(8); 2]].into_iter().chain((1..=steps).map(both)).flatten().collect()
}

/// The row from the ladder's last variable: the lower variable of each step.
fn ladder_row(steps: u16) -> Vec<u16> {
    std::iter::once(2 * steps + 1).chain((0..steps).rev().map(|step| 2 * step)).collect()
}

/// The row from the first variable of the ladder in reverse, where the other variable of each step is the lower.
fn turned_ladder_row(steps: u16) -> Vec<u16> {
    (0..=steps).map(|step| 2 * step).collect()
}

/// Registers that feed each other: no row goes round.
fn feedback() -> Vec<Vec<PathCase>> {
    let rounds = [register(8, 0, 1), register(8, 0, 2), xor(0, 3), secret(8)];
    let fed_by_itself = [secret(8), free(1), multiplexer(8, 1, 3, 0), register(8, 0, 2)];
    let own_enable = [secret(8), enabled(8, 5, 0, 1)];
    let of_ring = ring(8, |data| register(8, 0, data));
    vec![
        cases("two registers in a ring", &rounds, &[&[0, 1, 2, 3], &[1, 2, 3], &[2, 3]]),
        cases("a register fed by itself", &fed_by_itself, &[&[2, 0], &[3, 2, 0]]),
        cases("its own enable", &own_enable, &[&[1, 0]]),
        cases("a ring", &of_ring, &[&[7, 6, 5, 4, 3, 2, 0], &[2, 0]]),
    ]
}

/// A secret input, and so many registers in a row behind it, every other one with an enable that is its data.
fn chain(registers: u16) -> Table {
    let of = |data: u16| match data % 2 {
        0 => register(8, 0, data),
        _ => enabled(8, 0, data, data),
    };
    std::iter::once(secret(8)).chain((0..registers).map(of)).collect()
}

/// Rows through many registers, and through every record of the largest table.
fn long_rows() -> Vec<Vec<PathCase>> {
    let down = |from: u16| -> Vec<u16> { (0..=from).rev().collect() };
    let last = MOST_RECORDS - 1;
    let wires: Table = (0..=last).map(|i| if i == 0 { secret(8) } else { add(i - 1) }).collect();
    let up: Vec<u16> = (0..=last).collect();
    vec![
        cases("50 registers", &chain(50), &[&down(50), &down(17)]),
        cases("50 registers in reverse", &turned(&chain(50)), &[&(0..=50).collect::<Vec<u16>>()]),
        cases("the longest row", &wires, &[&down(last)]),
        cases("the longest row, in reverse", &turned(&wires), &[&up]),
    ]
}
