//! Random tables of given shapes, without a loop: layers, deep chains of wires, chains of registers, the ring
//! of registers that takes the most rounds, gates, which zeros shut, lattices, which have many equally short rows
//! of uses, and multiplexers with tied controls. Each is made with its uses pointing back, but for some of a
//! register's, and can then be put in another order. In all of them some registers have an enable.

use super::tables::{
    random_kind, random_record, random_stimuli, random_table, random_use, random_width, renumbered,
    Mixture, MIXTURES, WIDTHS,
};
use super::{constant, enabled, multiplexer, register, secret, Random, RecordBytes, Table};
use model::{read_records, Kind, Operator, Record};
use std::ops::Range;

/// The kinds of a chain of wires, of which few are inputs or constants, with a register here and there.
const WIRES: Mixture = [1, 1, 30, 30, 1, 1];

/// The kinds of a chain of registers, with a wire here and there.
const REGISTERS: Mixture = [0, 0, 1, 1, 6, 4];

/// The kinds of gates, which are operators, and of what they gate and are shut by.
const GATES: Mixture = [4, 2, 6, 0, 4, 1];

/// The kinds of a lattice behind its first layer, without inputs and constants.
const LATTICE: Mixture = [0, 0, 6, 3, 3, 3];

/// The kinds of multiplexers with tied controls, and of what they choose from.
const CHOICES: Mixture = [1, 0, 6, 16, 6, 3];

/// The operators that a known zero can decide.
const DECIDED: [Operator; 4] = [Operator::And, Operator::Less, Operator::ShiftLeft, Operator::ShiftRight];

/// The kinds of a record that has nothing to use: inputs, and constants.
const WITHOUT_USES: Mixture = [2, 1, 0, 0, 0, 0];

/// The fewest records of a ring: three, and one register.
const LEAST_RING: usize = 4;

/// A random table of n records, or a few more where they are too few, of a random shape and in one of three
/// orders. With `loops` some have one.
pub fn random_shape(random: &mut Random, n: usize, loops: bool) -> Table {
    let mut table = match random.below(6) {
        0 => random_table(random, n, loops),
        1 => layers(random, n),
        2 => chain(random, n),
        3 => register_chain(random, n),
        4 => register_ring(random, n),
        _ => gates(random, n),
    };
    if loops && random.percent(10) {
        rewire(random, &mut table);
    }
    in_some_order(random, &table)
}

/// A random table of n records without a loop, or one of a random shape, as often.
pub fn table_or_shape(random: &mut Random, n: usize) -> Table {
    let make = if random.percent(50) { random_table } else { random_shape };
    make(random, n, false)
}

/// The records of a random table of up to 40 of them, without a loop.
pub fn random_records(random: &mut Random) -> Vec<Record> {
    let n = 1 + random.below(40);
    read_records(table_or_shape(random, n).as_flattened()).unwrap()
}

/// A random table of n records of a random shape, some with a loop, and a list of so many stimuli for it.
pub fn random_pair(random: &mut Random, n: usize, length: usize) -> (Vec<u8>, Vec<u8>) {
    let table = random_shape(random, n, true).as_flattened().to_vec();
    let list = random_stimuli(random, &read_records(&table).unwrap(), length);
    (table, list.as_flattened().to_vec())
}

/// Layers of a random size: a record uses those of the layer before.
pub fn layers(random: &mut Random, n: usize) -> Table {
    let (mixture, size) = (random.pick(&MIXTURES), 1 + random.below(n));
    shaped(random, n, &mixture, |i| {
        let layer = i / size * size;
        layer.saturating_sub(size)..layer
    })
}

/// A deep chain of wires: each uses those shortly before it.
pub fn chain(random: &mut Random, n: usize) -> Table {
    let reach = 1 + random.below(4);
    shaped(random, n, &WIRES, |i| i.saturating_sub(reach)..i)
}

/// A chain of registers, most with power-on 0, so that a fact takes a round for each of them to pass.
pub fn register_chain(random: &mut Random, n: usize) -> Table {
    let reach = random.pick(&[1, 1, 2]);
    let mut table = shaped(random, n, &REGISTERS, |i| i.saturating_sub(reach)..i);
    for record in table.iter_mut().filter(|record| kind_of(record).is_register()) {
        if random.percent(97) {
            record[12..].fill(0);
        }
    }
    table
}

/// Gates: most operators are of those that a known zero decides, and most numbers are 0.
pub fn gates(random: &mut Random, n: usize) -> Table {
    let mut table = shaped(random, n, &GATES, |i| i.saturating_sub(12)..i);
    for record in &mut table {
        match kind_of(record) {
            Kind::Operator if random.percent(80) => record[2] = random.pick(&DECIDED).code(),
            Kind::Operator => {}
            _ if random.percent(80) => record[12..].fill(0),
            _ => {}
        }
    }
    table
}

/// A lattice: layers of a random size, the first of inputs that mostly are secret, and none further on, so that
/// rows of uses from a variable to a secret input are equally long. In half of the lattices a record may use one
/// of its own layer too, which makes some rows longer.
pub fn lattice(random: &mut Random, n: usize) -> Table {
    let (size, within) = (1 + random.below(n.min(8)), random.percent(50));
    let mut table = shaped(random, n, &LATTICE, |i| {
        let layer = i / size * size;
        layer.saturating_sub(size)..if within && layer > 0 { i } else { layer }
    });
    for record in &mut table[..size] {
        if random.percent(60) {
            *record = secret(record[1]);
        }
    }
    table
}

/// Multiplexers, most of them with a control that is always 0 or always another number: a constant or a register,
/// which stand in front with a secret input. Behind it they choose between what is nearer to it and farther.
pub fn tied(random: &mut Random, n: usize) -> Table {
    let controls = [constant(1, 0), constant(4, 4), register(1, 0, 0), register(4, 4, 1)];
    let front = [&controls[..], &[secret(8)]].concat();
    let mut table = shaped(random, n.max(2 * front.len()), &CHOICES, |i| i.saturating_sub(4)..i);
    table[..front.len()].copy_from_slice(&front);
    for record in table.iter_mut().filter(|record| kind_of(record) == Kind::Multiplexer) {
        if random.percent(70) {
            record[4..6].copy_from_slice(&(random.below(controls.len()) as u16).to_le_bytes());
        }
    }
    table
}

/// A ring of registers, some with an enable that keeps none of them back and marks none too early: constant
/// 1, or their data.
pub fn register_ring(random: &mut Random, n: usize) -> Table {
    ring(n.max(LEAST_RING), |data| {
        let w = 1 + random.below(32) as u8;
        random.pick(&[register(w, 0, data), enabled(w, 0, data, 1), enabled(w, 0, data, data)])
    })
}

/// Registers in a ring, which take two rounds each: constant 1 makes them open one after another, and the
/// last opens the multiplexer through which the secret input then marks them one after another. `of` gives
/// the register with this data.
pub fn ring(n: usize, of: impl FnMut(u16) -> RecordBytes) -> Table {
    let last = n as u16 - 1;
    let start = [secret(8), constant(1, 1), multiplexer(8, last, 0, 1)];
    start.into_iter().chain((2..last).map(of)).collect()
}

/// A table whose record i is of one of these kinds and uses those in the window of i, or is an input or a
/// constant where there are none. A register now and then uses any variable.
fn shaped(
    random: &mut Random,
    n: usize,
    mixture: &Mixture,
    window: impl Fn(usize) -> Range<usize>,
) -> Table {
    let widths = random.pick(&WIDTHS);
    let mut record = |i: usize| -> RecordBytes {
        let before: Vec<usize> = window(i).collect();
        let kind = random_kind(random, if before.is_empty() { &WITHOUT_USES } else { mixture });
        let uses = [0; 3].map(|_| {
            let any = kind.is_register() && random.percent(3);
            random_use(random, i, &before, n, any)
        });
        let w = random_width(random, widths);
        random_record(random, kind, w, uses)
    };
    (0..n).map(&mut record).collect()
}

/// The kind of a record that meets no ground.
fn kind_of(record: &RecordBytes) -> Kind {
    Kind::with_number(record[0])
}

/// Makes any variable the A of one wire, which often closes a loop.
fn rewire(random: &mut Random, table: &mut Table) {
    let n = table.len();
    let wire = random.below(n);
    let kind = kind_of(&table[wire]);
    if kind.is_wire() && kind.uses() > 0 {
        let variable = random.below(n) as u16;
        table[wire][4..6].copy_from_slice(&variable.to_le_bytes());
    }
}

/// The table as it is, with every use turned round, or in a random order.
pub(super) fn in_some_order(random: &mut Random, table: &[RecordBytes]) -> Table {
    let n = table.len();
    match random.below(3) {
        0 => table.to_vec(),
        1 => turned(table),
        _ => renumbered(table, &random.order(n)),
    }
}

/// The table from its last record to its first, so that uses that pointed back point upward.
pub fn turned(table: &[RecordBytes]) -> Table {
    let to: Vec<usize> = (0..table.len()).rev().collect();
    renumbered(table, &to)
}
