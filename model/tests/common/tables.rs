//! Random tables, random lists of stimuli, and damage to both.

use super::{
    constant, enabled, fixed, free, multiplexer, operator, poke_bytes, register, secret, Random,
    RecordBytes, StimulusBytes, Table, TICK,
};
use model::{remainder, InputKind, Kind, Operator, Record};

/// How often each kind occurs, at the place of its number: input, constant, operator, multiplexer, register,
/// register with an enable.
pub(super) type Mixture = [usize; 6];

/// The mixtures of a random table. Each has constants, as no input is always a number other than 0.
pub(super) const MIXTURES: [Mixture; 5] =
    [[3, 3, 4, 4, 2, 2], [2, 2, 6, 2, 1, 1], [1, 1, 1, 1, 3, 3], [2, 3, 2, 6, 1, 3], [4, 3, 3, 3, 0, 0]];

/// The widths of a random table.
pub(super) const WIDTHS: [&[u8]; 4] = [&[1], &[1, 2, 3], &[1, 8, 16], &[1, 2, 7, 8, 31, 32]];

/// A random table of n records that meets none of grounds 5 to 10. Without `loops` it has none; with it,
/// some wires use any variable.
pub fn random_table(random: &mut Random, n: usize, loops: bool) -> Table {
    let mixture = random.pick(&MIXTURES);
    let widths = random.pick(&WIDTHS);
    let kinds: Vec<Kind> = (0..n).map(|_| random_kind(random, &mixture)).collect();
    let is_wire = |i: &usize| kinds[*i].is_wire();
    // Wires take their places in a random order, and each uses wires from before it.
    let order = random.order(n);
    let mut before: Vec<usize> = order.iter().copied().filter(|i| !is_wire(i)).collect();
    let mut table = vec![[0; 16]; n];
    for i in order {
        let any = kinds[i].is_register() || (loops && random.percent(10));
        let uses = [0; 3].map(|_| random_use(random, i, &before, n, any));
        let w = random_width(random, widths);
        table[i] = random_record(random, kinds[i], w, uses);
        if is_wire(&i) {
            before.push(i);
        }
    }
    table
}

/// One of the six kinds, as often as the mixture says.
pub(super) fn random_kind(random: &mut Random, mixture: &Mixture) -> Kind {
    let mut left = random.below(mixture.iter().sum());
    let mut number = 0;
    while left >= mixture[number] {
        left -= mixture[number];
        number += 1;
    }
    Kind::with_number(number as u8)
}

/// A variable that variable i uses in a table of n: any at all and now and then itself, or one of those
/// before, rather a late one; none where there is none.
pub(super) fn random_use(
    random: &mut Random,
    i: usize,
    before: &[usize],
    n: usize,
    any: bool,
) -> Option<u16> {
    if any {
        let variable = if random.percent(5) { i } else { random.below(n) };
        return Some(variable as u16);
    }
    let late = before.len().saturating_sub(6);
    let from = if random.percent(40) { late } else { 0 };
    (!before.is_empty()).then(|| random.pick(&before[from..]) as u16)
}

pub(super) fn random_width(random: &mut Random, widths: &[u8]) -> u8 {
    if random.percent(5) {
        return 1 + random.below(32) as u8;
    }
    random.pick(widths)
}

/// A number that fits the width: often a small one or the largest.
pub fn random_number(random: &mut Random, w: u32) -> u32 {
    let n = match random.below(4) {
        0 => random.below(2) as u32,
        1 => random.below(35) as u32,
        2 => u32::MAX,
        _ => random.next() as u32,
    };
    remainder(n, w)
}

/// A record of the kind; a constant where a wire has nothing to use.
pub(super) fn random_record(random: &mut Random, kind: Kind, w: u8, uses: [Option<u16>; 3]) -> RecordBytes {
    let n = random_number(random, u32::from(w));
    match (kind, uses) {
        (Kind::Input, _) => random_input(random, w, n),
        (Kind::Operator, [Some(a), Some(b), _]) => operator(random.pick(&Operator::BY_CODE), w, a, b),
        (Kind::Multiplexer, [Some(a), Some(b), Some(c)]) => multiplexer(w, a, b, c),
        (Kind::Register, [Some(a), ..]) => register(w, n, a),
        (Kind::Enabled, [Some(a), Some(b), _]) => enabled(w, n, a, b),
        _ => constant(w, n),
    }
}

/// An input of width w. Fixed ones often have an n of 0, which alone makes their fact a number.
fn random_input(random: &mut Random, w: u8, n: u32) -> RecordBytes {
    match random.below(10) {
        0..3 => fixed(w, n),
        3 => fixed(w, 0),
        4..6 => free(w),
        _ => secret(w),
    }
}

/// The table with its records moved: record i goes to place `to[i]`, and variables are renumbered so.
pub fn renumbered(table: &[RecordBytes], to: &[usize]) -> Table {
    let mut moved = vec![[0; 16]; table.len()];
    for (i, bytes) in table.iter().enumerate() {
        let uses = Record::read(bytes, table.len()).unwrap().uses().count();
        moved[to[i]] = *bytes;
        for place in [4, 6, 8].into_iter().take(uses) {
            let variable = u16::from_le_bytes([bytes[place], bytes[place + 1]]);
            let number = (to[usize::from(variable)] as u16).to_le_bytes();
            moved[to[i]][place..place + 2].copy_from_slice(&number);
        }
    }
    moved
}

/// A list of stimuli that the bench accepts on these records: pokes of their inputs, and ticks.
pub fn random_stimuli(random: &mut Random, records: &[Record], length: usize) -> Vec<StimulusBytes> {
    let is_input = |i: &usize| matches!(records[*i], Record::Input { .. });
    let inputs: Vec<usize> = (0..records.len()).filter(is_input).collect();
    let one = |random: &mut Random| {
        if inputs.is_empty() || random.percent(40) {
            return TICK;
        }
        let variable = random.pick(&inputs);
        poke_bytes(variable as u16, random_poked(random, &records[variable]))
    };
    (0..length).map(|_| one(random)).collect()
}

/// A number that this input can be poked with.
fn random_poked(random: &mut Random, record: &Record) -> u32 {
    match *record {
        Record::Input { kind: InputKind::Fixed(n), .. } => n,
        _ => random_number(random, record.width()),
    }
}

/// A poke of each fixed input with its n.
pub fn pokes_of_fixed(records: &[Record]) -> Vec<StimulusBytes> {
    let poke = |(i, record): (usize, &Record)| match *record {
        Record::Input { kind: InputKind::Fixed(n), .. } => Some(poke_bytes(i as u16, n)),
        _ => None,
    };
    records.iter().enumerate().filter_map(poke).collect()
}

/// The list with other values poked into secret inputs, and otherwise the same.
pub fn other_secrets(
    random: &mut Random,
    records: &[Record],
    list: &[StimulusBytes],
) -> Vec<StimulusBytes> {
    let one = |stimulus: &StimulusBytes| {
        let variable = u16::from_le_bytes([stimulus[2], stimulus[3]]);
        match records.get(usize::from(variable)) {
            Some(record @ Record::Input { kind: InputKind::Secret, .. }) if stimulus[0] == 0 => {
                poke_bytes(variable, random_poked(random, record))
            }
            _ => *stimulus,
        }
    };
    list.iter().map(one).collect()
}

/// Damages some bytes of a row of bytes, and now and then its length.
pub fn damage(random: &mut Random, bytes: &mut Vec<u8>) {
    for _ in 0..1 + random.below(3) {
        if bytes.is_empty() || random.percent(5) {
            bytes.push(random.below(3) as u8);
        }
        let place = random.below(bytes.len());
        bytes[place] = match random.below(3) {
            0 => random.below(10) as u8,
            1 => 1 << random.below(8),
            _ => random.next() as u8,
        };
    }
}
