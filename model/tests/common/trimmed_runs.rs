//! The claim of request S-5 tried on any three calls: with the table's own certificate, every variable that
//! remains, so every kept one, has the same value in the table and in the trimmed one after a list of stimuli
//! that the bench accepts, pokes renumbered. What occurred is counted, so that a test can't pass where little
//! does.

use super::shapes::table_or_shape;
use super::tables::random_stimuli;
use super::times::Times;
use super::trims::{random_kept, Given};
use super::{poke_bytes, Random, RecordBytes, StimulusBytes};
use model::{power_on, read_records, Record};

/// The calls that the claim is about, each on what it accepts.
pub struct Calls {
    /// The certificate that the certifying call writes.
    pub certify: fn(&[u8]) -> Vec<u8>,
    /// The trimmed table and the old numbers that the trimming call writes.
    pub trim: fn(&Given) -> (Vec<u8>, Vec<u16>),
    /// The values that the bench call writes.
    pub bench: fn(&[u8], &[u8]) -> Vec<u32>,
}

impl Calls {
    /// Tries the claim on so many random tables of up to 50 records, half of them of one of the shapes, each
    /// with random kept variables and a list of up to 40 stimuli.
    pub fn try_trimmed_runs(&self, random: &mut Random, tables: usize) {
        let mut seen = Times::none(&SEEN);
        for _ in 0..tables {
            let (n, length) = (1 + random.below(50), random.below(41));
            let table = table_or_shape(random, n);
            let kept = random_kept(random, table.len());
            let run = TrimmedRun::random(random, self, &table, &kept, length);
            SEEN.into_iter().zip(run.has()).filter(|(_, has)| *has).for_each(|(case, _)| seen.count(case));
        }
        if tables >= 500 {
            seen.assert_each(tables, 50);
        }
    }
}

/// What is counted of the tables and their runs: that a variable is dropped; that one is which another uses that
/// remains, as a constant; that none is, or all but the inputs are; that a wire or a register becomes a constant;
/// that a register or a multiplexer remains one; that a poke is renumbered; that a variable that is no input, or
/// a kept one, remains by another number and has another value than at power-on.
const SEEN: [&str; 11] = [
    "dropped",
    "cut off",
    "none dropped",
    "inputs alone remain",
    "wire replaced",
    "register replaced",
    "register remains",
    "multiplexer remains",
    "poke renumbered",
    "moved",
    "kept and moved",
];

/// A table, trimmed by its own certificate, and the values of both after a list.
pub struct TrimmedRun {
    records: Vec<Record>,
    kept: Vec<u16>,
    /// The old number of each record of the trimmed table.
    numbers: Vec<u16>,
    trimmed: Vec<Record>,
    values: Vec<u32>,
    trimmed_values: Vec<u32>,
    pokes_move: bool,
}

impl TrimmedRun {
    /// The runs of these calls on a table and a random list of this length, held to the claim.
    pub fn random(
        random: &mut Random,
        calls: &Calls,
        table: &[RecordBytes],
        kept: &[u16],
        length: usize,
    ) -> TrimmedRun {
        let (table, kept) = (table.as_flattened().to_vec(), kept.to_vec());
        let records = read_records(&table).unwrap();
        let list = random_stimuli(random, &records, length);
        let given = Given { certificate: (calls.certify)(&table), table, kept };
        let (trimmed, numbers) = (calls.trim)(&given);
        let moved = pokes_renumbered(&list, &numbers);
        let run = TrimmedRun {
            trimmed: read_records(&trimmed).unwrap(),
            values: (calls.bench)(&given.table, list.as_flattened()),
            trimmed_values: (calls.bench)(&trimmed, moved.as_flattened()),
            pokes_move: moved != list,
            kept: given.kept,
            records,
            numbers,
        };
        run.assert_same();
        run
    }

    /// The claim, of every variable that remains. The kept ones are among these.
    fn assert_same(&self) {
        for (j, &number) in self.numbers.iter().enumerate() {
            assert_eq!(self.trimmed_values[j], self.values[usize::from(number)], "variable {number}");
        }
        assert!(self.kept.iter().all(|variable| self.numbers.contains(variable)), "{:?}", self.kept);
    }

    /// Whether one of the variables that remain, other than inputs, is so, by its old and its new number.
    fn any_survivor(&self, test: impl Fn(usize, usize) -> bool) -> bool {
        let survivors = self.numbers.iter().map(|&number| usize::from(number));
        survivors.enumerate().any(|(j, i)| !self.records[i].is_input() && test(i, j))
    }

    /// Whether one of the variables that are dropped is so.
    fn any_dropped(&self, test: impl Fn(usize) -> bool) -> bool {
        (0..self.records.len()).any(|i| !self.numbers.contains(&(i as u16)) && test(i))
    }

    /// Whether each of what is counted is so.
    fn has(&self) -> [bool; 11] {
        let (records, trimmed, first) = (&self.records, &self.trimmed, power_on(&self.records));
        let is_replaced = |i: usize, j: usize| trimmed[j].uses().count() < records[i].uses().count();
        let is_used = |used: usize| self.any_survivor(|i, _| records[i].uses().any(|other| other == used));
        let is_moved = |i: usize, j: usize| i != j && self.values[i] != first[i];
        let is_kept = |i: usize| self.kept.contains(&(i as u16));
        [
            self.any_dropped(|_| true),
            self.any_dropped(is_used),
            trimmed.len() == records.len(),
            trimmed.iter().all(Record::is_input),
            self.any_survivor(|i, j| records[i].is_wire() && is_replaced(i, j)),
            self.any_survivor(|i, j| records[i].is_register() && is_replaced(i, j)),
            trimmed.iter().any(Record::is_register),
            trimmed.iter().any(|record| matches!(record, Record::Multiplexer { .. })),
            self.pokes_move,
            self.any_survivor(is_moved),
            self.any_survivor(|i, j| is_kept(i) && is_moved(i, j)),
        ]
    }
}

/// The list with each poke of an input by the number that it has in the trimmed table.
pub fn pokes_renumbered(list: &[StimulusBytes], numbers: &[u16]) -> Vec<StimulusBytes> {
    let renumbered = |stimulus: &StimulusBytes| {
        let variable = u16::from_le_bytes([stimulus[2], stimulus[3]]);
        let number = numbers.iter().position(|&number| number == variable);
        let n = u32::from_le_bytes(stimulus[4..].try_into().unwrap());
        match stimulus[0] {
            0 => poke_bytes(number.expect("every input remains") as u16, n),
            _ => *stimulus,
        }
    };
    list.iter().map(renumbered).collect()
}
