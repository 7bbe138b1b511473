//! What a module is tried on: a table in which some variables have names, and a list of stimuli for it, in
//! which fixed inputs are poked early, late, or at both times, and until then hold 0.

use crate::common::shapes::random_shape;
use crate::common::tables::{self, random_stimuli};
use crate::common::{Random, RecordBytes, StimulusBytes};
use model::{Record, Stimulus};
use table::{read_table, table_text, Table};

/// Names that Verilog, SystemVerilog or Icarus reserves, that are the module's own, and others.
const NAMES: [&str; 21] = [
    "always", "and", "begin", "bit", "bool", "final", "int", "logic", "module", "or", "reg", "signed",
    "task", "wire", "clock", "clock_", "v0", "v1", "v1_", "Wire", "_",
];

/// A table and a list of stimuli for it.
pub struct Run {
    pub table: Table,
    pub list: Vec<Stimulus>,
}

impl Run {
    /// A random table of up to 40 records, without a loop, and a list as `of` makes it.
    pub fn random(random: &mut Random) -> Run {
        let n = 1 + random.below(40);
        let records = random_shape(random, n, false);
        Run::of(random, &records)
    }

    /// These records, of which some of the first have names, and 20 random stimuli, amid which each fixed
    /// input is poked.
    pub fn of(random: &mut Random, records: &[RecordBytes]) -> Run {
        let mut table = read_table(&table_text(records.as_flattened()).unwrap()).unwrap();
        for (name, i) in table.names.iter_mut().zip(random.order(NAMES.len())) {
            *name = random.percent(50).then(|| NAMES[i].to_string());
        }
        let mut ten = || read(&random_stimuli(random, &table.records, 10), &table.records);
        let list = [ten(), pokes_of_fixed(&table.records), ten()].concat();
        Run { table, list }
    }
}

/// A poke of each fixed input with its number.
pub fn pokes_of_fixed(records: &[Record]) -> Vec<Stimulus> {
    read(&tables::pokes_of_fixed(records), records)
}

fn read(list: &[StimulusBytes], records: &[Record]) -> Vec<Stimulus> {
    list.iter().map(|bytes| Stimulus::read(bytes, records).unwrap()).collect()
}
