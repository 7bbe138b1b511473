//! The reference model of document 01 and of seven requests, S-1, the price list, S-2, the register with an
//! enable, S-3, fixed inputs that power up at 0, S-5, the trimmed table, S-6, ground 17 before 16, S-7, known
//! zeros that decide an operator, and S-8, the path that a secret takes, written from their definitions and not
//! for speed.
//!
//! In the document's order: `record` (kinds, operators, records), `fields` (the bytes of a record, their
//! reading and writing), `wires` (uses, loops, settling), `fact` (facts, rules, closed stores), `certify`
//! (rounds, the certificate and its call), `machine` (power-on, poke, tick), `bench` (stimuli and the bench
//! call) and `table` (the grounds that the calls on tables share). Request S-2's kind of record stands among
//! the five of the document in `record`, `fields`, `fact`, `machine` and `certify`; `machine` has an input's
//! first value and `fact` its fact as S-3 has them; `bench` has the grounds of a poke in S-6's order; `fact` has
//! S-7's zeros before the document's rule of an operator. From S-1: `bill` (the bill of an order). From S-5:
//! `trim` (the trimmed table and its call). From S-8: `path` (the row from a marked variable to a secret input,
//! and its call).
//!
//! The benchmark's variants read and evaluate records by what is here too. What they call again and again is
//! always inlined, so that no call between the crates is timed.

mod bench;
mod bill;
mod certify;
mod fact;
mod fields;
mod machine;
mod path;
mod record;
mod table;
mod trim;
mod wires;

pub use bench::{bench, run, split_stimuli, Stimulus, BENCH_ASKS};
pub use bill::bill;
pub use certify::{before_any_round, certify, round, rounds, CERTIFY_ASKS};
pub use fact::{closed, rule, Fact};
pub use fields::Fields;
pub use machine::{poke, power_on, tick, value};
pub use path::{path, PATH_ASKS};
pub use record::{fits, remainder, InputKind, Kind, Operator, Record};
pub use table::{check_lengths, is_loop, read_records, Asked};
pub use trim::{check_kept, check_outputs, trim, TRIM_ASKS};
pub use wires::{find_loop, settle, together};

/// A refusal: the number of the ground on which work is turned down, and its place.
#[derive(Debug, Clone, Copy, PartialEq, Eq)]
pub struct Refusal {
    /// The ground, numbered as in document 01 and the requests.
    pub ground: u32,
    /// The record for 5 to 10, the loop's length for 11, the stimulus for 14 to 17, the size for 19, the kept
    /// number's index for 20, the variable for 22 but where the certificate's length is wrong, the number given
    /// for 23, else 0.
    pub place: usize,
}

impl Refusal {
    /// Ground 11: so many wires use each other in a loop.
    pub fn of_loop(length: usize) -> Refusal {
        Refusal { ground: 11, place: length }
    }
}
