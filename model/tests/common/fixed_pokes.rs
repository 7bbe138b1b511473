//! When lists of stimuli poke fixed inputs: never, early, late or twice, counted over many lists.

use super::times::Times;
use model::{InputKind, Record, Stimulus};

/// There is no poke of the input.
const NEVER: &str = "never";
/// The first poke stands before the first tick.
const EARLY: &str = "early";
/// The first poke stands behind a tick.
const LATE: &str = "late";
/// A tick stands between the first poke and the last.
const TWICE: &str = "twice";

/// How often lists that have a tick poke the fixed inputs of their tables in each of these ways, apart for an
/// n of 0 and for any other.
#[derive(Debug)]
pub struct FixedPokes {
    inputs: Times<&'static str>,
    pokes: Times<[&'static str; 2]>,
}

impl Default for FixedPokes {
    fn default() -> FixedPokes {
        let numbers = ["0", "n"];
        let pokes = numbers.into_iter().flat_map(|n| [NEVER, EARLY, LATE, TWICE].map(|when| [n, when]));
        FixedPokes { inputs: Times::none(&numbers), pokes: Times::none(&pokes.collect::<Vec<_>>()) }
    }
}

impl FixedPokes {
    /// Counts what a list that the bench accepts does to the fixed inputs of these records.
    pub fn count(&mut self, records: &[Record], list: &[u8]) {
        let stimuli = decoded(list);
        if !stimuli.contains(&Stimulus::Tick) {
            return;
        }
        for (i, record) in records.iter().enumerate() {
            let n = match *record {
                Record::Input { kind: InputKind::Fixed(0), .. } => "0",
                Record::Input { kind: InputKind::Fixed(_), .. } => "n",
                _ => continue,
            };
            self.inputs.count(n);
            when_poked(&stimuli, i).into_iter().for_each(|when| self.pokes.count([n, when]));
        }
    }

    /// Asserts that each way occurred, for an n of 0 and for any other, at so many of a thousand inputs.
    pub fn assert_each(&self, share: usize) {
        self.inputs.assert_each(self.inputs.sum(), 200);
        self.pokes.assert_each(self.inputs.sum(), share);
    }
}

/// Whether a list pokes an input, and for the first time behind a tick.
pub fn is_poked_late(list: &[u8], input: usize) -> bool {
    when_poked(&decoded(list), input).contains(&LATE)
}

fn decoded(list: &[u8]) -> Vec<Stimulus> {
    list.chunks(8).map(|bytes| Stimulus::decode(|i| bytes[i]).unwrap()).collect()
}

/// The ways in which a list pokes an input.
fn when_poked(list: &[Stimulus], input: usize) -> Vec<&'static str> {
    let is_poke = |stimulus: &Stimulus| match *stimulus {
        Stimulus::Poke { variable, .. } => variable == input,
        Stimulus::Tick => false,
    };
    let (Some(first), Some(last)) = (list.iter().position(is_poke), list.iter().rposition(is_poke)) else {
        return vec![NEVER];
    };
    let start = if list[..first].contains(&Stimulus::Tick) { LATE } else { EARLY };
    let twice = list[first..last].contains(&Stimulus::Tick).then_some(TWICE);
    [Some(start), twice].into_iter().flatten().collect()
}
