//! Document 01, "The bench machine": the state is one value a variable; power-on, poke and tick each give
//! the state after them, on a copy. At power-on every input holds 0, fixed ones too (request S-3).

use crate::{remainder, settle, together, Record};

/// The value that the record of variable i gives from a state.
pub fn value(records: &[Record], state: &[u32], i: usize) -> u32 {
    records[i].value(i, |variable| state[variable])
}

impl Record {
    /// The value that the record, of variable i, gives from the state of which `state` gives each variable's
    /// value. An input gives what it holds, and so does a register whose enable is 0.
    #[inline(always)]
    pub fn value(self, i: usize, state: impl Fn(usize) -> u32) -> u32 {
        match self {
            Record::Input { .. } => state(i),
            Record::Constant { n, .. } => n,
            Record::Operator { width, operator, a, b } => operator.result(state(a), state(b), width),
            Record::Multiplexer { width, a, b, c } => {
                let taken = if state(a) != 0 { b } else { c };
                remainder(state(taken), width)
            }
            Record::Register { width, a, .. } => remainder(state(a), width),
            Record::Enabled { b, .. } if state(b) == 0 => state(i),
            Record::Enabled { width, a, .. } => remainder(state(a), width),
        }
    }

    /// The value at power-on: an input holds 0, a fixed one too, a register its power-on value. A wire's
    /// follows from them, whatever it is here.
    #[inline(always)]
    pub fn first_value(self) -> u32 {
        match self {
            Record::Register { power_on, .. } | Record::Enabled { power_on, .. } => power_on,
            _ => 0,
        }
    }
}

/// The state at power-on: inputs and registers hold their first values, and the wires follow.
pub fn power_on(records: &[Record]) -> Vec<u32> {
    let start: Vec<u32> = records.iter().map(|record| record.first_value()).collect();
    settle(records, &start, value)
}

/// The state after a poke: the input holds n, and the wires follow.
pub fn poke(records: &[Record], state: &[u32], variable: usize, n: u32) -> Vec<u32> {
    let mut poked = state.to_vec();
    poked[variable] = n;
    settle(records, &poked, value)
}

/// The state after a tick: each register holds A's value from before the tick, narrowed, all together, and
/// the wires follow. One with an enable that was 0 before the tick holds what it held.
pub fn tick(records: &[Record], state: &[u32]) -> Vec<u32> {
    let stepped = together(records, state, Record::is_register, value);
    settle(records, &stepped, value)
}
