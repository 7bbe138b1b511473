//! The certifying call in Rust with a heap: records as structs, lists of each variable's users, and rounds that
//! evaluate only what uses a changed variable.

use crate::certify::Answer;
use crate::schedule::schedule;
use crate::table::{decoded, Decoded};
use model::{check_lengths, Fact, CERTIFY_ASKS};

pub fn certify(table: &[u8], certificate: &mut [u8], scratch: &mut [u16]) -> Answer {
    let records = decoded(check_lengths(table, CERTIFY_ASKS, certificate.len(), scratch.len())?)?;
    let n = records.len();
    let scratch = &mut scratch[..n * CERTIFY_ASKS.scratch];
    let (wires, registers) = schedule(&records, n, scratch)?;
    let mut facts: Vec<Fact> = records.iter().map(|r| r.record.first_fact()).collect();
    for &v in &scratch[..wires] {
        facts[usize::from(v)] = rule_fact(&records, &facts, v);
    }
    let rounds = run_rounds(&records, &scratch[..wires + registers], wires, &mut facts);
    for (bytes, f) in certificate.as_chunks_mut().0.iter_mut().zip(&facts) {
        *bytes = f.bytes();
    }
    scratch.fill(0);
    Ok(rounds)
}

#[inline(always)]
fn rule_fact(records: &[Decoded], facts: &[Fact], v: u16) -> Fact {
    records[usize::from(v)].record.fact(|u| facts[u])
}

/// The variables that a record uses.
fn uses(r: &Decoded) -> &[u16] {
    &r.uses[..r.record.kind().uses()]
}

/// For each variable the places in the order of those that use it: from `starts[v]` to `starts[v + 1]`.
struct Users {
    starts: Vec<u16>,
    places: Vec<u16>,
}

impl Users {
    fn of(records: &[Decoded], order: &[u16]) -> Users {
        let mut starts = vec![0u16; records.len() + 1];
        for r in records {
            for &u in uses(r) {
                starts[usize::from(u) + 1] += 1;
            }
        }
        for i in 1..starts.len() {
            starts[i] += starts[i - 1];
        }
        let mut next = starts.clone();
        let mut places = vec![0u16; usize::from(starts[records.len()])];
        for (place, &v) in order.iter().enumerate() {
            for &u in uses(&records[usize::from(v)]) {
                let at = &mut next[usize::from(u)];
                places[usize::from(*at)] = place as u16;
                *at += 1;
            }
        }
        Users { starts, places }
    }

    fn of_variable(&self, v: u16) -> &[u16] {
        let v = usize::from(v);
        &self.places[usize::from(self.starts[v])..usize::from(self.starts[v + 1])]
    }
}

/// Places in the order that have to be evaluated, one bit each; the least is found by its word's low bit.
struct Places(Vec<u64>);

impl Places {
    fn add_all(&mut self, places: &[u16]) {
        for &place in places {
            self.0[usize::from(place / 64)] |= 1 << (place % 64);
        }
    }

    /// Takes the lowest place of a word, below the limit.
    fn take(&mut self, word: usize, limit: usize) -> Option<usize> {
        let bits = self.0[word];
        let place = word * 64 + bits.trailing_zeros() as usize;
        if bits == 0 || place >= limit {
            return None;
        }
        self.0[word] = bits & (bits - 1);
        Some(place)
    }
}

/// The rounds, with the wires' places before the registers' in the order.
fn run_rounds(records: &[Decoded], order: &[u16], wires: usize, facts: &mut [Fact]) -> u32 {
    let mut staged = Vec::new();
    for &v in &order[wires..] {
        stage(records, facts, v, &mut staged);
    }
    if staged.is_empty() {
        return 0;
    }
    let users = Users::of(records, order);
    let mut places = Places(vec![0; order.len().div_ceil(64)]);
    let mut count = 0;
    while !staged.is_empty() {
        count += 1;
        for (v, f) in staged.drain(..) {
            facts[usize::from(v)] = f;
            places.add_all(users.of_variable(v));
        }
        for word in 0..wires.div_ceil(64) {
            while let Some(place) = places.take(word, wires) {
                let v = order[place];
                let f = rule_fact(records, facts, v);
                if f != facts[usize::from(v)] {
                    facts[usize::from(v)] = f;
                    places.add_all(users.of_variable(v));
                }
            }
        }
        for word in wires / 64..places.0.len() {
            while let Some(place) = places.take(word, order.len()) {
                stage(records, facts, order[place], &mut staged);
            }
        }
    }
    count
}

/// Notes a register's next fact where it changes.
fn stage(records: &[Decoded], facts: &[Fact], v: u16, staged: &mut Vec<(u16, Fact)>) {
    let f = rule_fact(records, facts, v);
    if f != facts[usize::from(v)] {
        staged.push((v, f));
    }
}
