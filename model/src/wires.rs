//! Document 01, "The table": uses among wires, loops, and the one set of values that satisfies the wires.
//! A loop exists where a wire reaches itself through uses of wires. Where there is none, taking every
//! wire's value from the same store, as often as there are records, gives values that satisfy all wires.

use crate::Record;
use std::collections::VecDeque;

/// A loop, if there is one: a shortest one through the lowest wire that reaches itself, from that wire.
///
/// Every wire of a loop reaches itself, so the lowest that does is the lowest of each loop it is in.
pub fn find_loop(records: &[Record]) -> Option<Vec<usize>> {
    (0..records.len())
        .filter(|&variable| records[variable].is_wire())
        .find_map(|wire| way_back(records, wire))
}

/// A shortest row of wires that begins at this wire, each using the next and the last using the first.
fn way_back(records: &[Record], start: usize) -> Option<Vec<usize>> {
    let mut user = vec![None; records.len()];
    let mut queue = VecDeque::from([start]);
    while let Some(wire) = queue.pop_front() {
        for used in records[wire].uses().filter(|&used| records[used].is_wire()) {
            if used == start {
                return Some(row_to(&user, wire));
            }
            if user[used].is_none() {
                user[used] = Some(wire);
                queue.push_back(used);
            }
        }
    }
    None
}

/// The row of wires that leads to this wire, where each wire but the first has its user noted.
fn row_to(user: &[Option<usize>], last: usize) -> Vec<usize> {
    let mut row: Vec<usize> = std::iter::successors(Some(last), |&wire| user[wire]).collect();
    row.reverse();
    row
}

/// Whether a row is a loop: not empty, of distinct wires, each using the next and the last using the first.
pub(crate) fn row_is_loop(records: &[Record], row: &[usize]) -> bool {
    let distinct = (0..row.len()).all(|i| !row[..i].contains(&row[i]));
    let wire = |variable: usize| records.get(variable).is_some_and(Record::is_wire);
    let next = |i: usize| row[(i + 1) % row.len()];
    !row.is_empty()
        && distinct
        && row.iter().all(|&variable| wire(variable))
        && (0..row.len()).all(|i| records[row[i]].uses().any(|used| used == next(i)))
}

/// The store in which the chosen variables have what `gives` gives them from the given store, all together,
/// and the rest stay as they are.
pub fn together<V: Copy>(
    records: &[Record],
    store: &[V],
    chosen: impl Fn(&Record) -> bool,
    gives: impl Fn(&[Record], &[V], usize) -> V,
) -> Vec<V> {
    let next = |i: usize| if chosen(&records[i]) { gives(records, store, i) } else { store[i] };
    (0..records.len()).map(next).collect()
}

/// The store with the same inputs and registers in which the wires follow from them: all wires take what
/// `gives` gives from the same store until nothing changes, which without a loop is after at most n times.
pub fn settle<V: Copy + PartialEq>(
    records: &[Record],
    store: &[V],
    gives: impl Fn(&[Record], &[V], usize) -> V,
) -> Vec<V> {
    let mut store = store.to_vec();
    for _ in 0..records.len() {
        let next = together(records, &store, Record::is_wire, &gives);
        if next == store {
            break;
        }
        store = next;
    }
    store
}
