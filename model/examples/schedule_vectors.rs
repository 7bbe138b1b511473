//! The sample tables of the crate `schedule_test` and the lines that it must print for them, as document 01
//! has them: `input` writes the one to standard output, `output` the other.
//!
//! A line holds a checksum over an order or over a loop. Both are free where there are several, so each
//! sample has one order of its wires or one loop, and that is checked here.

#[path = "../tests/common/mod.rs"]
mod common;

use common::samples::samples;
use common::Table;
use model::{find_loop, read_records, Record};
use std::io::Write;

/// The line for a table.
fn line(table: &Table) -> String {
    let records = match read_records(table.as_flattened()) {
        Err(refusal) => return format!("refused {} at {}", refusal.ground, refusal.place),
        Ok(records) => records,
    };
    if let Some(wires) = only_order(&records) {
        let registers: Vec<usize> = (0..records.len()).filter(|&i| records[i].is_register()).collect();
        let sum = checksum(wires.iter().chain(&registers));
        return format!("order {} {} {sum}", wires.len(), registers.len());
    }
    let row = only_loop(&records);
    format!("loop {} {}", row.len(), checksum(row.iter()))
}

/// The one order in which each wire stands after the wires that it uses; none where there is a loop.
fn only_order(records: &[Record]) -> Option<Vec<usize>> {
    let wires = records.iter().filter(|record| record.is_wire()).count();
    let mut taken: Vec<bool> = records.iter().map(|record| !record.is_wire()).collect();
    let mut order = Vec::new();
    while order.len() < wires {
        let ready = |&i: &usize| !taken[i] && records[i].uses().all(|used| taken[used]);
        let mut all_ready = (0..records.len()).filter(ready);
        let next = all_ready.next();
        assert_eq!(all_ready.next(), None, "there are several orders");
        let next = next?;
        taken[next] = true;
        order.push(next);
    }
    Some(order)
}

/// The one loop, from its lowest wire on.
fn only_loop(records: &[Record]) -> Vec<usize> {
    let row = find_loop(records).expect("without an order there is a loop");
    let left = on_or_between_loops(records);
    let on_row = |(i, &wire): (usize, &usize)| {
        let next = row[(i + 1) % row.len()];
        records[wire].uses().all(|used| used == next || !left[used])
    };
    assert_eq!(left.iter().filter(|&&is_left| is_left).count(), row.len(), "there are several loops");
    assert!(row.iter().enumerate().all(on_row), "there are several loops");
    row
}

/// The wires that are left when those are taken away that use none of the rest or that none of the rest
/// uses, again and again. Every loop is among them.
fn on_or_between_loops(records: &[Record]) -> Vec<bool> {
    let mut left: Vec<bool> = records.iter().map(Record::is_wire).collect();
    loop {
        let before = left.clone();
        let users = || (0..records.len()).filter(|&i| before[i]);
        let mut is_used = vec![false; records.len()];
        users().flat_map(|i| records[i].uses()).for_each(|used| is_used[used] = true);
        users().for_each(|i| left[i] = is_used[i] && records[i].uses().any(|used| before[used]));
        if left == before {
            return left;
        }
    }
}

/// A checksum over numbers, in which their order counts.
fn checksum<'a>(numbers: impl Iterator<Item = &'a usize>) -> usize {
    numbers.fold(0, |sum, number| (sum * 31 + number) % 65536)
}

/// What the program reads: each table behind the number of its records, in two bytes.
fn input() -> Vec<u8> {
    let bytes = |table: &Table| [&(table.len() as u16).to_le_bytes(), table.as_flattened()].concat();
    samples().iter().flat_map(bytes).collect()
}

/// What it must print: a line a table.
fn output() -> Vec<u8> {
    samples().iter().map(|table| line(table) + "\n").collect::<String>().into_bytes()
}

fn main() {
    let mode = std::env::args().nth(1);
    let bytes = match mode.as_deref() {
        Some("input") => input(),
        Some("output") => output(),
        _ => panic!("the argument is input or output"),
    };
    std::io::stdout().write_all(&bytes).expect("standard output takes the bytes");
}
