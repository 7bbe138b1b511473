//! The archive's calls held against Rust, as ratios of medians: by bytes (the same algorithm in plain safe
//! Rust on the same lent buffers), by chunks (the same, with one bounds check a record and a fact), by
//! structs (records decoded first), and for certify a worklist with a heap. Every variant's answer and
//! buffers are compared with the archive's before it is timed. Nothing asserts a time.
//!
//! Given the paths of two shared objects, made of this archive and of an earlier one, it also holds the one
//! against the other.

mod alike;
mod before;
mod bench;
mod certify;
mod measure;
mod path;
mod print;
mod schedule;
mod shapes;
mod table;
mod trim;
mod worklist;

#[path = "../../model/tests/common/mod.rs"]
mod common;

use alike::{
    bench_each, benched, certified, certify_each, compare_variants, path_each, traced, trim_each, trimmed,
    Made,
};
use before::Archive;
use common::trims::Given;
use common::Random;
use measure::{compared, medians, Call};
use model::{read_records, Record, CERTIFY_ASKS};
use print::{compared_row, empty_row, print_before, print_head, print_row, row_head};
use shapes::{Shape, Shapes};
use std::cell::RefCell;
use std::hint::black_box;

type Certify = dyn Fn(&[u8], &mut [u8], &mut [u16]) -> certify::Answer;
type Bench = dyn Fn(&[u8], &[u8], &mut [u32], &mut [u16]) -> bench::Answer;
type Trim = dyn Fn(&[u8], &[u8], &[u16], &mut [u8], &mut [u16], &mut [u16]) -> trim::Answer;
type Path = dyn Fn(&[u8], u32, &mut [u16], &mut [u16]) -> path::Answer;

/// The archive's call, and then the variants.
const CERTIFY: [&Certify; 5] =
    [&compare::certify, &certify::by_bytes, &certify::by_chunks, &certify::by_structs, &worklist::certify];
const BENCH: [&Bench; 4] = [&compare::bench, &bench::by_bytes, &bench::by_chunks, &bench::by_structs];
const TRIM: [&Trim; 4] = [&compare::trim, &trim::by_bytes, &trim::by_chunks, &trim::by_structs];
const PATH: [&Path; 4] = [&compare::path, &path::by_bytes, &path::by_chunks, &path::by_structs];

/// How many numbers of scratch a record certify is lent where it is timed: an earlier archive may ask so many.
const MOST_SCRATCH: usize = 4;

/// With this seed the shapes are those of docs/PERFORMANCE.md.
const SEED: u64 = 0x1833_2ffc_e272_4a06;

fn main() {
    let paths: Vec<String> = std::env::args().skip(1).collect();
    let archives = match &paths[..] {
        [] => None,
        [this, earlier] => Some([this, earlier].map(|path| Archive::load(path))),
        _ => panic!("usage: benchmarks [SHARED_OBJECT EARLIER_SHARED_OBJECT]"),
    };
    let mut random = Random::of_test("benchmarks", SEED);
    // The shapes come first, so that they do not depend on the random tables.
    let Shapes { for_certify, for_bench, for_trim, for_path } = shapes::shapes(&mut random);
    compare_variants(&mut random);
    print_head();
    let archives = archives.as_ref();
    let mut held: Vec<Option<String>> = Vec::new();
    held.extend(for_certify.iter().map(|shape| certify_row(shape, archives)));
    held.extend(for_bench.iter().map(|shape| bench_row(shape, archives)));
    held.extend(for_trim.iter().map(|shape| trim_row(shape, archives)));
    held.extend(for_path.iter().map(|shape| path_row(shape, archives)));
    if archives.is_some() {
        print_before(held.into_iter().flatten());
    }
}

#[test]
fn variants_answer_alike() {
    compare_variants(&mut Random::of_test("benchmarks", SEED));
}

/// How many records are wires and how many registers.
fn counted(table: &[u8]) -> (usize, usize) {
    let records = read_records(table).expect("the shapes are accepted");
    let count = |chosen: fn(&Record) -> bool| records.iter().filter(|record| chosen(record)).count();
    (count(Record::is_wire), count(Record::is_register))
}

/// Prints a shape's row, and gives the one that holds the two archives against each other. All calls of both
/// work on the same buffers: where a buffer lies is part of a call's time.
fn certify_row(shape: &Shape, archives: Option<&[Archive; 2]>) -> Option<String> {
    let rounds = certified(&shape.table, 0).expect("the shapes are accepted") as usize;
    let n = shape.table.len() / 16;
    let table = &shape.table;
    let lent = &RefCell::new((vec![0; n * 8], vec![0; n * MOST_SCRATCH]));
    let ready = |call: &'static Certify| -> Call {
        Box::new(move || {
            let (certificate, scratch) = &mut *lent.borrow_mut();
            let _ = black_box(call(black_box(table), certificate, scratch));
        })
    };
    let times = medians(&mut CERTIFY.map(ready));
    let (wires, registers) = counted(table);
    let head = row_head("certify", shape.name, n, rounds);
    print_row(&head, (wires + registers) * (rounds + 1), &times);
    archives.map(|archives| {
        let calls = archives.each_ref().map(|archive| archive.certify);
        let longer = n * (MOST_SCRATCH - CERTIFY_ASKS.scratch);
        before_row(&head, &certify_each(calls, table, longer), calls.map(ready), true)
    })
}

fn bench_row(shape: &Shape, archives: Option<&[Archive; 2]>) -> Option<String> {
    benched(&shape.table, &shape.stimuli, 0).expect("the shapes are accepted");
    let n = shape.table.len() / 16;
    let (table, stimuli) = (&shape.table, &shape.stimuli);
    let lent = &RefCell::new((vec![0; n], vec![0; n * 4]));
    let ready = |call: &'static Bench| -> Call {
        Box::new(move || {
            let (values, scratch) = &mut *lent.borrow_mut();
            let _ = black_box(call(black_box(table), black_box(stimuli), values, scratch));
        })
    };
    let times = medians(&mut BENCH.map(ready));
    let (wires, registers) = counted(table);
    let count = stimuli.len() / 8;
    let ticks = stimuli.as_chunks::<8>().0.iter().filter(|stimulus| stimulus[0] == 1).count();
    let head = row_head("bench", shape.name, n, count);
    print_row(&head, wires * (count + 1) + registers * ticks, &times);
    archives.map(|archives| {
        let calls = archives.each_ref().map(|archive| archive.bench);
        before_row(&head, &bench_each(calls, table, stimuli, 0), calls.map(ready), false)
    })
}

/// With the table's own certificate. An archive from before trimming has no time.
fn trim_row(shape: &Shape, archives: Option<&[Archive; 2]>) -> Option<String> {
    let [(_, certificate, _)] = certify_each([CERTIFY[0]], &shape.table, 0);
    let given = &Given { table: shape.table.clone(), certificate, kept: shape.kept.clone() };
    let written = trimmed(given, 0, 0).expect("the shapes are accepted");
    let n = given.records();
    let lent = &RefCell::new((vec![0; n * 16], vec![0; n], vec![0; n * 4]));
    let ready = |call: &'static Trim| -> Call {
        Box::new(move || {
            let (trimmed, numbers, scratch) = &mut *lent.borrow_mut();
            let Given { table, certificate, kept } = black_box(given);
            let _ = black_box(call(table, certificate, kept, trimmed, numbers, scratch));
        })
    };
    let times = medians(&mut TRIM.map(ready));
    let head = row_head("trim", shape.name, n, written);
    print_row(&head, n, &times);
    archives.map(|archives| match archives.each_ref().map(|archive| archive.trim) {
        [Some(this), Some(earlier)] => {
            let calls = [this, earlier];
            before_row(&head, &trim_each(calls, given, 0, 0), calls.map(ready), false)
        }
        _ => empty_row(&head),
    })
}

/// An archive from before tracing has no time. As a row goes by the facts, other rules may give another.
fn path_row(shape: &Shape, archives: Option<&[Archive; 2]>) -> Option<String> {
    let (table, variable) = (&shape.table, shape.variable);
    let rounds = certified(table, 0).expect("the shapes are accepted") as usize;
    let length = traced(table, variable, 0, 0).expect("the shapes are accepted");
    let n = table.len() / 16;
    let lent = &RefCell::new((vec![0; n], vec![0; n * 8]));
    let ready = |call: &'static Path| -> Call {
        Box::new(move || {
            let (row, scratch) = &mut *lent.borrow_mut();
            let _ = black_box(call(black_box(table), black_box(variable), row, scratch));
        })
    };
    let times = medians(&mut PATH.map(ready));
    let (wires, registers) = counted(table);
    let head = row_head("path", shape.name, n, length);
    print_row(&head, (wires + registers) * (rounds + 1), &times);
    archives.map(|archives| match archives.each_ref().map(|archive| archive.path) {
        [Some(this), Some(earlier)] => {
            let calls = [this, earlier];
            before_row(&head, &path_each(calls, table, variable, 0, 0), calls.map(ready), true)
        }
        _ => empty_row(&head),
    })
}

/// The two archives' times, with empty cells where the earlier one refuses what this one accepts. Facts go by
/// the rules: where `by_rules` and the earlier one has another answer or output, its rules are others, and the
/// row says so. What is left in the scratch goes by how much is asked of it, which may differ too.
fn before_row<A: PartialEq, O: PartialEq>(
    head: &str,
    made: &[Made<A, O>; 2],
    mut calls: [Call; 2],
    by_rules: bool,
) -> String {
    let [this, earlier] = made;
    if earlier.0.is_err() {
        return empty_row(head);
    }
    let other_rules = (&this.0, &this.1) != (&earlier.0, &earlier.1);
    assert!(by_rules || !other_rules, "the archives differ: {head}");
    compared_row(head, &compared(&mut calls), other_rules)
}
