//! The calls made on equal buffers: every variant's answer and buffers are those of the archive's call.

use crate::common::noise;
use crate::common::paths::{random_traced, random_variable};
use crate::common::shapes::random_pair;
use crate::common::tables::damage;
use crate::common::trims::{damage_kept, random_given, Given};
use crate::common::Random;
use crate::{bench, certify, path, trim, Bench, Certify, Path, Trim, BENCH, CERTIFY, PATH, TRIM};
use model::{Refusal, CERTIFY_ASKS};
use std::fmt::Debug;

/// What a call answers, and what it leaves in its outputs and in its scratch.
pub type Made<A, O> = (Result<A, Refusal>, O, Vec<u16>);

/// What trimming writes: the trimmed table and the old numbers.
pub type Outputs = (Vec<u8>, Vec<u16>);

/// How many of the variants work without a heap, so that their scratch is compared as well.
const SAME_SCRATCH: usize = 2;

/// How many random calls of each sort, about half of them refused, the variants are compared on.
const RANDOM_CALLS: usize = 3000;

pub fn compare_variants(random: &mut Random) {
    for _ in 0..RANDOM_CALLS {
        compare_random(random);
    }
}

fn compare_random(random: &mut Random) {
    let (n, length) = (1 + random.below(40), random.below(20));
    let (mut table, mut stimuli) = random_pair(random, n, length);
    if random.percent(30) {
        damage(random, &mut table);
    }
    if random.percent(30) {
        damage(random, &mut stimuli);
    }
    let longer = random.below(3);
    let _ = certified(&table, longer);
    let _ = benched(&table, &stimuli, longer);
    let given = damaged_given(random, n);
    let _ = trimmed(&given, longer, usize::from(random.percent(10)));
    let mut table = random_traced(random, n, true).as_flattened().to_vec();
    let variable = random_variable(random, &table);
    if random.percent(20) {
        damage(random, &mut table);
    }
    let _ = traced(&table, variable, longer, usize::from(random.percent(10)));
}

/// What is given to a trimming call, in about half of the cases damaged.
fn damaged_given(random: &mut Random, n: usize) -> Given {
    let mut given = random_given(random, n);
    if random.percent(20) {
        damage(random, &mut given.table);
    }
    if random.percent(20) {
        damage(random, &mut given.certificate);
    }
    if random.percent(10) {
        damage_kept(random, &mut given);
    }
    given
}

/// The answer of all certifying calls, once they are found equal.
pub fn certified(table: &[u8], longer: usize) -> certify::Answer {
    let made = certify_each(CERTIFY, table, longer);
    assert_alike(&made);
    made[0].0
}

pub fn certify_each<const N: usize>(
    calls: [&Certify; N],
    table: &[u8],
    longer: usize,
) -> [Made<u32, Vec<u8>>; N] {
    let n = table.len() / 16;
    calls.map(|call| {
        let mut certificate: Vec<u8> = noise(n * 8 + longer).map(|x| x as u8).collect();
        let mut scratch: Vec<u16> = noise(n * CERTIFY_ASKS.scratch + longer).collect();
        let answer = call(table, &mut certificate, &mut scratch);
        (answer, certificate, scratch)
    })
}

/// The answer of all bench calls, once they are found equal.
pub fn benched(table: &[u8], stimuli: &[u8], longer: usize) -> bench::Answer {
    let made = bench_each(BENCH, table, stimuli, longer);
    assert_alike(&made);
    made[0].0
}

pub fn bench_each<const N: usize>(
    calls: [&Bench; N],
    table: &[u8],
    stimuli: &[u8],
    longer: usize,
) -> [Made<(), Vec<u32>>; N] {
    let n = table.len() / 16;
    calls.map(|call| {
        let mut values: Vec<u32> = noise(n + longer).map(u32::from).collect();
        let mut scratch: Vec<u16> = noise(n * 4 + longer).collect();
        let answer = call(table, stimuli, &mut values, &mut scratch);
        (answer, values, scratch)
    })
}

/// The answer of all trimming calls, once they are found equal. So much is missing of the trimmed table.
pub fn trimmed(given: &Given, longer: usize, missing: usize) -> trim::Answer {
    let made = trim_each(TRIM, given, longer, missing);
    assert_alike(&made);
    made[0].0
}

pub fn trim_each<const N: usize>(
    calls: [&Trim; N],
    given: &Given,
    longer: usize,
    missing: usize,
) -> [Made<u32, Outputs>; N] {
    let n = given.records();
    calls.map(|call| {
        let length = (n * 16 + longer).saturating_sub(missing);
        let mut trimmed: Vec<u8> = noise(length).map(|x| x as u8).collect();
        let mut numbers: Vec<u16> = noise(n + longer).collect();
        let mut scratch: Vec<u16> = noise(n * 4 + longer).collect();
        let Given { table, certificate, kept } = given;
        let answer = call(table, certificate, kept, &mut trimmed, &mut numbers, &mut scratch);
        (answer, (trimmed, numbers), scratch)
    })
}

/// The answer of all path calls, once they are found equal. So much is missing of the row.
pub fn traced(table: &[u8], variable: u32, longer: usize, missing: usize) -> path::Answer {
    let made = path_each(PATH, table, variable, longer, missing);
    assert_alike(&made);
    made[0].0
}

pub fn path_each<const N: usize>(
    calls: [&Path; N],
    table: &[u8],
    variable: u32,
    longer: usize,
    missing: usize,
) -> [Made<u32, Vec<u16>>; N] {
    let n = table.len() / 16;
    calls.map(|call| {
        let mut row: Vec<u16> = noise((n + longer).saturating_sub(missing)).collect();
        let mut scratch: Vec<u16> = noise(n * 8 + longer).collect();
        let answer = call(table, variable, &mut row, &mut scratch);
        (answer, row, scratch)
    })
}

/// Asserts that every call made the first one's answer and outputs, and the first ones its scratch.
fn assert_alike<A: PartialEq + Debug, O: PartialEq + Debug>(made: &[Made<A, O>]) {
    for (i, other) in made.iter().enumerate().skip(1) {
        assert_eq!(made[0].0, other.0, "the answer of call {i}");
        assert_eq!(made[0].1, other.1, "the output of call {i}");
        assert!(i > SAME_SCRATCH || made[0].2 == other.2, "the scratch of call {i}");
    }
}
