//! Fixed inputs in random tables and lists: how often each kind of record uses them, how often they are poked
//! early, late, twice and not at all, and what follows. No input is always a number other than 0, so also how
//! often random tables meet each case of the rules on what is known. Other tests on random tables rest on
//! that.

mod common;

use common::fixed_pokes::FixedPokes;
use common::shapes::{random_pair, random_records, table_or_shape};
use common::tables::random_stimuli;
use common::times::{beside, Times, ALL, OTHER, THIS};
use common::{bench_longer, cases, Random, StimulusBytes};
use model::{find_loop, read_records, rounds, run, Fact, InputKind, Record, Stimulus};

/// The n of a fixed input.
fn fixed_to(record: &Record) -> Option<u32> {
    match *record {
        Record::Input { kind: InputKind::Fixed(n), .. } => Some(n),
        _ => None,
    }
}

const USES: [&str; 5] = ["operand", "control", "arm", "data", "enable"];

/// What a record uses A, B and C for.
fn uses(record: &Record) -> &'static [&'static str] {
    match record {
        Record::Input { .. } | Record::Constant { .. } => &[],
        Record::Operator { .. } => &["operand", "operand"],
        Record::Multiplexer { .. } => &["control", "arm", "arm"],
        Record::Register { .. } => &["data"],
        Record::Enabled { .. } => &["data", "enable"],
    }
}

#[test]
fn random_tables_use_fixed_inputs_for_everything() {
    let mut random = Random::of_test("uses of fixed inputs", 26);
    let all: Vec<_> = [THIS, OTHER].into_iter().flat_map(|n| USES.map(|used_as| [n, used_as])).collect();
    let (mut seen, tables) = (Times::none(&all), cases(20_000));
    for _ in 0..tables {
        let records = random_records(&mut random);
        for record in &records {
            for (variable, used_as) in record.uses().zip(uses(record)) {
                if let Some(n) = fixed_to(&records[variable]) {
                    seen.count([beside(0, Fact::Always(n)), used_as]);
                }
            }
        }
    }
    if tables >= 1000 {
        seen.assert_each(seen.sum(), 10);
    }
}

#[test]
fn random_tables_meet_every_case_of_the_rules() {
    let mut random = Random::of_test("known numbers", 27);
    let pairs: Vec<_> = ALL.into_iter().flat_map(|a| ALL.map(|b| [a, b])).collect();
    let triples: Vec<_> = pairs.iter().flat_map(|&[a, b]| ALL.map(|c| [a, b, c])).collect();
    let (mut operators, mut multiplexers) = (Times::none(&pairs), Times::none(&triples));
    let (mut registers, tables) = (Times::none(&ALL), cases(20_000));
    for _ in 0..tables {
        let records = random_records(&mut random);
        let (_, facts) = rounds(&records);
        let narrowed = |width: u32, variable: usize| facts[variable].narrow(width);
        for record in &records {
            match *record {
                Record::Operator { a, b, .. } => operators.count([a, b].map(|used| beside(0, facts[used]))),
                Record::Multiplexer { width, a, b, c } => {
                    let [b, c] = [b, c].map(|arm| beside(0, narrowed(width, arm)));
                    multiplexers.count([beside(0, facts[a]), b, c]);
                }
                Record::Register { width, a, power_on } => {
                    registers.count(beside(power_on, narrowed(width, a)));
                }
                _ => {}
            }
        }
    }
    if tables >= 5000 {
        operators.assert_each(operators.sum(), 10);
        multiplexers.assert_each(multiplexers.sum(), 1);
        registers.assert_each(registers.sum(), 50);
    }
}

#[test]
fn random_lists_poke_fixed_inputs_early_late_twice_and_not_at_all() {
    let mut random = Random::of_test("pokes of fixed inputs", 28);
    let (mut seen, tables) = (FixedPokes::default(), cases(20_000));
    for _ in 0..tables {
        let (n, length) = (1 + random.below(30), random.below(20));
        let (table, list) = random_pair(&mut random, n, length);
        let records = read_records(&table).unwrap();
        if find_loop(&records).is_none() {
            seen.count(&records, &list);
        }
    }
    if tables >= 1000 {
        seen.assert_each(20);
    }
}

/// The input that a stimulus pokes.
fn poked(stimulus: &StimulusBytes) -> Option<usize> {
    (stimulus[0] == 0).then(|| usize::from(u16::from_le_bytes([stimulus[2], stimulus[3]])))
}

#[test]
fn a_fixed_input_holds_0_until_it_is_poked_and_then_n() {
    let mut random = Random::of_test("fixed inputs on the bench", 29);
    for _ in 0..cases(20_000) {
        let (n, length) = (1 + random.below(40), random.below(30));
        let table = table_or_shape(&mut random, n);
        let records = read_records(table.as_flattened()).unwrap();
        let list = random_stimuli(&mut random, &records, length);
        let values = bench_longer(table.as_flattened(), list.as_flattened(), 0).unwrap();
        for (i, n) in records.iter().enumerate().filter_map(|(i, record)| Some((i, fixed_to(record)?))) {
            let is_poked = list.iter().any(|stimulus| poked(stimulus) == Some(i));
            assert_eq!(values[i], if is_poked { n } else { 0 });
        }
    }
}

#[test]
fn pokes_of_fixed_inputs_reach_wires_and_registers() {
    let mut random = Random::of_test("reached by pokes", 30);
    let (mut reached, tables) = (Times::none(&["wire", "register"]), cases(20_000));
    for _ in 0..tables {
        let records = random_records(&mut random);
        let list = random_stimuli(&mut random, &records, 20);
        let is_kept = |stimulus: &&StimulusBytes| match poked(stimulus) {
            Some(input) => fixed_to(&records[input]).is_none(),
            None => true,
        };
        let other: Vec<StimulusBytes> = list.iter().filter(is_kept).copied().collect();
        let values = [&list, &other].map(|list| {
            let read = |bytes| Stimulus::read(bytes, &records).unwrap();
            run(&records, &list.iter().map(read).collect::<Vec<_>>())
        });
        let differ = |i: &usize| values[0][*i] != values[1][*i];
        if (0..records.len()).filter(differ).any(|i| records[i].is_wire()) {
            reached.count("wire");
        }
        if (0..records.len()).filter(differ).any(|i| records[i].is_register()) {
            reached.count("register");
        }
    }
    if tables >= 1000 {
        reached.assert_each(tables, 50);
    }
}
