//! Demand 3 on the model's calls. `common::two_runs` says what it claims and tries it.

mod common;

use common::shapes::table_or_shape;
use common::tables::{other_secrets, random_stimuli, random_table};
use common::two_runs::{Calls, TwoRuns};
use common::{bench_longer, cases, certify_longer, Random, MOST_RECORDS};
use model::{power_on, read_records, InputKind, Record, Stimulus};

const MODEL: Calls = Calls {
    certify: |table| certify_longer(table, 0).unwrap().1,
    bench: |table, stimuli| bench_longer(table, stimuli, 1).unwrap(),
};

#[test]
fn two_runs_agree_where_the_certificate_says_so() {
    let mut random = Random::of_test("two runs", 6);
    MODEL.try_two_runs(&mut random, cases(40_000));
}

#[test]
fn the_lists_differ_in_pokes_of_secret_inputs_alone() {
    let mut random = Random::of_test("the two lists", 25);
    for _ in 0..cases(5000) {
        let (n, length) = (1 + random.below(50), random.below(41));
        let records = read_records(table_or_shape(&mut random, n).as_flattened()).unwrap();
        let list = random_stimuli(&mut random, &records, length);
        let other = other_secrets(&mut random, &records, &list);
        assert_eq!(list.len(), other.len());
        for (one, other) in list.iter().zip(&other).filter(|(one, other)| one != other) {
            let secret = |bytes| match Stimulus::read(bytes, &records) {
                Ok(Stimulus::Poke { variable, .. }) => {
                    assert!(matches!(records[variable], Record::Input { kind: InputKind::Secret, .. }));
                    variable
                }
                stimulus => panic!("{stimulus:?} differs"),
            };
            assert_eq!(secret(one), secret(other));
        }
    }
}

#[test]
fn an_empty_list_leaves_the_machine_at_power_on() {
    let mut random = Random::of_test("empty list", 7);
    for _ in 0..cases(5000) {
        let n = 1 + random.below(50);
        let table = random_table(&mut random, n, false);
        let runs = TwoRuns::random(&mut random, &MODEL, &table, 0);
        let power_on = power_on(&runs.records);
        assert_eq!(runs.values, [power_on.clone(), power_on]);
    }
}

#[test]
fn two_runs_on_the_largest_tables() {
    let mut random = Random::of_test("two runs, largest", 8);
    for _ in 0..cases(4).min(4) {
        let table = random_table(&mut random, usize::from(MOST_RECORDS), false);
        TwoRuns::random(&mut random, &MODEL, &table, 60);
    }
}
