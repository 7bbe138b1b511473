//! Demand 3 on the archive's calls, over what three of them write. `common::two_runs` says what it claims and
//! tries it.

mod accepted;
#[path = "../../tests/common/mod.rs"]
mod common;

use accepted::{bench, certify};
use common::shapes::{layers, register_ring};
use common::tables::random_table;
use common::two_runs::{Calls, TwoRuns};
use common::{cases, facts_of, Random, MOST_RECORDS, MOST_STIMULI};

const ARCHIVE: Calls = Calls { certify: |table| facts_of(&certify(table)), bench };

#[test]
fn two_runs_agree_where_the_certificate_says_so() {
    let mut random = Random::of_test("two runs", 51);
    ARCHIVE.try_two_runs(&mut random, cases(100_000));
}

#[test]
fn two_runs_on_the_largest_tables() {
    let mut random = Random::of_test("two runs, largest", 52);
    let n = usize::from(MOST_RECORDS);
    for length in [60, MOST_STIMULI] {
        for shape in [layers, register_ring, |random: &mut Random, n| random_table(random, n, false)] {
            let table = shape(&mut random, n);
            TwoRuns::random(&mut random, &ARCHIVE, &table, length);
        }
    }
}
