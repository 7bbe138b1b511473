//! The claim of request S-5 on the archive's calls, over what four of them write, and two trimming calls whose
//! certificates differ where they are not read. `common::trimmed_runs` says what is claimed and tries it.

mod accepted;
#[path = "../../tests/common/mod.rs"]
mod common;

use accepted::{bench, certify, scratch};
use common::shapes::{chain, layers, register_ring, table_or_shape};
use common::tables::{random_stimuli, random_table};
use common::trimmed_runs::{Calls, TrimmedRun};
use common::trims::{foreign_certificate, random_kept, try_unread_bytes, Given};
use common::{cases, noise, Random, MOST_RECORDS};
use model::{read_records, Refusal};

/// The trimmed table and the old numbers that the trimming call writes, or the refusal.
fn trim(given: &Given) -> Result<(Vec<u8>, Vec<u16>), Refusal> {
    let Given { table, certificate, kept } = given;
    let mut trimmed: Vec<u8> = noise(table.len()).map(|number| number as u8).collect();
    let mut numbers: Vec<u16> = noise(given.records()).collect();
    let written =
        compare::trim(table, certificate, kept, &mut trimmed, &mut numbers, &mut scratch(table, 4))?
            as usize;
    trimmed.truncate(written * 16);
    numbers.truncate(written);
    Ok((trimmed, numbers))
}

const ARCHIVE: Calls =
    Calls { certify, trim: |given| trim(given).expect("trim accepts what is given"), bench };

#[test]
fn every_variable_that_remains_has_the_same_value() {
    let mut random = Random::of_test("trimmed runs", 98);
    ARCHIVE.try_trimmed_runs(&mut random, cases(100_000));
}

#[test]
fn trimmed_runs_of_the_largest_tables() {
    let mut random = Random::of_test("trimmed runs, largest", 99);
    let n = usize::from(MOST_RECORDS);
    let loopless = |random: &mut Random, n| random_table(random, n, false);
    for shape in [layers, chain, register_ring, loopless] {
        for kept in [vec![], vec![MOST_RECORDS - 1], random_kept(&mut random, n)] {
            let table = shape(&mut random, n);
            TrimmedRun::random(&mut random, &ARCHIVE, &table, &kept, 60);
        }
    }
}

/// By its own certificate a trimmed table has the old one's 8 bytes for each variable that remains; by any that
/// ground 22 lets pass, certify and bench accept it.
#[test]
fn a_trimmed_table_is_accepted_and_has_the_facts_of_what_remains() {
    let mut random = Random::of_test("facts of trimmed tables", 97);
    for _ in 0..cases(20_000) {
        let n = 1 + random.below(40);
        let table = table_or_shape(&mut random, n).as_flattened().to_vec();
        let kept = random_kept(&mut random, table.len() / 16);
        let certificate = certify(&table);
        let own = Given { certificate: certificate.clone(), table, kept };
        let (trimmed, numbers) = trim(&own).expect("trim accepts the table's own certificate");
        let line = |&number: &u16| &certificate[usize::from(number) * 8..][..8];
        assert_eq!(certify(&trimmed), numbers.iter().flat_map(line).copied().collect::<Vec<u8>>());
        let certificate = foreign_certificate(&mut random, &read_records(&own.table).unwrap());
        let (trimmed, _) =
            trim(&Given { certificate, ..own }).expect("trim accepts what ground 22 lets pass");
        let list = random_stimuli(&mut random, &read_records(&trimmed).unwrap(), 3);
        certify(&trimmed);
        bench(&trimmed, list.as_flattened());
    }
}

/// Two certificates that differ only in bytes that are not read have the same answer and outputs.
#[test]
fn bytes_that_are_not_read() {
    let mut random = Random::of_test("unread bytes", 95);
    try_unread_bytes(&mut random, cases(30_000), trim);
}
