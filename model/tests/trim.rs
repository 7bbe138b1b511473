//! The trimming call: tables trimmed by hand, and the clauses of request S-5 on random tables. What remains and
//! how it is written, by another way; the claim about values; trimmed tables as accepted ones, with their own
//! certificates; the bytes that are not read. What the call leaves in its buffers is checked at every call by
//! the shared helper.

mod common;

use common::samples::add;
use common::shapes::{layers, register_ring, table_or_shape, turned};
use common::tables::{random_stimuli, random_table};
use common::trim_cases::trim_cases;
use common::trimmed_runs::{Calls, TrimmedRun};
use common::trims::{
    certificate_of, certificate_with, foreign_certificate, random_given, random_kept, try_unread_bytes,
    Given,
};
use common::{bench_longer, cases, certify_longer, constant, free, Random, Table, MOST_RECORDS};
use model::{read_records, Fact, Record};

const MODEL: Calls = Calls {
    certify: certificate_of,
    trim: |given| given.trim_longer(1).unwrap(),
    bench: |table, stimuli| bench_longer(table, stimuli, 1).unwrap(),
};

#[test]
fn tables_trimmed_by_hand() {
    for case in trim_cases() {
        if case.is_own {
            assert_eq!(case.given.certificate, certificate_of(&case.given.table), "{}", case.name);
        }
        let expected = Ok((case.trimmed, case.numbers));
        for longer in [0, 1, 5] {
            assert_eq!(case.given.trim_longer(longer), expected, "{}", case.name);
        }
    }
}

/// What each variable reaches, in any number of steps: a step, or two that meet in a variable, one after
/// another.
fn reach(records: &[Record]) -> Vec<Vec<bool>> {
    let n = records.len();
    let uses = |record: &Record| {
        let used: Vec<usize> = record.uses().collect();
        (0..n).map(|i| used.contains(&i)).collect()
    };
    let mut reach: Vec<Vec<bool>> = records.iter().map(uses).collect();
    for between in 0..n {
        for from in (0..n).filter(|&from| from != between) {
            if reach[from][between] {
                let further = reach[between].clone();
                reach[from].iter_mut().zip(further).for_each(|(to, further)| *to |= further);
            }
        }
    }
    reach
}

/// The trimmed table and the old numbers by another way: which variables remain is read off the relation of
/// what reaches what, and the records' own bytes are changed.
fn trimmed_by_relation(table: &Table, certificate: &[u8], kept: &[u16]) -> (Vec<u8>, Vec<u16>) {
    let mut table = table.clone();
    for (record, fact) in table.iter_mut().zip(certificate.chunks(8)) {
        if record[0] != 0 && fact[0] == 1 {
            *record = constant(record[1], u32::from_le_bytes(fact[4..].try_into().unwrap()));
        }
    }
    let reach = reach(&read_records(table.as_flattened()).unwrap());
    let reached = |i: usize| kept.iter().any(|&k| usize::from(k) == i || reach[usize::from(k)][i]);
    let remains: Vec<bool> = (0..table.len()).map(|i| table[i][0] == 0 || reached(i)).collect();
    let number = |i: usize| remains[..i].iter().filter(|&&remains| remains).count() as u16;
    let numbers: Vec<u16> = (0..table.len() as u16).filter(|&i| remains[usize::from(i)]).collect();
    let uses = |kind: u8| [0, 0, 2, 3, 1, 2][usize::from(kind)];
    let written = |&i: &u16| {
        let mut record = table[usize::from(i)];
        for at in [4, 6, 8].into_iter().take(uses(record[0])) {
            let used = u16::from_le_bytes([record[at], record[at + 1]]);
            record[at..at + 2].copy_from_slice(&number(usize::from(used)).to_le_bytes());
        }
        record
    };
    (numbers.iter().flat_map(written).collect(), numbers)
}

#[test]
fn what_remains_by_what_reaches_what() {
    let mut random = Random::of_test("what remains", 82);
    for _ in 0..cases(10_000) {
        let n = 1 + random.below(40);
        let table = table_or_shape(&mut random, n);
        let records = read_records(table.as_flattened()).unwrap();
        let kept = random_kept(&mut random, table.len());
        let own = certificate_of(table.as_flattened());
        for certificate in [own, foreign_certificate(&mut random, &records)] {
            let expected = trimmed_by_relation(&table, &certificate, &kept);
            let given = Given { table: table.as_flattened().to_vec(), certificate, kept: kept.clone() };
            assert_eq!(given.trim_longer(random.below(3)), Ok(expected));
        }
    }
}

#[test]
fn every_variable_that_remains_has_the_same_value() {
    let mut random = Random::of_test("trimmed runs", 83);
    MODEL.try_trimmed_runs(&mut random, cases(15_000));
}

#[test]
fn trimmed_runs_of_the_largest_tables() {
    let mut random = Random::of_test("trimmed runs, largest", 84);
    for kept in [&[][..], &[4095], &[17, 2000, 17]] {
        let table = random_table(&mut random, usize::from(MOST_RECORDS), false);
        TrimmedRun::random(&mut random, &MODEL, &table, kept, 20);
    }
}

#[test]
fn a_trimmed_table_is_accepted_whatever_the_certificate() {
    let mut random = Random::of_test("trimmed tables", 85);
    for _ in 0..cases(15_000) {
        let n = 1 + random.below(40);
        let table = table_or_shape(&mut random, n).as_flattened().to_vec();
        let certificate = foreign_certificate(&mut random, &read_records(&table).unwrap());
        let kept = random_kept(&mut random, table.len() / 16);
        let (trimmed, _) = Given { table, certificate, kept }.trim_longer(0).unwrap();
        let list = random_stimuli(&mut random, &read_records(&trimmed).unwrap(), 3);
        assert!(certify_longer(&trimmed, 0).is_ok());
        assert!(bench_longer(&trimmed, list.as_flattened(), 0).is_ok());
    }
}

#[test]
fn a_trimmed_table_has_the_facts_of_what_remains() {
    let mut random = Random::of_test("facts of trimmed tables", 86);
    for _ in 0..cases(15_000) {
        let n = 1 + random.below(40);
        let table = table_or_shape(&mut random, n);
        let kept = random_kept(&mut random, table.len());
        let (trimmed, numbers) = Given::own(table.as_flattened(), &kept).trim_longer(0).unwrap();
        let (count, facts) = certify_longer(table.as_flattened(), 0).unwrap();
        let (trimmed_count, trimmed_facts) = certify_longer(&trimmed, 0).unwrap();
        let of_survivors: Vec<Fact> = numbers.iter().map(|&number| facts[usize::from(number)]).collect();
        assert_eq!(trimmed_facts, of_survivors);
        assert!(trimmed_count <= count);
    }
}

#[test]
fn trimming_again_changes_nothing() {
    let mut random = Random::of_test("trimmed again", 87);
    for _ in 0..cases(10_000) {
        let n = 1 + random.below(40);
        let table = table_or_shape(&mut random, n);
        let kept = random_kept(&mut random, table.len());
        let (trimmed, numbers) = Given::own(table.as_flattened(), &kept).trim_longer(0).unwrap();
        let number = |variable: &u16| numbers.iter().position(|number| number == variable).unwrap() as u16;
        let kept: Vec<u16> = kept.iter().map(number).collect();
        let again = Given::own(&trimmed, &kept).trim_longer(0);
        assert_eq!(again, Ok((trimmed, (0..numbers.len() as u16).collect())));
    }
}

#[test]
fn bytes_that_are_not_read() {
    let mut random = Random::of_test("unread bytes", 88);
    try_unread_bytes(&mut random, cases(15_000), |given| given.trim_longer(2));
}

#[test]
fn kept_variables_by_any_list() {
    let mut random = Random::of_test("kept lists", 89);
    for _ in 0..cases(5000) {
        let n = 1 + random.below(30);
        let given = Given { kept: random_kept(&mut random, n), ..random_given(&mut random, n) };
        let mut kept = given.kept.clone();
        kept.sort_unstable();
        kept.dedup();
        let twice = [given.kept.clone(), given.kept.iter().rev().copied().collect()].concat();
        for kept in [kept, twice] {
            assert_eq!(Given { kept, ..given.clone() }.trim_longer(0), given.trim_longer(0));
        }
    }
}

#[test]
fn the_longest_chain() {
    let last = MOST_RECORDS - 1;
    let chain: Table = (0..=last).map(|i| if i == 0 { free(8) } else { add(i - 1) }).collect();
    for (table, end) in [(turned(&chain), 0), (chain, last)] {
        let all: Vec<u16> = (0..=last).collect();
        let whole = Given::own(table.as_flattened(), &[end]).trim_longer(0);
        assert_eq!(whole, Ok((table.as_flattened().to_vec(), all)));
        let input = last - end;
        let none = Given::own(table.as_flattened(), &[]).trim_longer(0);
        assert_eq!(none, Ok((free(8).to_vec(), vec![input])));
    }
}

#[test]
fn the_largest_tables_in_which_all_remain() {
    let mut random = Random::of_test("largest tables kept", 90);
    for shape in [layers, register_ring] {
        let table = shape(&mut random, usize::from(MOST_RECORDS));
        let kept: Vec<u16> = (0..MOST_RECORDS).collect();
        let certificate = certificate_with(&vec![Fact::Marked; table.len()]);
        let given = Given { table: table.as_flattened().to_vec(), certificate, kept };
        assert_eq!(given.trim_longer(3), Ok((given.table.clone(), given.kept.clone())));
    }
}
