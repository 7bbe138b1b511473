//! The program certify, run on tables: all that it prints, byte for byte. The program is the one that the
//! environment's `CERTIFY` names, or else the one that `rt run` builds.

#[path = "../../tests/common/mod.rs"]
mod common;
mod programs;

use common::printed::printed_certificate;
use common::samples::samples;
use common::shapes::{chain, random_shape, register_ring};
use common::tables::damage;
use common::{cases, certify_longer, hand_cases, Random, MOST_RECORDS};
use model::certify;
use programs::{assert_complains, assert_prints, run, Printed, TABLES_AROUND_THE_LONGEST};

/// All that the program prints for a table that is written to it in pieces of this many bytes.
fn output_by_pieces(table: &[u8], piece: usize) -> String {
    run("certify", &[], table, piece).output_alone()
}

/// All that the program prints for a table.
fn output(table: &[u8]) -> String {
    output_by_pieces(table, table.len().max(1))
}

/// Asserts that the program prints the model's answer, with any loop of the table where there is one, and with
/// --bytes the model's certificate.
fn assert_prints_answer(table: &[u8]) {
    let printed = output(table);
    assert_prints(table, &printed, certify_longer(table, 0), printed_certificate);
    assert_writes_certificate(table, &printed);
}

/// Asserts that with --bytes the program writes the model's certificate and nothing else; for a refusal, nothing but
/// its line on standard error, which is the first of what is printed without --bytes.
fn assert_writes_certificate(table: &[u8], printed: &str) {
    let Printed { output, errors } = run("certify", &["--bytes".into()], table, table.len().max(1));
    let n = table.len() / 16;
    let mut certificate = vec![0; n * 8];
    match certify(table, &mut certificate, &mut vec![0; n * 2]) {
        Ok(_) => assert_eq!((output, errors.as_str()), (certificate, "")),
        Err(_) => {
            let line = printed.lines().next().expect("a refusal has a line");
            assert_eq!((output, errors), (vec![], format!("{line}\n")));
        }
    }
}

#[test]
fn cases_worked_by_hand() {
    for case in hand_cases() {
        assert_eq!(output(&case.table), case.printed, "case {}", case.name);
        assert_writes_certificate(&case.table, case.printed);
    }
}

#[test]
fn sample_tables() {
    for table in samples() {
        assert_prints_answer(table.as_flattened());
    }
}

#[test]
fn lengths_around_the_longest() {
    for (length, printed) in TABLES_AROUND_THE_LONGEST {
        assert_eq!(output(&vec![0; length]), printed, "{length} bytes");
        assert_writes_certificate(&vec![0; length], printed);
    }
}

#[test]
fn tables_written_in_pieces() {
    let mut random = Random::of_test("pieces", 31);
    for n in [1, 30, usize::from(MOST_RECORDS)] {
        let table = chain(&mut random, n);
        let printed = printed_certificate(&certify_longer(table.as_flattened(), 0));
        for piece in [1, 7, 16, 4096] {
            assert_eq!(output_by_pieces(table.as_flattened(), piece), printed, "pieces of {piece} bytes");
        }
    }
}

#[test]
fn random_tables() {
    let mut random = Random::of_test("printed tables", 32);
    for _ in 0..cases(100_000) / 250 {
        let n = 1 + random.below(100);
        let mut table = random_shape(&mut random, n, true).as_flattened().to_vec();
        assert_prints_answer(&table);
        damage(&mut random, &mut table);
        assert_prints_answer(&table);
    }
}

#[test]
fn largest_tables() {
    let mut random = Random::of_test("printed largest tables", 33);
    for shape in [chain, register_ring] {
        assert_prints_answer(shape(&mut random, usize::from(MOST_RECORDS)).as_flattened());
    }
}

#[test]
fn arguments_that_mean_nothing() {
    for words in ["--byte", "--bytes?", "table", "", "--bytes table", "--bytes --bytes", "table --bytes"] {
        let arguments: Vec<_> = words.split(' ').map(Into::into).collect();
        assert_complains("certify", &arguments);
    }
}
