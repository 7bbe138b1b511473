//! What the examples' files say that the programs print is what the model answers; what is trimmed of an example
//! is what the model trims, and runs as the whole does; the path that a secret takes in one is the model's; and the
//! accumulator's run is figure 1 of document 000, row by row.

#[path = "../../../model/tests/common/mod.rs"]
mod common;
mod examples;

use common::paths::path_longer;
use common::printed::{printed_certificate, printed_row, printed_values};
use common::trimmed_runs::pokes_renumbered;
use common::trims::{certificate_of, Given};
use common::{bench_longer, certify_longer};
use examples::{example, examples, Example, Trimmed};
use model::run;
use table::{read_stimuli, read_table, table_text};

#[test]
fn every_example() {
    for example in examples() {
        let certificate = printed_certificate(&certify_longer(&example.table, 0));
        assert_eq!(certificate, example.certificate, "{}", example.name);
        let values = printed_values(&bench_longer(&example.table, &example.stimuli, 0));
        assert_eq!(values, example.values, "{}", example.name);
    }
}

/// Asserts that an example's files have what the model trims of its table.
fn assert_trims(example: &Example, trimmed: &Trimmed) {
    assert_eq!(trimmed.certificate, certificate_of(&example.table));
    let given = Given::own(&example.table, &trimmed.kept);
    assert_eq!(given.trim_longer(0), Ok((trimmed.table.clone(), trimmed.numbers.clone())));
    assert_eq!(table_text(&trimmed.table).as_ref(), Ok(&trimmed.table_text));
}

/// Asserts that after each stimulus of the example every variable that remains holds what it does in the whole
/// table.
fn assert_runs_alike(example: &Example, trimmed: &Trimmed) {
    let (list, _) = example.stimuli.as_chunks();
    let moved = pokes_renumbered(list, &trimmed.numbers);
    for done in 0..=list.len() {
        let whole = bench_longer(&example.table, list[..done].as_flattened(), 0).unwrap();
        let held = trimmed.numbers.iter().map(|&number| whole[usize::from(number)]);
        let values = bench_longer(&trimmed.table, moved[..done].as_flattened(), 0);
        assert_eq!(values, Ok(held.collect()), "after {done} stimuli");
    }
}

#[test]
fn every_trimmed_example() {
    let mut seen = 0;
    for example in examples() {
        if let Some(trimmed) = &example.trimmed {
            assert_trims(&example, trimmed);
            assert_runs_alike(&example, trimmed);
            seen += 1;
        }
    }
    assert!(seen > 0, "no example is trimmed");
}

#[test]
fn every_path_in_an_example() {
    let mut seen = 0;
    for example in examples() {
        if let Some(path) = &example.path {
            let row = path_longer(&example.table, path.variable, 0);
            assert_eq!(printed_row(&row), path.printed, "{}", example.name);
            seen += 1;
        }
    }
    assert!(seen > 0, "no example shows a path");
}

#[test]
fn figure_1_row_by_row() {
    let example = example("accumulator");
    let table = read_table(&example.table_text).unwrap();
    let list = read_stimuli(&table, &example.stimuli_text).unwrap();
    let rows = [
        [0, 0, 0, 0, 0, 0, 0, 0, 0],
        [0, 1, 0, 0, 0, 0, 0, 0, 0],
        [2, 1, 0, 0, 0, 2, 0, 2, 2],
        [2, 1, 0, 2, 0, 4, 0, 4, 4],
        [2, 1, 0, 4, 2, 6, 0, 6, 6],
    ];
    assert_eq!(list.len() + 1, rows.len());
    for (done, row) in rows.iter().enumerate() {
        assert_eq!(run(&table.records, &list[..done]), row, "after {done} stimuli");
    }
}
