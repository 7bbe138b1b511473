//! The Verilog of tables: a golden file with every kind and operator, and modules simulated beside the
//! model's bench on all examples, enables, fixed inputs, every rule, and random tables.

#[path = "../../../model/tests/common/mod.rs"]
mod common;
mod examples;
mod runs;
mod simulator;

use common::samples::every_rule;
use common::{cases, certify_longer, Random};
use examples::examples;
use model::{find_loop, poke, power_on, run, tick, Fact, InputKind, Record, Stimulus};
use runs::{pokes_of_fixed, Run};
use simulator::Module;
use table::{read_stimuli, read_table, table_bytes, table_text, verilog, Table};

/// Asserts that a table's module holds, at power-on and after each stimulus of a list, what the model's bench
/// does.
fn assert_simulates(table: &Table, list: &[Stimulus]) {
    let mut module = Module::read(&verilog(table, "circuit").unwrap());
    // The clock stands before the variables, and only where there are registers.
    let clock = usize::from(table.records.iter().any(Record::is_register));
    let mut state = power_on(&table.records);
    assert_eq!(module.values()[clock..], state);
    for stimulus in list {
        state = match *stimulus {
            Stimulus::Poke { variable, n } => {
                module.poke(clock + variable, n);
                poke(&table.records, &state, variable, n)
            }
            Stimulus::Tick => {
                module.tick();
                tick(&table.records, &state)
            }
        };
        assert_eq!(module.values()[clock..], state);
    }
}

/// Asserts that a table's module and the model's bench hold these values after each of these stimuli.
fn assert_rows<const N: usize>(table: &str, rows: &[(&str, [u32; N])]) {
    let table = read_table(table).unwrap();
    let text: Vec<&str> = rows.iter().map(|row| row.0).collect();
    let list = read_stimuli(&table, &text.join("\n")).unwrap();
    assert_simulates(&table, &list);
    for (done, (_, row)) in rows.iter().enumerate() {
        assert_eq!(run(&table.records, &list[..=done]), row, "after stimulus {done}");
    }
}

/// `clock`, on which most operators work, is poked before all else in one list, and in the other right before
/// the last tick.
#[test]
fn golden_file() {
    let table = read_table(include_str!("golden/every_kind.txt")).unwrap();
    assert_eq!(verilog(&table, "table").unwrap(), include_str!("golden/every_kind.v"));
    let others = "poke wide 0x80000013\ntick\npoke and 1\ntick\n";
    for text in [format!("poke clock 9\n{others}"), format!("{others}poke clock 9\ntick")] {
        assert_simulates(&table, &read_stimuli(&table, &text).unwrap());
    }
}

#[test]
fn a_table_without_records() {
    assert_eq!(verilog(&read_table("").unwrap(), "circuit").unwrap(), "module circuit (\n);\nendmodule\n");
}

#[test]
fn every_example() {
    for example in examples() {
        let table = read_table(&example.table_text).unwrap();
        if find_loop(&table.records).is_none() {
            assert_simulates(&table, &read_stimuli(&table, &example.stimuli_text).unwrap());
        }
    }
}

/// A wide enable counts with all its bits, and while it is 0 its register holds; a register that is its own
/// enable stops for good at 0, and what it enables sees its value from before the tick.
#[test]
fn enables() {
    let table = "data = free 8
                 wide = free 32
                 held = enabled 4 1 data wide
                 own  = enabled 8 3 data own
                 late = enabled 8 0 data own";
    let rows = [
        ("poke data 0x29", [0x29, 0, 1, 3, 0]),
        ("tick", [0x29, 0, 1, 0x29, 0x29]),
        ("poke data 0", [0, 0, 1, 0x29, 0x29]),
        ("tick", [0, 0, 1, 0, 0]),
        ("poke data 0x57", [0x57, 0, 1, 0, 0]),
        ("tick", [0x57, 0, 1, 0, 0]),
        ("poke wide 0x80000000", [0x57, 1 << 31, 1, 0, 0]),
        ("tick", [0x57, 1 << 31, 7, 0, 0]),
        ("poke data 0x66", [0x66, 1 << 31, 7, 0, 0]),
        ("poke wide 0", [0x66, 0, 7, 0, 0]),
        ("tick", [0x66, 0, 7, 0, 0]),
        ("poke wide 0x10", [0x66, 16, 7, 0, 0]),
        ("tick", [0x66, 16, 6, 0, 0]),
    ];
    assert_rows(table, &rows);
}

/// A fixed input holds 0 until it is poked, and then its number: one is poked before the first tick and once
/// more later, one between ticks, one with 0, and one not at all.
#[test]
fn fixed_inputs() {
    let table = "early = fixed 4 9
                 late  = fixed 8 0xc5
                 zero  = fixed 4 0
                 never = fixed 4 6
                 sum   = add 8 early late
                 below = less 1 never late
                 taken = register 8 1 sum
                 held  = enabled 8 2 sum late";
    let rows = [
        ("poke zero 0", [0, 0, 0, 0, 0, 0, 1, 2]),
        ("poke early 9", [9, 0, 0, 0, 9, 0, 1, 2]),
        ("tick", [9, 0, 0, 0, 9, 0, 9, 2]),
        ("poke late 0xc5", [9, 0xc5, 0, 0, 0xce, 1, 9, 2]),
        ("tick", [9, 0xc5, 0, 0, 0xce, 1, 0xce, 0xce]),
        ("poke early 9", [9, 0xc5, 0, 0, 0xce, 1, 0xce, 0xce]),
        ("tick", [9, 0xc5, 0, 0, 0xce, 1, 0xce, 0xce]),
    ];
    assert_rows(table, &rows);
}

/// With the fixed inputs at 0, and then at their numbers.
#[test]
fn every_rule_at_its_boundaries() {
    for w in [1, 5, 8, 31, 32] {
        let table = read_table(&table_text(every_rule(w).as_flattened()).unwrap()).unwrap();
        let pokes = pokes_of_fixed(&table.records);
        assert_simulates(&table, &[&[Stimulus::Tick], &pokes[..], &[Stimulus::Tick]].concat());
    }
}

#[test]
fn random_tables() {
    let mut random = Random::of_test("simulated tables", 46);
    for _ in 0..cases(100_000) / 100 {
        let run = Run::random(&mut random);
        assert_simulates(&run.table, &run.list);
    }
}

/// The record of a variable whose port, if it is a fixed input's, is tied to its number from the start.
fn tied(record: &Record) -> Record {
    match *record {
        Record::Input { width, kind: InputKind::Fixed(n) } => Record::Constant { width, n },
        other => other,
    }
}

/// Fixed inputs that are tied to their numbers from the start, and so are constants: the module holds what
/// the bench does once each of them has been poked, and every number that the certificate calls always.
#[test]
fn fixed_inputs_tied_from_the_start() {
    let mut random = Random::of_test("tied tables", 48);
    for _ in 0..cases(100_000) / 100 {
        let Run { table, list } = Run::random(&mut random);
        let pokes = pokes_of_fixed(&table.records);
        let list: Vec<Stimulus> = list.into_iter().filter(|stimulus| !pokes.contains(stimulus)).collect();
        let facts = certify_longer(&table_bytes(&table.records), 0).unwrap().1;
        let records: Vec<Record> = table.records.iter().map(tied).collect();
        for done in 0..=list.len() {
            let values = run(&records, &list[..done]);
            assert_eq!(values, run(&table.records, &[&pokes, &list[..done]].concat()));
            for (i, fact) in facts.iter().enumerate() {
                if let Fact::Always(n) = *fact {
                    assert_eq!(values[i], n, "variable {i}");
                }
            }
        }
        assert_simulates(&table, &[&pokes[..], &list].concat());
        assert_simulates(&Table { records, ..table }, &list);
    }
}
