//! The archive's path call held against the model's: the answer, every number of the row, past its length too,
//! and every number of the scratch, on buffers that are as long as asked, longer and shorter.

#[path = "../../tests/common/mod.rs"]
mod common;
mod lent;

use common::grounds::{PathFaults, NOT_MARKED, PATH_GROUNDS};
use common::path_cases::path_cases;
use common::paths::{marked, random_traced, random_variable};
use common::samples::{every_rule, one_of_each, samples, ENABLED, REGISTER, SECRET};
use common::shapes::{
    chain, gates, lattice, layers, random_shape, register_chain, register_ring, tied, turned,
};
use common::tables::{damage, random_table};
use common::{
    cases, constant, enabled, free, hand_cases, multiplexer, operator, register, secret, Random,
    RecordBytes, Table, MOST_RECORDS,
};
use lent::answers::random_calls;
use lent::{held_to_model, Buffers, Inputs, Lengths};
use model::{Operator, Refusal};

/// How many 16-bit numbers of row ground 3 asks for a record, and of scratch ground 4.
const NUMBERS_A_RECORD: usize = 1;
const SCRATCH_A_RECORD: usize = 8;

/// What the archive answers on buffers of these lengths, held against the model.
fn path_on(table: &[u8], variable: u32, lengths: Lengths) -> Result<u32, Refusal> {
    held_to_model(
        Inputs { table, variable: Some(variable), ..Inputs::default() },
        &Buffers::new(lengths, |number| number),
        |lent| compare::path(table, variable, lent.output, lent.scratch),
        |lent| model::path(table, variable, lent.output, lent.scratch),
    )
}

/// What is asked for a table.
fn asked(table: &[u8]) -> Lengths {
    Lengths::asked(table, NUMBERS_A_RECORD, SCRATCH_A_RECORD)
}

/// What the archive answers on buffers as long as asked, held against the model.
fn path(table: &[u8], variable: u32) -> Result<u32, Refusal> {
    path_on(table, variable, asked(table))
}

/// Holds the archive against the model on buffers of all lengths around those asked for.
fn compare_on_all_lengths(table: &[u8], variable: u32) {
    for lengths in asked(table).around() {
        let _ = path_on(table, variable, lengths);
    }
}

fn refusal(ground: u32, place: u32) -> Result<u32, Refusal> {
    Err(Refusal { ground, place: place as usize })
}

#[test]
fn rows_found_by_hand() {
    for case in path_cases() {
        println!("case {}", case.name);
        assert_eq!(path(&case.table, case.variable), Ok(case.row.len() as u32));
        compare_on_all_lengths(&case.table, case.variable);
    }
}

/// Holds the archive against the model from every variable of a small table, and from some of a large one: the
/// first and the last ones, and one past the table; and on buffers of all lengths from one that is marked, if
/// there is one.
fn compare_from_variables(table: &[u8]) {
    let n = (table.len() / 16) as u32;
    let some = [0, 1, n / 2, n.saturating_sub(1), n, u32::MAX];
    let variables = if n <= 100 { (0..n + 2).collect() } else { some.to_vec() };
    for variable in variables {
        let _ = path(table, variable);
    }
    compare_on_all_lengths(table, marked(table).last().copied().unwrap_or(0));
}

#[test]
fn cases_worked_by_hand() {
    for case in hand_cases() {
        println!("case {}", case.name);
        compare_from_variables(&case.table);
    }
}

#[test]
fn sample_tables() {
    for table in samples() {
        compare_from_variables(table.as_flattened());
    }
}

/// Asserts that a call that meets these grounds is refused on the first of them, at its place.
fn assert_first(faults: PathFaults, meets: impl Fn(u32) -> bool + Copy) {
    let (table, variable) = faults.given(meets);
    let refused = path_on(&table, variable, asked(&table).that_meet(meets)).err();
    let refused = refused.map(|Refusal { ground, place }| (ground, place));
    assert_eq!(refused, faults.first(meets), "{faults:?}");
}

#[test]
fn every_set_of_grounds() {
    for set in 0..1 << PATH_GROUNDS.len() {
        let met = |place: usize| set >> place & 1 == 1;
        let meets = |ground: u32| PATH_GROUNDS.iter().position(|&other| other == ground).is_some_and(met);
        for register in [REGISTER, ENABLED] {
            let variable = NOT_MARKED[set % NOT_MARKED.len()];
            assert_first(PathFaults { register, variable }, meets);
        }
    }
}

#[test]
fn ground_23_beside_each_of_the_others() {
    for variable in NOT_MARKED {
        for other in PATH_GROUNDS {
            let faults = PathFaults { register: REGISTER, variable };
            assert_first(faults, |ground| ground == 23 || ground == other);
        }
    }
}

#[test]
fn every_byte_of_a_record() {
    let all = one_of_each();
    for i in 0..all.len() {
        for (place, byte) in (0..16).flat_map(|place| (0..=255).map(move |byte| (place, byte))) {
            let mut table = all;
            table[i][place] = byte;
            for variable in [SECRET, REGISTER, ENABLED] {
                let _ = path(table.as_flattened(), variable as u32);
            }
        }
    }
}

#[test]
fn every_seventh_rule_at_some_widths() {
    for w in [1, 2, 31, 32] {
        let table = every_rule(w);
        let marked = marked(table.as_flattened());
        for variable in (0..table.len() as u32).step_by(7) {
            let answer = path(table.as_flattened(), variable);
            assert_eq!(answer.is_ok(), marked.contains(&variable));
        }
    }
}

#[test]
fn numbers_around_the_number_of_records() {
    for n in [0, 1, 2, 255, 256, 257, 4095, 4096] {
        let table = secret(8).repeat(n as usize);
        for number in [0, 1, n / 2, n - n.min(1), n, n + 1, 2 * n, 255, 256, 4095, 4096, 32_768, 65_535] {
            let answer = path(&table, number);
            assert_eq!(answer, if number < n { Ok(1) } else { refusal(23, number) }, "{number} of {n}");
        }
        for high in [1, 2, 32_767, 32_768, 65_535] {
            let number = high * 65_536 + n / 2;
            assert_eq!(path(&table, number), refusal(23, number));
        }
    }
}

/// What lies around the table in memory is not read.
#[test]
fn memory_around_what_is_given() {
    let records = one_of_each();
    let length = records.as_flattened().len();
    for around in [secret(8), constant(8, 1), [255; 16], [0; 16]] {
        let memory = [&[around][..], &records, &[around]].concat();
        let table = &memory.as_flattened()[16..][..length];
        for variable in 0..10 {
            assert_eq!(path(table, variable), path(records.as_flattened(), variable));
        }
    }
}

/// Holds the archive against the model on so many random calls, each on buffers of random lengths. Asserts that
/// each of these grounds was met.
fn compare_calls(
    random: &mut Random,
    calls: usize,
    grounds: &[usize],
    table: impl Fn(&mut Random) -> Vec<u8>,
) {
    random_calls(random, calls, grounds, |random| {
        let table = table(random);
        let variable = random_variable(random, &table);
        path_on(&table, variable, asked(&table).random(random))
    });
}

#[test]
fn small_tables() {
    let mut random = Random::of_test("small traced tables", 121);
    compare_calls(&mut random, cases(300_000), &[0, 3, 4, 11, 23], |random| {
        let n = 1 + random.below(30);
        random_traced(random, n, true).as_flattened().to_vec()
    });
}

#[test]
fn tables_of_any_shape() {
    let mut random = Random::of_test("traced tables of any shape", 122);
    compare_calls(&mut random, cases(100_000), &[0, 3, 4, 11, 23], |random| {
        let n = 1 + random.below(30);
        random_shape(random, n, true).as_flattened().to_vec()
    });
}

#[test]
fn damaged_tables() {
    let mut random = Random::of_test("damaged traced tables", 123);
    let grounds = [0, 2, 3, 4, 5, 6, 7, 8, 9, 10, 11, 23];
    compare_calls(&mut random, cases(150_000), &grounds, |random| {
        let n = 1 + random.below(30);
        let mut table = random_traced(random, n, true).as_flattened().to_vec();
        damage(random, &mut table);
        table
    });
}

/// Every variable of a table, so that a row and its ends are met from all sides.
#[test]
fn every_variable_of_a_table() {
    let mut random = Random::of_test("every variable", 124);
    for _ in 0..cases(100_000) / 20 {
        let n = 1 + random.below(40);
        let table = random_traced(&mut random, n, false);
        for variable in 0..table.len() as u32 + 1 {
            let _ = path(table.as_flattened(), variable);
        }
    }
}

#[test]
fn medium_tables() {
    let mut random = Random::of_test("medium traced tables", 125);
    compare_calls(&mut random, cases(100_000) / 50, &[0, 3, 4, 11, 23], |random| {
        let n = 31 + random.below(300);
        random_traced(random, n, true).as_flattened().to_vec()
    });
}

#[test]
fn largest_tables() {
    let mut random = Random::of_test("largest traced tables", 126);
    let n = usize::from(MOST_RECORDS);
    let loopless = |random: &mut Random, n| random_table(random, n, false);
    for shape in [lattice, tied, layers, chain, gates, loopless] {
        let table = shape(&mut random, n);
        for table in [turned(&table), table] {
            let marked = marked(table.as_flattened());
            for variable in [0, marked.len() / 2, marked.len() - 1] {
                assert!(path(table.as_flattened(), marked[variable]).is_ok());
            }
        }
    }
    let _ = path(random_table(&mut random, n, true).as_flattened(), 0);
    let _ = path(register_chain(&mut random, n).as_flattened(), 0);
}

/// The ring that takes the most rounds: from its last register the row is through all of them.
#[test]
fn the_most_rounds() {
    let mut random = Random::of_test("rows in rings", 127);
    for n in [4, 5, 100, u32::from(MOST_RECORDS)] {
        let table = register_ring(&mut random, n as usize);
        assert_eq!(path(table.as_flattened(), n - 1), Ok(n - 1));
        assert_eq!(path(turned(&table).as_flattened(), 0), Ok(n - 1));
    }
}

/// A chain through every record to its one end: through each use of every kind.
#[test]
fn the_longest_rows() {
    // Variable 0 is the secret input, and 1 a free one.
    let links = [
        |before: u16| operator(Operator::Xor, 8, 1, before),
        |before: u16| operator(Operator::Add, 8, before, 1),
        |before: u16| multiplexer(8, before, 1, 1),
        |before: u16| multiplexer(8, 1, before, 1),
        |before: u16| multiplexer(8, 1, 1, before),
        |before: u16| register(8, 1, before),
        |before: u16| enabled(8, 1, before, 1),
        |before: u16| enabled(8, 1, 1, before),
    ];
    let last = MOST_RECORDS - 1;
    for link in links {
        let first: [RecordBytes; 3] = [secret(8), free(8), link(0)];
        let table: Table = first.into_iter().chain((2..last).map(link)).collect();
        assert_eq!(path(turned(&table).as_flattened(), 0), Ok(last.into()));
        assert_eq!(path(table.as_flattened(), last.into()), Ok(last.into()));
        assert_eq!(path(table.as_flattened(), 100), Ok(100));
    }
}
