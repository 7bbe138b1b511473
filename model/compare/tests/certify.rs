//! The archive's certifying call held against the model's: the answer, every byte of the certificate and
//! every number of the scratch, on buffers that are as long as asked, longer and shorter.

#[path = "../../tests/common/mod.rs"]
mod common;
mod lent;

use common::grounds::table_that_meets;
use common::samples::{every_rule, one_of_each, samples, ENABLED, REGISTER};
use common::shapes::{chain, gates, layers, random_shape, register_chain, register_ring, turned};
use common::tables::{damage, random_table};
use common::{cases, constant, enabled, fixed, hand_cases, register, Random, MOST_RECORDS};
use lent::answers::random_calls;
use lent::{held_to_model, Buffers, Inputs, Lengths};
use model::{remainder, Refusal};

/// How many bytes of a certificate ground 3 asks for a record, and how many 16-bit numbers of scratch ground 4.
const BYTES_A_RECORD: usize = 8;
const SCRATCH_A_RECORD: usize = 2;

/// What the archive answers on buffers of these lengths, held against the model.
fn certify_on(table: &[u8], lengths: Lengths) -> Result<u32, Refusal> {
    held_to_model(
        Inputs { table, ..Inputs::default() },
        &Buffers::new(lengths, |number| number as u8),
        |lent| compare::certify(table, lent.output, lent.scratch),
        |lent| model::certify(table, lent.output, lent.scratch),
    )
}

/// What is asked for a table.
fn asked(table: &[u8]) -> Lengths {
    Lengths::asked(table, BYTES_A_RECORD, SCRATCH_A_RECORD)
}

/// What the archive answers on buffers as long as asked, held against the model.
fn certify(table: &[u8]) -> Result<u32, Refusal> {
    certify_on(table, asked(table))
}

/// Holds the archive against the model on buffers of all lengths around those asked for.
fn compare_on_all_lengths(table: &[u8]) {
    for lengths in asked(table).around() {
        let _ = certify_on(table, lengths);
    }
}

#[test]
fn cases_worked_by_hand() {
    for case in hand_cases() {
        println!("case {}", case.name);
        compare_on_all_lengths(&case.table);
    }
}

#[test]
fn sample_tables() {
    for table in samples() {
        compare_on_all_lengths(table.as_flattened());
    }
}

#[test]
fn every_set_of_grounds() {
    for set in 0..1 << 11 {
        let meets = |ground: u32| set >> (ground - 1) & 1 == 1;
        let first = (1..=11).find(|&ground| meets(ground));
        for register in [REGISTER, ENABLED] {
            let table = table_that_meets(meets, register);
            let refusal = certify_on(&table, asked(&table).that_meet(meets)).err();
            assert_eq!(refusal.map(|refusal| refusal.ground), first, "grounds {set:#b} at {register}");
        }
    }
}

#[test]
fn every_byte_of_a_record() {
    for i in 0..one_of_each().len() {
        for (place, byte) in (0..16).flat_map(|place| (0..=255).map(move |byte| (place, byte))) {
            let mut table = one_of_each();
            table[i][place] = byte;
            let _ = certify(table.as_flattened());
        }
    }
}

#[test]
fn every_rule_at_every_width() {
    for w in 1..=32 {
        assert_eq!(certify(every_rule(w).as_flattened()), Ok(1));
    }
}

#[test]
fn values_around_every_width() {
    for w in 1..=32 {
        let largest = remainder(u32::MAX, u32::from(w));
        let above = largest.wrapping_add(1);
        for value in [0, 1, largest - 1, largest, above, above | 1, u32::MAX - 1, u32::MAX] {
            let expected = if value > largest { Err(Refusal { ground: 10, place: 1 }) } else { Ok(0) };
            for record in
                [fixed(w, value), constant(w, value), register(w, value, 1), enabled(w, value, 1, 0)]
            {
                let table = [constant(1, 0), record];
                assert_eq!(certify(table.as_flattened()), expected, "{value} at width {w}");
            }
        }
    }
}

/// Holds the archive against the model on so many random tables, each on buffers of random lengths. Asserts
/// that each of these grounds was met.
fn compare_tables(
    random: &mut Random,
    tables: usize,
    grounds: &[usize],
    table: impl Fn(&mut Random) -> Vec<u8>,
) {
    random_calls(random, tables, grounds, |random| {
        let table = table(random);
        certify_on(&table, asked(&table).random(random))
    });
}

#[test]
fn small_tables() {
    let mut random = Random::of_test("small tables", 21);
    compare_tables(&mut random, cases(300_000), &[0, 3, 4, 11], |random| {
        let n = 1 + random.below(30);
        random_shape(random, n, true).as_flattened().to_vec()
    });
}

#[test]
fn damaged_tables() {
    let mut random = Random::of_test("damaged tables", 22);
    compare_tables(&mut random, cases(200_000), &[0, 2, 3, 4, 5, 6, 7, 8, 9, 10, 11], |random| {
        let n = 1 + random.below(30);
        let mut table = random_shape(random, n, true).as_flattened().to_vec();
        damage(random, &mut table);
        table
    });
}

#[test]
fn medium_tables() {
    let mut random = Random::of_test("medium tables", 23);
    compare_tables(&mut random, cases(100_000) / 250, &[], |random| {
        let n = 31 + random.below(300);
        random_shape(random, n, true).as_flattened().to_vec()
    });
}

#[test]
fn largest_tables() {
    let mut random = Random::of_test("largest tables", 24);
    let n = usize::from(MOST_RECORDS);
    for shape in [layers, chain, register_chain, gates] {
        let table = shape(&mut random, n);
        assert!(certify(table.as_flattened()).is_ok());
        assert!(certify(turned(&table).as_flattened()).is_ok());
    }
    for loops in [false, true] {
        let answer = certify(random_table(&mut random, n, loops).as_flattened());
        assert!(loops || answer.is_ok());
    }
}

#[test]
fn the_most_rounds() {
    let mut random = Random::of_test("the most rounds", 25);
    for n in [4, 5, 100, usize::from(MOST_RECORDS)] {
        let registers = n as u32 - 3;
        let table = register_ring(&mut random, n);
        assert_eq!(certify(table.as_flattened()), Ok(2 * registers));
        assert_eq!(certify(turned(&table).as_flattened()), Ok(2 * registers));
    }
}
