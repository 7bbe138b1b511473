//! The archive's bench call held against the model's: the answer, every value and every number of the
//! scratch, on buffers that are as long as asked, longer and shorter.

#[path = "../../tests/common/mod.rs"]
mod common;
mod lent;

use common::fixed_pokes::FixedPokes;
use common::grounds::{
    bench_grounds, list_that_meets, sound_stimuli, stimulus_that_meets_only, table_that_meets,
};
use common::hand_runs::hand_runs;
use common::samples::{
    every_rule, one_of_each, samples, BOUNDARY_VALUES, ENABLED, FIXED_N, FIXED_OPERAND, FREE_OPERAND,
    REGISTER, SECRET_OPERAND, ZERO_OPERAND,
};
use common::shapes::{chain, layers, random_pair, register_chain, register_ring, turned};
use common::tables::{damage, pokes_of_fixed, random_stimuli, random_table};
use common::{
    cases, enabled, fixed, free, hand_cases, operator, poke_bytes, register, secret, widened, Random,
    RecordBytes, Table, MOST_RECORDS, MOST_STIMULI, TICK,
};
use lent::answers::random_calls;
use lent::{held_to_model, Buffers, Inputs, Lengths};
use model::{read_records, remainder, Operator, Refusal};

/// How many 32-bit numbers of values ground 3 asks for a record, and how many 16-bit ones of scratch ground 4.
const NUMBERS_A_RECORD: usize = 1;
const SCRATCH_A_RECORD: usize = 4;

/// What the archive answers on buffers of these lengths, held against the model.
fn bench_on(table: &[u8], stimuli: &[u8], lengths: Lengths) -> Result<(), Refusal> {
    held_to_model(
        Inputs { table, stimuli, ..Inputs::default() },
        &Buffers::new(lengths, widened),
        |lent| compare::bench(table, stimuli, lent.output, lent.scratch),
        |lent| model::bench(table, stimuli, lent.output, lent.scratch),
    )
}

/// What is asked for a table.
fn asked(table: &[u8]) -> Lengths {
    Lengths::asked(table, NUMBERS_A_RECORD, SCRATCH_A_RECORD)
}

/// What the archive answers on buffers as long as asked, held against the model.
fn bench(table: &[u8], stimuli: &[u8]) -> Result<(), Refusal> {
    bench_on(table, stimuli, asked(table))
}

/// Holds the archive against the model on buffers of all lengths around those asked for.
fn compare_on_all_lengths(table: &[u8], stimuli: &[u8]) {
    for lengths in asked(table).around() {
        let _ = bench_on(table, stimuli, lengths);
    }
}

fn refusal(ground: u32, place: usize) -> Result<(), Refusal> {
    Err(Refusal { ground, place })
}

#[test]
fn runs_worked_by_hand() {
    for run in hand_runs() {
        println!("{}", run.name);
        assert_eq!(bench(&run.table, &run.stimuli), Ok(()));
        compare_on_all_lengths(&run.table, &run.stimuli);
    }
}

/// Holds the archive against the model on a table of any sort: with a list that every accepted table takes,
/// on buffers of all lengths, and with none, with two more such lists, with one that some take, and with two
/// that none takes. Of those that all take, one pokes the fixed inputs late, one early, and one not at all.
fn compare_on_some_lists(table: &[u8]) {
    let poke = poke_bytes(0, 0);
    let pokes = pokes_of_fixed(&read_records(table).unwrap_or_default());
    let early = [&pokes[..], &[TICK, TICK]].concat();
    let late = [&[TICK], &early[..]].concat();
    compare_on_all_lengths(table, late.as_flattened());
    for list in [&[][..], &early, &[TICK, TICK], &[poke, TICK], &[TICK, poke_bytes(65_535, 0)]] {
        let _ = bench(table, list.as_flattened());
    }
    let _ = bench(table, &poke[..7]);
}

#[test]
fn cases_worked_by_hand() {
    for case in hand_cases() {
        println!("case {}", case.name);
        compare_on_some_lists(&case.table);
    }
}

#[test]
fn sample_tables() {
    for table in samples() {
        compare_on_some_lists(table.as_flattened());
    }
}

/// Asserts that a call that meets these grounds among 1 to 17, those of a record at this register and those of
/// a stimulus behind so many sound ones, is refused on the first of them.
fn assert_first(meets: impl Fn(u32) -> bool + Copy, register: usize, behind: usize) {
    let (table, list) = (table_that_meets(meets, register), list_that_meets(meets, behind));
    let first = bench_grounds().find(|&ground| meets(ground));
    let answer = bench_on(&table, &list, asked(&table).that_meet(meets));
    assert_eq!(answer.err().map(|refusal| refusal.ground), first);
    match (answer, first) {
        (Err(Refusal { place, .. }), Some(5..=10)) => assert_eq!(place, register),
        (Err(Refusal { place, .. }), Some(14..)) => assert_eq!(place, behind),
        _ => {}
    }
}

#[test]
fn every_set_of_grounds_but_large_ones_with_ground_1() {
    // Ground 1 takes the largest buffers, and is met beside at most two others.
    let quick = |set: &u32| set & 1 == 0 || set.count_ones() <= 3;
    for set in (0..1 << 17).filter(quick) {
        for register in [REGISTER, ENABLED] {
            assert_first(|ground| set >> (ground - 1) & 1 == 1, register, 0);
        }
    }
}

#[test]
fn every_set_of_grounds_on_later_stimuli() {
    for behind in [1, 2, 7, 300, MOST_STIMULI - 1] {
        for set in 0..1 << 6 {
            assert_first(|ground| ground >= 12 && set >> (ground - 12) & 1 == 1, REGISTER, behind);
        }
    }
}

#[test]
fn an_earlier_stimulus_before_an_earlier_ground() {
    let table = one_of_each();
    let sound = sound_stimuli().map(|stimulus| (None, stimulus));
    let refused = [14, 15, 16, 17].map(|ground| (Some(ground), stimulus_that_meets_only(ground)));
    let stimuli = [&sound[..], &refused].concat();
    let count = stimuli.len();
    for choice in 0..count.pow(3) {
        let row = [0, 1, 2].map(|place| stimuli[choice / count.pow(place) % count]);
        let expected = (0..).zip(row).find_map(|(place, (ground, _))| Some((ground?, place)));
        let expected = expected.map_or(Ok(()), |(ground, place)| refusal(ground, place));
        let list = row.map(|(_, stimulus)| stimulus);
        assert_eq!(bench(table.as_flattened(), list.as_flattened()), expected);
    }
}

#[test]
fn every_byte_of_a_stimulus() {
    let table = one_of_each();
    let pokes = (0..table.len()).map(|variable| poke_bytes(variable as u16, 9));
    for stimulus in pokes.chain([TICK]) {
        for (place, byte) in (0..8).flat_map(|place| (0..=255).map(move |byte| (place, byte))) {
            let mut stimulus = stimulus;
            stimulus[place] = byte;
            let first = bench(table.as_flattened(), &stimulus);
            let list = [&sound_stimuli()[..], &[stimulus, TICK]].concat();
            let fourth = bench(table.as_flattened(), list.as_flattened());
            assert_eq!(fourth, first.map_err(|refusal| Refusal { place: 3, ..refusal }));
        }
    }
}

/// Asserts that a poke is refused that names a variable past a table of n inputs. Behind the table lies more
/// memory that reads as inputs.
fn assert_no_variable(inputs: &[RecordBytes], n: usize) {
    let table = &inputs.as_flattened()[..n * 16];
    for variable in [n, n + 1, n + 255, 2 * n + 1, 32_767, 32_768, 65_535] {
        for value in [0, 1, u32::MAX] {
            let poke = poke_bytes(variable as u16, value);
            assert_eq!(bench(table, &poke), refusal(15, 0));
            assert_eq!(bench(table, [TICK, poke].as_flattened()), refusal(15, 1));
        }
    }
}

#[test]
fn pokes_of_variables_past_the_table() {
    let inputs = vec![free(32); 2 * usize::from(MOST_RECORDS)];
    for n in [0, 1, 2, 255, 256, usize::from(MOST_RECORDS)] {
        assert_no_variable(&inputs, n);
        if let Some(last) = n.checked_sub(1) {
            let poke = poke_bytes(last as u16, u32::MAX);
            assert_eq!(bench(&inputs.as_flattened()[..n * 16], &poke), Ok(()));
        }
    }
}

#[test]
fn values_around_every_width() {
    for w in 1..=32 {
        let largest = remainder(u32::MAX, u32::from(w));
        let above = largest.wrapping_add(1);
        let inputs = [free(w), secret(w), fixed(w, 0), fixed(w, 1), fixed(w, largest)];
        for (record, n) in inputs.into_iter().zip([None, None, Some(0), Some(1), Some(largest)]) {
            for value in [0, 1, 2, largest - 1, largest, above, above | 1, u32::MAX - 1, u32::MAX] {
                let expected = match n {
                    Some(n) if n != value => refusal(17, 0),
                    _ if value > largest => refusal(16, 0),
                    _ => Ok(()),
                };
                assert_eq!(bench(&record, &poke_bytes(0, value)), expected, "{value} at width {w}");
            }
        }
    }
}

#[test]
fn lists_of_all_lengths() {
    let table = one_of_each();
    let longest = MOST_STIMULI * 8;
    let lengths = (0..40).chain(longest - 9..longest + 20).chain([2 * longest, 100_000, 100_001]);
    for length in lengths {
        let expected = match length % 8 {
            0 if length <= longest => Ok(()),
            0 => refusal(13, 0),
            _ => refusal(12, 0),
        };
        for stimulus in sound_stimuli() {
            let list: Vec<u8> = stimulus.into_iter().cycle().take(length).collect();
            assert_eq!(bench(table.as_flattened(), &list), expected, "{length} bytes");
        }
        let unsound = vec![255; length];
        let answer = bench(table.as_flattened(), &unsound);
        assert_eq!(answer, if length > 0 { expected.and(refusal(14, 0)) } else { Ok(()) });
    }
}

#[test]
fn every_rule_at_every_width() {
    for w in 1..=32 {
        let table = every_rule(w);
        let count = BOUNDARY_VALUES.len();
        for (i, n) in BOUNDARY_VALUES.into_iter().enumerate() {
            let poke_free = |i: usize| poke_bytes(FREE_OPERAND, BOUNDARY_VALUES[i % count]);
            let mut list = vec![poke_free(i), TICK, poke_bytes(SECRET_OPERAND, n), poke_free(i + 3), TICK];
            // The fixed inputs are poked at each place in turn, and the last time not at all.
            if i <= list.len() {
                list.splice(i..i, [poke_bytes(FIXED_OPERAND, FIXED_N), poke_bytes(ZERO_OPERAND, 0)]);
            }
            assert_eq!(bench(table.as_flattened(), list.as_flattened()), Ok(()));
        }
    }
}

/// Holds the archive against the model on so many random tables and lists, each on buffers of random lengths.
/// Asserts that each of these grounds was met. Gives how the lists that are accepted poke fixed inputs.
fn compare_pairs(
    random: &mut Random,
    pairs: usize,
    grounds: &[usize],
    pair: impl Fn(&mut Random) -> (Vec<u8>, Vec<u8>),
) -> FixedPokes {
    let mut pokes = FixedPokes::default();
    random_calls(random, pairs, grounds, |random| {
        let (table, list) = pair(random);
        bench_on(&table, &list, asked(&table).random(random))?;
        pokes.count(&read_records(&table).unwrap(), &list);
        Ok(0)
    });
    pokes
}

#[test]
fn small_pairs() {
    let mut random = Random::of_test("small pairs", 41);
    let pairs = cases(300_000);
    let pokes = compare_pairs(&mut random, pairs, &[0, 3, 4, 11], |random| {
        let (n, length) = (1 + random.below(30), random.below(20));
        random_pair(random, n, length)
    });
    if pairs >= 1000 {
        pokes.assert_each(20);
    }
}

#[test]
fn damaged_pairs() {
    let mut random = Random::of_test("damaged pairs", 42);
    let grounds = [0, 2, 3, 4, 5, 6, 7, 8, 9, 10, 11, 12, 14, 15, 16, 17];
    compare_pairs(&mut random, cases(300_000), &grounds, |random| {
        let (n, length) = (1 + random.below(30), 1 + random.below(10));
        let (mut table, mut list) = random_pair(random, n, length);
        if random.percent(30) {
            damage(random, &mut table);
        }
        damage(random, &mut list);
        (table, list)
    });
}

#[test]
fn medium_pairs() {
    let mut random = Random::of_test("medium pairs", 43);
    compare_pairs(&mut random, cases(100_000) / 100, &[], |random| {
        let (n, length) = (31 + random.below(300), random.below(20));
        random_pair(random, n, length)
    });
}

#[test]
fn longest_lists() {
    let mut random = Random::of_test("longest lists", 44);
    compare_pairs(&mut random, cases(100_000) / 500, &[], |random| {
        let (n, length) = (1 + random.below(12), MOST_STIMULI - random.below(2));
        random_pair(random, n, length)
    });
}

/// What the archive answers on a table and so many random stimuli behind a poke of each fixed input, held
/// against the model.
fn bench_randomly(random: &mut Random, table: &Table, length: usize) -> Result<(), Refusal> {
    let records = read_records(table.as_flattened()).unwrap();
    let list = [pokes_of_fixed(&records), random_stimuli(random, &records, length)].concat();
    bench(table.as_flattened(), list.as_flattened())
}

#[test]
fn largest_tables() {
    let mut random = Random::of_test("largest tables", 45);
    let n = usize::from(MOST_RECORDS);
    for shape in [layers, chain, register_chain, register_ring] {
        let table = shape(&mut random, n);
        assert_eq!(bench_randomly(&mut random, &table, 5), Ok(()));
        assert_eq!(bench_randomly(&mut random, &turned(&table), 5), Ok(()));
    }
    for loops in [false, true] {
        let table = random_table(&mut random, n, loops);
        let answer = bench_randomly(&mut random, &table, 5);
        assert!(loops || answer.is_ok());
    }
}

/// A free input, and so many records less one that each use the one before.
fn behind_an_input(records: u16, record: impl Fn(u16) -> RecordBytes) -> Table {
    [free(32)].into_iter().chain((0..records - 1).map(record)).collect()
}

#[test]
fn a_poke_reaches_the_last_wire() {
    let table = behind_an_input(MOST_RECORDS, |before| operator(Operator::Add, 32, before, 0));
    let poke = |variable| poke_bytes(variable, 1_000_003);
    assert_eq!(bench(table.as_flattened(), &poke(0)), Ok(()));
    assert_eq!(bench(turned(&table).as_flattened(), &poke(MOST_RECORDS - 1)), Ok(()));
}

#[test]
fn the_largest_table_with_the_longest_list() {
    let mut random = Random::of_test("largest table, longest list", 46);
    let table = behind_an_input(MOST_RECORDS, |before| match before % 2 {
        0 => register(32, 7, before),
        _ => enabled(32, 7, before, before - 1),
    });
    assert_eq!(bench_randomly(&mut random, &table, MOST_STIMULI), Ok(()));
    assert_eq!(bench_randomly(&mut random, &turned(&table), MOST_STIMULI), Ok(()));
}
