//! Random tables and lists, well-formed and damaged: the certifying and the bench call refuse as each ground
//! says when it is read alone, a shown row is a loop, an accepted table has none, the bench holds what a machine
//! without stored wires holds, the order of the records matters for nothing, a register with an enable does what
//! a multiplexer and a register do, and a fixed input what a free one or constant 0 does.

mod common;

use common::grounds::STIMULUS_GROUNDS;
use common::shapes::table_or_shape;
use common::tables::{damage, random_stimuli, random_table, renumbered};
use common::{
    assert_shows_loop, bench_longer, bench_on, cases, certify_longer, certify_on, constant, free,
    multiplexer, register, Random, RecordBytes, StimulusBytes, Table,
};
use model::{read_records, settle, value, InputKind, Record};

fn number(bytes: &[u8]) -> u64 {
    bytes.iter().rev().fold(0, |number, &byte| number * 256 + u64::from(byte))
}

/// Whether a ground from 5 to 10 holds of a record, where no earlier one does.
fn holds_of_record(ground: u32, bytes: &[u8], records: usize) -> bool {
    let (kind, width, choice) = (bytes[0], bytes[1], bytes[2]);
    let (a, b, c) = (number(&bytes[4..6]), number(&bytes[6..8]), number(&bytes[8..10]));
    let n = number(&bytes[12..16]);
    let missing = |variable: u64| variable >= records as u64;
    let has_value = matches!((kind, choice), (0, 0) | (1, _) | (4, _) | (5, _));
    match ground {
        5 => kind > 5,
        6 => width == 0 || width > 32,
        7 => !matches!((kind, choice), (0, 0..=2) | (2, 0..=8) | (_, 0)),
        8 => {
            let other_bytes = number(&[bytes[3], bytes[10], bytes[11]]);
            let unused = match kind {
                0 | 1 => a + b + c,
                2 | 5 => c,
                3 => 0,
                _ => b + c,
            };
            other_bytes != 0 || unused != 0 || (n != 0 && !has_value)
        }
        9 => match kind {
            2 | 5 => missing(a) || missing(b),
            3 => missing(a) || missing(b) || missing(c),
            4 => missing(a),
            _ => false,
        },
        _ => has_value && n >= 1 << width,
    }
}

/// The first of grounds 1, 2 and 5 to 10 that holds of a table, with its place.
fn ground_of_table(table: &[u8]) -> Option<(u32, usize)> {
    if table.len() > 65_536 {
        return Some((1, 0));
    }
    if !table.len().is_multiple_of(16) {
        return Some((2, 0));
    }
    table.chunks(16).enumerate().find_map(|(place, bytes)| {
        let ground = (5..=10).find(|&ground| holds_of_record(ground, bytes, table.len() / 16))?;
        Some((ground, place))
    })
}

/// Whether a ground from 14 to 17 holds of a stimulus, where no earlier one does.
fn holds_of_stimulus(ground: u32, bytes: &[u8], records: &[Record]) -> bool {
    let (variable, n) = (number(&bytes[2..4]), number(&bytes[4..8]));
    let poke = bytes[0] == 0;
    let input = match records.get(variable as usize) {
        Some(&Record::Input { width, kind }) => Some((width, kind)),
        _ => None,
    };
    match ground {
        14 => bytes[0] > 1 || bytes[1] != 0 || (!poke && (variable, n) != (0, 0)),
        15 => poke && input.is_none(),
        16 => poke && input.is_some_and(|(width, _)| n >= 1 << width),
        _ => {
            let fixed = |kind| matches!(kind, InputKind::Fixed(fixed) if u64::from(fixed) != n);
            poke && input.is_some_and(|(_, kind)| fixed(kind))
        }
    }
}

/// The first of grounds 12 to 17 that holds of a list of stimuli, with its place.
fn ground_of_list(list: &[u8], records: &[Record]) -> Option<(u32, usize)> {
    if !list.len().is_multiple_of(8) {
        return Some((12, 0));
    }
    if list.len() > 4096 * 8 {
        return Some((13, 0));
    }
    list.chunks(8).enumerate().find_map(|(place, bytes)| {
        let ground =
            STIMULUS_GROUNDS.into_iter().find(|&ground| holds_of_stimulus(ground, bytes, records))?;
        Some((ground, place))
    })
}

/// Whether the wires can be removed one after another, each once all wires that it uses are removed.
fn wires_have_an_order(records: &[Record]) -> bool {
    let mut left: Vec<bool> = records.iter().map(Record::is_wire).collect();
    loop {
        let free = |i: &usize| left[*i] && !records[*i].uses().any(|used| left[used]);
        let removed: Vec<usize> = (0..records.len()).filter(free).collect();
        if removed.is_empty() {
            return !left.contains(&true);
        }
        removed.into_iter().for_each(|i| left[i] = false);
    }
}

/// The certifying and the bench call on the table, held against the grounds read alone. Gives the ground, or 0
/// when accepted.
fn check_table(table: &[u8], longer: usize) -> u32 {
    let certified = certify_longer(table, longer).map(|_| ());
    let run = bench_longer(table, &[], longer).map(|_| ());
    if let Some((ground, place)) = ground_of_table(table) {
        for refused in [certified.unwrap_err(), run.unwrap_err()] {
            assert_eq!((refused.ground, refused.place), (ground, place));
        }
        return ground;
    }
    if wires_have_an_order(&read_records(table).unwrap()) {
        assert_eq!((certified, run), (Ok(()), Ok(())));
        return 0;
    }
    for refused in [certified.unwrap_err(), run.unwrap_err()] {
        assert_eq!((refused.ground, refused.place), (11, refused.row.len()));
        assert_shows_loop(table, &refused.row);
    }
    11
}

/// The values after a list, by a machine that stores inputs and registers and works a wire out when asked.
fn values_without_stored_wires(records: &[Record], list: &[u8]) -> Vec<u32> {
    let start = records.iter().map(|record| match *record {
        Record::Input { .. } => Some(0),
        Record::Register { power_on, .. } | Record::Enabled { power_on, .. } => Some(power_on),
        _ => None,
    });
    let mut stored: Vec<Option<u32>> = start.collect();
    for stimulus in list.chunks(8) {
        if stimulus[0] == 0 {
            stored[number(&stimulus[2..4]) as usize] = Some(number(&stimulus[4..8]) as u32);
            continue;
        }
        let mut known = stored.clone();
        let mut of = |variable: usize| value_of(records, &mut known, variable);
        for (i, record) in records.iter().enumerate() {
            let (width, taken) = match *record {
                Record::Register { width, a, .. } => (width, Some(of(a))),
                Record::Enabled { width, a, b, .. } => (width, (of(b) > 0).then(|| of(a))),
                _ => continue,
            };
            if let Some(n) = taken {
                stored[i] = Some((u64::from(n) % (1 << width)) as u32);
            }
        }
    }
    (0..records.len()).map(|i| value_of(records, &mut stored, i)).collect()
}

/// The value of a variable, worked out from what it uses unless it is known, and then known.
fn value_of(records: &[Record], known: &mut [Option<u32>], i: usize) -> u32 {
    if let Some(n) = known[i] {
        return n;
    }
    let mut of = |variable: usize| value_of(records, known, variable);
    let n = match records[i] {
        Record::Constant { n, .. } => n,
        Record::Operator { width, operator, a, b } => operator.result(of(a), of(b), width),
        Record::Multiplexer { width, a, b, c } => {
            let arm = if of(a) == 0 { of(c) } else { of(b) };
            (u64::from(arm) % (1 << width)) as u32
        }
        record => panic!("{record:?} is stored"),
    };
    known[i] = Some(n);
    n
}

/// The table in which a multiplexer and a register stand for each register with an enable. The register stays
/// at its place, and the multiplexer that feeds it, behind the table, takes the data or what the register holds.
fn without_enables(table: &[RecordBytes]) -> Table {
    let mut plain = table.to_vec();
    for (i, record) in read_records(table.as_flattened()).unwrap().into_iter().enumerate() {
        if let Record::Enabled { width, a, b, power_on } = record {
            let (w, fed_by) = (width as u8, plain.len() as u16);
            plain[i] = register(w, power_on, fed_by);
            plain.push(multiplexer(w, b as u16, a as u16, i as u16));
        }
    }
    plain
}

/// The table in which constant 0 stands for each input that is fixed to 0, and a free input for each that is
/// fixed to another number.
fn without_fixed_inputs(table: &[RecordBytes]) -> Table {
    let records = read_records(table.as_flattened()).unwrap();
    let stands_for = |(bytes, record): (&RecordBytes, &Record)| match *record {
        Record::Input { width, kind: InputKind::Fixed(0) } => constant(width as u8, 0),
        Record::Input { width, kind: InputKind::Fixed(_) } => free(width as u8),
        _ => *bytes,
    };
    table.iter().zip(&records).map(stands_for).collect()
}

/// The list without its pokes of variables that are no inputs of the table.
fn without_other_pokes(list: &[StimulusBytes], table: &[RecordBytes]) -> Vec<StimulusBytes> {
    let is_input = |stimulus: &StimulusBytes| table[number(&stimulus[2..4]) as usize][0] == 0;
    list.iter().filter(|stimulus| stimulus[0] == 1 || is_input(stimulus)).copied().collect()
}

#[test]
fn both_calls_refuse_as_the_grounds_say() {
    let mut random = Random::of_test("tables", 9);
    let (mut met, tables) = ([0; 12], cases(150_000));
    for _ in 0..tables {
        let n = random.below(30);
        let mut table = random_table(&mut random, n, true).as_flattened().to_vec();
        if random.percent(60) {
            damage(&mut random, &mut table);
        }
        met[check_table(&table, random.below(5)) as usize] += 1;
    }
    println!("accepted and by ground: {met:?}");
    let common = [0, 2, 5, 6, 7, 8, 9, 10, 11].map(|ground| met[ground]);
    assert!(tables < 1000 || common.into_iter().all(|times| times > 0));
}

#[test]
fn short_buffers_are_refused_before_records_are_read() {
    let mut random = Random::of_test("short buffers", 10);
    for _ in 0..cases(20_000) {
        let n = 1 + random.below(20);
        let mut table = random_table(&mut random, n, true).as_flattened().to_vec();
        damage(&mut random, &mut table);
        if table.len() % 16 != 0 {
            continue;
        }
        let (n, output, scratch) = (table.len() / 16, random.below(20), random.below(80));
        let expected = |a_record: usize, room: usize| match (output < n * a_record, scratch < n * room) {
            (true, _) => Some(3),
            (false, true) => Some(4),
            _ => None,
        };
        if let Some(ground) = expected(8, 2) {
            assert_eq!(certify_on(&table, output, scratch).unwrap_err().ground, ground);
        }
        if let Some(ground) = expected(1, 4) {
            assert_eq!(bench_on(&table, &[1], output, scratch).unwrap_err().ground, ground);
        }
    }
}

#[test]
fn the_largest_tables_with_and_without_loops() {
    let mut random = Random::of_test("largest tables", 11);
    for loops in [true, false, true, false] {
        let table = random_table(&mut random, 4096, loops);
        let ground = check_table(table.as_flattened(), 3);
        assert!(loops || ground == 0);
    }
}

#[test]
fn the_bench_refuses_lists_as_the_grounds_say() {
    let mut random = Random::of_test("lists", 12);
    let (mut met, tables) = ([0; 18], cases(100_000));
    for _ in 0..tables {
        let (n, length) = (1 + random.below(20), 1 + random.below(8));
        let table = random_table(&mut random, n, false);
        let records = read_records(table.as_flattened()).unwrap();
        let list = random_stimuli(&mut random, &records, length);
        let mut list = list.as_flattened().to_vec();
        damage(&mut random, &mut list);
        let answer = bench_longer(table.as_flattened(), &list, random.below(4));
        let refusal = answer.err().map(|refused| (refused.ground, refused.place));
        assert_eq!(refusal, ground_of_list(&list, &records));
        met[refusal.map_or(0, |(ground, _)| ground as usize)] += 1;
    }
    println!("accepted and by ground: {met:?}");
    let common = [0, 12, 14, 15, 16, 17].map(|ground| met[ground]);
    assert!(tables < 1000 || common.into_iter().all(|times| times > 0));
}

#[test]
fn the_bench_holds_what_a_machine_without_stored_wires_holds() {
    let mut random = Random::of_test("values", 13);
    for _ in 0..cases(40_000) {
        let (n, length) = (1 + random.below(50), random.below(40));
        let table = table_or_shape(&mut random, n);
        let records = read_records(table.as_flattened()).unwrap();
        let list = random_stimuli(&mut random, &records, length);
        let values = bench_longer(table.as_flattened(), list.as_flattened(), 0);
        assert_eq!(values, Ok(values_without_stored_wires(&records, list.as_flattened())));
    }
}

#[test]
fn one_set_of_values_satisfies_the_wires() {
    let mut random = Random::of_test("settling", 15);
    for _ in 0..cases(20_000) {
        let n = 1 + random.below(50);
        let records = read_records(random_table(&mut random, n, false).as_flattened()).unwrap();
        let state: Vec<u32> = (0..n).map(|_| random.next() as u32).collect();
        let settled = settle(&records, &state, value);
        let mut other = state.clone();
        for i in 0..n {
            if records[i].is_wire() {
                assert_eq!(settled[i], value(&records, &settled, i));
                other[i] = random.next() as u32;
            } else {
                assert_eq!(settled[i], state[i]);
            }
        }
        assert_eq!(settled, settle(&records, &other, value));
    }
}

#[test]
fn the_order_of_the_records_matters_for_nothing() {
    let mut random = Random::of_test("order", 14);
    for _ in 0..cases(20_000) {
        let n = 1 + random.below(40);
        let table = random_table(&mut random, n, true);
        let to = random.order(n);
        let moved = renumbered(&table, &to);
        let one = certify_longer(table.as_flattened(), 0);
        let other = certify_longer(moved.as_flattened(), 0);
        match (one, other) {
            (Ok((count, facts)), Ok((moved_count, moved_facts))) => {
                assert_eq!(count, moved_count);
                assert!((0..n).all(|i| facts[i] == moved_facts[to[i]]));
            }
            (Err(one), Err(other)) => assert_eq!((one.ground, other.ground), (11, 11)),
            (one, other) => panic!("{one:?} and {other:?}"),
        }
    }
}

#[test]
fn a_register_with_an_enable_does_what_a_multiplexer_and_a_register_do() {
    let mut random = Random::of_test("without enables", 20);
    for _ in 0..cases(20_000) {
        let (n, length) = (1 + random.below(40), random.below(30));
        let table = table_or_shape(&mut random, n);
        let (n, plain) = (table.len(), without_enables(&table));
        let (table, plain) = (table.as_flattened(), plain.as_flattened());
        let (count, facts) = certify_longer(plain, 0).unwrap();
        assert_eq!(certify_longer(table, 0), Ok((count, facts[..n].to_vec())));
        let list = random_stimuli(&mut random, &read_records(table).unwrap(), length);
        let values = bench_longer(plain, list.as_flattened(), 0).unwrap();
        assert_eq!(bench_longer(table, list.as_flattened(), 0), Ok(values[..n].to_vec()));
    }
}

#[test]
fn a_fixed_input_does_what_a_free_one_or_constant_0_does() {
    let mut random = Random::of_test("without fixed inputs", 24);
    for _ in 0..cases(20_000) {
        let (n, length) = (1 + random.below(40), random.below(30));
        let table = table_or_shape(&mut random, n);
        let other = without_fixed_inputs(&table);
        let list = random_stimuli(&mut random, &read_records(table.as_flattened()).unwrap(), length);
        let other_list = without_other_pokes(&list, &other);
        assert_eq!(certify_longer(table.as_flattened(), 0), certify_longer(other.as_flattened(), 0));
        let values = bench_longer(other.as_flattened(), other_list.as_flattened(), 0);
        assert!(values.is_ok());
        assert_eq!(bench_longer(table.as_flattened(), list.as_flattened(), 0), values);
    }
}
