//! Texts to bytes and back: on all examples, on random tables and lists, and on damaged bytes and texts.

#[path = "../../../model/tests/common/mod.rs"]
mod common;
mod examples;

use common::samples::samples;
use common::shapes::random_pair;
use common::tables::damage;
use common::{
    bench_longer, cases, constant, enabled, fixed, free, multiplexer, operator, register, secret, Random,
    MOST_RECORDS, MOST_STIMULI, TICK,
};
use examples::examples;
use model::{read_records, Operator, Refusal};
use table::{
    read_stimuli, read_table, stimuli_bytes, stimuli_text, table_bytes, table_text, Place, Problem, Table,
};

/// The bytes of the table that a text writes, which the model reads as the same records.
fn asm(text: &str) -> Vec<u8> {
    let table = read_table(text).unwrap();
    let bytes = table_bytes(&table.records);
    assert_eq!(read_records(&bytes), Ok(table.records));
    bytes
}

/// The bytes of the list that a text writes for a table.
fn asm_list(table: &Table, text: &str) -> Vec<u8> {
    stimuli_bytes(&read_stimuli(table, text).unwrap())
}

/// Asserts that a table's bytes give a text that gives the bytes again.
fn assert_round_trip(bytes: &[u8]) {
    let text = table_text(bytes).unwrap();
    assert_eq!(asm(&text), bytes);
}

/// Asserts that a list's bytes give a text that gives the bytes again.
fn assert_list_round_trip(table: &Table, bytes: &[u8]) {
    let text = stimuli_text(table, bytes).unwrap();
    assert_eq!(asm_list(table, &text), bytes);
}

/// A table's text with names of random variables in place of their numbers.
fn named(random: &mut Random, bytes: &[u8]) -> String {
    let records = read_records(bytes).unwrap();
    let calls: Vec<String> = (0..records.len())
        .map(|i| if random.percent(50) { format!("x{i}") } else { i.to_string() })
        .collect();
    let text = table_text(bytes).unwrap();
    let line = |(i, line): (usize, &str)| {
        let words: Vec<&str> = line.split(' ').collect();
        // A record's variables are its last words.
        let (first, uses) = words.split_at(words.len() - records[i].uses().count());
        let uses: Vec<&str> =
            uses.iter().map(|word| calls[word.parse::<usize>().unwrap()].as_str()).collect();
        format!("{} {} {} # {i}\r\n\n", calls[i], first[1..].join(" "), uses.join("\t"))
    };
    text.lines().enumerate().map(line).collect()
}

#[test]
fn every_kind() {
    let inputs = "0 = fixed 4 9\n1 = free 32\n2 = secret 0x10\n";
    let others = "n = constant 8 0xFf\nm = mux 8 0 1 2\nr = register 3 5 n\ne = enabled 3 6 n m\n";
    let words = ["add", "sub", "and", "or", "xor", "equal", "less", "shl", "shr"];
    let operators: String = words.map(|word| format!("{word} = {word} 7 1 2\n")).concat();
    let text = [inputs, others, &operators].concat();
    let inputs = [fixed(4, 9), free(32), secret(16)];
    let others = [constant(8, 255), multiplexer(8, 0, 1, 2), register(3, 5, 3), enabled(3, 6, 3, 4)];
    let operators = Operator::BY_CODE.map(|code| operator(code, 7, 1, 2));
    assert_eq!(asm(&text), [&inputs[..], &others, &operators].concat().as_flattened());
}

#[test]
fn every_example() {
    for example in examples() {
        let table = read_table(&example.table_text).unwrap();
        assert_eq!(asm(&example.table_text), example.table, "{}", example.name);
        assert_eq!(asm_list(&table, &example.stimuli_text), example.stimuli, "{}", example.name);
        assert_round_trip(&example.table);
        assert_list_round_trip(&table, &example.stimuli);
    }
}

#[test]
fn every_sample() {
    for table in samples() {
        match read_records(table.as_flattened()) {
            Ok(_) => assert_round_trip(table.as_flattened()),
            Err(refusal) => assert_names(refusal, table_text(table.as_flattened()).unwrap_err()),
        }
    }
}

#[test]
fn random_tables_and_lists() {
    let mut random = Random::of_test("round trips", 41);
    for _ in 0..cases(100_000) / 50 {
        let (n, length) = (1 + random.below(60), random.below(40));
        let (bytes, list) = random_pair(&mut random, n, length);
        assert_round_trip(&bytes);
        let text = named(&mut random, &bytes);
        assert_eq!(asm(&text), bytes);
        assert_list_round_trip(&read_table(&text).unwrap(), &list);
    }
}

#[test]
fn largest_tables_and_lists() {
    let mut random = Random::of_test("largest round trips", 42);
    let (bytes, list) = random_pair(&mut random, usize::from(MOST_RECORDS), MOST_STIMULI);
    assert_round_trip(&bytes);
    let text = named(&mut random, &bytes);
    assert_eq!(asm(&text), bytes);
    assert_list_round_trip(&read_table(&text).unwrap(), &list);
    let ticks = format!("tick {MOST_STIMULI}");
    assert_eq!(asm_list(&read_table("").unwrap(), &ticks), [TICK; MOST_STIMULI].as_flattened());
}

/// Asserts that a problem stands where a refusal by one of grounds 1, 2 and 5 to 10 does.
fn assert_names(refusal: Refusal, problem: Problem) {
    let place = match refusal {
        Refusal { ground: 1 | 2, .. } => Place::File,
        Refusal { place, .. } => Place::Record(place),
    };
    assert_eq!(problem.place, place, "{refusal:?}");
}

#[test]
fn damaged_tables() {
    let mut random = Random::of_test("damaged tables", 43);
    for _ in 0..cases(100_000) / 20 {
        let n = 1 + random.below(20);
        let mut bytes = random_pair(&mut random, n, 0).0;
        damage(&mut random, &mut bytes);
        match read_records(&bytes) {
            Ok(_) => assert_round_trip(&bytes),
            Err(refusal) => assert_names(refusal, table_text(&bytes).unwrap_err()),
        }
    }
}

#[test]
fn damaged_lists() {
    let mut random = Random::of_test("damaged lists", 44);
    for _ in 0..cases(100_000) / 20 {
        let n = 1 + random.below(20);
        let (bytes, mut list) = random_pair(&mut random, n, 10);
        let table = read_table(&table_text(&bytes).unwrap()).unwrap();
        damage(&mut random, &mut list);
        match bench_longer(&bytes, &list, 0) {
            Ok(_) => assert_list_round_trip(&table, &list),
            Err(refused) if refused.ground == 11 => (),
            Err(refused) => {
                let place = if refused.ground == 12 { Place::File } else { Place::Stimulus(refused.place) };
                assert_eq!(stimuli_text(&table, &list).unwrap_err().place, place, "{refused:?}");
            }
        }
    }
}

/// A text with some characters dropped, doubled or exchanged for others.
fn damaged_text(random: &mut Random, text: &str) -> String {
    let mut characters: Vec<char> = text.chars().collect();
    for _ in 0..1 + random.below(4) {
        let place = random.below(characters.len());
        match random.below(3) {
            0 => drop(characters.remove(place)),
            1 => characters.insert(place, characters[place]),
            _ => characters[place] = random.pick(&['0', '9', 'x', '=', ' ', '\n', '#', '-', '+', 'é']),
        }
    }
    characters.into_iter().collect()
}

#[test]
fn damaged_texts_are_read_or_have_a_line_that_is_wrong() {
    let mut random = Random::of_test("damaged texts", 45);
    let examples = examples();
    for _ in 0..cases(100_000) / 20 {
        let example = &examples[random.below(examples.len())];
        let text = damaged_text(&mut random, &example.table_text);
        let lines = 1..=text.lines().count();
        match read_table(&text) {
            Ok(table) => assert_eq!(read_records(&table_bytes(&table.records)), Ok(table.records)),
            Err(problem) => assert!(matches!(problem.place, Place::Line(n) if lines.contains(&n))),
        }
        let table = read_table(&example.table_text).unwrap();
        let text = damaged_text(&mut random, &example.stimuli_text);
        let lines = 1..=text.lines().count();
        match read_stimuli(&table, &text) {
            Ok(list) => assert_list_round_trip(&table, &stimuli_bytes(&list)),
            Err(problem) => assert!(matches!(problem.place, Place::Line(n) if lines.contains(&n))),
        }
    }
}
