//! The program bench, run on files: all that it prints, byte for byte. The program is the one that the
//! environment's `BENCH` names, or else the one that `rt run` builds.

#[path = "../../tests/common/mod.rs"]
mod common;
mod programs;

use common::grounds::{bench_grounds, list_that_meets, table_that_meets};
use common::hand_runs::hand_runs;
use common::printed::printed_values;
use common::samples::{one_of_each, samples, ENABLED, OPERATOR, REGISTER};
use common::shapes::{chain, random_pair, register_ring};
use common::tables::{damage, pokes_of_fixed, random_stimuli};
use common::{bench_longer, cases, constant, poke_bytes, Random, MOST_RECORDS, MOST_STIMULI, TICK};
use model::read_records;
use programs::{assert_complains, assert_prints, run, Folder, TABLES_AROUND_THE_LONGEST};
use std::path::PathBuf;

impl Folder {
    /// All that the program prints for a table and a list of stimuli.
    fn output(&self, table: &[u8], stimuli: &[u8]) -> String {
        let files = [self.file("table", table), self.file("stimuli", stimuli)];
        run("bench", &files, &[], 1).output_alone()
    }

    /// Asserts that the program prints the model's answer, with any loop of the table where there is one.
    fn assert_prints_answer(&self, table: &[u8], stimuli: &[u8]) {
        let (output, answer) = (self.output(table, stimuli), bench_longer(table, stimuli, 0));
        assert_prints(table, &output, answer, printed_values);
    }
}

#[test]
fn runs_worked_by_hand() {
    let folder = Folder::of_test("runs worked by hand");
    for run in hand_runs() {
        let printed = printed_values(&Ok(run.values));
        assert_eq!(folder.output(&run.table, &run.stimuli), printed, "{}", run.name);
    }
}

#[test]
fn whole_outputs() {
    let folder = Folder::of_test("whole outputs");
    for (name, printed) in [
        ("figure 1 of document 000", "0 2\n1 1\n2 0\n3 4\n4 2\n5 6\n6 0\n7 6\n8 6\n"),
        ("case A", "0 255\n1 0\n2 5\n3 10\n4 10\n5 15\n6 0\n"),
    ] {
        let run = hand_runs().into_iter().rfind(|run| run.name == name).expect("there is such a run");
        assert_eq!(folder.output(&run.table, &run.stimuli), printed, "{name}");
    }
}

#[test]
fn the_empty_table() {
    let folder = Folder::of_test("the empty table");
    assert_eq!(folder.output(&[], &[]), "");
    assert_eq!(folder.output(&[], &TICK.repeat(3)), "");
    assert_eq!(folder.output(&[], &poke_bytes(0, 0)), "refused 15 at 0\n");
    assert_eq!(folder.output(&[], &TICK[..7]), "refused 12 at 0\n");
}

#[test]
fn sample_tables() {
    let folder = Folder::of_test("sample tables");
    for table in samples() {
        let pokes = pokes_of_fixed(&read_records(table.as_flattened()).unwrap_or_default());
        let list = [&[TICK], &pokes[..], &[TICK, TICK]].concat();
        folder.assert_prints_answer(table.as_flattened(), list.as_flattened());
    }
}

/// What is printed on this ground for the table and the list that meet it: the table at this register, the list
/// behind so many stimuli.
fn refusal_printed(ground: u32, register: usize, behind: usize) -> String {
    match ground {
        5..=10 => format!("refused {ground} at {register}\n"),
        11 => format!("refused 11 at 1\n{OPERATOR}\n"),
        14..=17 => format!("refused {ground} at {behind}\n"),
        _ => format!("refused {ground} at 0\n"),
    }
}

#[test]
fn every_ground_alone_and_before_all_later_ones() {
    let folder = Folder::of_test("grounds");
    // The program lends its own buffers, which are never short.
    let tried: Vec<u32> = bench_grounds().filter(|ground| ![3, 4].contains(ground)).collect();
    for (place, &first) in tried.iter().enumerate() {
        for (register, behind) in [(REGISTER, 0), (REGISTER, 300), (ENABLED, 0), (ENABLED, 300)] {
            let alone = |ground: u32| ground == first;
            let with_later = |ground: u32| tried[place..].contains(&ground);
            let calls = [
                (table_that_meets(alone, register), list_that_meets(alone, behind)),
                (table_that_meets(with_later, register), list_that_meets(with_later, behind)),
            ];
            for (table, list) in calls {
                assert_eq!(folder.output(&table, &list), refusal_printed(first, register, behind));
            }
        }
    }
}

#[test]
fn tables_around_the_longest() {
    let folder = Folder::of_test("tables around the longest");
    for (length, printed) in TABLES_AROUND_THE_LONGEST {
        assert_eq!(folder.output(&vec![0; length], &[]), printed, "{length} bytes");
    }
}

/// A list that is too long is still on ground 12 where its length is no multiple of 8, so all of it counts.
#[test]
fn lists_around_the_longest() {
    let folder = Folder::of_test("lists around the longest");
    let table = one_of_each();
    let longest = MOST_STIMULI * 8;
    for from in [longest - 1, longest + 7, 2 * longest, 4 * longest, 1_000_000] {
        for length in from..from + 9 {
            let list: Vec<u8> = TICK.into_iter().cycle().take(length).collect();
            folder.assert_prints_answer(table.as_flattened(), &list);
        }
    }
}

#[test]
fn files_read_in_pieces() {
    let mut random = Random::of_test("pieces", 61);
    let folder = Folder::of_test("files read in pieces");
    let standard_input = PathBuf::from("/dev/stdin");
    for (n, length) in [(30, 5), (usize::from(MOST_RECORDS), 20), (30, MOST_STIMULI)] {
        let table = chain(&mut random, n).as_flattened().to_vec();
        let list = random_stimuli(&mut random, &read_records(&table).unwrap(), length);
        let list = list.as_flattened();
        let printed = printed_values(&bench_longer(&table, list, 0));
        let files = [folder.file("table", &table), folder.file("stimuli", list)];
        for piece in [1, 7, 1000] {
            let as_table = [standard_input.clone(), files[1].clone()];
            assert_eq!(run("bench", &as_table, &table, piece).output_alone(), printed);
            let as_stimuli = [files[0].clone(), standard_input.clone()];
            assert_eq!(run("bench", &as_stimuli, list, piece).output_alone(), printed);
        }
    }
}

#[test]
fn random_pairs() {
    let mut random = Random::of_test("printed pairs", 62);
    let folder = Folder::of_test("random pairs");
    for _ in 0..cases(100_000) / 250 {
        let (n, length) = (1 + random.below(100), random.below(20));
        let (mut table, mut list) = random_pair(&mut random, n, length);
        folder.assert_prints_answer(&table, &list);
        let damaged = if random.percent(30) { &mut table } else { &mut list };
        damage(&mut random, damaged);
        folder.assert_prints_answer(&table, &list);
    }
}

#[test]
fn largest_tables() {
    let mut random = Random::of_test("printed largest tables", 63);
    let folder = Folder::of_test("largest tables");
    for shape in [chain, register_ring] {
        let table = shape(&mut random, usize::from(MOST_RECORDS)).as_flattened().to_vec();
        let list = random_stimuli(&mut random, &read_records(&table).unwrap(), 20);
        folder.assert_prints_answer(&table, list.as_flattened());
    }
    let longest_lines = constant(32, u32::MAX).repeat(usize::from(MOST_RECORDS));
    folder.assert_prints_answer(&longest_lines, &[]);
}

#[test]
fn files_that_cannot_be_read() {
    let folder = Folder::of_test("files that cannot be read");
    let table = folder.file("table", one_of_each().as_flattened());
    let refused_tables = [folder.file("part of a record", &[0; 17]), folder.file("too long", &[0; 65_552])];
    let list = folder.file("stimuli", &TICK);
    for path in folder.unreadable() {
        assert_complains("bench", &[path.clone(), list.clone()]);
        assert_complains("bench", &[path.clone(), path.clone()]);
        for table in refused_tables.iter().chain([&table]) {
            assert_complains("bench", &[table.clone(), path.clone()]);
        }
    }
}

#[test]
fn wrong_arguments() {
    let folder = Folder::of_test("wrong arguments");
    let table = folder.file("table", one_of_each().as_flattened());
    let list = folder.file("stimuli", &TICK);
    let files = [table, list.clone(), list, folder.0.join("missing")];
    for number in [0, 1, 3, 4] {
        assert_complains("bench", &files[..number]);
    }
}
