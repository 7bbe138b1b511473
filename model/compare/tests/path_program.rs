//! The program trace_path, run on a file and a word: all that it prints, byte for byte. The program is the one that
//! the environment's `TRACE_PATH` names, or else the one that `rt run` builds.

#[path = "../../tests/common/mod.rs"]
mod common;
mod programs;

use common::grounds::{PathFaults, NOT_MARKED, PATH_GROUNDS};
use common::path_cases::path_cases;
use common::paths::{marked, path_longer, random_traced, random_variable};
use common::printed::{printed_row, refusal_line};
use common::samples::{add, changed, one_of_each, samples, ENABLED, MULTIPLEXER, OPERATOR, REGISTER};
use common::shapes::{chain, lattice, register_ring};
use common::tables::damage;
use common::{cases, constant, secret, Random, Table, MOST_RECORDS};
use programs::{
    assert_complains, assert_names, assert_prints, lengthened, no_numbers, run, Folder,
    TABLES_AROUND_THE_LONGEST, TOO_WIDE,
};
use std::path::PathBuf;

/// What the program says of a variable that it does not take.
const NO_NUMBER: &str = "path: the variable is no number";
const TOO_LONG: &str = "path: the variable has more than 4096 bytes";
const NEEDS_MORE: &str = "path: the variable needs more than 32 bits";

impl Folder {
    /// The arguments for a table and a word.
    fn arguments(&self, table: &[u8], word: impl Into<PathBuf>) -> [PathBuf; 2] {
        [self.file("table", table), word.into()]
    }

    /// All that the program prints for a table and a word.
    fn output(&self, table: &[u8], word: impl Into<PathBuf>) -> String {
        run("trace_path", &self.arguments(table, word), &[], 1).output_alone()
    }

    /// Asserts that the program prints the model's answer, with any loop of the table where there is one.
    fn assert_prints_answer(&self, table: &[u8], variable: u32) {
        let output = self.output(table, variable.to_string());
        assert_prints(table, &output, path_longer(table, variable, 0), printed_row);
    }
}

#[test]
fn rows_found_by_hand() {
    let folder = Folder::of_test("rows found by hand");
    for case in path_cases() {
        let output = folder.output(&case.table, case.variable.to_string());
        assert_eq!(output, printed_row(&Ok(case.row)), "{}", case.name);
    }
}

#[test]
fn whole_outputs() {
    let folder = Folder::of_test("whole outputs");
    let table = one_of_each();
    for (word, printed) in [
        ("0", "refused 23 at 0\n"),
        ("1", "refused 23 at 1\n"),
        ("2", "2\n"),
        ("3", "refused 23 at 3\n"),
        ("4", "refused 23 at 4\n"),
        ("5", "5 2\n"),
        ("6", "6 5 2\n"),
        ("7", "7 5 2\n"),
        ("8", "refused 23 at 8\n"),
        ("65538", "refused 23 at 65538\n"),
        ("4294967295", "refused 23 at 4294967295\n"),
    ] {
        assert_eq!(folder.output(table.as_flattened(), word), printed, "{word}");
    }
}

#[test]
fn the_empty_table() {
    let folder = Folder::of_test("the empty table");
    for variable in [0, 1, 65_536, u32::MAX] {
        assert_eq!(folder.output(&[], variable.to_string()), refusal_line(23, variable as usize));
    }
}

#[test]
fn sample_tables() {
    let folder = Folder::of_test("sample tables");
    for table in samples() {
        let table = table.as_flattened();
        let last = marked(table).last().copied().unwrap_or(0);
        for variable in [last, (table.len() / 16) as u32] {
            folder.assert_prints_answer(table, variable);
        }
    }
}

#[test]
fn every_ground_alone_and_before_all_later_ones() {
    let folder = Folder::of_test("grounds");
    // The program lends its own buffers, which are never short.
    for first in PATH_GROUNDS.into_iter().filter(|ground| ![3, 4].contains(ground)) {
        for variable in NOT_MARKED {
            for register in [REGISTER, ENABLED] {
                let faults = PathFaults { register, variable };
                for with_later in [false, true] {
                    let meets = |ground: u32| ground == first || with_later && ground > first;
                    let (ground, place) = faults.first(meets).expect("a ground is met");
                    let shown = if ground == 11 { format!("{OPERATOR}\n") } else { String::new() };
                    let (table, variable) = faults.given(meets);
                    let output = folder.output(&table, variable.to_string());
                    assert_eq!(output, refusal_line(ground, place) + &shown);
                }
            }
        }
    }
}

/// A loop is shown in a second line, whatever the variable is.
#[test]
fn loops() {
    let folder = Folder::of_test("loops");
    for length in [1, 2, 10, 4095, MOST_RECORDS] {
        let next = |i: u16| add((i + 1) % length);
        let table: Table = (0..length).map(next).collect();
        let row: Vec<String> = (0..length).map(|i| i.to_string()).collect();
        let printed = refusal_line(11, length.into()) + &row.join(" ") + "\n";
        for word in ["0", "4294967295"] {
            assert_eq!(folder.output(table.as_flattened(), word), printed);
        }
    }
}

#[test]
fn refusals_at_the_last_place() {
    let folder = Folder::of_test("refusals at the last place");
    let last = usize::from(MOST_RECORDS) - 1;
    for (ground, record) in [(5, changed(constant(8, 7), &[(0, 6)])), (10, constant(8, 256))] {
        let table = [&secret(8).repeat(last)[..], &record].concat();
        assert_eq!(folder.output(&table, "0"), refusal_line(ground, last));
    }
    let table = [&secret(8).repeat(last)[..], &constant(8, 7)].concat();
    assert_eq!(folder.output(&table, last.to_string()), refusal_line(23, last));
    assert_eq!(folder.output(&table, (last - 1).to_string()), format!("{}\n", last - 1));
}

#[test]
fn tables_around_the_longest() {
    let folder = Folder::of_test("tables around the longest");
    for (length, printed) in TABLES_AROUND_THE_LONGEST {
        for word in ["0", "4294967295"] {
            assert_eq!(folder.output(&vec![0; length], word), printed, "{length} bytes");
        }
    }
}

/// What is behind the longest table counts, though all before it is sound.
#[test]
fn more_bytes_than_the_longest_table() {
    let folder = Folder::of_test("more bytes than the longest table");
    let longest = secret(8).repeat(MOST_RECORDS.into());
    assert_eq!(folder.output(&longest, "4095"), "4095\n");
    for more in [1, 15, 16, 17, longest.len()] {
        let table: Vec<u8> = secret(8).into_iter().cycle().take(longest.len() + more).collect();
        assert_eq!(folder.output(&table, "4095"), "refused 1 at 0\n", "{more} more");
    }
}

#[test]
fn files_read_in_pieces() {
    let mut random = Random::of_test("pieces", 131);
    for n in [30, usize::from(MOST_RECORDS)] {
        let table = lattice(&mut random, n).as_flattened().to_vec();
        let variable = marked(&table).last().copied().unwrap_or(0);
        let printed = printed_row(&path_longer(&table, variable, 0));
        let arguments = ["/dev/stdin".into(), variable.to_string().into()];
        for piece in [1, 7, 1000] {
            assert_eq!(run("trace_path", &arguments, &table, piece).output_alone(), printed);
        }
    }
}

#[test]
fn random_calls() {
    let mut random = Random::of_test("printed rows", 132);
    let folder = Folder::of_test("random calls");
    for _ in 0..cases(100_000) / 250 {
        let n = 1 + random.below(100);
        let mut table = random_traced(&mut random, n, true).as_flattened().to_vec();
        let variable = random_variable(&mut random, &table);
        folder.assert_prints_answer(&table, variable);
        damage(&mut random, &mut table);
        folder.assert_prints_answer(&table, variable);
    }
}

/// The longest lines too: from the last register of the ring the row is through all of them.
#[test]
fn largest_tables() {
    let mut random = Random::of_test("printed rows of largest tables", 133);
    let folder = Folder::of_test("largest tables");
    for shape in [chain, lattice, register_ring] {
        let table = shape(&mut random, MOST_RECORDS.into());
        folder.assert_prints_answer(table.as_flattened(), u32::from(MOST_RECORDS) - 1);
    }
}

#[test]
fn words_with_zeros_in_front() {
    let folder = Folder::of_test("words with zeros in front");
    let table = one_of_each();
    let longest = format!("{MULTIPLEXER:0>4096}");
    for (word, printed) in [
        ("005", "5 2\n"),
        ("00", "refused 23 at 0\n"),
        ("0000000000000000000000000000000000000000000000005", "5 2\n"),
        (&longest, "5 2\n"),
        ("04294967295", "refused 23 at 4294967295\n"),
        ("00000000000000004294967295", "refused 23 at 4294967295\n"),
    ] {
        assert_eq!(folder.output(table.as_flattened(), word), printed, "{word}");
    }
}

#[test]
fn numbers_of_32_bits() {
    let folder = Folder::of_test("numbers of 32 bits");
    for number in NOT_MARKED {
        let output = folder.output(one_of_each().as_flattened(), number.to_string());
        assert_eq!(output, refusal_line(23, number as usize));
    }
}

/// Asserts that the program says this of a word, whatever the call would be refused on.
fn assert_says_of(folder: &Folder, word: impl Into<PathBuf>, line: &str) {
    let word = word.into();
    for table in [one_of_each().as_flattened(), &[0; 65_537], &[0; 17], &[]] {
        assert_eq!(assert_complains("trace_path", &folder.arguments(table, word.clone())), line);
    }
}

#[test]
fn words_that_are_no_numbers() {
    let folder = Folder::of_test("words that are no numbers");
    for word in no_numbers().chain(["x".repeat(4096).into()]) {
        assert_says_of(&folder, word, NO_NUMBER);
    }
}

#[test]
fn numbers_that_are_too_wide() {
    let folder = Folder::of_test("numbers that are too wide");
    TOO_WIDE.into_iter().for_each(|word| assert_says_of(&folder, word, NEEDS_MORE));
    assert_says_of(&folder, "9".repeat(4096), NEEDS_MORE);
}

#[test]
fn words_that_are_too_long() {
    let folder = Folder::of_test("words that are too long");
    for word in [format!("{:0>4097}", 7), "9".repeat(5000), "x".repeat(4097), "0".repeat(100_000)] {
        assert_says_of(&folder, word, TOO_LONG);
    }
}

/// The table's file is read before the word.
#[test]
fn files_that_cannot_be_read() {
    let folder = Folder::of_test("files that cannot be read");
    for path in folder.unreadable() {
        for word in ["0", "4294967295", "4294967296", "x", ""] {
            assert_names("trace_path", "path", &[path.clone(), word.into()], &path);
        }
    }
}

/// A path of 4,095 bytes is the longest that can be read, and a longer one is not cut to it.
#[test]
fn the_longest_paths() {
    let folder = Folder::of_test("the longest paths");
    folder.file("table", one_of_each().as_flattened());
    let longest = folder.longest_path("table");
    assert_eq!(run("trace_path", &[longest.clone(), "5".into()], &[], 1).output_alone(), "5 2\n");
    for more in [1, 2, 1000, 100_000] {
        assert_complains("trace_path", &[lengthened(&longest, more), "5".into()]);
    }
}

#[test]
fn a_wrong_number_of_arguments() {
    let folder = Folder::of_test("a wrong number of arguments");
    let [table, word] = folder.arguments(one_of_each().as_flattened(), "5");
    let missing = folder.0.join("missing");
    for arguments in [
        vec![],
        vec![table.clone()],
        vec![missing.clone()],
        vec!["".into()],
        vec![table.clone(), word.clone(), word.clone()],
        vec![missing, word.clone(), word.clone()],
        vec![table, word.clone(), word.clone(), word],
    ] {
        assert_eq!(assert_complains("trace_path", &arguments), "usage: path TABLE VARIABLE");
    }
}
