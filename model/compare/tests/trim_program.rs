//! The program trim_table, run on files and words in both of its forms: all that it prints, byte for byte, on
//! standard output and on standard error. The program is the one that the environment's `TRIM_TABLE` names, or
//! else the one that `rt run` builds.

#[path = "../../tests/common/mod.rs"]
mod common;
mod programs;

use common::grounds::{CertificateFault, TrimFaults, TRIM_GROUNDS};
use common::printed::{printed_numbers, refusal_line};
use common::samples::{add, changed, one_of_each, samples, ENABLED, REGISTER};
use common::shapes::{chain, register_ring};
use common::trim_cases::trim_cases;
use common::trims::{
    certificate_with, damaged, foreign_certificate, random_given, random_kept, some_certificate, Given,
    Trimmed,
};
use common::{cases, constant, Random, Refused, MOST_RECORDS};
use model::{read_records, Fact};
use programs::{
    assert_complains, assert_names, lengthened, loop_shown, no_numbers, run, Folder, Printed,
    TABLES_AROUND_THE_LONGEST, TOO_WIDE,
};
use std::path::PathBuf;

/// The most variables that the program takes.
const MOST_VARIABLES: usize = 65_536;

/// What the program says of a word that it does not take.
const NO_NUMBER: &str = "is no number";
const TOO_LONG: &str = "has more than 4096 bytes";
const NEEDS_MORE: &str = "needs more than 16 bits";

/// The words for these variables.
fn words(kept: &[u16]) -> Vec<PathBuf> {
    kept.iter().map(|variable| variable.to_string().into()).collect()
}

/// These arguments in both forms: for the trimmed table's bytes, and for the old numbers.
fn both_forms(arguments: &[PathBuf]) -> [Vec<PathBuf>; 2] {
    [arguments.to_vec(), [&["--numbers".into()], arguments].concat()]
}

/// All that the program prints in both forms, on these arguments and this input, which is written to it in
/// pieces of this many bytes.
fn run_both(arguments: &[PathBuf], input: &[u8], piece: usize) -> [Printed; 2] {
    both_forms(arguments).map(|arguments| run("trim_table", &arguments, input, piece))
}

/// Asserts that on these arguments the program prints this line on standard error in both forms, and nothing
/// else.
fn assert_says(arguments: &[PathBuf], line: &str) {
    for arguments in both_forms(arguments) {
        assert_eq!(assert_complains("trim_table", &arguments), line);
    }
}

/// What is printed in both forms for a refusal with this line.
fn printed_refusal(line: &str) -> [Printed; 2] {
    [line; 2].map(|line| Printed { output: vec![], errors: line.to_string() })
}

/// What is printed in both forms for an answer.
fn printed(answer: &Trimmed) -> [Printed; 2] {
    match answer {
        Ok((trimmed, numbers)) => [trimmed.clone(), printed_numbers(numbers).into_bytes()]
            .map(|output| Printed { output, errors: String::new() }),
        Err(refused) => printed_refusal(&refusal_line(refused.ground, refused.place)),
    }
}

fn refusal(ground: u32, place: usize) -> Trimmed {
    Err(Refused { ground, place, row: vec![] })
}

/// The model's answer. For ground 11, where any loop will do and its length alone is printed, with the loop that
/// the program certify shows.
fn answer(given: &Given) -> Trimmed {
    match given.trim_longer(0) {
        Err(Refused { ground: 11, .. }) => {
            let shown = run("certify", &[], &given.table, given.table.len()).output_alone();
            Err(loop_shown(&given.table, &shown))
        }
        answer => answer,
    }
}

impl Folder {
    /// The files of a table and of a certificate.
    fn files(&self, given: &Given) -> [PathBuf; 2] {
        [self.file("table", &given.table), self.file("certificate", &given.certificate)]
    }

    /// Asserts that the program prints this answer.
    fn assert_prints(&self, given: &Given, answer: &Trimmed) {
        let arguments = [&self.files(given)[..], &words(&given.kept)].concat();
        assert_eq!(run_both(&arguments, &[], 1), printed(answer));
    }

    /// Asserts that the program prints the model's answer.
    fn assert_prints_answer(&self, given: &Given) {
        self.assert_prints(given, &answer(given));
    }
}

#[test]
fn tables_trimmed_by_hand() {
    let folder = Folder::of_test("tables trimmed by hand");
    for case in trim_cases() {
        println!("case {}", case.name);
        folder.assert_prints(&case.given, &Ok((case.trimmed, case.numbers)));
    }
}

#[test]
fn whole_outputs() {
    let folder = Folder::of_test("whole outputs");
    let given = Given::own(one_of_each().as_flattened(), &[]);
    let files = folder.files(&given);
    for (line, records, numbers) in [
        ("3", 4, "0\n1\n2\n3\n"),
        ("5", 4, "0\n1\n2\n5\n"),
        ("6 3", 6, "0\n1\n2\n3\n5\n6\n"),
        ("7", 6, "0\n1\n2\n5\n6\n7\n"),
        ("7 3 4", 8, "0\n1\n2\n3\n4\n5\n6\n7\n"),
    ] {
        let words: Vec<PathBuf> = line.split(' ').map(Into::into).collect();
        let [bytes, old_numbers] = run_both(&[&files[..], &words].concat(), &[], 1);
        assert_eq!((bytes.output.len(), bytes.errors.as_str()), (16 * records, ""), "{line}");
        // The inputs are in front.
        assert_eq!(bytes.output[..48], given.table[..48], "{line}");
        assert_eq!(old_numbers.output_alone(), numbers, "{line}");
    }
}

#[test]
fn the_empty_table() {
    let folder = Folder::of_test("the empty table");
    let empty = Given { table: vec![], certificate: vec![], kept: vec![] };
    folder.assert_prints(&empty, &Ok((vec![], vec![])));
    for variable in [0, 1, 65_535] {
        folder.assert_prints(&Given { kept: vec![variable], ..empty.clone() }, &refusal(20, 0));
    }
    for length in [1, 7, 8, 16, 32_768, 32_769] {
        folder.assert_prints(&Given { certificate: vec![2; length], ..empty.clone() }, &refusal(22, 0));
    }
}

#[test]
fn sample_tables() {
    let folder = Folder::of_test("sample tables");
    for table in samples() {
        let (n, table) = (table.len() as u16, table.as_flattened().to_vec());
        let certificate = some_certificate(&table);
        let given = |kept| Given { table: table.clone(), certificate: certificate.clone(), kept };
        for kept in [vec![n.saturating_sub(1)], vec![0, n]] {
            folder.assert_prints_answer(&given(kept));
        }
    }
}

#[test]
fn every_ground_alone_and_before_all_later_ones() {
    let folder = Folder::of_test("grounds");
    // The program lends its own buffers, which are never short.
    for first in TRIM_GROUNDS.into_iter().filter(|ground| ![4, 21].contains(ground)) {
        for (variable, certificate) in CertificateFault::ALL.into_iter().enumerate() {
            for (register, kept) in [(REGISTER, 0), (ENABLED, 300)] {
                let faults = TrimFaults { register, kept, short: [false; 2], certificate, variable };
                for with_later in [false, true] {
                    let meets = |ground: u32| ground == first || with_later && ground > first;
                    let (ground, place) = faults.first(meets).expect("a ground is met");
                    assert_eq!(ground, first);
                    folder.assert_prints(&faults.given(meets), &refusal(ground, place));
                }
            }
        }
    }
}

/// A loop is refused by the line with its length, and its variables are not shown.
#[test]
fn loops() {
    let folder = Folder::of_test("loops");
    for length in [1, 2, 10, 4095, MOST_RECORDS] {
        let next = |i: u16| add((i + 1) % length);
        let table: Vec<_> = (0..length).map(next).collect();
        let table = table.as_flattened().to_vec();
        let given = Given { table, certificate: vec![], kept: vec![65_535] };
        folder.assert_prints(&given, &refusal(11, length.into()));
    }
}

#[test]
fn refusals_at_the_last_place() {
    let folder = Folder::of_test("refusals at the last place");
    let last = usize::from(MOST_RECORDS) - 1;
    let sound = Given::own(&constant(8, 7).repeat(last + 1), &[0]);
    let with_record = |record: [u8; 16]| {
        let table = [&sound.table[..last * 16], &record].concat();
        Given { table, ..sound.clone() }
    };
    let with_fact = |fact: [u8; 8]| {
        let certificate = [&sound.certificate[..last * 8], &fact].concat();
        Given { certificate, ..sound.clone() }
    };
    for (ground, given) in [
        (5, with_record(changed(constant(8, 7), &[(0, 6)]))),
        (10, with_record(constant(8, 256))),
        (22, with_fact([4, 0, 0, 0, 0, 0, 0, 0])),
        (22, with_fact(Fact::Always(256).bytes())),
    ] {
        folder.assert_prints(&given, &refusal(ground, last));
    }
}

#[test]
fn tables_around_the_longest() {
    let folder = Folder::of_test("tables around the longest");
    for (length, line) in TABLES_AROUND_THE_LONGEST {
        for (certificate, kept) in [(0, vec![]), (length / 2, vec![65_535])] {
            let given = Given { table: vec![0; length], certificate: vec![2; certificate], kept };
            let arguments = [&folder.files(&given)[..], &words(&given.kept)].concat();
            assert_eq!(run_both(&arguments, &[], 1), printed_refusal(line), "{length} bytes");
        }
    }
}

/// What is behind the longest table counts, though all before it is sound.
#[test]
fn more_bytes_than_the_longest_table() {
    let folder = Folder::of_test("more bytes than the longest table");
    let record = constant(8, 7);
    let longest = Given::own(&record.repeat(MOST_RECORDS.into()), &[MOST_RECORDS - 1]);
    folder.assert_prints(&longest, &Ok((record.to_vec(), vec![MOST_RECORDS - 1])));
    for more in [1, 15, 16, 17, longest.table.len()] {
        let table: Vec<u8> = record.into_iter().cycle().take(longest.table.len() + more).collect();
        let certificates = [longest.certificate.clone(), some_certificate(&table)];
        for certificate in certificates {
            folder.assert_prints(
                &Given { table: table.clone(), certificate, ..longest.clone() },
                &refusal(1, 0),
            );
        }
    }
}

/// A certificate that is too long is refused though all in front of what is too much is right.
#[test]
fn certificates_around_the_right_length() {
    let folder = Folder::of_test("certificates around the right length");
    for n in [0, 1, 8, 4095, usize::from(MOST_RECORDS)] {
        let (right, last) = (8 * n, n.checked_sub(1).map(|last| last as u16));
        let around = [0, right.saturating_sub(8), right.saturating_sub(1), right, right + 1, right + 8];
        let around_the_longest = [32_759, 32_760, 32_767, 32_768, 32_769, 32_776, 65_536, 1_000_000];
        for length in around.into_iter().chain(around_the_longest) {
            let certificate: Vec<u8> = Fact::Always(9).bytes().into_iter().cycle().take(length).collect();
            let kept: Vec<u16> = last.into_iter().collect();
            let trimmed = Ok((constant(8, 9).repeat(kept.len()), kept.clone()));
            let given = Given { table: constant(8, 7).repeat(n), certificate, kept };
            folder.assert_prints(&given, &if length == right { trimmed } else { refusal(22, 0) });
        }
    }
}

#[test]
fn files_read_in_pieces() {
    let mut random = Random::of_test("pieces", 101);
    let folder = Folder::of_test("files read in pieces");
    let standard_input = PathBuf::from("/dev/stdin");
    for n in [30, usize::from(MOST_RECORDS)] {
        let table = chain(&mut random, n);
        let certificate = foreign_certificate(&mut random, &read_records(table.as_flattened()).unwrap());
        let kept = random_kept(&mut random, n);
        let given = Given { table: table.as_flattened().to_vec(), certificate, kept };
        let (files, words, printed) = (folder.files(&given), words(&given.kept), printed(&answer(&given)));
        for piece in [1, 7, 1000] {
            let as_table = [&[standard_input.clone(), files[1].clone()], &words[..]].concat();
            assert_eq!(run_both(&as_table, &given.table, piece), printed);
            let as_certificate = [&[files[0].clone(), standard_input.clone()], &words[..]].concat();
            assert_eq!(run_both(&as_certificate, &given.certificate, piece), printed);
        }
    }
}

#[test]
fn random_calls() {
    let mut random = Random::of_test("printed calls", 102);
    let folder = Folder::of_test("random calls");
    for _ in 0..cases(100_000) / 250 {
        let n = 1 + random.below(100);
        let given = random_given(&mut random, n);
        folder.assert_prints_answer(&given);
        folder.assert_prints_answer(&damaged(&mut random, given));
    }
}

#[test]
fn largest_tables() {
    let mut random = Random::of_test("printed largest tables", 103);
    let folder = Folder::of_test("largest tables");
    let n = usize::from(MOST_RECORDS);
    for shape in [chain, register_ring] {
        let table = shape(&mut random, n);
        let foreign = foreign_certificate(&mut random, &read_records(table.as_flattened()).unwrap());
        let given = |certificate, kept| Given { table: table.as_flattened().to_vec(), certificate, kept };
        folder.assert_prints_answer(&given(foreign, random_kept(&mut random, n)));
        // All that a trimmed table can have, and all numbers.
        let all = given(certificate_with(&vec![Fact::Marked; n]), (0..MOST_RECORDS).collect());
        folder.assert_prints(&all, &Ok((all.table.clone(), all.kept.clone())));
    }
}

#[test]
fn no_variables_and_repeated_ones() {
    let folder = Folder::of_test("no variables and repeated ones");
    let given = Given::one_of_each();
    let inputs = (given.table[..48].to_vec(), vec![0, 1, 2]);
    folder.assert_prints(&Given { kept: vec![], ..given.clone() }, &Ok(inputs.clone()));
    folder.assert_prints(&Given { kept: vec![1; 100], ..given.clone() }, &Ok(inputs));
    for variable in 0..8 {
        let once = answer(&Given { kept: vec![variable], ..given.clone() });
        for length in [2, 3, 1000] {
            folder.assert_prints(&Given { kept: vec![variable; length], ..given.clone() }, &once);
        }
    }
}

/// As many variables as the program takes, of which the last is still read.
#[test]
fn the_most_variables() {
    let folder = Folder::of_test("the most variables");
    let given = Given::one_of_each();
    for length in [MOST_VARIABLES - 1, MOST_VARIABLES] {
        let mut kept = vec![1; length];
        kept[length - 1] = 7;
        folder.assert_prints_answer(&Given { kept: kept.clone(), ..given.clone() });
        kept[length - 1] = 8;
        folder.assert_prints(&Given { kept, ..given.clone() }, &refusal(20, length - 1));
    }
    folder.assert_prints(&Given { kept: (0..=65_535).collect(), ..given }, &refusal(20, 8));
}

#[test]
fn more_variables_than_the_program_takes() {
    let folder = Folder::of_test("more variables than the program takes");
    let files = folder.files(&Given::one_of_each());
    let too_many = "trim: more than 65536 variables";
    let with_words = |words: &[PathBuf]| [&files[..], words].concat();
    for length in [MOST_VARIABLES + 1, 100_000] {
        for variable in [7, 8] {
            let mut words = words(&vec![variable; length]);
            assert_says(&with_words(&words), too_many);
            words[MOST_VARIABLES] = "x".into();
            assert_says(&with_words(&words), too_many);
            // A word that is none is met first.
            words[MOST_VARIABLES - 1] = "x".into();
            assert_says(&with_words(&words), "trim: the variable at place 65535 is no number");
        }
    }
}

#[test]
fn words_with_zeros_in_front() {
    let folder = Folder::of_test("words with zeros in front");
    let given = Given::one_of_each();
    let files = folder.files(&given);
    let longest = format!("{:0>4096}", 6);
    for (line, kept) in [
        ("007", vec![7]),
        ("00", vec![0]),
        ("05 5 0000000000000000000000000000000000000000000000005", vec![5]),
        (&longest, vec![6]),
        ("0 08", vec![0, 8]),
        ("065535", vec![65_535]),
        ("00000000000065535", vec![65_535]),
    ] {
        let words: Vec<PathBuf> = line.split(' ').map(Into::into).collect();
        let answer = answer(&Given { kept, ..given.clone() });
        assert_eq!(run_both(&[&files[..], &words].concat(), &[], 1), printed(&answer), "{line}");
    }
}

#[test]
fn numbers_of_16_bits() {
    let folder = Folder::of_test("numbers of 16 bits");
    let given = Given::one_of_each();
    for number in [8, 9, 255, 256, 4095, 4096, 4103, 32_767, 32_768, 65_534, 65_535] {
        folder.assert_prints(&Given { kept: vec![number], ..given.clone() }, &refusal(20, 0));
        folder.assert_prints(&Given { kept: vec![7, 0, number, number], ..given.clone() }, &refusal(20, 2));
    }
}

/// Asserts that the program says this of a word, wherever it stands, whatever stands behind it, and whatever the
/// call would be refused on.
fn assert_says_of(folder: &Folder, word: impl Into<PathBuf>, what: &str) {
    let word = word.into();
    let sound = Given::one_of_each();
    let refused = Given { table: vec![0; 65_537], certificate: vec![], kept: vec![] };
    for given in [sound, refused] {
        let files = folder.files(&given);
        for (before, behind) in [(vec![], ""), (vec![65_535], "x"), (vec![7; 300], "65536")] {
            let line = format!("trim: the variable at place {} {what}", before.len());
            let mut arguments = [&files[..], &words(&before)].concat();
            arguments.push(word.clone());
            assert_says(&arguments, &line);
            arguments.push(behind.into());
            assert_says(&arguments, &line);
        }
    }
}

#[test]
fn words_that_are_no_numbers() {
    let folder = Folder::of_test("words that are no numbers");
    for word in no_numbers().chain(["--numbers".into(), "x".repeat(4096).into()]) {
        assert_says_of(&folder, word, NO_NUMBER);
    }
}

#[test]
fn numbers_that_are_too_wide() {
    let folder = Folder::of_test("numbers that are too wide");
    // Most have a variable of the table in their low 16 bits.
    for word in
        ["65536", "65537", "000065543", "131071", "131072", "2147483655", "4294901767", "4294967295"]
    {
        assert_says_of(&folder, word, NEEDS_MORE);
    }
    for word in TOO_WIDE {
        assert_says_of(&folder, word, NEEDS_MORE);
    }
    assert_says_of(&folder, "9".repeat(4096), NEEDS_MORE);
}

#[test]
fn words_that_are_too_long() {
    let folder = Folder::of_test("words that are too long");
    for word in [format!("{:0>4097}", 7), "9".repeat(5000), "x".repeat(4097), "0".repeat(100_000)] {
        assert_says_of(&folder, word, TOO_LONG);
    }
}

/// The table's file is read first, then the certificate's and then the words: the first that cannot be is named.
#[test]
fn files_that_cannot_be_read() {
    let folder = Folder::of_test("files that cannot be read");
    let [table, certificate] = folder.files(&Given::one_of_each());
    let missing = folder.0.join("missing too");
    let refused = [folder.file("part of a record", &[0; 17]), folder.file("too long", &[0; 65_552])];
    for path in folder.unreadable() {
        let of_table = [&certificate, &missing].map(|other| [&path, other]);
        let of_certificate = [&table, &refused[0], &refused[1]].map(|other| [other, &path]);
        for files in of_table.into_iter().chain(of_certificate) {
            for words in [vec![], vec!["7"], vec!["65535"], vec!["65536"], vec!["7", "x"]] {
                let words: Vec<PathBuf> = words.into_iter().map(Into::into).collect();
                for arguments in both_forms(&[&files.map(PathBuf::clone)[..], &words].concat()) {
                    assert_names("trim_table", "trim", &arguments, &path);
                }
            }
        }
    }
}

/// A path of 4,095 bytes is the longest that can be read, and a longer one is not cut to it.
#[test]
fn the_longest_paths() {
    let folder = Folder::of_test("the longest paths");
    let given = Given::one_of_each();
    let [table, certificate] = folder.files(&given);
    let files = ["table", "certificate"].map(|name| folder.longest_path(name));
    assert_eq!(run_both(&[&files[..], &words(&given.kept)].concat(), &[], 1), printed(&answer(&given)));
    for more in [1, 2, 1000, 100_000] {
        let [long_table, long_certificate] = files.each_ref().map(|path| lengthened(path, more));
        for files in [[long_table, certificate.clone()], [table.clone(), long_certificate]] {
            for arguments in both_forms(&files) {
                assert_complains("trim_table", &arguments);
            }
        }
    }
}

#[test]
fn too_few_arguments() {
    let folder = Folder::of_test("too few arguments");
    let [table, _] = folder.files(&Given::one_of_each());
    for arguments in [vec![], vec![table], vec![folder.0.join("missing")], vec!["".into()]] {
        assert_says(&arguments, "usage: trim [--numbers] TABLE CERTIFICATE VARIABLE...");
    }
}

/// Only the first word asks for the numbers, and only as a whole. Any other is a path.
#[test]
fn words_that_do_not_ask_for_numbers() {
    let folder = Folder::of_test("words that do not ask for numbers");
    let files = folder.files(&Given::one_of_each());
    for word in ["--number", "--numberS", "--numbers?", "--numbers=7", "-numbers", "--bytes", "--", "-"] {
        assert_names("trim_table", "trim", &[&[word.into()], &files[..]].concat(), word.as_ref());
    }
    let word = PathBuf::from("--numbers");
    let twice = [&[word.clone(), word.clone()], &files[..]].concat();
    let between = [files[0].clone(), word.clone(), files[1].clone()];
    for arguments in [&twice[..], &between] {
        assert_names("trim_table", "trim", arguments, &word);
    }
}
