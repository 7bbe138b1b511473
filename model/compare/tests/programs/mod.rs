//! The programs, run as a user runs them: where each is, all that a run of it prints, and what several of them are
//! given: files, and words that are to be numbers.

#![allow(dead_code)] // each test file uses a part

use crate::common::{assert_shows_loop, Refused};
use std::ffi::OsString;
use std::fs;
use std::io::{ErrorKind, Write};
use std::os::unix::ffi::OsStringExt;
use std::path::{Path, PathBuf};
use std::process::{Command, Stdio};
use std::thread;

/// Lengths of a table of zeros around the longest, and what certify, bench, trim_table and trace_path print for it.
pub const TABLES_AROUND_THE_LONGEST: [(usize, &str); 5] = [
    (65_535, "refused 2 at 0\n"),
    (65_536, "refused 6 at 0\n"),
    (65_537, "refused 1 at 0\n"),
    (65_552, "refused 1 at 0\n"),
    (1_000_000, "refused 1 at 0\n"),
];

/// Words that are no numbers, among them digits of other scripts.
const NO_NUMBERS: [&str; 21] = [
    "", "x", "12x", "x12", "1x2", "-5", "-0", "+5", " 7", "7 ", "1 2", "7\n", "\n7", "1\n2", "0x10", "1.0",
    "1_000", "1,000", "\u{667}", "\u{ff17}", "--help",
];

/// Words that are no numbers, one of them no text either.
pub fn no_numbers() -> impl Iterator<Item = PathBuf> {
    let no_text = OsString::from_vec(vec![b'7', 255]);
    NO_NUMBERS.into_iter().map(PathBuf::from).chain([no_text.into()])
}

/// Numbers of more than 32 bits, most of them with a small one in their low bits.
pub const TOO_WIDE: [&str; 7] = [
    "4294967296",
    "4294967297",
    "0000000004294967297",
    "8589934593",
    "18446744073709551617",
    "340282366920938463463374607431768211457",
    "99999999999999999999999999",
];

/// The folder of one test, for the files that a program reads.
pub struct Folder(pub PathBuf);

impl Folder {
    pub fn of_test(name: &str) -> Folder {
        let folder = Path::new(env!("CARGO_TARGET_TMPDIR")).join(env!("CARGO_CRATE_NAME")).join(name);
        fs::create_dir_all(&folder).expect("the folder can be made");
        Folder(folder)
    }

    /// The path of the file with this name and these bytes.
    pub fn file(&self, name: &str, bytes: &[u8]) -> PathBuf {
        let path = self.0.join(name);
        fs::write(&path, bytes).expect("the file can be written");
        path
    }

    /// The path of the file with this name, with so many slashes that it has 4,095 bytes, the most that can be
    /// read.
    pub fn longest_path(&self, name: &str) -> PathBuf {
        let folder = self.0.display().to_string();
        format!("{folder}{}{name}", "/".repeat(4095 - folder.len() - name.len())).into()
    }

    /// Paths of nothing that can be read: one that is missing, a folder, one below a file, and the empty one.
    pub fn unreadable(&self) -> [PathBuf; 4] {
        let below_a_file = self.file("file", &[]).join("below it");
        [self.0.join("missing"), self.0.clone(), below_a_file, PathBuf::new()]
    }
}

/// All that a run of a program prints, on standard output and on standard error.
#[derive(Debug, PartialEq, Eq)]
pub struct Printed {
    pub output: Vec<u8>,
    pub errors: String,
}

impl Printed {
    /// The output of a run that prints text and nothing else.
    pub fn output_alone(self) -> String {
        assert_eq!(self.errors, "", "standard error");
        text(self.output)
    }
}

fn text(bytes: Vec<u8>) -> String {
    String::from_utf8(bytes).expect("the program prints text")
}

/// The named program: the one that the environment has under this name in capitals, or else the one that
/// `rt run` builds.
fn program(name: &str) -> PathBuf {
    let crates = concat!(env!("CARGO_MANIFEST_DIR"), "/../../crates");
    let built = || [crates, name, "out", name].iter().collect::<PathBuf>();
    std::env::var_os(name.to_uppercase()).map_or_else(built, PathBuf::from)
}

/// Runs the named program on these arguments and this input, which is written to it in pieces of this many
/// bytes.
pub fn run(name: &str, arguments: &[PathBuf], input: &[u8], piece: usize) -> Printed {
    let program = program(name);
    let mut command = Command::new(&program);
    command.args(arguments).stdin(Stdio::piped()).stdout(Stdio::piped()).stderr(Stdio::piped());
    let mut child = command.spawn().unwrap_or_else(|error| {
        panic!("{}: {error}; build it first: rt run in crates/{name}", program.display())
    });
    let pipe = child.stdin.take().expect("standard input is piped");
    let printed = thread::scope(|scope| {
        scope.spawn(|| write_pieces(pipe, input, piece));
        child.wait_with_output().expect("the program runs to its end")
    });
    assert!(printed.status.code().is_some(), "{name} ended by {}", printed.status);
    Printed { output: printed.stdout, errors: text(printed.stderr) }
}

/// Writes an input in pieces, as far as it is read: what is too long need not be read to its end.
fn write_pieces(mut pipe: impl Write, input: &[u8], piece: usize) {
    for piece in input.chunks(piece) {
        match pipe.write_all(piece) {
            Err(error) if error.kind() == ErrorKind::BrokenPipe => return,
            written => written.expect("standard input takes the bytes"),
        }
    }
}

/// Asserts that on these arguments and no input the program prints one line on standard error and nothing else.
/// Gives the line.
pub fn assert_complains(name: &str, arguments: &[PathBuf]) -> String {
    let Printed { output, errors } = run(name, arguments, &[], 1);
    assert_eq!(output, b"", "standard output on {arguments:?}");
    let line =
        errors.strip_suffix('\n').unwrap_or_else(|| panic!("no line in {errors:?} on {arguments:?}"));
    assert!(!line.trim().is_empty() && !line.contains('\n'), "{errors:?} is not one line on {arguments:?}");
    line.to_string()
}

/// Asserts that on these arguments the program of this command complains of this path.
pub fn assert_names(name: &str, command: &str, arguments: &[PathBuf], path: &Path) {
    let line = assert_complains(name, arguments);
    assert!(line.starts_with(&format!("{command}: {}: ", path.display())), "{line:?} on {arguments:?}");
}

/// The path with so many more bytes behind it.
pub fn lengthened(path: &Path, more: usize) -> PathBuf {
    PathBuf::from(format!("{}{}", path.display(), "x".repeat(more)))
}

/// Asserts that this output is what is printed for the model's answer on a table, with any loop of the table
/// where there is one.
pub fn assert_prints<T>(
    table: &[u8],
    output: &str,
    answer: Result<T, Refused>,
    printed: impl Fn(&Result<T, Refused>) -> String,
) {
    let answer = match answer {
        Err(Refused { ground: 11, .. }) => Err(loop_shown(table, output)),
        answer => answer,
    };
    assert_eq!(output, printed(&answer));
}

/// The refusal of a table with the row that the second line shows, which is held to be a loop.
pub fn loop_shown(table: &[u8], output: &str) -> Refused {
    let line = output.lines().nth(1).expect("a second line shows the loop");
    let number =
        |word: &str| word.parse().unwrap_or_else(|_| panic!("{word:?} in {output:?} is no variable"));
    let row: Vec<u16> = line.split(' ').map(number).collect();
    assert_shows_loop(table, &row);
    Refused { ground: 11, place: row.len(), row }
}
