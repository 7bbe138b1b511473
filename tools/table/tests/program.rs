//! The program, run as a user runs it: what it writes, what it says, and its exit status.

mod examples;

use examples::{example, folder};
use std::fs;
use std::path::{Path, PathBuf};
use std::process::{Command, Output};

/// A run of the program with these arguments.
fn table<A: AsRef<std::ffi::OsStr>>(arguments: &[A]) -> Output {
    Command::new(env!("CARGO_BIN_EXE_table")).args(arguments).output().unwrap()
}

/// A file of the example case A.
fn case_a(file: &str) -> PathBuf {
    folder().join("case_a").join(file)
}

/// Asserts that a run succeeds and writes these bytes alone.
fn assert_writes<A: AsRef<std::ffi::OsStr>>(arguments: &[A], bytes: &[u8]) {
    let output = table(arguments);
    assert_eq!(String::from_utf8_lossy(&output.stderr), "");
    assert!(output.status.success());
    assert_eq!(output.stdout, bytes);
}

/// Asserts that a run ends with this status, writes nothing, and says this one line.
fn assert_says<A: AsRef<std::ffi::OsStr>>(arguments: &[A], status: i32, said: &str) {
    let output = table(arguments);
    assert_eq!(String::from_utf8_lossy(&output.stderr), format!("{said}\n"));
    assert_eq!((output.status.code(), output.stdout.as_slice()), (Some(status), &[][..]));
}

/// Runs a test on a file of these bytes that is there for its time alone.
fn with_file(name: &str, bytes: &[u8], test: impl Fn(&Path)) {
    let file = Path::new(env!("CARGO_TARGET_TMPDIR")).join(name);
    fs::write(&file, bytes).unwrap();
    test(&file);
    fs::remove_file(&file).unwrap();
}

#[test]
fn asm_and_dis() {
    let example = example("case_a");
    assert_writes(&["asm".into(), case_a("table.txt")], &example.table);
    assert_writes(&["asm".into(), case_a("table.txt"), case_a("stimuli.txt")], &example.stimuli);
    let text = "0 = secret 8\n1 = free 1\n2 = constant 8 5\n3 = register 8 0 4\n\
                4 = mux 8 1 5 3\n5 = add 8 3 2\n6 = equal 1 0 2\n";
    assert_writes(&["dis".into(), case_a("table")], text.as_bytes());
    let text = b"poke go 1\npoke key 7\ntick\npoke key 5\ntick\n";
    assert_writes(&["dis".into(), case_a("table.txt"), case_a("stimuli")], text);
}

#[test]
fn wrong_arguments() {
    let usage = "usage: table asm TABLE_TEXT [STIMULI_TEXT] | table dis TABLE | \
                 table dis TABLE_TEXT STIMULI | table verilog TABLE_TEXT [MODULE]";
    let wrong: [&[&str]; 7] =
        [&[], &["asm"], &["dis"], &["verilog"], &["asm", "a", "b", "c"], &["as", "a"], &["--help"]];
    for arguments in wrong {
        assert_says(arguments, 2, usage);
    }
    assert_says(&["verilog".into(), case_a("table.txt"), "2".into()], 2, usage);
}

#[test]
fn wrong_files() {
    let missing = folder().join("missing").display().to_string();
    let said = format!("{missing}: No such file or directory (os error 2)");
    assert_says(&["asm", &missing], 1, &said);
    with_file("text", b"a = free 1\nb = free 1 # \xff\n", |file| {
        let said = format!("{}:2: this is no text in UTF-8", file.display());
        assert_says(&["asm".as_ref(), file.as_os_str()], 1, &said);
    });
    with_file("line", b"a = free 1\n\nb = free 99\n", |file| {
        let said = format!("{}:3: the width 99 is not one of 1 to 32", file.display());
        assert_says(&["asm".as_ref(), file.as_os_str()], 1, &said);
    });
}

#[test]
fn damaged_bytes() {
    let mut bytes = example("case_a").table;
    bytes[3 * 16 + 1] = 40;
    with_file("record", &bytes, |file| {
        let said = format!("{}: record 3: its width, byte 1, is not one of 1 to 32", file.display());
        assert_says(&["dis".as_ref(), file.as_os_str()], 1, &said);
    });
    bytes[3 * 16] = 6;
    with_file("kind", &bytes, |file| {
        let said = format!("{}: record 3: its kind, byte 0, is above 5", file.display());
        assert_says(&["dis".as_ref(), file.as_os_str()], 1, &said);
    });
    with_file("length", &bytes[1..], |file| {
        let said = format!("{}: the length is not a multiple of 16", file.display());
        assert_says(&["dis".as_ref(), file.as_os_str()], 1, &said);
    });
    let mut bytes = example("case_a").stimuli;
    bytes[8 + 5] = 1;
    with_file("stimulus", &bytes, |file| {
        let said = format!("{}: stimulus 1: the value does not fit the width 8", file.display());
        assert_says(&["dis".as_ref(), case_a("table.txt").as_os_str(), file.as_os_str()], 1, &said);
    });
}
