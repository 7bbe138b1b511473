//! The repository's examples, read from their folders.

#![allow(dead_code)] // each test file uses a part

use std::fs;
use std::path::PathBuf;

/// The files of an example.
pub struct Example {
    pub name: String,
    pub table_text: String,
    pub table: Vec<u8>,
    pub stimuli_text: String,
    pub stimuli: Vec<u8>,
    pub certificate: String,
    pub values: String,
    /// Of an example that is trimmed.
    pub trimmed: Option<Trimmed>,
    /// Of an example in which a secret's path is shown.
    pub path: Option<Path>,
}

/// The further files of an example that is trimmed: the certificate's bytes, the kept variables, the trimmed
/// table and its text, and the number that each of its records had.
pub struct Trimmed {
    pub certificate: Vec<u8>,
    pub kept: Vec<u16>,
    pub table: Vec<u8>,
    pub table_text: String,
    pub numbers: Vec<u16>,
}

/// The further files of an example in which a path is shown: the variable that it begins with, and what is
/// printed of it.
pub struct Path {
    pub variable: u32,
    pub printed: String,
}

/// The folder of the examples.
pub fn folder() -> PathBuf {
    PathBuf::from(env!("CARGO_MANIFEST_DIR")).join("../../examples")
}

/// The example of this name.
pub fn example(name: &str) -> Example {
    let file = |file: &str| folder().join(name).join(file);
    let bytes = |name: &str| fs::read(file(name)).unwrap();
    let text = |name: &str| fs::read_to_string(file(name)).unwrap();
    Example {
        name: name.to_string(),
        table_text: text("table.txt"),
        table: bytes("table"),
        stimuli_text: text("stimuli.txt"),
        stimuli: bytes("stimuli"),
        certificate: text("certificate.txt"),
        values: text("values.txt"),
        trimmed: file("kept.txt").exists().then(|| Trimmed {
            certificate: bytes("certificate"),
            kept: numbers(&text("kept.txt")),
            table: bytes("trimmed"),
            table_text: text("trimmed.txt"),
            numbers: numbers(&text("numbers.txt")),
        }),
        path: file("variable.txt").exists().then(|| Path {
            variable: text("variable.txt").trim_end().parse().unwrap(),
            printed: text("path.txt"),
        }),
    }
}

/// The numbers of a text, one a line.
fn numbers(text: &str) -> Vec<u16> {
    text.lines().map(|line| line.parse().unwrap()).collect()
}

/// Every example.
pub fn examples() -> Vec<Example> {
    let entries = fs::read_dir(folder()).unwrap();
    let examples: Vec<Example> =
        entries.map(|entry| example(entry.unwrap().file_name().to_str().unwrap())).collect();
    assert!(examples.len() >= 6, "examples are missing");
    examples
}
