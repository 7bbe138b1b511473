//! The command line around the library. Exit status: 0 done, 1 a file is wrong, 2 the arguments are.

use std::ffi::OsString;
use std::io::Write;
use std::process::ExitCode;
use std::{env, fs, io};
use table::{
    is_name, read_stimuli, read_table, stimuli_bytes, stimuli_text, table_bytes, table_text, verilog,
    Place, Problem, Table,
};

const USAGE: &str = "usage: table asm TABLE_TEXT [STIMULI_TEXT] | table dis TABLE | \
                     table dis TABLE_TEXT STIMULI | table verilog TABLE_TEXT [MODULE]";

/// Why a command writes nothing: its arguments are wrong, or something that is to be said of a file.
enum Failure {
    Usage,
    File(String),
}

fn main() -> ExitCode {
    let arguments: Vec<OsString> = env::args_os().skip(1).collect();
    match run(&arguments).and_then(print) {
        Ok(()) => ExitCode::SUCCESS,
        Err(Failure::File(what)) => {
            eprintln!("{what}");
            ExitCode::from(1)
        }
        Err(Failure::Usage) => {
            eprintln!("{USAGE}");
            ExitCode::from(2)
        }
    }
}

/// What a command writes, made whole before any of it is written.
fn run(arguments: &[OsString]) -> Result<Vec<u8>, Failure> {
    let Some((command, files)) = arguments.split_first() else {
        return Err(Failure::Usage);
    };
    match (command.to_str(), files) {
        (Some("asm"), [table]) => Ok(table_bytes(&table_of(table)?.records)),
        (Some("asm"), [table, stimuli]) => {
            let (table, text) = (table_of(table)?, text_of(stimuli)?);
            let list = read_stimuli(&table, &text).map_err(|problem| about(stimuli, problem))?;
            Ok(stimuli_bytes(&list))
        }
        (Some("dis"), [table]) => {
            let text = table_text(&bytes_of(table)?).map_err(|problem| about(table, problem))?;
            Ok(text.into_bytes())
        }
        (Some("dis"), [table, stimuli]) => {
            let (table, bytes) = (table_of(table)?, bytes_of(stimuli)?);
            let text = stimuli_text(&table, &bytes).map_err(|problem| about(stimuli, problem))?;
            Ok(text.into_bytes())
        }
        (Some("verilog"), [table]) => module_of(table, "circuit"),
        (Some("verilog"), [table, module]) => match module.to_str() {
            Some(module) if is_name(module) => module_of(table, module),
            _ => Err(Failure::Usage),
        },
        _ => Err(Failure::Usage),
    }
}

/// The Verilog module for the table that a file's text writes.
fn module_of(file: &OsString, module: &str) -> Result<Vec<u8>, Failure> {
    let text = verilog(&table_of(file)?, module).map_err(|problem| about(file, problem))?;
    Ok(text.into_bytes())
}

/// The table that a file's text writes.
fn table_of(file: &OsString) -> Result<Table, Failure> {
    read_table(&text_of(file)?).map_err(|problem| about(file, problem))
}

/// A file's text.
fn text_of(file: &OsString) -> Result<String, Failure> {
    String::from_utf8(bytes_of(file)?).map_err(|error| {
        let before = &error.as_bytes()[..error.utf8_error().valid_up_to()];
        let line = 1 + before.iter().filter(|&&byte| byte == b'\n').count();
        about(file, Place::Line(line).problem("this is no text in UTF-8"))
    })
}

/// A file's bytes.
fn bytes_of(file: &OsString) -> Result<Vec<u8>, Failure> {
    fs::read(file).map_err(|error| about(file, Place::File.problem(error.to_string())))
}

/// What is to be said of a problem in a file.
fn about(file: &OsString, Problem { place, what }: Problem) -> Failure {
    Failure::File(format!("{}{place}: {what}", file.display()))
}

/// Writes all of it to standard output.
fn print(output: Vec<u8>) -> Result<(), Failure> {
    let mut stdout = io::stdout().lock();
    let written = stdout.write_all(&output).and_then(|()| stdout.flush());
    written.map_err(|error| Failure::File(format!("standard output: {error}")))
}
