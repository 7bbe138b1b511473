//! A table's text: one line a record, `label = kind width ..`. Reading it gives the model's records, and
//! with them the names and lines that the other commands need; writing gives bytes or text.

use crate::line::{is_decimal, is_name, lines, value, Line};
use crate::{Place, Problem};
use model::{fits, read_records, InputKind, Operator, Record, Refusal};
use std::collections::HashMap;

/// The most records that a table can have.
const MOST_RECORDS: usize = 4096;

/// The word of each operator, at the place of its code.
const OPERATORS: [&str; 9] = ["add", "sub", "and", "or", "xor", "equal", "less", "shl", "shr"];

/// How a record of each other kind is written, its word first.
const FORMS: [&str; 7] = [
    "fixed WIDTH VALUE",
    "free WIDTH",
    "secret WIDTH",
    "constant WIDTH VALUE",
    "mux WIDTH A B C",
    "register WIDTH POWER_ON A",
    "enabled WIDTH POWER_ON A B",
];

/// A table read from its text: for each record its name, if it has one, and the line that it stands on.
pub struct Table {
    pub records: Vec<Record>,
    pub names: Vec<Option<String>>,
    pub lines: Vec<usize>,
}

impl Table {
    /// What the text calls a variable: its name or else its number.
    pub fn call(&self, variable: usize) -> String {
        self.names[variable].clone().unwrap_or_else(|| variable.to_string())
    }

    /// The variable that a word of another text calls so.
    pub(crate) fn variable(&self, word: &str) -> Result<usize, String> {
        let named = || self.names.iter().position(|name| name.as_deref() == Some(word));
        find_variable(word, self.records.len(), named)
    }
}

/// The table that a text writes.
pub fn read_table(text: &str) -> Result<Table, Problem> {
    let lines: Vec<Line> = lines(text).collect();
    if let Some(line) = lines.get(MOST_RECORDS) {
        return Err(line.problem(format!("a table has at most {MOST_RECORDS} records")));
    }
    let (names, definitions): (Vec<_>, Vec<_>) =
        lines.iter().enumerate().map(split_line).collect::<Result<Vec<_>, _>>()?.into_iter().unzip();
    let places = places(&lines, &names)?;
    let variable = |word: &str| find_variable(word, lines.len(), || places.get(word).copied());
    let record = |(line, definition): (&Line, &&str)| {
        read_record(definition, variable).map_err(|what| line.problem(what))
    };
    let records = lines.iter().zip(&definitions).map(record).collect::<Result<_, _>>()?;
    let names = names.into_iter().map(|name| name.map(str::to_string)).collect();
    Ok(Table { records, names, lines: lines.iter().map(|line| line.number).collect() })
}

/// The record that each name calls. No two have the same.
fn places<'a>(lines: &[Line], names: &[Option<&'a str>]) -> Result<HashMap<&'a str, usize>, Problem> {
    let mut places = HashMap::new();
    for (i, name) in names.iter().enumerate() {
        if let Some(first) = name.and_then(|name| places.insert(name, i)) {
            return Err(lines[i].problem(format!("line {} has this name already", lines[first].number)));
        }
    }
    Ok(places)
}

/// The name before the `=` of record i's line, and the definition behind it. A number can stand in the name's
/// place, and must be the record's own.
fn split_line<'a>((i, line): (usize, &Line<'a>)) -> Result<(Option<&'a str>, &'a str), Problem> {
    let Some((label, definition)) = line.text.split_once('=') else {
        return Err(line.problem("a record is written: name = kind width .."));
    };
    let label = label.trim();
    if is_name(label) {
        return Ok((Some(label), definition));
    }
    if !is_decimal(label) {
        let what = format!("`{label}` is no name: letters, digits and _, not a digit first");
        return Err(line.problem(what));
    }
    if label.parse() != Ok(i) {
        return Err(line.problem(format!("this is record {i}, not {label}")));
    }
    Ok((None, definition))
}

/// The variable of this name, or of this number, in a table of so many records.
fn find_variable(
    word: &str,
    records: usize,
    named: impl FnOnce() -> Option<usize>,
) -> Result<usize, String> {
    if !is_decimal(word) {
        return named().ok_or_else(|| format!("no variable has the name `{word}`"));
    }
    let number = word.parse().ok().filter(|&number| number < records);
    number.ok_or_else(|| format!("there is no variable {word}: the table has {records}"))
}

/// The record that a definition writes, with variables found by the given function.
fn read_record(
    definition: &str,
    variable: impl Fn(&str) -> Result<usize, String>,
) -> Result<Record, String> {
    let words: Vec<&str> = definition.split_whitespace().collect();
    let input = |w, kind| Ok(Record::Input { width: width(w)?, kind });
    match words[..] {
        ["fixed", w, n] => input(w, InputKind::Fixed(fitting(n, w)?)),
        ["free", w] => input(w, InputKind::Free),
        ["secret", w] => input(w, InputKind::Secret),
        ["constant", w, n] => Ok(Record::Constant { width: width(w)?, n: fitting(n, w)? }),
        ["mux", w, a, b, c] => {
            let (a, b, c) = (variable(a)?, variable(b)?, variable(c)?);
            Ok(Record::Multiplexer { width: width(w)?, a, b, c })
        }
        ["register", w, n, a] => {
            Ok(Record::Register { width: width(w)?, a: variable(a)?, power_on: fitting(n, w)? })
        }
        ["enabled", w, n, a, b] => {
            let (a, b) = (variable(a)?, variable(b)?);
            Ok(Record::Enabled { width: width(w)?, a, b, power_on: fitting(n, w)? })
        }
        [word, ref operands @ ..] => match (operator(word), operands) {
            (Some(operator), &[w, a, b]) => {
                Ok(Record::Operator { width: width(w)?, operator, a: variable(a)?, b: variable(b)? })
            }
            _ => Err(wrong_form(word)),
        },
        [] => Err("a kind is missing behind `=`".to_string()),
    }
}

/// The operator with this word.
fn operator(word: &str) -> Option<Operator> {
    let code = OPERATORS.iter().position(|&other| other == word)?;
    Some(Operator::BY_CODE[code])
}

/// What to say of a record that begins with this word and is not written as its kind is.
fn wrong_form(word: &str) -> String {
    if operator(word).is_some() {
        return format!("this kind is written: {word} WIDTH A B");
    }
    match FORMS.iter().find(|form| form.split(' ').next() == Some(word)) {
        Some(form) => format!("this kind is written: {form}"),
        None => {
            let others = FORMS.map(|form| form.split(' ').next().unwrap_or(form));
            format!("there is no kind `{word}`, but {} and {}", OPERATORS.join(", "), others.join(", "))
        }
    }
}

/// The width that a word writes.
fn width(word: &str) -> Result<u32, String> {
    let width = value(word)?;
    if !(1..=32).contains(&width) {
        return Err(format!("the width {word} is not one of 1 to 32"));
    }
    Ok(width)
}

/// The value that a word writes, which must fit the width that another writes.
fn fitting(word: &str, width_word: &str) -> Result<u32, String> {
    let (n, width) = (value(word)?, width(width_word)?);
    if !fits(n, width) {
        return Err(format!("{word} does not fit the width {width}"));
    }
    Ok(n)
}

/// The 16 bytes of each record, in order.
pub fn table_bytes(records: &[Record]) -> Vec<u8> {
    records.iter().flat_map(Record::bytes).collect()
}

/// The text of a table in bytes, each variable called by its number.
pub fn table_text(bytes: &[u8]) -> Result<String, Problem> {
    let records = read_records(bytes).map_err(refused)?;
    let line = |(i, record)| format!("{i} = {}\n", record_text(record));
    Ok(records.iter().enumerate().map(line).collect())
}

/// A record as a text writes it, each variable called by its number.
fn record_text(record: &Record) -> String {
    let w = record.width();
    match *record {
        Record::Input { kind: InputKind::Fixed(n), .. } => format!("fixed {w} {n}"),
        Record::Input { kind: InputKind::Free, .. } => format!("free {w}"),
        Record::Input { kind: InputKind::Secret, .. } => format!("secret {w}"),
        Record::Constant { n, .. } => format!("constant {w} {n}"),
        Record::Operator { operator, a, b, .. } => {
            format!("{} {w} {a} {b}", OPERATORS[usize::from(operator.code())])
        }
        Record::Multiplexer { a, b, c, .. } => format!("mux {w} {a} {b} {c}"),
        Record::Register { a, power_on, .. } => format!("register {w} {power_on} {a}"),
        Record::Enabled { a, b, power_on, .. } => format!("enabled {w} {power_on} {a} {b}"),
    }
}

/// What to say of bytes that are refused as a table.
fn refused(Refusal { ground, place }: Refusal) -> Problem {
    match ground {
        1 => Place::File.problem("a table has at most 65536 bytes"),
        2 => Place::File.problem("the length is not a multiple of 16"),
        _ => Place::Record(place).problem(match ground {
            5 => "its kind, byte 0, is above 5",
            6 => "its width, byte 1, is not one of 1 to 32",
            7 => "byte 2 has no such value for its kind",
            8 => "byte 3, 10, 11 or an unused variable or value is not 0",
            9 => "it uses a variable that the table does not have",
            _ => "its value does not fit its width",
        }),
    }
}
