//! The lines that the programs print for what their calls answer.

use super::orders::Billed;
use super::paths::Traced;
use super::{Answer, Refused, Values};
use model::Fact;

/// The lines that the program certify prints for an answer.
pub fn printed_certificate(answer: &Answer) -> String {
    printed(answer, |(count, facts)| {
        let line = |(variable, fact): (usize, &Fact)| match fact {
            Fact::Always(n) => format!("{variable} always {n}\n"),
            Fact::Open => format!("{variable} open\n"),
            Fact::Marked => format!("{variable} marked\n"),
        };
        let lines: String = facts.iter().enumerate().map(line).collect();
        format!("rounds {count}\n{lines}")
    })
}

/// The lines that the program bench prints for an answer.
pub fn printed_values(answer: &Values) -> String {
    printed(answer, |values| numbered_lines(values))
}

/// The lines that the program bill_order prints for an answer.
pub fn printed_bill(answer: &Billed) -> String {
    printed(answer, |(bill, shares)| format!("bill {bill}\n{}", numbered_lines(shares)))
}

/// The lines that the program trim_table prints for old numbers.
pub fn printed_numbers(numbers: &[u16]) -> String {
    numbers.iter().map(|number| format!("{number}\n")).collect()
}

/// The lines that the program trace_path prints for an answer.
pub fn printed_row(answer: &Traced) -> String {
    printed(answer, |row| row_line(row))
}

/// The line of a refusal, which the programs that write bytes print alone.
pub fn refusal_line(ground: u32, place: usize) -> String {
    format!("refused {ground} at {place}\n")
}

/// A line a number, behind its index.
fn numbered_lines(numbers: &[u32]) -> String {
    numbers.iter().enumerate().map(|(index, n)| format!("{index} {n}\n")).collect()
}

/// A row of variables in one line, single spaces between.
fn row_line(row: &[u16]) -> String {
    let row: Vec<String> = row.iter().map(|variable| variable.to_string()).collect();
    row.join(" ") + "\n"
}

/// The lines of an accepted call or, for a refusal, its line and for ground 11 a second one with the loop.
fn printed<T>(answer: &Result<T, Refused>, accepted: impl Fn(&T) -> String) -> String {
    match answer {
        Ok(answer) => accepted(answer),
        Err(Refused { ground, place, row }) => {
            let line = if *ground == 11 { row_line(row) } else { String::new() };
            refusal_line(*ground, *place) + &line
        }
    }
}
