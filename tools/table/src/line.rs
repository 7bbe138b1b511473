//! What the two texts share: lines without their comments, names, and numbers.

use crate::{Place, Problem};

/// A line that says something: its number, counted from 1, and its text without the comment.
#[derive(Clone, Copy)]
pub(crate) struct Line<'a> {
    pub number: usize,
    pub text: &'a str,
}

impl Line<'_> {
    /// A problem of this line.
    pub fn problem(&self, what: impl Into<String>) -> Problem {
        Place::Line(self.number).problem(what)
    }
}

/// The lines of a text that have more than blanks and a comment.
pub(crate) fn lines(text: &str) -> impl Iterator<Item = Line<'_>> {
    let code = |line: &str| line.find('#').unwrap_or(line.len());
    text.lines()
        .enumerate()
        .map(move |(i, line)| Line { number: i + 1, text: line[..code(line)].trim() })
        .filter(|line| !line.text.is_empty())
}

/// Whether a word is a name: letters, digits and underscores, not a digit first.
pub fn is_name(word: &str) -> bool {
    let part = |c: char| c.is_ascii_alphanumeric() || c == '_';
    word.chars().all(part) && word.starts_with(|c: char| !c.is_ascii_digit())
}

/// Whether a word is a number in base ten, of any size.
pub(crate) fn is_decimal(word: &str) -> bool {
    !word.is_empty() && word.bytes().all(|byte| byte.is_ascii_digit())
}

/// The value that a word writes: in base ten, or in base sixteen behind `0x`.
pub(crate) fn value(word: &str) -> Result<u32, String> {
    let (digits, base) = match word.strip_prefix("0x") {
        Some(digits) => (digits, 16),
        None => (word, 10),
    };
    // from_str_radix would let a sign through.
    if digits.is_empty() || !digits.chars().all(|c| c.is_digit(base)) {
        return Err(format!("`{word}` is no number"));
    }
    u32::from_str_radix(digits, base).map_err(|_| format!("{word} is above 2^32 - 1"))
}
