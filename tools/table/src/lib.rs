//! Tables and lists of stimuli as text that people can read and write, and tables as Verilog. README.md has
//! the grammar.
//!
//! `line` splits a text into lines and words, `table` and `stimuli` take texts to bytes and back, `verilog`
//! writes a table as a module. Records, stimuli and the grounds on which bytes are refused are the model's.

mod line;
mod reserved;
mod stimuli;
mod table;
mod verilog;

pub use line::is_name;
pub use stimuli::{read_stimuli, stimuli_bytes, stimuli_text};
pub use table::{read_table, table_bytes, table_text, Table};
pub use verilog::verilog;

/// What is wrong with a file, and where in it.
#[derive(Debug, PartialEq, Eq)]
pub struct Problem {
    pub place: Place,
    pub what: String,
}

/// A place in a file. Lines are counted from 1, records and stimuli from 0.
#[derive(Debug, Clone, Copy, PartialEq, Eq)]
pub enum Place {
    File,
    Line(usize),
    Record(usize),
    Stimulus(usize),
}

impl Place {
    /// The problem at this place.
    pub fn problem(self, what: impl Into<String>) -> Problem {
        Problem { place: self, what: what.into() }
    }
}

/// The place as it stands behind a file's name.
impl std::fmt::Display for Place {
    fn fmt(&self, to: &mut std::fmt::Formatter<'_>) -> std::fmt::Result {
        match self {
            Place::File => Ok(()),
            Place::Line(n) => write!(to, ":{n}"),
            Place::Record(n) => write!(to, ": record {n}"),
            Place::Stimulus(n) => write!(to, ": stimulus {n}"),
        }
    }
}
