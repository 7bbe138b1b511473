//! Request S-8, "The path a secret takes": what a record uses under the certificate, the length of a shortest row
//! from each marked variable to a secret input, the row that is taken, and the call with its ground 23.

use crate::table::accept;
use crate::{rounds, Asked, Fact, InputKind, Record, Refusal};

/// What the path call asks: a number a variable, and the scratch.
pub const PATH_ASKS: Asked = Asked { output: 1, scratch: 8 };

impl Record {
    /// Whether the record is a secret input.
    fn is_secret(&self) -> bool {
        matches!(self, Record::Input { kind: InputKind::Secret, .. })
    }

    /// The variables that the record uses under a certificate. Of a multiplexer whose control is always a number
    /// these are the control and the arm taken: an arm passed over is not a use.
    fn uses_under(&self, facts: &[Fact]) -> Vec<usize> {
        match *self {
            Record::Multiplexer { a, b, c, .. } => match facts[a] {
                Fact::Always(0) => vec![a, c],
                Fact::Always(_) => vec![a, b],
                Fact::Open | Fact::Marked => vec![a, b, c],
            },
            _ => self.uses().collect(),
        }
    }
}

/// The steps of the rows: for each variable, if it is marked, the marked ones among its uses.
fn steps(records: &[Record], facts: &[Fact]) -> Vec<Vec<usize>> {
    let is_marked = |variable: &usize| facts[*variable] == Fact::Marked;
    let of_variable = |variable: usize| {
        let uses = if is_marked(&variable) { records[variable].uses_under(facts) } else { vec![] };
        uses.into_iter().filter(is_marked).collect()
    };
    (0..records.len()).map(of_variable).collect()
}

/// The length of a shortest row from each variable to a secret input, if there is one: 1 from a secret input, else
/// one more than the least among its steps. All take it from the same lengths, again and again until none changes.
fn lengths(records: &[Record], steps: &[Vec<usize>]) -> Vec<Option<usize>> {
    let mut lengths = vec![None; records.len()];
    loop {
        let length = |variable: usize| {
            let least = steps[variable].iter().filter_map(|&used| lengths[used]).min();
            if records[variable].is_secret() {
                Some(1)
            } else {
                least.map(|least| least + 1)
            }
        };
        let next: Vec<Option<usize>> = (0..records.len()).map(length).collect();
        if next == lengths {
            return lengths;
        }
        lengths = next;
    }
}

/// The shortest row from a marked variable to a secret input, of equals the one with the lowest number at each
/// step: the lowest of the uses from which a shortest row is one shorter.
fn shortest_row(records: &[Record], facts: &[Fact], variable: usize) -> Vec<usize> {
    let steps = steps(records, facts);
    let lengths = lengths(records, &steps);
    let left = |variable: usize| lengths[variable].expect("every marked variable has a row");
    let next = |&last: &usize| {
        let is_shorter = |&used: &usize| left(used) + 1 == left(last);
        steps[last].iter().copied().filter(is_shorter).min()
    };
    std::iter::successors(Some(variable), next).collect()
}

/// The path call: the length of the row, which is written to the front of the lent one, or the refusal.
pub fn path(table: &[u8], variable: u32, row: &mut [u16], scratch: &mut [u16]) -> Result<u32, Refusal> {
    let records = accept(table, PATH_ASKS, row.len(), scratch)?;
    let (_, facts) = rounds(&records);
    let given = variable as usize;
    if facts.get(given) != Some(&Fact::Marked) {
        return Err(Refusal { ground: 23, place: given });
    }
    let found = shortest_row(&records, &facts, given);
    for (number, &variable) in row.iter_mut().zip(&found) {
        *number = variable as u16;
    }
    Ok(found.len() as u32)
}
