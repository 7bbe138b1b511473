//! The path call made on buffers whose contents are checked afterwards by request S-8's clauses, and what is
//! given to it: tables in which rows are long, equally short or barred by an arm passed over, and variables.

use super::shapes::{in_some_order, lattice, random_shape, register_chain, tied};
use super::{check_output, check_scratch, noise, refused, Random, Refused, Table};
use model::{find_loop, path, read_records, rounds, Fact};

/// What the path call answers: the row, or the refusal.
pub type Traced = Result<Vec<u16>, Refused>;

/// The path call on buffers of these lengths. What the request says of them is checked.
pub fn path_on(table: &[u8], variable: u32, row: usize, scratch: usize) -> Traced {
    let before: Vec<u16> = noise(row).collect();
    let scratch_before: Vec<u16> = noise(scratch).collect();
    let (mut after, mut scratch_after) = (before.clone(), scratch_before.clone());
    let answer = path(table, variable, &mut after, &mut scratch_after);
    let length = answer.map_or(0, |length| length as usize);
    check_output(answer, length, &before, &after);
    let shown = check_scratch(table.len() / 16 * 8, answer, &scratch_before, &scratch_after);
    answer.map_err(|refusal| refused(refusal, shown))?;
    after.truncate(length);
    Ok(after)
}

/// The path call on buffers as long as asked and so many longer.
pub fn path_longer(table: &[u8], variable: u32, longer: usize) -> Traced {
    let n = table.len() / 16;
    path_on(table, variable, n + longer, n * 8 + longer)
}

/// The variables of a table that are marked; none where it is refused.
pub fn marked(table: &[u8]) -> Vec<u32> {
    let Ok(records) = read_records(table) else { return vec![] };
    if find_loop(&records).is_some() {
        return vec![];
    }
    let (_, facts) = rounds(&records);
    (0..).zip(facts).filter(|&(_, fact)| fact == Fact::Marked).map(|(variable, _)| variable).collect()
}

/// A random table of n records, or a few more where they are too few, to trace in. With `loops` some have one.
pub fn random_traced(random: &mut Random, n: usize, loops: bool) -> Table {
    let shape = match random.below(5) {
        0 | 1 => lattice,
        2 => tied,
        3 => register_chain,
        _ => return random_shape(random, n, loops),
    };
    let table = shape(random, n);
    in_some_order(random, &table)
}

/// A variable to trace from: mostly one that is marked, if there is one, else any, or one past the table.
pub fn random_variable(random: &mut Random, table: &[u8]) -> u32 {
    let (n, marked) = ((table.len() / 16) as u32, marked(table));
    match random.below(20) {
        0 => random.pick(&[n, n + 1, 65_535, 65_536, 65_536 + n / 2, 1 << 31, u32::MAX]),
        1..4 => random.below(n as usize + 1) as u32,
        _ if marked.is_empty() => random.below(n as usize + 1) as u32,
        _ => random.pick(&marked),
    }
}
