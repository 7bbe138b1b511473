//! Document 01, "Grounds for turning work down": grounds 1 to 11 in their order, which all calls on tables
//! share but for 3, which trimming passes over, with what each of them leaves in the scratch.

use crate::wires::row_is_loop;
use crate::{find_loop, Record, Refusal};

/// The most bytes that a table can have.
const LONGEST_TABLE: usize = 65_536;

/// What a call asks for a record: so many elements of its output, or ground 3, and so many 16-bit numbers of
/// scratch, or ground 4.
#[derive(Debug, Clone, Copy)]
pub struct Asked {
    pub output: usize,
    pub scratch: usize,
}

/// The 16 bytes of each record, or the first of grounds 1 and 2 that holds.
fn split_records(table: &[u8]) -> Result<&[[u8; 16]], Refusal> {
    let (records, rest) = table.as_chunks::<16>();
    if table.len() > LONGEST_TABLE {
        return Err(Refusal { ground: 1, place: 0 });
    }
    if !rest.is_empty() {
        return Err(Refusal { ground: 2, place: 0 });
    }
    Ok(records)
}

/// The 16 bytes of each record, with what is asked and the lengths of the output and of the scratch; or the
/// first of grounds 1 to 4 that holds.
pub fn check_lengths(
    table: &[u8],
    asked: Asked,
    output: usize,
    scratch: usize,
) -> Result<&[[u8; 16]], Refusal> {
    let records = split_records(table)?;
    if output < asked.output * records.len() {
        return Err(Refusal { ground: 3, place: 0 });
    }
    if scratch < asked.scratch * records.len() {
        return Err(Refusal { ground: 4, place: 0 });
    }
    Ok(records)
}

/// The records read one after another, or the first of grounds 5 to 10 at the first record that meets one.
fn read_each(records: &[[u8; 16]]) -> Result<Vec<Record>, Refusal> {
    let read =
        |(place, bytes)| Record::read(bytes, records.len()).map_err(|ground| Refusal { ground, place });
    records.iter().enumerate().map(read).collect()
}

/// The records of a table, or the first of grounds 1, 2 and 5 to 10 that holds: those on the table alone
/// and short of loops.
pub fn read_records(table: &[u8]) -> Result<Vec<Record>, Refusal> {
    read_each(split_records(table)?)
}

/// The records of a table that meets none of grounds 1 to 11, with what is asked and the output's length; or
/// the first ground that holds.
///
/// Once grounds 1 to 10 are passed the scratch's part is the loop and then 0, or all 0 where there is none.
pub(crate) fn accept(
    table: &[u8],
    asked: Asked,
    output: usize,
    scratch: &mut [u16],
) -> Result<Vec<Record>, Refusal> {
    let records = read_each(check_lengths(table, asked, output, scratch.len())?)?;
    let part = &mut scratch[..asked.scratch * records.len()];
    part.fill(0);
    match find_loop(&records) {
        None => Ok(records),
        Some(row) => {
            for (number, &wire) in part.iter_mut().zip(&row) {
                *number = wire as u16;
            }
            Err(Refusal::of_loop(row.len()))
        }
    }
}

/// Whether a row of variables is a loop of the table: a row of distinct wires, not empty, each using the
/// next and the last using the first. A table whose records can't be read has no wires.
pub fn is_loop(table: &[u8], row: &[u16]) -> bool {
    let row: Vec<usize> = row.iter().map(|&variable| usize::from(variable)).collect();
    read_records(table).is_ok_and(|records| row_is_loop(&records, &row))
}
