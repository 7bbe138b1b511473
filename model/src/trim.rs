//! Request S-5, "A trimmed table to ship": what the certificate calls always as constants, what of the table
//! then remains, its new numbers, and the call with its grounds 20, 21 and 22.

use crate::table::accept;
use crate::{fits, Asked, Fact, Record, Refusal};

/// What the trimming call asks: the scratch. Ground 21 stands in place of 3, which finds nothing short where
/// nothing is asked.
pub const TRIM_ASKS: Asked = Asked { output: 0, scratch: 4 };

/// Ground 20: the first kept number that is not below the number of records.
pub fn check_kept(kept: &[u16], records: usize) -> Result<(), Refusal> {
    match kept.iter().position(|&variable| usize::from(variable) >= records) {
        Some(place) => Err(Refusal { ground: 20, place }),
        None => Ok(()),
    }
}

/// Ground 21, with the number of records and the outputs' lengths: one is shorter than the table, or the other
/// than a number a record, however few of them are written.
pub fn check_outputs(records: usize, trimmed: usize, numbers: usize) -> Result<(), Refusal> {
    if trimmed < 16 * records || numbers < records {
        return Err(Refusal { ground: 21, place: 0 });
    }
    Ok(())
}

/// The fact in the 8 bytes of a variable of this width, unless byte 0 is no fact's or the number of an always
/// does not fit. Bytes 1 to 3, and the number of a fact not always, are not read.
fn read_fact(bytes: &[u8; 8], width: u32) -> Option<Fact> {
    if !(1..=3).contains(&bytes[0]) {
        return None;
    }
    match Fact::read(|i| bytes[i]) {
        Fact::Always(n) if !fits(n, width) => None,
        fact => Some(fact),
    }
}

/// The fact of each variable, inputs too, or ground 22: the certificate's length is not 8 bytes a record, or
/// the first variable whose 8 bytes have no fact for it.
fn read_certificate(certificate: &[u8], records: &[Record]) -> Result<Vec<Fact>, Refusal> {
    if certificate.len() != 8 * records.len() {
        return Err(Refusal { ground: 22, place: 0 });
    }
    let (facts, _) = certificate.as_chunks();
    let read = |(place, (bytes, record)): (usize, (_, &Record))| {
        read_fact(bytes, record.width()).ok_or(Refusal { ground: 22, place })
    };
    facts.iter().zip(records).enumerate().map(read).collect()
}

/// What stands for a record: of a wire or register called always, the constant of the same width.
fn replaced(record: Record, fact: Fact) -> Record {
    match fact {
        Fact::Always(n) if !record.is_input() => Record::Constant { width: record.width(), n },
        _ => record,
    }
}

/// Whether each variable is kept or reached by a kept one through uses, in any number of steps: whatever a
/// reached variable uses is reached too, one step after another until a step reaches nothing else.
fn reached(records: &[Record], kept: &[u16]) -> Vec<bool> {
    let mut reached = vec![false; records.len()];
    for &variable in kept {
        reached[usize::from(variable)] = true;
    }
    loop {
        let before = reached.clone();
        let users = (0..records.len()).filter(|&user| before[user]);
        for used in users.flat_map(|user| records[user].uses()) {
            reached[used] = true;
        }
        if reached == before {
            return reached;
        }
    }
}

/// The variables that remain, in their order: all inputs, and the wires and registers that are kept or that a
/// kept variable reaches.
fn survivors(records: &[Record], kept: &[u16]) -> Vec<usize> {
    let reached = reached(records, kept);
    (0..records.len()).filter(|&variable| records[variable].is_input() || reached[variable]).collect()
}

/// The records of the trimmed table, and the number that each had.
fn trimmed_records(records: &[Record], facts: &[Fact], kept: &[u16]) -> (Vec<Record>, Vec<usize>) {
    let records: Vec<Record> =
        records.iter().zip(facts).map(|(&record, &fact)| replaced(record, fact)).collect();
    let survivors = survivors(&records, kept);
    let number = |variable: usize| {
        let place = survivors.iter().position(|&survivor| survivor == variable);
        place.expect("what a survivor uses survives")
    };
    let trimmed = survivors.iter().map(|&survivor| records[survivor].renumbered(number)).collect();
    (trimmed, survivors)
}

/// The trimming call: the number of records written to the front of the trimmed table, with the old number of
/// each in front of the numbers; or the refusal.
pub fn trim(
    table: &[u8],
    certificate: &[u8],
    kept: &[u16],
    trimmed: &mut [u8],
    numbers: &mut [u16],
    scratch: &mut [u16],
) -> Result<u32, Refusal> {
    let records = accept(table, TRIM_ASKS, 0, scratch)?;
    check_kept(kept, records.len())?;
    check_outputs(records.len(), trimmed.len(), numbers.len())?;
    let facts = read_certificate(certificate, &records)?;
    let (written, survivors) = trimmed_records(&records, &facts, kept);
    for (bytes, record) in trimmed.chunks_exact_mut(16).zip(&written) {
        bytes.copy_from_slice(&record.bytes());
    }
    for (number, &survivor) in numbers.iter_mut().zip(&survivors) {
        *number = survivor as u16;
    }
    Ok(written.len() as u32)
}
