//! The certifying call in plain safe Rust, by the proved call's algorithm on the same lent buffers.

use crate::schedule::schedule;
use crate::table::{decoded, ByteCells, Bytes, Cells, ChunkCells, Chunks, Table};
use model::{check_lengths, Fact, Refusal, CERTIFY_ASKS};

pub type Answer = Result<u32, Refusal>;

/// Records and facts read byte by byte by index, at each evaluation.
pub fn by_bytes(table: &[u8], certificate: &mut [u8], scratch: &mut [u16]) -> Answer {
    let records = check_lengths(table, CERTIFY_ASKS, certificate.len(), scratch.len())?;
    let t = Bytes::checked(table, records.len())?;
    certify(&t, &mut ByteCells(certificate), scratch)
}

/// Records and facts read as arrays of 16 and 8 bytes, at each evaluation.
pub fn by_chunks(table: &[u8], certificate: &mut [u8], scratch: &mut [u16]) -> Answer {
    let records = check_lengths(table, CERTIFY_ASKS, certificate.len(), scratch.len())?;
    let t = Chunks::checked(records)?;
    certify(&t, &mut ChunkCells(certificate.as_chunks_mut().0), scratch)
}

/// Records decoded into structs first.
pub fn by_structs(table: &[u8], certificate: &mut [u8], scratch: &mut [u16]) -> Answer {
    let records = check_lengths(table, CERTIFY_ASKS, certificate.len(), scratch.len())?;
    let t = decoded(records)?;
    certify(&t, &mut ChunkCells(certificate.as_chunks_mut().0), scratch)
}

fn certify(t: &impl Table, cells: &mut impl Cells, scratch: &mut [u16]) -> Answer {
    let n = t.len();
    let part = &mut scratch[..n * CERTIFY_ASKS.scratch];
    let (wires, registers) = schedule(t, n, part)?;
    let rounds = find_facts(t, n, part, wires, registers, cells);
    part.fill(0);
    Ok(rounds)
}

/// Puts the certificate's facts into the cells, with the order in the scratch and room to stage behind it. How many
/// rounds they took.
pub fn find_facts(
    t: &impl Table,
    n: usize,
    scratch: &mut [u16],
    wires: usize,
    registers: usize,
    cells: &mut impl Cells,
) -> u32 {
    for v in 0..n {
        cells.store(v, t.record(v).first_fact());
    }
    settle(t, &scratch[..wires], cells);
    run_rounds(t, n, scratch, wires, registers, cells)
}

#[inline(always)]
fn rule_fact(t: &impl Table, cells: &impl Cells, v: usize) -> Fact {
    t.record(v).fact(|u| cells.load(u))
}

fn settle(t: &impl Table, order: &[u16], cells: &mut impl Cells) {
    for &v in order {
        let f = rule_fact(t, cells, v.into());
        cells.store(v.into(), f);
    }
}

fn run_rounds(
    t: &impl Table,
    n: usize,
    scratch: &mut [u16],
    wires: usize,
    registers: usize,
    cells: &mut impl Cells,
) -> u32 {
    let mut count = 0;
    while stage(t, n, cells, scratch, wires, registers) {
        commit(t, n, scratch, wires, registers, cells);
        settle(t, &scratch[..wires], cells);
        count += 1;
    }
    count
}

/// Stages byte 0 of every register's next fact. Whether one of them changes.
fn stage(
    t: &impl Table,
    n: usize,
    cells: &impl Cells,
    scratch: &mut [u16],
    first: usize,
    registers: usize,
) -> bool {
    let mut changed = false;
    for j in 0..registers {
        let v = usize::from(scratch[first + j]);
        let f = rule_fact(t, cells, v);
        scratch[n + j] = f.code().into();
        changed |= f != cells.load(v);
    }
    changed
}

/// Writes the staged facts: a register that is always a number is always its power-on value.
fn commit(
    t: &impl Table,
    n: usize,
    scratch: &[u16],
    first: usize,
    registers: usize,
    cells: &mut impl Cells,
) {
    for j in 0..registers {
        let v = usize::from(scratch[first + j]);
        cells.store(v, Fact::with_code(scratch[n + j] as u8, t.record(v).first_value()));
    }
}
