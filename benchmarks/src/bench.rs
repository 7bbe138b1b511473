//! The bench call in plain safe Rust, by the proved call's algorithm on the same lent buffers.

use crate::schedule::schedule;
use crate::table::{decoded, Bytes, Chunks, Table};
use model::{check_lengths, split_stimuli, Refusal, Stimulus, BENCH_ASKS};

pub type Answer = Result<(), Refusal>;

/// Records read byte by byte by index, at each evaluation.
pub fn by_bytes(table: &[u8], stimuli: &[u8], values: &mut [u32], scratch: &mut [u16]) -> Answer {
    let records = check_lengths(table, BENCH_ASKS, values.len(), scratch.len())?;
    bench(&Bytes::checked(table, records.len())?, stimuli, values, scratch)
}

/// Records read as arrays of 16 bytes, at each evaluation.
pub fn by_chunks(table: &[u8], stimuli: &[u8], values: &mut [u32], scratch: &mut [u16]) -> Answer {
    let records = check_lengths(table, BENCH_ASKS, values.len(), scratch.len())?;
    bench(&Chunks::checked(records)?, stimuli, values, scratch)
}

/// Records decoded into structs first.
pub fn by_structs(table: &[u8], stimuli: &[u8], values: &mut [u32], scratch: &mut [u16]) -> Answer {
    let records = check_lengths(table, BENCH_ASKS, values.len(), scratch.len())?;
    bench(&decoded(records)?, stimuli, values, scratch)
}

fn bench(t: &impl Table, s: &[u8], values: &mut [u32], scratch: &mut [u16]) -> Answer {
    let n = t.len();
    let scratch = &mut scratch[..n * BENCH_ASKS.scratch];
    let (wires, registers) = schedule(t, n, scratch)?;
    let checked = check_stimuli(t, n, s);
    if checked.is_ok() {
        for (v, x) in values[..n].iter_mut().enumerate() {
            *x = t.record(v).first_value();
        }
        settle(t, &scratch[..wires], values);
        run(t, n, s, scratch, wires, registers, values);
    }
    scratch.fill(0);
    checked
}

/// The stimulus of the 8 bytes from a place on, or ground 14.
#[inline(always)]
fn read_stimulus(s: &[u8], at: usize) -> Result<Stimulus, u32> {
    Stimulus::decode(|i| s[at + i])
}

/// Grounds 12 to 17.
fn check_stimuli(t: &impl Table, n: usize, s: &[u8]) -> Answer {
    let record = |v: usize| (v < n).then(|| t.record(v));
    for place in 0..split_stimuli(s)?.len() {
        let checked = read_stimulus(s, place * 8).and_then(|stimulus| stimulus.check(record));
        checked.map_err(|ground| Refusal { ground, place })?;
    }
    Ok(())
}

#[inline(always)]
fn record_value(t: &impl Table, values: &[u32], v: usize) -> u32 {
    t.record(v).value(v, |u| values[u])
}

fn settle(t: &impl Table, order: &[u16], values: &mut [u32]) {
    for &v in order {
        values[usize::from(v)] = record_value(t, values, v.into());
    }
}

fn run(
    t: &impl Table,
    n: usize,
    s: &[u8],
    scratch: &mut [u16],
    wires: usize,
    registers: usize,
    values: &mut [u32],
) {
    for i in 0..s.len() / 8 {
        match read_stimulus(s, i * 8) {
            Ok(Stimulus::Poke { variable, n }) => values[variable] = n,
            _ => tick_registers(t, n, scratch, wires, registers, values),
        }
        settle(t, &scratch[..wires], values);
    }
}

/// The registers' next values are staged as two halves each, and then written together.
fn tick_registers(
    t: &impl Table,
    n: usize,
    scratch: &mut [u16],
    wires: usize,
    registers: usize,
    values: &mut [u32],
) {
    for j in 0..registers {
        let x = record_value(t, values, scratch[wires + j].into());
        scratch[n + n + j * 2] = x as u16;
        scratch[n + n + j * 2 + 1] = (x >> 16) as u16;
    }
    for j in 0..registers {
        let x = u32::from(scratch[n + n + j * 2]) + 65_536 * u32::from(scratch[n + n + j * 2 + 1]);
        values[usize::from(scratch[wires + j])] = x;
    }
}
