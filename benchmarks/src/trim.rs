//! The trimming call in plain safe Rust on the same lent buffers, linear as the proved call: what the kept variables
//! reach, one after another, is visited with a stack in the scratch, numbered in the place of the flags, and written.

use crate::schedule::schedule;
use crate::table::{decoded, Bytes, Chunks, Table};
use model::{check_kept, check_lengths, check_outputs, fits, Fields, Kind, Refusal, TRIM_ASKS};

pub type Answer = Result<u32, Refusal>;

/// Records and facts read, and records written, byte by byte by index.
pub fn by_bytes(
    table: &[u8],
    certificate: &[u8],
    kept: &[u16],
    trimmed: &mut [u8],
    numbers: &mut [u16],
    scratch: &mut [u16],
) -> Answer {
    let records = split(table, scratch)?;
    let room = Room::of(certificate, trimmed, numbers);
    let mut lent = ByteLent { table, certificate, trimmed };
    trim(&Bytes::checked(table, records.len())?, room, kept, &mut lent, numbers, scratch)
}

/// Records and facts read, and records written, as arrays of 16 and 8 bytes.
pub fn by_chunks(
    table: &[u8],
    certificate: &[u8],
    kept: &[u16],
    trimmed: &mut [u8],
    numbers: &mut [u16],
    scratch: &mut [u16],
) -> Answer {
    let records = split(table, scratch)?;
    let room = Room::of(certificate, trimmed, numbers);
    let mut lent = ChunkLent::of(records, certificate, trimmed);
    trim(&Chunks::checked(records)?, room, kept, &mut lent, numbers, scratch)
}

/// Records decoded into structs first, and written as arrays of 16 bytes.
pub fn by_structs(
    table: &[u8],
    certificate: &[u8],
    kept: &[u16],
    trimmed: &mut [u8],
    numbers: &mut [u16],
    scratch: &mut [u16],
) -> Answer {
    let records = split(table, scratch)?;
    let room = Room::of(certificate, trimmed, numbers);
    let mut lent = ChunkLent::of(records, certificate, trimmed);
    trim(&decoded(records)?, room, kept, &mut lent, numbers, scratch)
}

/// The records, or the first of grounds 1, 2 and 4 that holds.
fn split<'a>(table: &'a [u8], scratch: &[u16]) -> Result<&'a [[u8; 16]], Refusal> {
    check_lengths(table, TRIM_ASKS, 0, scratch.len())
}

/// Where a record's bytes and a fact's are read, and where a record's are written. As in the proved code, what a
/// fact is takes one byte to see, and its number is read of an always alone.
trait Lent {
    fn record(&self, v: usize) -> [u8; 16];

    /// Byte 0 of the fact of a variable.
    fn fact_code(&self, v: usize) -> u8;

    /// The number in bytes 4 to 7 of it.
    fn fact_number(&self, v: usize) -> u32;

    fn write(&mut self, place: usize, record: [u8; 16]);
}

struct ByteLent<'a> {
    table: &'a [u8],
    certificate: &'a [u8],
    trimmed: &'a mut [u8],
}

impl Lent for ByteLent<'_> {
    #[inline(always)]
    fn record(&self, v: usize) -> [u8; 16] {
        std::array::from_fn(|i| self.table[v * 16 + i])
    }

    #[inline(always)]
    fn fact_code(&self, v: usize) -> u8 {
        self.certificate[v * 8]
    }

    #[inline(always)]
    fn fact_number(&self, v: usize) -> u32 {
        u32::from_le_bytes([4, 5, 6, 7].map(|i| self.certificate[v * 8 + i]))
    }

    #[inline(always)]
    fn write(&mut self, place: usize, record: [u8; 16]) {
        for (i, byte) in record.into_iter().enumerate() {
            self.trimmed[place * 16 + i] = byte;
        }
    }
}

struct ChunkLent<'a> {
    table: &'a [[u8; 16]],
    certificate: &'a [[u8; 8]],
    trimmed: &'a mut [[u8; 16]],
}

impl<'a> ChunkLent<'a> {
    fn of(table: &'a [[u8; 16]], certificate: &'a [u8], trimmed: &'a mut [u8]) -> ChunkLent<'a> {
        let (certificate, trimmed) = (certificate.as_chunks().0, trimmed.as_chunks_mut().0);
        ChunkLent { table, certificate, trimmed }
    }
}

impl Lent for ChunkLent<'_> {
    #[inline(always)]
    fn record(&self, v: usize) -> [u8; 16] {
        self.table[v]
    }

    #[inline(always)]
    fn fact_code(&self, v: usize) -> u8 {
        self.certificate[v][0]
    }

    #[inline(always)]
    fn fact_number(&self, v: usize) -> u32 {
        let [.., a, b, c, d] = self.certificate[v];
        u32::from_le_bytes([a, b, c, d])
    }

    #[inline(always)]
    fn write(&mut self, place: usize, record: [u8; 16]) {
        self.trimmed[place] = record;
    }
}

/// The lengths that grounds 21 and 22 are about.
struct Room {
    certificate: usize,
    trimmed: usize,
    numbers: usize,
}

impl Room {
    fn of(certificate: &[u8], trimmed: &[u8], numbers: &[u16]) -> Room {
        Room { certificate: certificate.len(), trimmed: trimmed.len(), numbers: numbers.len() }
    }
}

/// The code of always, in byte 0 of a fact.
const ALWAYS: u8 = 1;

fn trim(
    t: &impl Table,
    room: Room,
    kept: &[u16],
    lent: &mut impl Lent,
    numbers: &mut [u16],
    scratch: &mut [u16],
) -> Answer {
    let n = t.len();
    let part = &mut scratch[..n * TRIM_ASKS.scratch];
    schedule(t, n, part)?;
    part.fill(0);
    check(t, n, room, kept, lent)?;
    visit(t, n, kept, lent, part);
    let written = number(t, n, part, numbers);
    for (place, &v) in numbers[..written].iter().enumerate() {
        write(t, n, v.into(), place, part, lent);
    }
    part.fill(0);
    Ok(written as u32)
}

/// Grounds 20, 21 and 22.
fn check(t: &impl Table, n: usize, room: Room, kept: &[u16], lent: &impl Lent) -> Result<(), Refusal> {
    check_kept(kept, n)?;
    check_outputs(n, room.trimmed, room.numbers)?;
    if room.certificate != n * 8 {
        return Err(Refusal { ground: 22, place: 0 });
    }
    match (0..n).find(|&v| !is_fact(t, lent, v)) {
        Some(place) => Err(Refusal { ground: 22, place }),
        None => Ok(()),
    }
}

/// Whether the certificate has a fact for a variable.
#[inline(always)]
fn is_fact(t: &impl Table, lent: &impl Lent, v: usize) -> bool {
    match lent.fact_code(v) {
        ALWAYS => fits(lent.fact_number(v), t.width(v)),
        code => (1..=3).contains(&code),
    }
}

/// Flags a variable, from place n on, and puts it on the stack, from the front on, unless it is visited. Gives the
/// stack's end.
#[inline(always)]
fn push(part: &mut [u16], n: usize, top: usize, v: usize) -> usize {
    if part[n + v] != 0 {
        return top;
    }
    part[n + v] = 1;
    part[top] = v as u16;
    top + 1
}

/// Visits the kept variables and all that they reach.
fn visit(t: &impl Table, n: usize, kept: &[u16], lent: &impl Lent, part: &mut [u16]) {
    for &v in kept {
        let mut top = push(part, n, 0, v.into());
        while top > 0 {
            top -= 1;
            let v = usize::from(part[top]);
            // What is called always is written as a constant, or is an input: neither uses a variable.
            let uses = if lent.fact_code(v) == ALWAYS { 0 } else { t.kind(v).uses() };
            for k in 0..uses {
                top = push(part, n, top, t.use_at(v, k));
            }
        }
    }
}

/// Writes the old numbers of the inputs and of what is visited, and in the place of the flag one more than the new
/// one. How many there are.
fn number(t: &impl Table, n: usize, part: &mut [u16], numbers: &mut [u16]) -> usize {
    let mut written = 0;
    for v in 0..n {
        if part[n + v] != 0 || t.kind(v) == Kind::Input {
            numbers[written] = v as u16;
            written += 1;
            part[n + v] = written as u16;
        }
    }
    written
}

/// Writes the record of variable v at its place in the trimmed table.
#[inline(always)]
fn write(t: &impl Table, n: usize, v: usize, place: usize, part: &[u16], lent: &mut impl Lent) {
    let (mut record, kind) = (lent.record(v), t.kind(v));
    if kind != Kind::Input && lent.fact_code(v) == ALWAYS {
        let [a, b, c, d] = lent.fact_number(v).to_le_bytes();
        record = [1, record[1], 0, 0, 0, 0, 0, 0, 0, 0, 0, 0, a, b, c, d];
    } else {
        for k in 0..kind.uses() {
            let used = usize::from(Fields::read_variable(|i| record[i], k));
            let number = part[n + used] - 1;
            record[4 + 2 * k..6 + 2 * k].copy_from_slice(&number.to_le_bytes());
        }
    }
    lent.write(place, record);
}
