//! Where a record and a fact live: the only thing in which the first variants differ. What they are and what
//! they give is the model's. All of it is always inlined, so that no variant pays for a call where the
//! archive has none: left to itself the compiler keeps some apart, and hands a record over in memory.

use model::{Fact, Fields, Kind, Record, Refusal};

pub trait Table {
    fn len(&self) -> usize;

    fn record(&self, v: usize) -> Record;

    fn kind(&self, v: usize) -> Kind;

    fn width(&self, v: usize) -> u32;

    /// 0 where record v is no wire, else one more than the number of variables that it uses.
    fn wire_uses(&self, v: usize) -> u16;

    /// Variable k, counted from 0, of those that record v uses.
    fn use_at(&self, v: usize, k: usize) -> usize;

    fn is_register(&self, v: usize) -> bool;
}

/// A table read byte by byte by index, as the proved code reads it.
pub struct Bytes<'a>(pub &'a [u8]);

/// A table read by whole records: one bounds check finds 16 bytes.
pub struct Chunks<'a>(pub &'a [[u8; 16]]);

#[inline(always)]
fn wire_uses_of(kind: Kind) -> u16 {
    if kind.is_wire() {
        kind.uses() as u16 + 1
    } else {
        0
    }
}

impl<'a> Bytes<'a> {
    /// The table, if none of its n records meets one of grounds 5 to 10.
    pub fn checked(t: &'a [u8], n: usize) -> Result<Bytes<'a>, Refusal> {
        let table = Bytes(t);
        for place in 0..n {
            table.fields(place).check(n).map_err(|ground| Refusal { ground, place })?;
        }
        Ok(table)
    }

    #[inline(always)]
    fn fields(&self, v: usize) -> Fields {
        Fields::read(|i| self.0[v * 16 + i])
    }
}

impl Table for Bytes<'_> {
    #[inline(always)]
    fn len(&self) -> usize {
        self.0.len() / 16
    }

    #[inline(always)]
    fn record(&self, v: usize) -> Record {
        self.fields(v).record()
    }

    #[inline(always)]
    fn kind(&self, v: usize) -> Kind {
        Kind::with_number(self.0[v * 16])
    }

    #[inline(always)]
    fn width(&self, v: usize) -> u32 {
        self.0[v * 16 + 1].into()
    }

    #[inline(always)]
    fn wire_uses(&self, v: usize) -> u16 {
        wire_uses_of(self.kind(v))
    }

    #[inline(always)]
    fn use_at(&self, v: usize, k: usize) -> usize {
        Fields::read_variable(|i| self.0[v * 16 + i], k).into()
    }

    #[inline(always)]
    fn is_register(&self, v: usize) -> bool {
        self.kind(v).is_register()
    }
}

impl<'a> Chunks<'a> {
    /// The table, if none of its records meets one of grounds 5 to 10.
    pub fn checked(t: &'a [[u8; 16]]) -> Result<Chunks<'a>, Refusal> {
        for (place, bytes) in t.iter().enumerate() {
            fields_of(bytes).check(t.len()).map_err(|ground| Refusal { ground, place })?;
        }
        Ok(Chunks(t))
    }
}

#[inline(always)]
fn fields_of(bytes: &[u8; 16]) -> Fields {
    Fields::read(|i| bytes[i])
}

impl Table for Chunks<'_> {
    #[inline(always)]
    fn len(&self) -> usize {
        self.0.len()
    }

    #[inline(always)]
    fn record(&self, v: usize) -> Record {
        fields_of(&self.0[v]).record()
    }

    #[inline(always)]
    fn kind(&self, v: usize) -> Kind {
        Kind::with_number(self.0[v][0])
    }

    #[inline(always)]
    fn width(&self, v: usize) -> u32 {
        self.0[v][1].into()
    }

    #[inline(always)]
    fn wire_uses(&self, v: usize) -> u16 {
        wire_uses_of(self.kind(v))
    }

    #[inline(always)]
    fn use_at(&self, v: usize, k: usize) -> usize {
        Fields::read_variable(|i| self.0[v][i], k).into()
    }

    #[inline(always)]
    fn is_register(&self, v: usize) -> bool {
        self.kind(v).is_register()
    }
}

/// A record decoded once: what evaluation asks for, and what the schedule asks for.
#[derive(Clone, Copy)]
pub struct Decoded {
    pub record: Record,
    pub uses: [u16; 3],
    /// 0 where the record is no wire, else one more than the number of variables that it uses.
    pub wire_uses: u16,
}

/// The records as structs, or the first of grounds 5 to 10 that one of them meets.
pub fn decoded(t: &[[u8; 16]]) -> Result<Vec<Decoded>, Refusal> {
    let mut records = Vec::with_capacity(t.len());
    for (place, bytes) in t.iter().enumerate() {
        let fields = fields_of(bytes);
        fields.check(t.len()).map_err(|ground| Refusal { ground, place })?;
        let wire_uses = wire_uses_of(Kind::with_number(bytes[0]));
        records.push(Decoded { record: fields.record(), uses: fields.variables, wire_uses });
    }
    Ok(records)
}

impl Table for Vec<Decoded> {
    #[inline(always)]
    fn len(&self) -> usize {
        Vec::len(self)
    }

    #[inline(always)]
    fn record(&self, v: usize) -> Record {
        self[v].record
    }

    #[inline(always)]
    fn kind(&self, v: usize) -> Kind {
        self[v].record.kind()
    }

    #[inline(always)]
    fn width(&self, v: usize) -> u32 {
        self[v].record.width()
    }

    #[inline(always)]
    fn wire_uses(&self, v: usize) -> u16 {
        self[v].wire_uses
    }

    #[inline(always)]
    fn use_at(&self, v: usize, k: usize) -> usize {
        self[v].uses[k].into()
    }

    #[inline(always)]
    fn is_register(&self, v: usize) -> bool {
        self[v].record.is_register()
    }
}

/// The facts, in a certificate's bytes or in a scratch.
pub trait Cells {
    fn load(&self, v: usize) -> Fact;

    fn store(&mut self, v: usize, f: Fact);
}

/// A certificate read and written byte by byte by index, as the proved code does.
pub struct ByteCells<'a>(pub &'a mut [u8]);

/// A certificate read and written by whole facts: one bounds check finds 8 bytes.
pub struct ChunkCells<'a>(pub &'a mut [[u8; 8]]);

impl Cells for ByteCells<'_> {
    #[inline(always)]
    fn load(&self, v: usize) -> Fact {
        Fact::read(|i| self.0[v * 8 + i])
    }

    #[inline(always)]
    fn store(&mut self, v: usize, f: Fact) {
        for (i, byte) in f.bytes().into_iter().enumerate() {
            self.0[v * 8 + i] = byte;
        }
    }
}

impl Cells for ChunkCells<'_> {
    #[inline(always)]
    fn load(&self, v: usize) -> Fact {
        let bytes = self.0[v];
        Fact::read(|i| bytes[i])
    }

    #[inline(always)]
    fn store(&mut self, v: usize, f: Fact) {
        self.0[v] = f.bytes();
    }
}

/// Facts in a scratch, three numbers each: the code, and the low and the high half of the number. Read and written
/// number by number by index, as the proved code does.
pub struct NumberCells<'a>(pub &'a mut [u16]);

/// The same, read and written by whole facts: one bounds check finds three numbers.
pub struct TripleCells<'a>(pub &'a mut [[u16; 3]]);

/// The fact that these three numbers are.
#[inline(always)]
fn fact_of([code, low, high]: [u16; 3]) -> Fact {
    Fact::with_code(code as u8, u32::from(low) + 65_536 * u32::from(high))
}

/// The three numbers of a fact.
#[inline(always)]
fn numbers_of(f: Fact) -> [u16; 3] {
    let n = if let Fact::Always(n) = f { n } else { 0 };
    [f.code().into(), n as u16, (n >> 16) as u16]
}

impl Cells for NumberCells<'_> {
    #[inline(always)]
    fn load(&self, v: usize) -> Fact {
        fact_of([0, 1, 2].map(|i| self.0[v * 3 + i]))
    }

    #[inline(always)]
    fn store(&mut self, v: usize, f: Fact) {
        for (i, number) in numbers_of(f).into_iter().enumerate() {
            self.0[v * 3 + i] = number;
        }
    }
}

impl Cells for TripleCells<'_> {
    #[inline(always)]
    fn load(&self, v: usize) -> Fact {
        fact_of(self.0[v])
    }

    #[inline(always)]
    fn store(&mut self, v: usize, f: Fact) {
        self.0[v] = numbers_of(f);
    }
}
