//! Document 01, "The table": the 16 bytes of a record. One record is read from them and the number of
//! records in the table, with grounds 5 to 10 tried in their order, and written to them again.

use crate::{fits, InputKind, Kind, Operator, Record};

/// The 16 bytes of a record, field by field.
#[derive(Debug, Clone, Copy)]
pub struct Fields {
    kind: u8,
    width: u8,
    /// Byte 2.
    choice: u8,
    byte_3: u8,
    /// A, B and C.
    pub variables: [u16; 3],
    bytes_10_and_11: u16,
    n: u32,
}

impl Fields {
    /// The fields of the 16 bytes of which `byte` gives each.
    #[inline(always)]
    pub fn read(byte: impl Fn(usize) -> u8) -> Fields {
        let variable = |place| Fields::read_variable(&byte, place);
        Fields {
            kind: byte(0),
            width: byte(1),
            choice: byte(2),
            byte_3: byte(3),
            variables: [variable(0), variable(1), variable(2)],
            bytes_10_and_11: u16::from_le_bytes([byte(10), byte(11)]),
            n: u32::from_le_bytes([byte(12), byte(13), byte(14), byte(15)]),
        }
    }

    /// Variable A, B or C, by its place from 0 to 2, of the 16 bytes of which `byte` gives each.
    #[inline(always)]
    pub fn read_variable(byte: impl Fn(usize) -> u8, place: usize) -> u16 {
        u16::from_le_bytes([byte(4 + 2 * place), byte(5 + 2 * place)])
    }

    /// The first of grounds 5 to 10 that holds in a table of so many records.
    #[inline(always)]
    pub fn check(self, number_of_records: usize) -> Result<(), u32> {
        if self.kind >= Kind::COUNT {
            return Err(5);
        }
        let kind = Kind::with_number(self.kind);
        if !(1..=32).contains(&self.width) {
            return Err(6);
        }
        if self.choice >= kind.choices() {
            return Err(7);
        }
        let has_value = match kind {
            Kind::Input => self.choice == 0,
            Kind::Constant | Kind::Register | Kind::Enabled => true,
            Kind::Operator | Kind::Multiplexer => false,
        };
        let is_used = |place: usize| place < kind.uses();
        let zeros = self.byte_3 == 0 && self.bytes_10_and_11 == 0;
        if !zeros || (0..3).any(|i| !is_used(i) && self.variables[i] != 0) || (!has_value && self.n != 0) {
            return Err(8);
        }
        if (0..3).any(|i| is_used(i) && usize::from(self.variables[i]) >= number_of_records) {
            return Err(9);
        }
        if has_value && !fits(self.n, self.width.into()) {
            return Err(10);
        }
        Ok(())
    }

    /// The record with these fields, which meet none of grounds 5 to 10.
    #[inline(always)]
    pub fn record(self) -> Record {
        let (width, n) = (u32::from(self.width), self.n);
        let [a, b, c] = self.variables;
        let (a, b, c) = (usize::from(a), usize::from(b), usize::from(c));
        match Kind::with_number(self.kind) {
            Kind::Input => Record::Input { width, kind: InputKind::with_code(self.choice, n) },
            Kind::Constant => Record::Constant { width, n },
            Kind::Operator => Record::Operator { width, operator: Operator::with_code(self.choice), a, b },
            Kind::Multiplexer => Record::Multiplexer { width, a, b, c },
            Kind::Register => Record::Register { width, a, power_on: n },
            Kind::Enabled => Record::Enabled { width, a, b, power_on: n },
        }
    }
}

impl Record {
    /// The record in 16 bytes of a table of so many records, or the first of grounds 5 to 10 that holds.
    pub fn read(bytes: &[u8; 16], number_of_records: usize) -> Result<Record, u32> {
        let fields = Fields::read(|i| bytes[i]);
        fields.check(number_of_records)?;
        Ok(fields.record())
    }

    /// The 16 bytes of the record, those that it does not use being 0.
    pub fn bytes(&self) -> [u8; 16] {
        let (kind, choice, n) = match *self {
            Record::Input { kind: InputKind::Fixed(n), .. } => (0, 0, n),
            Record::Input { kind: InputKind::Free, .. } => (0, 1, 0),
            Record::Input { kind: InputKind::Secret, .. } => (0, 2, 0),
            Record::Constant { n, .. } => (1, 0, n),
            Record::Operator { operator, .. } => (2, operator.code(), 0),
            Record::Multiplexer { .. } => (3, 0, 0),
            Record::Register { power_on, .. } => (4, 0, power_on),
            Record::Enabled { power_on, .. } => (5, 0, power_on),
        };
        let mut bytes = [0; 16];
        bytes[..3].copy_from_slice(&[kind, self.width() as u8, choice]);
        for (place, variable) in [4, 6, 8].into_iter().zip(self.uses()) {
            bytes[place..place + 2].copy_from_slice(&(variable as u16).to_le_bytes());
        }
        bytes[12..].copy_from_slice(&n.to_le_bytes());
        bytes
    }
}
