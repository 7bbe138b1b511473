//! Document 01, "Rounds" and "The certificate": the store before any round, one round, the rounds and
//! their count, the 8 bytes of a variable, and the certifying call.

use crate::table::accept;
use crate::{rule, settle, together, Asked, Fact, Record, Refusal};

/// What the certifying call asks: 8 bytes a variable, and the scratch.
pub const CERTIFY_ASKS: Asked = Asked { output: 8, scratch: 2 };

impl Record {
    /// The fact before any round: an input has its rule's, a register is always its power-on value. A wire's
    /// follows from them, whatever it is here.
    #[inline(always)]
    pub fn first_fact(self) -> Fact {
        match self {
            Record::Input { kind, .. } => kind.fact(),
            Record::Register { power_on, .. } | Record::Enabled { power_on, .. } => Fact::Always(power_on),
            _ => Fact::Open,
        }
    }
}

/// Before any round: inputs and registers have their first facts, and the wires follow.
pub fn before_any_round(records: &[Record]) -> Vec<Fact> {
    let start: Vec<Fact> = records.iter().map(|record| record.first_fact()).collect();
    settle(records, &start, rule)
}

/// One round: all registers get their rule's fact from the same store, together, and then the wires again.
pub fn round(records: &[Record], store: &[Fact]) -> Vec<Fact> {
    let stepped = together(records, store, Record::is_register, rule);
    settle(records, &stepped, rule)
}

/// The rounds up to the first that changes no register, which is not counted: their count, and the store
/// after them.
pub fn rounds(records: &[Record]) -> (u32, Vec<Fact>) {
    let mut store = before_any_round(records);
    let mut count = 0;
    loop {
        let next = round(records, &store);
        let changed = |i: usize| records[i].is_register() && next[i] != store[i];
        if !(0..records.len()).any(changed) {
            return (count, store);
        }
        count += 1;
        store = next;
    }
}

impl Fact {
    /// Byte 0 of a variable's 8 bytes: 1 always, 2 open, 3 marked.
    #[inline(always)]
    pub fn code(self) -> u8 {
        match self {
            Fact::Always(_) => 1,
            Fact::Open => 2,
            Fact::Marked => 3,
        }
    }

    /// The fact with this code, which is always n if it is always a number.
    #[inline(always)]
    pub fn with_code(code: u8, n: u32) -> Fact {
        match code {
            1 => Fact::Always(n),
            2 => Fact::Open,
            _ => Fact::Marked,
        }
    }

    /// The 8 bytes of a variable: the code, three zeros, and n or 0.
    #[inline(always)]
    pub fn bytes(self) -> [u8; 8] {
        let n = match self {
            Fact::Always(n) => n,
            Fact::Open | Fact::Marked => 0,
        };
        let [a, b, c, d] = n.to_le_bytes();
        [self.code(), 0, 0, 0, a, b, c, d]
    }

    /// The fact in the 8 bytes of which `byte` gives each.
    #[inline(always)]
    pub fn read(byte: impl Fn(usize) -> u8) -> Fact {
        let n = u32::from_le_bytes([byte(4), byte(5), byte(6), byte(7)]);
        Fact::with_code(byte(0), n)
    }
}

/// The certifying call: the count of rounds, with 8 bytes a variable in the certificate, or the refusal.
pub fn certify(table: &[u8], certificate: &mut [u8], scratch: &mut [u16]) -> Result<u32, Refusal> {
    let records = accept(table, CERTIFY_ASKS, certificate.len(), scratch)?;
    let (count, store) = rounds(&records);
    for (bytes, fact) in certificate.chunks_exact_mut(8).zip(store) {
        bytes.copy_from_slice(&fact.bytes());
    }
    Ok(count)
}
