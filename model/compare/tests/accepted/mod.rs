//! The archive's calls on a table, and on stimuli, that they accept. Their buffers are as long as asked, and filled
//! with noise at entry.

use crate::common::{noise, widened};

/// The certificate that the certifying call writes.
pub fn certify(table: &[u8]) -> Vec<u8> {
    let mut certificate: Vec<u8> = noise(table.len() / 16 * 8).map(|number| number as u8).collect();
    compare::certify(table, &mut certificate, &mut scratch(table, 2)).expect("certify accepts the table");
    certificate
}

/// The values that the bench call writes.
pub fn bench(table: &[u8], stimuli: &[u8]) -> Vec<u32> {
    let mut values: Vec<u32> = noise(table.len() / 16).map(widened).collect();
    compare::bench(table, stimuli, &mut values, &mut scratch(table, 4)).expect("bench accepts the stimuli");
    values
}

/// The scratch of a call on this table that asks so many numbers a record.
pub fn scratch(table: &[u8], a_record: usize) -> Vec<u16> {
    noise(table.len() / 16 * a_record).collect()
}
