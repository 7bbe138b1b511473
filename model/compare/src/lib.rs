//! The calls of the C archive, as include/lambdac.h declares them, behind the signatures of the model's.

use model::Refusal;

extern "C" {
    fn lambdac_certify(
        table: *const u8,
        table_len: usize,
        certificate: *mut u8,
        certificate_len: usize,
        scratch: *mut u16,
        scratch_len: usize,
    ) -> u64;

    fn lambdac_bench(
        table: *const u8,
        table_len: usize,
        stimuli: *const u8,
        stimuli_len: usize,
        values: *mut u32,
        values_len: usize,
        scratch: *mut u16,
        scratch_len: usize,
    ) -> u64;

    fn lambdac_bill(sizes: *const u32, sizes_len: usize, shares: *mut u32, shares_len: usize) -> u64;

    fn lambdac_trim(
        table: *const u8,
        table_len: usize,
        certificate: *const u8,
        certificate_len: usize,
        kept: *const u16,
        kept_len: usize,
        trimmed: *mut u8,
        trimmed_len: usize,
        numbers: *mut u16,
        numbers_len: usize,
        scratch: *mut u16,
        scratch_len: usize,
    ) -> u64;

    fn lambdac_path(
        table: *const u8,
        table_len: usize,
        variable: u32,
        row: *mut u16,
        row_len: usize,
        scratch: *mut u16,
        scratch_len: usize,
    ) -> u64;
}

/// The archive's certifying call: the count of rounds, or the refusal.
pub fn certify(table: &[u8], certificate: &mut [u8], scratch: &mut [u16]) -> Result<u32, Refusal> {
    // SAFETY: each pointer and length are those of one slice, and borrowed slices do not overlap.
    let answer = unsafe {
        lambdac_certify(
            table.as_ptr(),
            table.len(),
            certificate.as_mut_ptr(),
            certificate.len(),
            scratch.as_mut_ptr(),
            scratch.len(),
        )
    };
    unpacked(answer)
}

/// The archive's bench call: nothing but that it is accepted, or the refusal.
pub fn bench(table: &[u8], stimuli: &[u8], values: &mut [u32], scratch: &mut [u16]) -> Result<(), Refusal> {
    // SAFETY: each pointer and length are those of one slice, and a slice lent to be written overlaps none.
    let answer = unsafe {
        lambdac_bench(
            table.as_ptr(),
            table.len(),
            stimuli.as_ptr(),
            stimuli.len(),
            values.as_mut_ptr(),
            values.len(),
            scratch.as_mut_ptr(),
            scratch.len(),
        )
    };
    unpacked(answer).map(|number| assert_eq!(number, 0, "an accepted bench call returns 0"))
}

/// The archive's call for a bill: the bill, or the refusal.
pub fn bill(sizes: &[u32], shares: &mut [u32]) -> Result<u32, Refusal> {
    // SAFETY: each pointer and length are those of one slice, and borrowed slices do not overlap.
    unpacked(unsafe { lambdac_bill(sizes.as_ptr(), sizes.len(), shares.as_mut_ptr(), shares.len()) })
}

/// The archive's trimming call: the number of records written, or the refusal.
pub fn trim(
    table: &[u8],
    certificate: &[u8],
    kept: &[u16],
    trimmed: &mut [u8],
    numbers: &mut [u16],
    scratch: &mut [u16],
) -> Result<u32, Refusal> {
    // SAFETY: each pointer and length are those of one slice, and a slice lent to be written overlaps none.
    let answer = unsafe {
        lambdac_trim(
            table.as_ptr(),
            table.len(),
            certificate.as_ptr(),
            certificate.len(),
            kept.as_ptr(),
            kept.len(),
            trimmed.as_mut_ptr(),
            trimmed.len(),
            numbers.as_mut_ptr(),
            numbers.len(),
            scratch.as_mut_ptr(),
            scratch.len(),
        )
    };
    unpacked(answer)
}

/// The archive's path call: the row's length, or the refusal.
pub fn path(table: &[u8], variable: u32, row: &mut [u16], scratch: &mut [u16]) -> Result<u32, Refusal> {
    // SAFETY: each pointer and length are those of one slice, and borrowed slices do not overlap.
    let answer = unsafe {
        lambdac_path(
            table.as_ptr(),
            table.len(),
            variable,
            row.as_mut_ptr(),
            row.len(),
            scratch.as_mut_ptr(),
            scratch.len(),
        )
    };
    unpacked(answer)
}

/// The refusal as it is unpacked: a place above 2^32 - 1, which only a kept list can have, is packed as that.
pub fn as_packed(refusal: Refusal) -> Refusal {
    Refusal { place: refusal.place.min(u32::MAX as usize), ..refusal }
}

/// The number of an accepted call; or the refusal, which is packed as ground * 2^32 + place.
pub fn unpacked(answer: u64) -> Result<u32, Refusal> {
    let (ground, low) = ((answer >> 32) as u32, answer as u32);
    match ground {
        0 => Ok(low),
        _ => Err(Refusal { ground, place: low as usize }),
    }
}
