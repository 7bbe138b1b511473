//! Shows how a secret reaches a variable of the table on standard input: the row to a secret input, or the refusal.
use std::io::Read;

extern "C" {
    fn lambdac_path(t: *const u8, t_len: usize, v: u32, r: *mut u16, r_len: usize, s: *mut u16, s_len: usize) -> u64;
}

fn main() {
    let (mut table, mut row, mut scratch) = (Vec::new(), [0; 4096], [0; 32768]);
    std::io::stdin().read_to_end(&mut table).expect("standard input can be read");
    let variable = std::env::args().nth(1).map_or(0, |word| word.parse().expect("the variable is a number"));
    let (t, r, s) = (table.as_ptr(), row.as_mut_ptr(), scratch.as_mut_ptr());
    // SAFETY: each pointer comes with the length of its buffer, and no two buffers overlap.
    let answer = unsafe { lambdac_path(t, table.len(), variable, r, row.len(), s, scratch.len()) };
    if answer >> 32 != 0 {
        return println!("refused {} at {}", answer >> 32, answer as u32);
    }
    let numbers: String = row[..answer as usize].iter().map(|number| format!(" {number}")).collect();
    println!("{answer} variables:{numbers}");
}
