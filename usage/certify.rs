//! Certifies the table on standard input: the rounds and the facts' byte 0, or the refusal.
use std::io::Read;

extern "C" {
    fn lambdac_certify(t: *const u8, t_len: usize, c: *mut u8, c_len: usize, s: *mut u16, s_len: usize) -> u64;
}

fn main() {
    let (mut table, mut certificate, mut scratch) = (Vec::new(), [0; 32768], [0; 8192]);
    std::io::stdin().read_to_end(&mut table).expect("standard input can be read");
    let (t, c, s) = (table.as_ptr(), certificate.as_mut_ptr(), scratch.as_mut_ptr());
    // SAFETY: each pointer comes with the length of its buffer, and no two buffers overlap.
    let answer = unsafe { lambdac_certify(t, table.len(), c, certificate.len(), s, scratch.len()) };
    if answer >> 32 != 0 {
        return println!("refused {} at {}", answer >> 32, answer as u32);
    }
    let facts: String = certificate[..table.len() / 2].chunks(8).map(|fact| format!(" {}", fact[0])).collect();
    println!("rounds {answer}, facts{facts}");
}
