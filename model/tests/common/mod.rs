//! What the tests share: records and stimuli from their fields, a seeded generator of random numbers, and
//! the two calls of document 01 made on buffers whose contents are checked afterwards by its clauses.
//! Random tables and lists come from `tables`, and tables of one shape from `shapes`; document 01's cases
//! are in `document_cases`, those of registers with an enable in `enable_cases`, those of fixed inputs in
//! `fixed_cases`, those of known zeros in `zero_cases`, further tables in `samples`, what meets a set of
//! grounds in `grounds`, and bench runs in `hand_runs`. `orders` has orders and the call for a bill, `trims`
//! the trimming call and what is given to it, `trim_cases` tables trimmed by hand, `paths` the path call and
//! tables to trace in, `path_cases` rows found by hand, and `printed` the lines that the programs print.
//! `two_runs` tries demand 3 on any two calls, `trimmed_runs` the claim of request S-5 on any three. `times`
//! counts how often something occurs, and `fixed_pokes` how often lists poke fixed inputs early, late, twice or
//! not at all.

#![allow(dead_code)] // each test file uses a part

pub mod document_cases;
pub mod enable_cases;
pub mod fixed_cases;
pub mod fixed_pokes;
pub mod grounds;
pub mod hand_runs;
pub mod orders;
pub mod path_cases;
pub mod paths;
pub mod printed;
pub mod samples;
pub mod shapes;
pub mod tables;
pub mod times;
pub mod trim_cases;
pub mod trimmed_runs;
pub mod trims;
pub mod two_runs;
pub mod zero_cases;

use document_cases::{document_cases, Case};
use enable_cases::enable_cases;
use fixed_cases::fixed_cases;
use model::{bench, certify, is_loop, Fact, Operator, Refusal};
use zero_cases::zero_cases;

/// Every table worked by hand: document 01's cases and those of the requests.
pub fn hand_cases() -> impl Iterator<Item = Case> {
    let requests = [enable_cases(), fixed_cases(), zero_cases()];
    document_cases().into_iter().chain(requests.into_iter().flatten())
}

/// The 16 bytes of a record.
pub type RecordBytes = [u8; 16];

/// The records of a table.
pub type Table = Vec<RecordBytes>;

/// The 8 bytes of a stimulus.
pub type StimulusBytes = [u8; 8];

/// The most records that a table can have.
pub const MOST_RECORDS: u16 = 4096;

/// The most stimuli that a list can have.
pub const MOST_STIMULI: usize = 4096;

/// The 16 bytes of a record from its fields, the bytes that must be 0 left 0.
pub fn record(kind: u8, width: u8, choice: u8, variables: [u16; 3], n: u32) -> RecordBytes {
    let mut bytes = [0; 16];
    bytes[..3].copy_from_slice(&[kind, width, choice]);
    for (place, variable) in [4, 6, 8].into_iter().zip(variables) {
        bytes[place..place + 2].copy_from_slice(&variable.to_le_bytes());
    }
    bytes[12..].copy_from_slice(&n.to_le_bytes());
    bytes
}

/// A fixed input of width w with value n, which it holds once it is poked.
pub fn fixed(w: u8, n: u32) -> RecordBytes {
    record(0, w, 0, [0; 3], n)
}

/// A free input of width w.
pub fn free(w: u8) -> RecordBytes {
    record(0, w, 1, [0; 3], 0)
}

/// A secret input of width w.
pub fn secret(w: u8) -> RecordBytes {
    record(0, w, 2, [0; 3], 0)
}

/// A constant n of width w.
pub fn constant(w: u8, n: u32) -> RecordBytes {
    record(1, w, 0, [0; 3], n)
}

/// An operator of width w on A and B.
pub fn operator(operator: Operator, w: u8, a: u16, b: u16) -> RecordBytes {
    record(2, w, operator.code(), [a, b, 0], 0)
}

/// A multiplexer of width w with control A and arms B and C.
pub fn multiplexer(w: u8, a: u16, b: u16, c: u16) -> RecordBytes {
    record(3, w, 0, [a, b, c], 0)
}

/// A register of width w with a power-on value, fed by A.
pub fn register(w: u8, power_on: u32, a: u16) -> RecordBytes {
    record(4, w, 0, [a, 0, 0], power_on)
}

/// A register of width w with a power-on value, fed by A where the enable B is not 0.
pub fn enabled(w: u8, power_on: u32, a: u16, b: u16) -> RecordBytes {
    record(5, w, 0, [a, b, 0], power_on)
}

/// The 8 bytes of a poke.
pub fn poke_bytes(variable: u16, n: u32) -> StimulusBytes {
    let mut bytes = [0; 8];
    bytes[2..4].copy_from_slice(&variable.to_le_bytes());
    bytes[4..].copy_from_slice(&n.to_le_bytes());
    bytes
}

/// The 8 bytes of a tick.
pub const TICK: StimulusBytes = [1, 0, 0, 0, 0, 0, 0, 0];

/// Random numbers from a seed, by splitmix64.
pub struct Random(u64);

impl Random {
    /// The generator of the named test, from the environment's `MODEL_SEED` or else the given seed. It
    /// prints the seed, so that a failing test names it.
    pub fn of_test(name: &str, seed: u64) -> Random {
        let seed = from_environment("MODEL_SEED").unwrap_or(seed);
        println!("{name}: MODEL_SEED={seed}");
        Random(seed)
    }

    /// The next 64 random bits.
    pub fn next(&mut self) -> u64 {
        self.0 = self.0.wrapping_add(0x9e37_79b9_7f4a_7c15);
        let once = (self.0 ^ (self.0 >> 30)).wrapping_mul(0xbf58_476d_1ce4_e5b9);
        let twice = (once ^ (once >> 27)).wrapping_mul(0x94d0_49bb_1331_11eb);
        twice ^ (twice >> 31)
    }

    /// A random number below the limit.
    pub fn below(&mut self, limit: usize) -> usize {
        (self.next() % limit as u64) as usize
    }

    /// True in so many of a hundred.
    pub fn percent(&mut self, share: usize) -> bool {
        self.below(100) < share
    }

    /// One of the choices.
    pub fn pick<T: Copy>(&mut self, choices: &[T]) -> T {
        choices[self.below(choices.len())]
    }

    /// The numbers below n in a random order.
    pub fn order(&mut self, n: usize) -> Vec<usize> {
        let mut order: Vec<usize> = (0..n).collect();
        for i in (1..n).rev() {
            order.swap(i, self.below(i + 1));
        }
        order
    }
}

/// How many random tables a test tries: the environment's `MODEL_CASES` or else the given number.
pub fn cases(number: usize) -> usize {
    from_environment("MODEL_CASES").map_or(number, |cases| cases as usize)
}

/// The number that a variable of the environment holds, if it is set.
fn from_environment(name: &str) -> Option<u64> {
    let text = std::env::var(name).ok()?;
    Some(text.parse().unwrap_or_else(|_| panic!("{name} is no number")))
}

/// A refusal, with the loop that the scratch shows for ground 11 and an empty row for the others.
#[derive(Debug, Clone, PartialEq, Eq)]
pub struct Refused {
    pub ground: u32,
    pub place: usize,
    pub row: Vec<u16>,
}

/// What the certifying call answers: the count and the facts, or the refusal.
pub type Answer = Result<(u32, Vec<Fact>), Refused>;

/// The certifying call on buffers of these lengths. What document 01 says of the buffers is checked.
pub fn certify_on(table: &[u8], certificate: usize, scratch: usize) -> Answer {
    let before: Vec<u8> = noise(certificate).map(|number| number as u8).collect();
    let scratch_before: Vec<u16> = noise(scratch).collect();
    let (mut after, mut scratch_after) = (before.clone(), scratch_before.clone());
    let answer = certify(table, &mut after, &mut scratch_after);
    check_output(answer, table.len() / 16 * 8, &before, &after);
    let row = check_scratch(table.len() / 16 * 2, answer, &scratch_before, &scratch_after);
    let count = answer.map_err(|refusal| refused(refusal, row))?;
    after.truncate(table.len() / 16 * 8);
    Ok((count, facts_of(&after)))
}

/// The certifying call on buffers as long as asked and so many longer.
pub fn certify_longer(table: &[u8], longer: usize) -> Answer {
    let n = table.len() / 16;
    certify_on(table, n * 8 + longer, n * 2 + longer)
}

/// What the bench call answers: the values, or the refusal.
pub type Values = Result<Vec<u32>, Refused>;

/// The bench call on buffers of these lengths. What document 01 says of the buffers is checked.
pub fn bench_on(table: &[u8], stimuli: &[u8], values: usize, scratch: usize) -> Values {
    let before: Vec<u32> = noise(values).map(widened).collect();
    let scratch_before: Vec<u16> = noise(scratch).collect();
    let (mut after, mut scratch_after) = (before.clone(), scratch_before.clone());
    let answer = bench(table, stimuli, &mut after, &mut scratch_after);
    check_output(answer, table.len() / 16, &before, &after);
    let row = check_scratch(table.len() / 16 * 4, answer, &scratch_before, &scratch_after);
    answer.map_err(|refusal| refused(refusal, row))?;
    after.truncate(table.len() / 16);
    Ok(after)
}

/// The bench call on buffers as long as asked and so many longer.
pub fn bench_longer(table: &[u8], stimuli: &[u8], longer: usize) -> Values {
    let n = table.len() / 16;
    bench_on(table, stimuli, n + longer, n * 4 + longer)
}

fn refused(Refusal { ground, place }: Refusal, row: Vec<u16>) -> Refused {
    Refused { ground, place, row }
}

/// Asserts that a row is one that ground 11 can show: a loop of the table, from its lowest variable on.
pub fn assert_shows_loop(table: &[u8], row: &[u16]) {
    assert!(is_loop(table, row), "{row:?} is no loop");
    assert_eq!(row.first(), row.iter().min(), "the lowest variable of {row:?} is not the first");
}

/// What a buffer holds before a call: numbers with no byte 0.
pub fn noise(length: usize) -> impl Iterator<Item = u16> {
    (0..length).map(|i| (i as u16).wrapping_mul(40_503) | 0x0101)
}

/// A number of the noise as one of 32 bits, with no byte 0 either.
pub fn widened(number: u16) -> u32 {
    u32::from(number) * 65_537
}

/// A refusal changes no output; an accepted call changes nothing past what it asks.
fn check_output<T, V: PartialEq + std::fmt::Debug>(
    answer: Result<T, Refusal>,
    asked: usize,
    before: &[V],
    after: &[V],
) {
    let written = answer.map_or(0, |_| asked);
    assert_eq!(before[written..], after[written..], "output");
}

/// The scratch is unchanged for 1 to 10. After that its part, as long as asked, is the row of ground 11 and then
/// 0, and what is past the part is unchanged. Gives the row, empty but for 11.
fn check_scratch<T>(asked: usize, answer: Result<T, Refusal>, before: &[u16], after: &[u16]) -> Vec<u16> {
    let length = match answer {
        Err(Refusal { ground: 1..=10, .. }) => {
            assert_eq!(before, after, "scratch");
            return Vec::new();
        }
        Err(Refusal { ground: 11, place }) => place,
        _ => 0,
    };
    let (part, past) = after.split_at(asked);
    assert_eq!(before[part.len()..], *past, "past the scratch's part");
    let (row, rest) = part.split_at(length);
    assert!(rest.iter().all(|&number| number == 0), "the rest of the scratch's part");
    row.to_vec()
}

/// The facts in a certificate.
pub fn facts_of(certificate: &[u8]) -> Vec<Fact> {
    certificate.chunks(8).map(fact_of).collect()
}

/// The fact in the 8 bytes of a variable.
fn fact_of(bytes: &[u8]) -> Fact {
    let n = u32::from_le_bytes(bytes[4..8].try_into().unwrap());
    match (bytes[0], bytes[1], bytes[2], bytes[3], n) {
        (1, 0, 0, 0, n) => Fact::Always(n),
        (2, 0, 0, 0, 0) => Fact::Open,
        (3, 0, 0, 0, 0) => Fact::Marked,
        _ => panic!("no fact has the bytes {bytes:?}"),
    }
}
