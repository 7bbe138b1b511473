//! Buffers lent to a call, and a call of the archive held against the model's on equal buffers. A buffer
//! lies in memory that no call may touch, all of it filled with noise at entry.

#![allow(dead_code)] // each test file uses a part

pub mod answers;

use crate::common::{assert_shows_loop, noise, Random};
use model::Refusal;
use std::fmt::{Debug, Display, Formatter};

/// How long the lent buffers are, and how much memory lies on either side of each.
#[derive(Debug, Clone, Copy)]
pub struct Lengths {
    pub output: usize,
    /// The list of old numbers, which trimming alone writes beside its output.
    pub numbers: usize,
    pub scratch: usize,
    pub margin: usize,
}

impl Lengths {
    /// What is asked for a table when the output and the scratch take so much a record, and no numbers are
    /// written beside.
    pub fn asked(table: &[u8], output_a_record: usize, scratch_a_record: usize) -> Lengths {
        let n = table.len() / 16;
        Lengths { output: n * output_a_record, numbers: 0, scratch: n * scratch_a_record, margin: 3 }
    }

    /// Lengths that meet those of grounds 3 and 4 that are to be met, by one.
    pub fn that_meet(self, meets: impl Fn(u32) -> bool) -> Lengths {
        let (output, scratch) = (self.output - usize::from(meets(3)), self.scratch - usize::from(meets(4)));
        Lengths { output, scratch, ..self }
    }

    /// Each buffer of every length around the one asked for it.
    pub fn around(self) -> impl Iterator<Item = Lengths> {
        let scratches = lengths_around(self.scratch);
        lengths_around(self.output).into_iter().flat_map(move |output| {
            scratches.clone().into_iter().map(move |scratch| Lengths { output, scratch, ..self })
        })
    }

    /// Random lengths, mostly enough.
    pub fn random(self, random: &mut Random) -> Lengths {
        let (output, scratch) = (random_length(random, self.output), random_length(random, self.scratch));
        Lengths { output, scratch, margin: random.below(8), ..self }
    }
}

/// A random length of a buffer, mostly enough.
pub fn random_length(random: &mut Random, asked: usize) -> usize {
    match random.below(20) {
        0 => asked.saturating_sub(1),
        1 => random.below(asked + 1),
        2 => asked * 2,
        3..=9 => asked + random.below(20),
        _ => asked,
    }
}

/// A buffer's lengths around the one asked for: empty, too short by half and by one, as long as asked, longer
/// by one and by more, and twice as long.
pub fn lengths_around(asked: usize) -> Vec<usize> {
    let mut lengths = vec![0, asked / 2, asked.saturating_sub(1), asked, asked + 1, asked + 9, asked * 2];
    lengths.dedup();
    lengths
}

/// A buffer, with the memory on either side of it.
#[derive(Clone)]
struct Buffer<V> {
    memory: Vec<V>,
    margin: usize,
}

impl<V> Buffer<V> {
    fn new(length: usize, margin: usize, number: impl Fn(u16) -> V) -> Buffer<V> {
        Buffer { memory: noise(length + 2 * margin).map(number).collect(), margin }
    }

    fn lent(&mut self) -> &mut [V] {
        let end = self.memory.len() - self.margin;
        &mut self.memory[self.margin..end]
    }
}

/// The buffers of a call: its output, the numbers beside it and its scratch.
#[derive(Clone)]
pub struct Buffers<V> {
    output: Buffer<V>,
    numbers: Buffer<u16>,
    scratch: Buffer<u16>,
}

/// The buffers as a call is lent them.
pub struct Lent<'a, V> {
    pub output: &'a mut [V],
    pub numbers: &'a mut [u16],
    pub scratch: &'a mut [u16],
}

impl<V: Clone + PartialEq + Debug> Buffers<V> {
    /// Buffers of these lengths, the output's numbers made from noise.
    pub fn new(lengths: Lengths, number: impl Fn(u16) -> V) -> Buffers<V> {
        let Lengths { output, numbers, scratch, margin } = lengths;
        Buffers {
            output: Buffer::new(output, margin, number),
            numbers: Buffer::new(numbers, margin, |number| number),
            scratch: Buffer::new(scratch, margin, |number| number),
        }
    }

    /// What a call on equal buffers answers, and the buffers at its exit.
    fn after<T>(&self, call: impl FnOnce(Lent<V>) -> T) -> (T, Buffers<V>) {
        let mut exit = self.clone();
        let Buffers { output, numbers, scratch } = &mut exit;
        let lent = Lent { output: output.lent(), numbers: numbers.lent(), scratch: scratch.lent() };
        (call(lent), exit)
    }

    /// Puts another row in the place of the one that the scratch shows, so many variables and then 0.
    fn show(&mut self, shown: usize, row: &[u16]) {
        let scratch = self.scratch.lent();
        scratch[..shown].fill(0);
        scratch[..row.len()].copy_from_slice(row);
    }
}

/// What a call reads: the certifying call a table, the bench call stimuli too, the trimming call a certificate
/// and kept variables, the path call a variable, and the call for a bill sizes.
#[derive(Clone, Copy, Default)]
pub struct Inputs<'a> {
    pub table: &'a [u8],
    pub stimuli: &'a [u8],
    pub certificate: &'a [u8],
    pub kept: &'a [u16],
    pub variable: Option<u32>,
    pub sizes: &'a [u32],
}

impl Display for Inputs<'_> {
    fn fmt(&self, f: &mut Formatter) -> std::fmt::Result {
        write_lines(f, "bytes of table", self.table, 16)?;
        write_lines(f, "bytes of stimuli", self.stimuli, 8)?;
        write_lines(f, "bytes of certificate", self.certificate, 8)?;
        write_lines(f, "kept variables", self.kept, 16)?;
        write_lines(f, "variable to trace", self.variable.as_slice(), 1)?;
        write_lines(f, "sizes", self.sizes, 16)
    }
}

/// Writes numbers as lines of so many, up to so many lines that small tables, lists and orders are whole.
fn write_lines(f: &mut Formatter, name: &str, numbers: &[impl Debug], a_line: usize) -> std::fmt::Result {
    write!(f, "\n{} {name}:", numbers.len())?;
    numbers.chunks(a_line).take(40).try_for_each(|line| write!(f, "\n{line:3?}"))
}

/// What a call of the archive answers on these buffers, held against the model's call on equal buffers: the
/// answers are equal, and so is all memory at exit. For ground 11 the row is free and held to be a loop. A
/// refusal changes no output, whatever the model does.
pub fn held_to_model<T, V>(
    inputs: Inputs,
    entry: &Buffers<V>,
    archive: impl FnOnce(Lent<V>) -> Result<T, Refusal>,
    model: impl FnOnce(Lent<V>) -> Result<T, Refusal>,
) -> Result<T, Refusal>
where
    T: PartialEq + Debug,
    V: Clone + PartialEq + Debug,
{
    let (answer, mut exit) = entry.after(archive);
    let (expected, mut expected_exit) = entry.after(model);
    match (&answer, &expected) {
        (Err(Refusal { ground: 11, place }), Err(Refusal { ground: 11, place: shown })) => {
            let row = &exit.scratch.lent()[..*place];
            assert_shows_loop(inputs.table, row);
            expected_exit.show(*shown, row);
        }
        _ => assert_eq!(answer, expected, "the answer on {inputs}"),
    }
    assert_same("output", inputs, &exit.output, &expected_exit.output);
    assert_same("number", inputs, &exit.numbers, &expected_exit.numbers);
    assert_same("scratch", inputs, &exit.scratch, &expected_exit.scratch);
    if answer.is_err() {
        assert_same("refused output", inputs, &exit.output, &entry.output);
        assert_same("refused number", inputs, &exit.numbers, &entry.numbers);
    }
    answer
}

/// Asserts that two buffers are equal, with the memory around them, and else names the first difference.
fn assert_same<V: PartialEq + Debug>(name: &str, inputs: Inputs, found: &Buffer<V>, expected: &Buffer<V>) {
    let differ = |&i: &usize| found.memory[i] != expected.memory[i];
    if let Some(i) = (0..found.memory.len()).find(differ) {
        let (place, is, must) = (i as isize - found.margin as isize, &found.memory[i], &expected.memory[i]);
        panic!("{name} {place} is {is:?} and must be {must:?}, on {inputs}");
    }
}
