//! Document 01, "The bench machine", its stimuli: their reading with grounds 14 to 17, the state after a
//! list of them, and the bench call.

use crate::table::accept;
use crate::{fits, poke, power_on, tick, Asked, InputKind, Record, Refusal};

/// What the bench call asks: a number a variable, and the scratch.
pub const BENCH_ASKS: Asked = Asked { output: 1, scratch: 4 };

/// The most stimuli that a list can have.
const MOST_STIMULI: usize = 4096;

/// A stimulus: a poke of one input with n, or a tick.
#[derive(Debug, Clone, Copy, PartialEq, Eq)]
pub enum Stimulus {
    Poke { variable: usize, n: u32 },
    Tick,
}

impl Stimulus {
    /// The stimulus in 8 bytes, or the first of grounds 14 to 17 that holds.
    pub fn read(bytes: &[u8; 8], records: &[Record]) -> Result<Stimulus, u32> {
        let stimulus = Stimulus::decode(|i| bytes[i])?;
        stimulus.check(|variable| records.get(variable).copied())?;
        Ok(stimulus)
    }

    /// The stimulus in the 8 bytes of which `byte` gives each, or ground 14.
    #[inline(always)]
    pub fn decode(byte: impl Fn(usize) -> u8) -> Result<Stimulus, u32> {
        let variable = usize::from(u16::from_le_bytes([byte(2), byte(3)]));
        let n = u32::from_le_bytes([byte(4), byte(5), byte(6), byte(7)]);
        match (byte(0), byte(1)) {
            (0, 0) => Ok(Stimulus::Poke { variable, n }),
            (1, 0) if variable == 0 && n == 0 => Ok(Stimulus::Tick),
            _ => Err(14),
        }
    }

    /// The first of grounds 15, 17 and 16, as request S-6 orders them, that holds in the table of which `record`
    /// gives each variable's record.
    #[inline(always)]
    pub fn check(self, record: impl Fn(usize) -> Option<Record>) -> Result<(), u32> {
        let Stimulus::Poke { variable, n } = self else {
            return Ok(());
        };
        let Some(Record::Input { width, kind }) = record(variable) else {
            return Err(15);
        };
        match kind {
            InputKind::Fixed(fixed) if n != fixed => Err(17),
            _ if !fits(n, width) => Err(16),
            _ => Ok(()),
        }
    }
}

/// The 8 bytes of each stimulus, or the first of grounds 12 and 13 that holds.
pub fn split_stimuli(bytes: &[u8]) -> Result<&[[u8; 8]], Refusal> {
    let (stimuli, rest) = bytes.as_chunks();
    if !rest.is_empty() {
        return Err(Refusal { ground: 12, place: 0 });
    }
    if stimuli.len() > MOST_STIMULI {
        return Err(Refusal { ground: 13, place: 0 });
    }
    Ok(stimuli)
}

/// The list of stimuli, or the first of grounds 12 to 17 that holds.
fn read_stimuli(bytes: &[u8], records: &[Record]) -> Result<Vec<Stimulus>, Refusal> {
    let read = |(place, bytes)| Stimulus::read(bytes, records).map_err(|ground| Refusal { ground, place });
    split_stimuli(bytes)?.iter().enumerate().map(read).collect()
}

/// The state after the last stimulus of a list, or at power-on where there is none.
pub fn run(records: &[Record], stimuli: &[Stimulus]) -> Vec<u32> {
    let after = |state: Vec<u32>, stimulus: &Stimulus| match *stimulus {
        Stimulus::Poke { variable, n } => poke(records, &state, variable, n),
        Stimulus::Tick => tick(records, &state),
    };
    stimuli.iter().fold(power_on(records), after)
}

/// The bench call: the state after the last stimulus, number i holding variable i, or the refusal.
pub fn bench(table: &[u8], stimuli: &[u8], values: &mut [u32], scratch: &mut [u16]) -> Result<(), Refusal> {
    let records = accept(table, BENCH_ASKS, values.len(), scratch)?;
    let stimuli = read_stimuli(stimuli, &records)?;
    values[..records.len()].copy_from_slice(&run(&records, &stimuli));
    Ok(())
}
