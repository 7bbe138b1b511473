//! How often each answer comes among random calls.

use crate::common::Random;
use model::Refusal;

/// How often each answer came, by its ground and with 0 for accepted, and the greatest number that came with
/// it: the one that an accepted call answers, the place of a refused one.
#[derive(Debug, Default)]
struct Answers {
    times: [usize; ANSWERS],
    greatest: [usize; ANSWERS],
}

/// None, or one of the grounds, of which 23 is the last.
const ANSWERS: usize = 24;

/// Makes so many random calls. Asserts that each of these grounds was met, 0 being none.
pub fn random_calls(
    random: &mut Random,
    calls: usize,
    grounds: &[usize],
    mut call: impl FnMut(&mut Random) -> Result<u32, Refusal>,
) {
    let mut answers = Answers::default();
    for _ in 0..calls {
        let (ground, number) = match call(random) {
            Ok(number) => (0, number as usize),
            Err(Refusal { ground, place }) => (ground as usize, place),
        };
        answers.times[ground] += 1;
        answers.greatest[ground] = answers.greatest[ground].max(number);
    }
    println!("of {calls}: {answers:?}");
    let met = |&ground: &usize| answers.times[ground] > 0;
    assert!(calls < 1000 || grounds.iter().all(met), "{answers:?}");
}
