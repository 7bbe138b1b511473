//! Interleaved timing: calls take turns, so that what else the machine does falls on all of them alike.

use std::time::{Duration, Instant};

/// How long one sample should take at least: calls that are shorter are made several times in a sample.
const SAMPLE: Duration = Duration::from_micros(400);

/// How long all samples of a row should take, as far as the least number of samples allows.
const ROW: Duration = Duration::from_millis(1000);

const LEAST_SAMPLES: usize = 5;
const MOST_SAMPLES: usize = 301;

/// One call, made ready.
pub type Call<'a> = Box<dyn FnMut() + 'a>;

/// The median time of each call in nanoseconds.
pub fn medians(calls: &mut [Call]) -> Vec<f64> {
    samples(calls, LEAST_SAMPLES).iter().map(|taken| median(taken)).collect()
}

/// Two calls that took turns.
pub struct Compared {
    /// Each call's quartiles in nanoseconds: the middle one is its median, and half of its turns lie between
    /// the other two.
    pub quartiles: [[f64; 3]; 2],
    /// The first call's median time by the second's in each fifth of the turns, in rising order.
    pub ratios: [f64; 5],
}

/// Has two calls take turns.
pub fn compared(calls: &mut [Call; 2]) -> Compared {
    // Three turns in a fifth at least.
    let taken = samples(calls, 15);
    let turns = taken[0].len();
    let mut ratios = [0, 1, 2, 3, 4].map(|k| {
        let fifth = turns * k / 5..turns * (k + 1) / 5;
        median(&taken[0][fifth.clone()]) / median(&taken[1][fifth])
    });
    ratios.sort_by(f64::total_cmp);
    let quartiles = [0, 1].map(|i| [1, 2, 3].map(|quarters| in_order(&taken[i])[turns * quarters / 4]));
    Compared { quartiles, ratios }
}

/// The times of each call in nanoseconds, one a turn.
fn samples(calls: &mut [Call], least: usize) -> Vec<Vec<f64>> {
    let once: Vec<Duration> = calls.iter_mut().map(|call| time(call, 1)).collect();
    let times: Vec<u32> = once.iter().map(|&once| repetitions(once)).collect();
    let turn: Duration = once.iter().zip(&times).map(|(&once, &times)| once * times).sum();
    let samples = (ROW.as_nanos() / turn.as_nanos().max(1)) as usize;
    let samples = samples.clamp(least, MOST_SAMPLES);
    let mut taken = vec![Vec::with_capacity(samples); calls.len()];
    for turn in 0..samples {
        // Each turn begins with another call, so that none always follows the same one.
        for place in 0..calls.len() {
            let i = (turn + place) % calls.len();
            let spent = time(&mut calls[i], times[i]);
            taken[i].push(spent.as_nanos() as f64 / f64::from(times[i]));
        }
    }
    taken
}

fn time(call: &mut Call, times: u32) -> Duration {
    let start = Instant::now();
    for _ in 0..times {
        call();
    }
    start.elapsed()
}

fn repetitions(once: Duration) -> u32 {
    (SAMPLE.as_nanos() / once.as_nanos().max(1)).max(1) as u32
}

fn median(taken: &[f64]) -> f64 {
    in_order(taken)[taken.len() / 2]
}

fn in_order(taken: &[f64]) -> Vec<f64> {
    let mut taken = taken.to_vec();
    taken.sort_by(f64::total_cmp);
    taken
}
