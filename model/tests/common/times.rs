//! How often each of some cases occurs among random tables and runs, so that a test can't pass where few do.

use model::Fact;
use std::collections::BTreeMap;
use std::fmt::Debug;

pub const THIS: &str = "this";
pub const OTHER: &str = "other";
pub const OPEN: &str = "open";
pub const MARKED: &str = "marked";

/// What a fact can say beside a number.
pub const ALL: [&str; 4] = [THIS, OTHER, OPEN, MARKED];

/// What a fact says beside a number: always that one, always another, open or marked.
pub fn beside(n: u32, fact: Fact) -> &'static str {
    match fact {
        Fact::Always(other) if other == n => THIS,
        Fact::Always(_) => OTHER,
        Fact::Open => OPEN,
        Fact::Marked => MARKED,
    }
}

/// How often each of some cases occurred.
#[derive(Debug)]
pub struct Times<C>(BTreeMap<C, usize>);

impl<C: Ord + Copy + Debug> Times<C> {
    /// Each of these cases, not met yet.
    pub fn none(cases: &[C]) -> Times<C> {
        Times(cases.iter().map(|&case| (case, 0)).collect())
    }

    /// Counts a case, which must be one of them.
    pub fn count(&mut self, case: C) {
        *self.0.get_mut(&case).unwrap_or_else(|| panic!("{case:?} can't be")) += 1;
    }

    /// How often all of them together occurred.
    pub fn sum(&self) -> usize {
        self.0.values().sum()
    }

    /// Asserts that each occurred in so many of a thousand.
    pub fn assert_each(&self, all: usize, share: usize) {
        println!("of {all}: {:?}", self.0);
        assert!(self.0.values().all(|times| times * 1000 >= all * share), "of {all}: {:?}", self.0);
    }
}
