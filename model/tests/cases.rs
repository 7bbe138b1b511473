//! Document 01's cases A to M, C as request S-3 has it, and cases of registers with an enable, of fixed inputs
//! and of known zeros, with their whole certificates, and bench runs worked by hand.

mod common;

use common::document_cases::{document_cases, Case};
use common::enable_cases::enable_cases;
use common::fixed_cases::fixed_cases;
use common::hand_runs::hand_runs;
use common::printed::printed_certificate;
use common::zero_cases::zero_cases;
use common::{bench_longer, certify_longer};

/// Asserts that the certifying call's answers are those of the cases.
fn assert_certified(cases: Vec<Case>) {
    for case in cases {
        for longer in [0, 1, 5] {
            let answer = certify_longer(&case.table, longer);
            assert_eq!(printed_certificate(&answer), case.printed, "case {}", case.name);
        }
    }
}

#[test]
fn cases_a_to_m() {
    assert_certified(document_cases());
}

#[test]
fn registers_with_an_enable() {
    assert_certified(enable_cases());
}

#[test]
fn fixed_inputs() {
    assert_certified(fixed_cases());
}

#[test]
fn known_zeros() {
    assert_certified(zero_cases());
}

#[test]
fn runs_worked_by_hand() {
    for run in hand_runs() {
        for longer in [0, 1, 5] {
            let values = bench_longer(&run.table, &run.stimuli, longer);
            assert_eq!(values, Ok(run.values.clone()), "{}", run.name);
        }
    }
}
