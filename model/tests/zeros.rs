//! Known zeros in random tables: how often each zero that decides an operator does so, and beside what, how
//! often it ceases to be one in a round, and how often it keeps a register. Other tests on random tables rest
//! on that.

mod common;

use common::shapes::random_records;
use common::times::{beside, Times, ALL, MARKED, OPEN, THIS};
use common::{cases, Random};
use model::{before_any_round, rounds, Fact, Operator, Record};

/// The zeros that decide: of which operator, and which operand.
const ZEROS: [[&str; 2]; 5] =
    [["and", "A"], ["and", "B"], ["less", "B"], ["shift left", "A"], ["shift right", "A"]];

/// Those of an operator.
fn zeros_of(code: Operator) -> &'static [[&'static str; 2]] {
    match code {
        Operator::And => &ZEROS[..2],
        Operator::Less => &ZEROS[2..3],
        Operator::ShiftLeft => &ZEROS[3..4],
        Operator::ShiftRight => &ZEROS[4..],
        _ => &[],
    }
}

/// An operand that would decide the record's operator if it were 0, and the other one.
struct Operands {
    zero: [&'static str; 2],
    this: usize,
    other: usize,
}

/// Those of a record.
fn operands(record: &Record) -> impl Iterator<Item = Operands> {
    let (zeros, a, b) = match *record {
        Record::Operator { operator, a, b, .. } => (zeros_of(operator), a, b),
        _ => (&[][..], 0, 0),
    };
    zeros.iter().map(move |&zero| {
        let (this, other) = if zero[1] == "A" { (a, b) } else { (b, a) };
        Operands { zero, this, other }
    })
}

/// Every zero, with each of these beside it.
fn zeros_with(with: &[&'static str]) -> Times<[&'static str; 3]> {
    let all = ZEROS.into_iter().flat_map(|[code, operand]| with.iter().map(move |w| [code, operand, w]));
    Times::none(&all.collect::<Vec<_>>())
}

/// Counts, over random tables, the operands for which `case` has one, from the facts before any round and in the
/// end. Asserts that each case of each zero occurs in so many of a thousand operators.
fn assert_zeros(
    random: &mut Random,
    with: &[&'static str],
    share: usize,
    case: impl Fn([&[Fact]; 2], &Operands) -> Option<&'static str>,
) {
    let (mut seen, mut operators, tables) = (zeros_with(with), 0, cases(20_000));
    for _ in 0..tables {
        let records = random_records(random);
        let (first, (_, last)) = (before_any_round(&records), rounds(&records));
        operators += records.iter().filter(|record| matches!(record, Record::Operator { .. })).count();
        for operands in records.iter().flat_map(operands) {
            if let Some(case) = case([&first, &last], &operands) {
                let [code, operand] = operands.zero;
                seen.count([code, operand, case]);
            }
        }
    }
    if tables >= 5000 {
        seen.assert_each(operators, share);
    }
}

#[test]
fn random_tables_have_every_zero_beside_every_fact() {
    let mut random = Random::of_test("zeros", 31);
    assert_zeros(&mut random, &ALL, 2, |[_, last], operands| {
        (last[operands.this] == Fact::Always(0)).then(|| beside(0, last[operands.other]))
    });
}

#[test]
fn zeros_before_any_round_last_or_open_or_are_marked() {
    let mut random = Random::of_test("zeros over rounds", 32);
    assert_zeros(&mut random, &[THIS, OPEN, MARKED], 1, |[first, last], operands| {
        (first[operands.this] == Fact::Always(0)).then(|| beside(0, last[operands.this]))
    });
}

/// A plain register stays always its power-on value as a zero keeps back what its data would let through.
#[test]
fn zeros_keep_registers() {
    let mut random = Random::of_test("kept registers", 34);
    let (mut seen, mut registers, tables) = (Times::none(&[OPEN, MARKED]), 0, cases(20_000));
    for _ in 0..tables {
        let records = random_records(&mut random);
        let (_, facts) = rounds(&records);
        for (record, fact) in records.iter().zip(&facts) {
            let Record::Register { a: data, .. } = *record else { continue };
            registers += 1;
            let kept = operands(&records[data]).find(|operands| facts[operands.this] == Fact::Always(0));
            if let (Fact::Always(_), Some(Operands { other, .. })) = (fact, kept) {
                if !matches!(facts[other], Fact::Always(_)) {
                    seen.count(beside(0, facts[other]));
                }
            }
        }
    }
    if tables >= 5000 {
        seen.assert_each(registers, 1);
    }
}
