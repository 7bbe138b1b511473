//! The path call: rows found by hand, and the clauses of request S-8 on random tables. On small ones every row
//! is written out and the least is taken; on all sizes a row is held to each clause by itself, with what has rows
//! of which length found from the secret inputs on. What the call leaves in its buffers is checked at every call
//! by the shared helper.

mod common;

use common::path_cases::path_cases;
use common::paths::{marked, path_longer, random_traced};
use common::shapes::{lattice, register_ring, table_or_shape, tied};
use common::tables::{random_table, renumbered};
use common::times::Times;
use common::{cases, certify_longer, Random, RecordBytes, Table, MOST_RECORDS};
use model::Fact;

#[test]
fn rows_found_by_hand() {
    for case in path_cases() {
        for longer in [0, 1, 5] {
            let row = path_longer(&case.table, case.variable, longer);
            assert_eq!(row.as_ref(), Ok(&case.row), "{}", case.name);
        }
    }
}

/// A table with its facts, in which uses are read off the records' bytes.
struct Certified {
    table: Table,
    facts: Vec<Fact>,
}

impl Certified {
    fn new(table: Table) -> Certified {
        let (_, facts) = certify_longer(table.as_flattened(), 0).unwrap();
        Certified { table, facts }
    }

    /// A random table of up to so many records.
    fn random(random: &mut Random, most: usize) -> Certified {
        let n = 1 + random.below(most);
        Certified::new(random_traced(random, n, false))
    }

    fn record(&self, variable: u16) -> &RecordBytes {
        &self.table[usize::from(variable)]
    }

    fn is_marked(&self, variable: u16) -> bool {
        self.facts[usize::from(variable)] == Fact::Marked
    }

    fn is_secret(&self, variable: u16) -> bool {
        let record = self.record(variable);
        (record[0], record[2]) == (0, 2)
    }

    fn marked(&self) -> impl Iterator<Item = u16> + '_ {
        (0..self.table.len() as u16).filter(|&variable| self.is_marked(variable))
    }

    /// A, B and C of a record, as far as its kind has them.
    fn named(&self, variable: u16) -> Vec<u16> {
        let record = self.record(variable);
        let number = |at: usize| u16::from_le_bytes([record[at], record[at + 1]]);
        let named = [0, 0, 2, 3, 1, 2][usize::from(record[0])];
        [4, 6, 8].into_iter().take(named).map(number).collect()
    }

    /// The uses of a variable: what its record names, but for the arm that an always control passes over.
    fn uses(&self, variable: u16) -> Vec<u16> {
        let mut uses = self.named(variable);
        if self.record(variable)[0] == 3 {
            match self.facts[usize::from(uses[0])] {
                Fact::Always(0) => uses.remove(1),
                Fact::Always(_) => uses.remove(2),
                _ => return uses,
            };
        }
        uses
    }

    /// The row that the call gives.
    fn row(&self, variable: u16) -> Vec<u16> {
        path_longer(self.table.as_flattened(), variable.into(), 0).unwrap()
    }
}

/// Every row of distinct marked variables that begins with this one and ends with a secret input, each using the
/// next.
fn rows(certified: &Certified, row: Vec<u16>, uses: &impl Fn(u16) -> Vec<u16>) -> Vec<Vec<u16>> {
    let last = *row.last().unwrap();
    if certified.is_secret(last) {
        return vec![row];
    }
    let mut next: Vec<u16> = uses(last);
    next.sort_unstable();
    next.dedup();
    next.retain(|&used| certified.is_marked(used) && !row.contains(&used));
    let longer = |used: u16| rows(certified, [&row[..], &[used]].concat(), uses);
    next.into_iter().flat_map(longer).collect()
}

/// The least of rows: the shortest, and of equals the one that is lower at the first difference.
fn least(rows: &[Vec<u16>]) -> Option<&Vec<u16>> {
    rows.iter().min_by_key(|row| (row.len(), *row))
}

/// What can occur on a row, or in the choice of it.
const OCCASIONS: [&str; 8] = [
    "several steps",
    "equals",
    "the lowest use is none",
    "an arm passed over is nearer",
    "through a register",
    "through an enable",
    "through a control",
    "through an arm",
];

/// What occurs on the row from this variable, which is the least of these.
fn occasions(certified: &Certified, row: &[u16], rows_from: &[Vec<u16>]) -> [bool; OCCASIONS.len()] {
    let named = rows(certified, vec![row[0]], &|variable| certified.named(variable));
    let lowest = |variable: u16| {
        certified.uses(variable).into_iter().filter(|&used| certified.is_marked(used)).min()
    };
    let through = |kind: u8, places: &[usize]| {
        row.windows(2).any(|step| {
            let named = certified.named(step[0]);
            let at = |&place: &usize| named[place] == step[1];
            certified.record(step[0])[0] == kind && places.iter().any(at)
        })
    };
    [
        row.len() > 3,
        rows_from.iter().filter(|other| other.len() == row.len()).count() > 1,
        row.windows(2).any(|step| lowest(step[0]) != Some(step[1])),
        least(&named).is_some_and(|other| other.len() < row.len()),
        through(4, &[0]) || through(5, &[0]),
        through(5, &[1]),
        through(3, &[0]),
        through(3, &[1, 2]),
    ]
}

/// What occurs is counted, so that the test can't pass where little does.
#[test]
fn the_least_of_all_rows() {
    let mut random = Random::of_test("all rows", 111);
    let (mut seen, mut calls, tables) = (Times::none(&OCCASIONS), 0, cases(12_000));
    for _ in 0..tables {
        let certified = Certified::random(&mut random, 14);
        for variable in certified.marked() {
            let rows = rows(&certified, vec![variable], &|variable| certified.uses(variable));
            let least = least(&rows).expect("every marked variable has a row");
            assert_eq!(&certified.row(variable), least, "{:?}", certified.table);
            calls += 1;
            let occasions = OCCASIONS.into_iter().zip(occasions(&certified, least, &rows));
            occasions.filter(|&(_, occurs)| occurs).for_each(|(occasion, _)| seen.count(occasion));
        }
    }
    if tables >= 5000 {
        seen.assert_each(calls, 3);
    }
}

/// Whether each variable has a row of each length up to this one, both ends counted: 1 has a secret input alone,
/// and one more a marked variable that uses one with the length.
fn with_rows(certified: &Certified, longest: usize) -> Vec<Vec<bool>> {
    let n = certified.table.len() as u16;
    let mut lengths: Vec<Vec<bool>> =
        vec![vec![false; n.into()], (0..n).map(|i| certified.is_secret(i)).collect()];
    for length in 1..longest {
        let has = |used: &u16| lengths[length][usize::from(*used)];
        let longer = |i: u16| certified.is_marked(i) && certified.uses(i).iter().any(has);
        lengths.push((0..n).map(longer).collect());
    }
    lengths
}

/// Asserts each clause of the request of the row from a marked variable.
fn assert_row(certified: &Certified, variable: u16) {
    let row = certified.row(variable);
    let with_rows = with_rows(certified, row.len());
    let has = |length: usize, variable: u16| with_rows[length][usize::from(variable)];
    assert_eq!(row.first(), Some(&variable));
    assert!(row.iter().all(|&variable| certified.is_marked(variable)), "{row:?}");
    assert!(row.last().is_some_and(|&last| certified.is_secret(last)), "{row:?}");
    assert!(!(1..row.len()).any(|length| has(length, variable)), "{row:?} has a shorter one");
    for (i, step) in row.windows(2).enumerate() {
        let left = row.len() - i - 1;
        let lowest = certified.uses(step[0]).into_iter().filter(|&used| has(left, used)).min();
        assert_eq!(lowest, Some(step[1]), "{row:?} at {i}");
    }
}

#[test]
fn every_marked_variable_has_the_row_that_is_asked() {
    let mut random = Random::of_test("clauses of rows", 112);
    for _ in 0..cases(3000) {
        let certified = Certified::random(&mut random, 50);
        certified.marked().for_each(|variable| assert_row(&certified, variable));
    }
}

/// From a variable of a row the row goes on as it did.
#[test]
fn what_is_left_of_a_row_is_a_row() {
    let mut random = Random::of_test("tails of rows", 113);
    for _ in 0..cases(5000) {
        let certified = Certified::random(&mut random, 60);
        let marked: Vec<u16> = certified.marked().collect();
        if !marked.is_empty() {
            let row = certified.row(random.pick(&marked));
            (0..row.len()).for_each(|i| assert_eq!(certified.row(row[i]), row[i..]));
        }
    }
}

#[test]
fn a_variable_has_a_row_exactly_if_it_is_marked() {
    let mut random = Random::of_test("rows and marks", 114);
    for _ in 0..cases(5000) {
        let n = 1 + random.below(40);
        let table = table_or_shape(&mut random, n);
        let marked = marked(table.as_flattened());
        for variable in 0..table.len() as u32 + 2 {
            let answer = path_longer(table.as_flattened(), variable, 0);
            let refused = answer.err().map(|refused| (refused.ground, refused.place));
            let expected = (!marked.contains(&variable)).then_some((23, variable as usize));
            assert_eq!(refused, expected);
        }
    }
}

/// The order of the records decides between equals alone.
#[test]
fn a_row_is_as_long_in_any_order_of_the_records() {
    let mut random = Random::of_test("rows in another order", 115);
    for _ in 0..cases(3000) {
        let certified = Certified::random(&mut random, 40);
        let to = random.order(certified.table.len());
        let moved = Certified::new(renumbered(&certified.table, &to));
        for variable in certified.marked() {
            let length = moved.row(to[usize::from(variable)] as u16).len();
            assert_eq!(length, certified.row(variable).len());
        }
    }
}

#[test]
fn rows_in_the_largest_tables() {
    let mut random = Random::of_test("rows, largest", 116);
    let n = usize::from(MOST_RECORDS);
    let loopless = |random: &mut Random, n| random_table(random, n, false);
    for shape in [lattice, tied, register_ring, loopless] {
        let certified = Certified::new(shape(&mut random, n));
        let marked: Vec<u16> = certified.marked().collect();
        assert_row(&certified, random.pick(&marked));
    }
}
