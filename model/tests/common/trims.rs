//! The trimming call made on buffers whose contents are checked afterwards by request S-5's clauses; what is
//! given to it: a table's own certificate and others that pass, and lists of kept variables; and its clause on
//! the certificate's bytes that are not read, tried on any trimming call.

use super::samples::one_of_each;
use super::shapes::random_shape;
use super::tables::{damage, random_number};
use super::times::Times;
use super::{check_output, check_scratch, noise, refused, Random, Refused};
use model::{certify, find_loop, read_records, trim, Fact, Record};
use std::fmt::Debug;
use std::ops::Range;

/// What is given to a trimming call.
#[derive(Debug, Clone)]
pub struct Given {
    pub table: Vec<u8>,
    pub certificate: Vec<u8>,
    pub kept: Vec<u16>,
}

/// What the trimming call answers: the trimmed table and the old numbers, or the refusal.
pub type Trimmed = Result<(Vec<u8>, Vec<u16>), Refused>;

impl Given {
    /// A table with its own certificate.
    pub fn own(table: &[u8], kept: &[u16]) -> Given {
        Given { table: table.to_vec(), certificate: certificate_of(table), kept: kept.to_vec() }
    }

    /// One record of each sort, all of them kept, with its own certificate.
    pub fn one_of_each() -> Given {
        let kept: Vec<u16> = (0..one_of_each().len() as u16).collect();
        Given::own(one_of_each().as_flattened(), &kept)
    }

    /// How many records the table has.
    pub fn records(&self) -> usize {
        self.table.len() / 16
    }

    /// The trimming call on buffers of these lengths. What the request says of them is checked.
    pub fn trim_on(&self, trimmed: usize, numbers: usize, scratch: usize) -> Trimmed {
        let before: Vec<u8> = noise(trimmed).map(|number| number as u8).collect();
        let numbers_before: Vec<u16> = noise(numbers).collect();
        let scratch_before: Vec<u16> = noise(scratch).collect();
        let (mut after, mut numbers_after) = (before.clone(), numbers_before.clone());
        let mut scratch_after = scratch_before.clone();
        let Given { table, certificate, kept } = self;
        let answer = trim(table, certificate, kept, &mut after, &mut numbers_after, &mut scratch_after);
        let written = answer.map_or(0, |written| written as usize);
        check_output(answer, written * 16, &before, &after);
        check_output(answer, written, &numbers_before, &numbers_after);
        let row = check_scratch(self.records() * 4, answer, &scratch_before, &scratch_after);
        answer.map_err(|refusal| refused(refusal, row))?;
        after.truncate(written * 16);
        numbers_after.truncate(written);
        Ok((after, numbers_after))
    }

    /// The trimming call on buffers as long as asked and so many longer.
    pub fn trim_longer(&self, longer: usize) -> Trimmed {
        let n = self.records();
        self.trim_on(self.table.len() + longer, n + longer, n * 4 + longer)
    }
}

/// The certificate that the certifying call gives for a table that it accepts.
pub fn certificate_of(table: &[u8]) -> Vec<u8> {
    let n = table.len() / 16;
    let mut certificate = vec![0; n * 8];
    certify(table, &mut certificate, &mut vec![0; n * 2]).expect("the table is accepted");
    certificate
}

/// A certificate for a table of any sort: its own, where it is accepted, or else open everywhere.
pub fn some_certificate(table: &[u8]) -> Vec<u8> {
    match read_records(table) {
        Ok(records) if find_loop(&records).is_none() => certificate_of(table),
        _ => certificate_with(&vec![Fact::Open; table.len() / 16]),
    }
}

/// The certificate with these facts.
pub fn certificate_with(facts: &[Fact]) -> Vec<u8> {
    facts.iter().flat_map(|fact| fact.bytes()).collect()
}

/// Byte 0 of a fact that is always a number.
const ALWAYS: u8 = 1;

/// A certificate that these records need not have, and that ground 22 lets pass: any fact for each variable, a
/// number that fits it where the fact is always, and noise in the bytes that are not read.
pub fn foreign_certificate(random: &mut Random, records: &[Record]) -> Vec<u8> {
    let fact = |record: &Record| {
        let number = Fact::Always(random_number(random, record.width()));
        random.pick(&[number, number, Fact::Open, Fact::Open, Fact::Marked])
    };
    let certificate = certificate_with(&records.iter().map(fact).collect::<Vec<_>>());
    with_other_unread_bytes(random, &certificate)
}

/// The certificate with other bytes where none is read: bytes 1 to 3, and the number of a fact not always.
fn with_other_unread_bytes(random: &mut Random, certificate: &[u8]) -> Vec<u8> {
    let mut other = certificate.to_vec();
    for bytes in other.chunks_exact_mut(8) {
        let unread = if bytes[0] == ALWAYS { 1..4 } else { 1..8 };
        bytes[unread].iter_mut().for_each(|byte| *byte = random.next() as u8);
    }
    other
}

/// What is counted of calls on certificates with other unread bytes: that they are accepted, and that bytes 1 to
/// 3, or the number, of some fact differ then.
const UNREAD: [&str; 3] = ["accepted", "bytes 1 to 3", "number"];

/// Asserts on so many random calls, some with a damaged certificate, that other bytes where none is read change
/// neither answer nor outputs. What occurred is counted, so that a test can't pass where little does.
pub fn try_unread_bytes<T: PartialEq + Debug, E: PartialEq + Debug>(
    random: &mut Random,
    calls: usize,
    trim: impl Fn(&Given) -> Result<T, E>,
) {
    let mut seen = Times::none(&UNREAD);
    for _ in 0..calls {
        let n = 1 + random.below(20);
        let mut given = random_given(random, n);
        if random.percent(20) {
            damage(random, &mut given.certificate);
        }
        let certificate = with_other_unread_bytes(random, &given.certificate);
        let differ = |bytes| facts_differ(&given.certificate, &certificate, bytes);
        let has = [true, differ(1..4), differ(4..8)];
        let answer = trim(&given);
        assert_eq!(trim(&Given { certificate, ..given.clone() }), answer, "{given:?}");
        let counted = UNREAD.into_iter().zip(has).filter(|&(_, has)| has && answer.is_ok());
        counted.for_each(|(case, _)| seen.count(case));
    }
    if calls >= 500 {
        seen.assert_each(calls, 700);
    }
}

/// Whether two certificates differ in these bytes of some fact.
fn facts_differ(one: &[u8], other: &[u8], bytes: Range<usize>) -> bool {
    let mut facts = one.chunks_exact(8).zip(other.chunks_exact(8));
    facts.any(|(one, other)| one[bytes.clone()] != other[bytes.clone()])
}

/// A list of kept variables of a table of n records: mostly a few, sometimes none, many, or more than there
/// are. Some occur twice.
pub fn random_kept(random: &mut Random, n: usize) -> Vec<u16> {
    let length = match random.below(10) {
        0 => 0,
        1 => random.below(3 * n + 1),
        2 => n,
        _ => 1 + random.below(3),
    };
    (0..length).filter(|_| n > 0).map(|_| random.below(n) as u16).collect()
}

/// A random table of n records of a random shape, some with a loop, its own certificate or another that
/// passes, and kept variables.
pub fn random_given(random: &mut Random, n: usize) -> Given {
    let table = random_shape(random, n, true);
    let kept = random_kept(random, table.len());
    let table = table.as_flattened().to_vec();
    let records = read_records(&table).unwrap();
    let certificate = match find_loop(&records) {
        None if random.percent(60) => certificate_of(&table),
        _ => foreign_certificate(random, &records),
    };
    Given { table, certificate, kept }
}

/// Puts up to three numbers among the kept ones, most of them not below the number of records.
pub fn damage_kept(random: &mut Random, given: &mut Given) {
    let n = given.records();
    for _ in 0..1 + random.below(3) {
        let past = n + random.below(300);
        let number = random.pick(&[n, n + 1, past, n.saturating_sub(1), 65_535]);
        let place = random.below(given.kept.len() + 1);
        given.kept.insert(place, number as u16);
    }
}

/// What is given, damaged: mostly in one of its parts, and now and then in all.
pub fn damaged(random: &mut Random, mut given: Given) -> Given {
    let part = random.below(5);
    if [0, 4].contains(&part) {
        damage(random, &mut given.table);
    }
    if [1, 2, 4].contains(&part) {
        damage(random, &mut given.certificate);
    }
    if [3, 4].contains(&part) {
        damage_kept(random, &mut given);
    }
    given
}
