//! The grounds of the trimming call: each with its place, alone, beside the next and before all later ones, and
//! its limits; and on random calls the first that holds when each is read alone.

mod common;

use common::grounds::{CertificateFault, TrimFaults, TRIM_GROUNDS};
use common::samples::{one_of_each, ENABLED, REGISTER};
use common::tables::damage;
use common::trims::{certificate_of, certificate_with, damage_kept, random_given, Given};
use common::{cases, certify_longer, constant, free, operator, register, Random, Refused, MOST_RECORDS};
use model::{read_records, Fact, Operator};

/// Asserts that a call is refused on this ground at this place, on buffers as long as asked and longer.
fn assert_refused(given: &Given, ground: u32, place: usize) {
    for longer in [0, 1, 9] {
        let refused = given.trim_longer(longer).unwrap_err();
        assert_eq!((refused.ground, refused.place), (ground, place), "{given:?}");
    }
}

/// Asserts that one record of each sort is refused on this ground at this place with these kept variables.
fn assert_kept_refused(kept: &[u16], ground: u32, place: usize) {
    assert_refused(&Given { kept: kept.to_vec(), ..Given::one_of_each() }, ground, place);
}

/// Asserts that one record of each sort is refused on ground 22 at this place with this certificate.
fn assert_certificate_refused(certificate: &[u8], place: usize) {
    assert_refused(&Given { certificate: certificate.to_vec(), ..Given::one_of_each() }, 22, place);
}

/// Asserts that a call that meets these grounds is refused on the first of them, at its place.
fn assert_first(faults: TrimFaults, meets: impl Fn(u32) -> bool + Copy) {
    let (given, [trimmed, numbers]) = (faults.given(meets), faults.missing(meets));
    let (n, scratch) = (given.records(), usize::from(meets(4)));
    let answer = given.trim_on(given.table.len() - trimmed, n - numbers, n * 4 - scratch);
    assert_eq!(
        answer.err().map(|refused| (refused.ground, refused.place)),
        faults.first(meets),
        "{faults:?}"
    );
}

#[test]
fn each_ground_alone_beside_the_next_and_before_all_later_ones() {
    let elsewhere =
        [(REGISTER, 0, [true, false]), (ENABLED, 1, [false, true]), (REGISTER, 300, [true, true])];
    for certificate in CertificateFault::ALL {
        for (register, kept, short) in elsewhere {
            let faults = TrimFaults { register, kept, short, certificate, variable: 5 };
            for (i, ground) in TRIM_GROUNDS.into_iter().enumerate() {
                let from = &TRIM_GROUNDS[i..];
                assert_first(faults, |other| other == ground);
                assert_first(faults, |other| from.iter().take(2).any(|&met| met == other));
                assert_first(faults, |other| from.contains(&other));
            }
            assert_first(faults, |_| false);
        }
    }
}

#[test]
fn ground_22_in_every_way_at_every_variable() {
    for certificate in CertificateFault::ALL {
        for variable in 0..one_of_each().len() {
            let faults =
                TrimFaults { register: REGISTER, kept: 0, short: [true; 2], certificate, variable };
            for first in [11, 20, 21, 22] {
                assert_first(faults, |ground| ground == 22 || ground == first);
            }
        }
    }
}

/// Without outputs too, what document 01 and ground 20 turn away comes first, and then 21.
#[test]
fn ground_3_is_not_tried() {
    let certificate = CertificateFault::Short;
    let faults = TrimFaults { register: REGISTER, kept: 0, short: [true; 2], certificate, variable: 0 };
    for met in [4, 5, 6, 7, 8, 9, 10, 11, 20, 21] {
        let meets = |ground: u32| ground == met || ground == 22;
        let given = faults.given(meets);
        let scratch = given.records() * 4 - usize::from(meets(4));
        assert_eq!(given.trim_on(0, 0, scratch).unwrap_err().ground, met);
    }
}

#[test]
fn ground_20() {
    let n = one_of_each().len() as u16;
    for past in [n, n + 1, 255, 256, 4096, 32_768, 65_535] {
        assert_kept_refused(&[past], 20, 0);
        assert_kept_refused(&[n - 1, 0, past, past], 20, 2);
        for place in [1, 7, 8, 300, 65_535, 65_536, 70_000] {
            let mut kept = vec![n - 1; place + 3];
            kept[place] = past;
            assert_kept_refused(&kept, 20, place);
        }
    }
    assert!(Given { kept: vec![n - 1; 70_000], ..Given::one_of_each() }.trim_longer(0).is_ok());
}

#[test]
fn ground_20_on_the_largest_and_on_the_empty_table() {
    let largest = constant(1, 1).repeat(usize::from(MOST_RECORDS));
    assert!(Given::own(&largest, &[MOST_RECORDS - 1]).trim_longer(0).is_ok());
    assert_refused(&Given::own(&largest, &[0, MOST_RECORDS]), 20, 1);
    for past in [0, 1, 65_535] {
        assert_refused(&Given::own(&[], &[past]), 20, 0);
    }
}

#[test]
fn ground_21_asks_for_the_whole_table_however_few_are_kept() {
    let n = one_of_each().len();
    for kept in [vec![], vec![0], (0..n as u16).collect()] {
        let given = Given { kept, ..Given::one_of_each() };
        for (trimmed, numbers) in [(16 * n - 1, n), (16 * n, n - 1), (0, n), (16 * n, 0), (48, 3), (0, 0)] {
            let refused = given.trim_on(trimmed, numbers, 4 * n).unwrap_err();
            assert_eq!((refused.ground, refused.place), (21, 0), "{trimmed} and {numbers}");
        }
        assert!(given.trim_on(16 * n, n, 4 * n).is_ok());
        assert!(given.trim_on(16 * n + 5, n + 1, 4 * n).is_ok());
    }
    assert!(Given::own(&[], &[]).trim_on(0, 0, 0).is_ok());
}

#[test]
fn ground_22_by_the_length() {
    let certificate = certificate_of(one_of_each().as_flattened());
    let lengths = (0..certificate.len()).chain([65, 71, 72, 80, 128, 1000]);
    for length in lengths {
        let other: Vec<u8> = certificate.iter().copied().cycle().take(length).collect();
        assert_certificate_refused(&other, 0);
        // Before any fact is read.
        assert_certificate_refused(&vec![0; length], 0);
    }
    assert_refused(&Given { certificate: vec![1], ..Given::own(&[], &[]) }, 22, 0);
    assert_refused(&Given { certificate: vec![1; 8], ..Given::own(&[], &[]) }, 22, 0);
}

#[test]
fn ground_22_by_a_fact_byte() {
    let certificate = certificate_of(one_of_each().as_flattened());
    for variable in 0..one_of_each().len() {
        for code in (0..=255).filter(|code| ![1, 2, 3].contains(code)) {
            let mut other = certificate.clone();
            other[variable * 8] = code;
            assert_certificate_refused(&other, variable);
        }
    }
}

#[test]
fn ground_22_by_a_number_at_every_width() {
    for w in 1..=32 {
        let largest = u32::MAX >> (32 - u32::from(w));
        let above = largest.wrapping_add(1);
        let records = [free(w), constant(w, 0), operator(Operator::Add, w, 0, 1), register(w, 0, 0)];
        let numbers = [0, 1, largest - 1, largest, above, above | 1, u32::MAX - 1, u32::MAX];
        for (variable, n) in (0..records.len()).flat_map(|i| numbers.map(|n| (i, n))) {
            let mut facts = [Fact::Open; 4];
            facts[variable] = Fact::Always(n);
            let (table, certificate) = (records.as_flattened().to_vec(), certificate_with(&facts));
            let given = Given { table, certificate, kept: vec![3] };
            match n > largest {
                true => assert_refused(&given, 22, variable),
                false => assert!(given.trim_longer(0).is_ok(), "{n} at width {w}"),
            }
        }
    }
}

#[test]
fn ground_22_at_the_first_variable() {
    let mut certificate = certificate_of(one_of_each().as_flattened());
    for variable in (0..one_of_each().len()).rev() {
        let fault: &[u8] = if variable % 2 == 0 { &[1, 0, 0, 0, 16] } else { &[4] };
        certificate[variable * 8..][..fault.len()].copy_from_slice(fault);
        assert_certificate_refused(&certificate, variable);
    }
}

/// The first of grounds 20 to 22 that holds, each read alone.
fn later_ground(given: &Given, trimmed: usize, numbers: usize) -> Option<Refused> {
    let refused = |ground: u32, place: usize| Some(Refused { ground, place, row: vec![] });
    let (n, records) = (given.records(), read_records(&given.table).unwrap());
    if let Some(place) = given.kept.iter().position(|&number| usize::from(number) >= n) {
        return refused(20, place);
    }
    if trimmed < n * 16 || numbers < n {
        return refused(21, 0);
    }
    if given.certificate.len() != n * 8 {
        return refused(22, 0);
    }
    let number = |bytes: &[u8]| bytes.iter().rev().fold(0, |number, &byte| number * 256 + u64::from(byte));
    let is_wrong = |i: &usize| {
        let bytes = &given.certificate[i * 8..][..8];
        match bytes[0] {
            1 => number(&bytes[4..]) >= 1 << records[*i].width(),
            code => code == 0 || code > 3,
        }
    };
    (0..n).find(is_wrong).and_then(|place| refused(22, place))
}

#[test]
fn the_call_refuses_as_the_grounds_say() {
    let mut random = Random::of_test("grounds of trimming", 81);
    let (mut met, tries) = ([0; 23], cases(40_000));
    for _ in 0..tries {
        let n = 1 + random.below(12);
        let mut given = random_given(&mut random, n);
        if random.percent(40) {
            damage(&mut random, &mut given.certificate);
        }
        if random.percent(20) {
            damage_kept(&mut random, &mut given);
        }
        let n = given.records();
        let (trimmed, numbers) = (n * 16 + 3 - random.below(5), n + 3 - random.below(5));
        let answer = given.trim_on(trimmed, numbers, n * 4 + random.below(3));
        let refused = answer.err();
        met[refused.as_ref().map_or(0, |refused| refused.ground as usize)] += 1;
        let expected = match certify_longer(&given.table, 0) {
            // Up to ground 11 the certifying call refuses alike, and shows the same loop.
            Err(refused) => Some(refused),
            Ok(_) => later_ground(&given, trimmed, numbers),
        };
        assert_eq!(refused, expected, "{given:?}");
    }
    println!("accepted and by ground: {met:?}");
    assert!(tries < 1000 || [0, 11, 20, 21, 22].into_iter().all(|ground| met[ground] > 0));
}
