//! The archive's trimming call held against the model's: the answer, every byte of the trimmed table, every old
//! number and every number of the scratch, on buffers that are as long as asked, longer and shorter.

#[path = "../../tests/common/mod.rs"]
mod common;
mod lent;

use common::grounds::{CertificateFault, TrimFaults, TRIM_GROUNDS};
use common::samples::{every_rule, one_of_each, samples, ENABLED, REGISTER};
use common::shapes::{chain, gates, layers, random_shape, register_chain, register_ring, turned};
use common::tables::random_table;
use common::trim_cases::trim_cases;
use common::trims::{
    certificate_of, certificate_with, damaged, foreign_certificate, random_given, random_kept,
    some_certificate, Given,
};
use common::{
    cases, constant, enabled, fixed, free, hand_cases, multiplexer, operator, register, secret, Random,
    Table, MOST_RECORDS,
};
use compare::as_packed;
use lent::answers::random_calls;
use lent::{held_to_model, lengths_around, random_length, Buffers, Inputs, Lengths};
use model::{read_records, remainder, Fact, Operator, Refusal};

/// How many bytes of the trimmed table ground 21 asks for a record, and how many 16-bit numbers of scratch
/// ground 4.
const BYTES_A_RECORD: usize = 16;
const SCRATCH_A_RECORD: usize = 4;

/// What the archive answers on these slices and on buffers of these lengths, held against the model.
fn trim_slices_on(
    table: &[u8],
    certificate: &[u8],
    kept: &[u16],
    lengths: Lengths,
) -> Result<u32, Refusal> {
    held_to_model(
        Inputs { table, certificate, kept, ..Inputs::default() },
        &Buffers::new(lengths, |number| number as u8),
        |lent| compare::trim(table, certificate, kept, lent.output, lent.numbers, lent.scratch),
        |lent| {
            model::trim(table, certificate, kept, lent.output, lent.numbers, lent.scratch)
                .map_err(as_packed)
        },
    )
}

/// What the archive answers on buffers of these lengths, held against the model.
fn trim_on(given: &Given, lengths: Lengths) -> Result<u32, Refusal> {
    trim_slices_on(&given.table, &given.certificate, &given.kept, lengths)
}

/// What is asked for a table.
fn asked(table: &[u8]) -> Lengths {
    Lengths { numbers: table.len() / 16, ..Lengths::asked(table, BYTES_A_RECORD, SCRATCH_A_RECORD) }
}

/// What the archive answers on buffers as long as asked, held against the model.
fn trim(given: &Given) -> Result<u32, Refusal> {
    trim_on(given, asked(&given.table))
}

/// Random lengths, mostly enough.
fn random_lengths(random: &mut Random, table: &[u8]) -> Lengths {
    let asked = asked(table);
    Lengths { numbers: random_length(random, asked.numbers), ..asked.random(random) }
}

/// Holds the archive against the model on each buffer of all lengths around the one asked for it, the others
/// being as long as asked, and on all of them too short or too long.
fn compare_on_all_lengths(given: &Given) {
    let asked = asked(&given.table);
    let outputs = lengths_around(asked.output).into_iter().map(|output| Lengths { output, ..asked });
    let numbers = lengths_around(asked.numbers).into_iter().map(|numbers| Lengths { numbers, ..asked });
    let scratches = lengths_around(asked.scratch).into_iter().map(|scratch| Lengths { scratch, ..asked });
    let all = |length: fn(usize) -> usize| Lengths {
        output: length(asked.output),
        numbers: length(asked.numbers),
        scratch: length(asked.scratch),
        ..asked
    };
    let all = [all(|_| 0), all(|asked| asked.saturating_sub(1)), all(|asked| asked + 7)];
    for lengths in outputs.chain(numbers).chain(scratches).chain(all) {
        let _ = trim_on(given, lengths);
    }
}

fn refusal(ground: u32, place: usize) -> Result<u32, Refusal> {
    Err(Refusal { ground, place })
}

#[test]
fn tables_trimmed_by_hand() {
    for case in trim_cases() {
        println!("case {}", case.name);
        assert_eq!(trim(&case.given), Ok(case.numbers.len() as u32));
        compare_on_all_lengths(&case.given);
    }
}

/// Holds the archive against the model on a table of any sort: with the last variable kept, on buffers of all
/// lengths, with none, with the first, with all, and with one that is past the table; and with every variable
/// kept where all are called marked.
fn compare_on_some_lists(table: &[u8]) {
    let n = (table.len() / 16) as u16;
    let certificate = some_certificate(table);
    let given = |kept: Vec<u16>| Given { table: table.to_vec(), certificate: certificate.clone(), kept };
    compare_on_all_lengths(&given(vec![n.saturating_sub(1)]));
    for kept in [vec![], vec![0], (0..n).collect(), vec![0, n]] {
        let _ = trim(&given(kept));
    }
    let certificate = certificate_with(&vec![Fact::Marked; usize::from(n)]);
    let _ = trim(&Given { certificate, ..given((0..n).collect()) });
}

#[test]
fn cases_worked_by_hand() {
    for case in hand_cases() {
        println!("case {}", case.name);
        compare_on_some_lists(&case.table);
    }
}

#[test]
fn sample_tables() {
    for table in samples() {
        compare_on_some_lists(table.as_flattened());
    }
}

/// Asserts that a call that meets these grounds is refused on the first of them, at its place.
fn assert_first(faults: TrimFaults, meets: impl Fn(u32) -> bool + Copy) {
    let (given, [trimmed, numbers]) = (faults.given(meets), faults.missing(meets));
    let Lengths { output, numbers: old_numbers, scratch, margin } = asked(&given.table);
    let (output, numbers) = (output - trimmed, old_numbers - numbers);
    let lengths = Lengths { output, numbers, scratch: scratch - usize::from(meets(4)), margin };
    let refused = trim_on(&given, lengths).err().map(|Refusal { ground, place }| (ground, place));
    assert_eq!(refused, faults.first(meets), "{faults:?}");
}

#[test]
fn every_set_of_grounds_but_large_ones_with_ground_1() {
    // Ground 1 takes the largest buffers, and is met beside at most two others.
    let quick = |set: &u32| set & 1 == 0 || set.count_ones() <= 3;
    for set in (0..1 << TRIM_GROUNDS.len()).filter(quick) {
        let met = |place: usize| set >> place & 1 == 1;
        let meets = |ground: u32| TRIM_GROUNDS.iter().position(|&other| other == ground).is_some_and(met);
        for (variable, certificate) in CertificateFault::ALL.into_iter().enumerate() {
            for (kept, short) in [[true, false], [false, true], [true, true]].into_iter().enumerate() {
                let register = if kept == 1 { ENABLED } else { REGISTER };
                assert_first(TrimFaults { register, kept, short, certificate, variable }, meets);
            }
        }
    }
}

#[test]
fn grounds_20_to_22_at_every_place() {
    for certificate in CertificateFault::ALL {
        for variable in 0..one_of_each().len() {
            for kept in [0, 1, 7, 8, 300, 65_536] {
                let short = [kept % 2 == 0, true];
                let faults = TrimFaults { register: REGISTER, kept, short, certificate, variable };
                for set in 0..8 {
                    assert_first(faults, |ground| ground >= 20 && set >> (ground - 20) & 1 == 1);
                }
            }
        }
    }
}

#[test]
fn every_byte_of_a_record() {
    let all = Given::one_of_each();
    for kept in [all.kept.clone(), vec![ENABLED as u16]] {
        for (place, byte) in (0..all.table.len()).flat_map(|place| (0..=255).map(move |byte| (place, byte)))
        {
            let mut given = Given { kept: kept.clone(), ..all.clone() };
            given.table[place] = byte;
            let _ = trim(&given);
        }
    }
}

#[test]
fn every_byte_of_a_certificate() {
    let all = Given::one_of_each();
    for kept in [all.kept.clone(), vec![], vec![ENABLED as u16]] {
        let bytes = (0..all.certificate.len()).flat_map(|place| (0..=255).map(move |byte| (place, byte)));
        for (place, byte) in bytes {
            let mut given = Given { kept: kept.clone(), ..all.clone() };
            given.certificate[place] = byte;
            let answer = trim(&given);
            if place % 8 == 0 {
                // A number is 0 but for the constant's, so that it fits where the fact is always.
                let wrong = ![1, 2, 3].contains(&byte);
                assert_eq!(answer.err(), wrong.then_some(Refusal { ground: 22, place: place / 8 }));
            }
        }
    }
}

#[test]
fn certificates_of_all_lengths() {
    let own = Given::one_of_each();
    let right = own.certificate.len();
    for length in (0..2 * right + 10).chain([1000, 32_768, 65_536]) {
        for certificate in [own.certificate.clone(), vec![0; 8], vec![1, 0, 0, 0, 9, 9, 9, 9]] {
            let certificate: Vec<u8> = certificate.into_iter().cycle().take(length).collect();
            let answer = trim(&Given { certificate, ..own.clone() });
            assert!(length == right || answer == refusal(22, 0), "{length} bytes");
        }
    }
    for n in [0, 1, 2, usize::from(MOST_RECORDS)] {
        let table = constant(8, 7).repeat(n);
        for length in [8 * n, 8 * n + 1, 8 * n + 8, (8 * n).saturating_sub(1), 0] {
            let certificate: Vec<u8> = Fact::Always(9).bytes().into_iter().cycle().take(length).collect();
            let given = Given { table: table.clone(), certificate, kept: vec![] };
            assert_eq!(trim(&given), if length == 8 * n { Ok(0) } else { refusal(22, 0) });
        }
    }
}

#[test]
fn numbers_around_every_width() {
    for w in 1..=32 {
        let largest = remainder(u32::MAX, u32::from(w));
        let above = largest.wrapping_add(1);
        let table = [
            [fixed(w, largest), free(w), secret(w), constant(w, 1)],
            [
                operator(Operator::Or, w, 0, 1),
                multiplexer(w, 0, 1, 2),
                register(w, 0, 5),
                enabled(w, 0, 5, 6),
            ],
        ];
        let table = table.as_flattened();
        let kept: Vec<u16> = (0..table.len() as u16).collect();
        for n in [0, 1, largest - 1, largest, above, above | 1, u32::MAX - 1, u32::MAX] {
            for variable in 0..table.len() {
                for code in 1..=3 {
                    let mut certificate = certificate_with(&vec![Fact::Open; table.len()]);
                    certificate[variable * 8] = code;
                    certificate[variable * 8 + 4..][..4].copy_from_slice(&n.to_le_bytes());
                    let given =
                        Given { table: table.as_flattened().to_vec(), certificate, kept: kept.clone() };
                    let too_wide = code == 1 && n > largest;
                    let expected = if too_wide { refusal(22, variable) } else { Ok(8) };
                    assert_eq!(trim(&given), expected, "{n} at width {w}");
                }
            }
        }
    }
}

#[test]
fn every_pair_of_kept_variables() {
    for case in trim_cases() {
        let n = case.given.records() as u16;
        for (one, other) in (0..n + 2).flat_map(|one| (0..n + 2).map(move |other| (one, other))) {
            let answer = trim(&Given { kept: vec![one, other], ..case.given.clone() });
            let past = [one, other].iter().position(|&number| number >= n);
            assert_eq!(answer.err(), past.map(|place| Refusal { ground: 20, place }));
        }
    }
}

#[test]
fn kept_lists_of_all_lengths() {
    let given = Given::one_of_each();
    let n = given.records() as u16;
    for length in (0..40).chain([255, 256, 4096, 65_535, 65_536, 65_537, 200_000]) {
        let kept: Vec<u16> = (0..n).rev().cycle().take(length).collect();
        assert!(trim(&Given { kept: kept.clone(), ..given.clone() }).is_ok());
        for (place, past) in [0, length / 2, length.saturating_sub(1)].into_iter().zip([n, 256, 65_535]) {
            let mut kept = kept.clone();
            if place < length {
                kept[place] = past;
                assert_eq!(trim(&Given { kept, ..given.clone() }), refusal(20, place));
            }
        }
    }
}

#[test]
fn kept_numbers_around_the_number_of_records() {
    for n in [0, 1, 2, 255, 256, 257, MOST_RECORDS - 1, MOST_RECORDS] {
        let table = free(8).repeat(usize::from(n));
        for number in [0, 1, n.saturating_sub(1), n, n + 1, 2 * n, 255, 256, 4095, 4096, 32_768, 65_535] {
            let answer = trim(&Given::own(&table, &[number]));
            let expected = if number < n { Ok(u32::from(n)) } else { refusal(20, 0) };
            assert_eq!(answer, expected, "{number} of {n}");
        }
    }
}

/// What lies around the table, the certificate and the kept variables in memory is not read.
#[test]
fn memory_around_what_is_given() {
    let given = Given::one_of_each();
    let (records, kept) = (given.records(), [6, 2]);
    for byte in [0, 1, 2, 4, 255] {
        let around =
            |bytes: &[u8], margin: usize| [&vec![byte; margin][..], bytes, &vec![byte; margin]].concat();
        let (table, certificate) = (around(&given.table, 16), around(&given.certificate, 8));
        for past in [0, 7, 8, 65_535] {
            let list = [past, past, kept[0], kept[1], past, past];
            let answer = trim_slices_on(
                &table[16..][..records * 16],
                &certificate[8..][..records * 8],
                &list[2..4],
                asked(&given.table),
            );
            assert_eq!(answer, trim(&Given { kept: kept.to_vec(), ..given.clone() }));
        }
    }
}

#[test]
fn every_rule_at_every_width() {
    let mut random = Random::of_test("every rule", 91);
    for w in 1..=32 {
        let table = every_rule(w);
        let records = read_records(table.as_flattened()).unwrap();
        let own = Given::own(table.as_flattened(), &random_kept(&mut random, records.len()));
        assert!(trim(&own).is_ok());
        let kept = random_kept(&mut random, records.len());
        let certificate = foreign_certificate(&mut random, &records);
        assert!(trim(&Given { kept, certificate, ..own }).is_ok());
    }
}

/// Holds the archive against the model on so many random calls, each on buffers of random lengths. Asserts that
/// each of these grounds was met.
fn compare_calls(
    random: &mut Random,
    calls: usize,
    grounds: &[usize],
    given: impl Fn(&mut Random) -> Given,
) {
    random_calls(random, calls, grounds, |random| {
        let given = given(random);
        trim_on(&given, random_lengths(random, &given.table))
    });
}

#[test]
fn small_tables() {
    let mut random = Random::of_test("small trimmed tables", 92);
    compare_calls(&mut random, cases(150_000), &[0, 4, 11, 21], |random| {
        let n = 1 + random.below(30);
        random_given(random, n)
    });
}

#[test]
fn damaged_calls() {
    let mut random = Random::of_test("damaged calls", 93);
    let grounds = [0, 2, 4, 5, 6, 7, 8, 9, 10, 11, 20, 21, 22];
    compare_calls(&mut random, cases(200_000), &grounds, |random| {
        let n = 1 + random.below(30);
        let given = random_given(random, n);
        damaged(random, given)
    });
}

/// The certificate of another table, which passes where its length is right and its numbers fit.
#[test]
fn certificates_of_other_tables() {
    let mut random = Random::of_test("certificates of other tables", 94);
    compare_calls(&mut random, cases(30_000), &[0, 22], |random| {
        let n = 4 + random.below(8);
        let [one, other] = [0; 2].map(|_| random_shape(random, n, false).as_flattened().to_vec());
        Given { certificate: certificate_of(&other), ..Given::own(&one, &random_kept(random, n)) }
    });
}

#[test]
fn medium_tables() {
    let mut random = Random::of_test("medium trimmed tables", 96);
    compare_calls(&mut random, cases(100_000) / 100, &[0, 4, 11, 21], |random| {
        let n = 31 + random.below(300);
        random_given(random, n)
    });
}

#[test]
fn largest_tables() {
    let mut random = Random::of_test("largest trimmed tables", 97);
    let n = usize::from(MOST_RECORDS);
    let loopless = |random: &mut Random, n| random_table(random, n, false);
    for shape in [layers, chain, register_chain, register_ring, gates, loopless] {
        let table = shape(&mut random, n);
        for table in [turned(&table), table] {
            let records = read_records(table.as_flattened()).unwrap();
            let given =
                |certificate, kept| Given { table: table.as_flattened().to_vec(), certificate, kept };
            let marked = certificate_with(&vec![Fact::Marked; n]);
            let foreign = foreign_certificate(&mut random, &records);
            assert!(trim(&given(marked.clone(), vec![0, MOST_RECORDS - 1])).is_ok());
            assert_eq!(trim(&given(marked, (0..MOST_RECORDS).collect())), Ok(u32::from(MOST_RECORDS)));
            assert!(trim(&given(foreign, random_kept(&mut random, n))).is_ok());
        }
    }
    let given = random_given(&mut random, n);
    let _ = trim(&given);
}

/// A chain through every record from its one end: wires, and registers with and without an enable.
#[test]
fn the_longest_chains() {
    let links = [
        |before: u16| operator(Operator::Xor, 8, 0, before),
        |before: u16| multiplexer(8, 0, 0, before),
        |before: u16| register(8, 1, before),
        |before: u16| enabled(8, 1, 0, before),
    ];
    let last = MOST_RECORDS - 1;
    for link in links {
        let table: Table = [free(8)].into_iter().chain((0..last).map(link)).collect();
        for (table, kept) in [(turned(&table), [0, last - 99, last]), (table, [last, 99, 0])] {
            let certificate = certificate_with(&vec![Fact::Open; table.len()]);
            let table = table.as_flattened().to_vec();
            for (kept, remain) in kept.into_iter().zip([u32::from(MOST_RECORDS), 100, 1]) {
                let (table, certificate) = (table.clone(), certificate.clone());
                assert_eq!(trim(&Given { table, certificate, kept: vec![kept] }), Ok(remain));
            }
        }
    }
}

/// A place that needs more than 32 bits, with all of the 2^32 numbers before it below the number of records.
/// They are 8 GiB, and never written, so that few pages of them take memory.
#[test]
#[ignore = "takes 8 GiB of address space and some ten seconds"]
fn a_place_past_32_bits() {
    let given = Given::one_of_each();
    for place in [u32::MAX as usize, 1 << 32] {
        let mut kept = vec![0; place + 1];
        kept[place] = u16::MAX;
        let lengths = asked(&given.table);
        let answer = trim_slices_on(&given.table, &given.certificate, &kept, lengths);
        assert_eq!(answer, refusal(20, u32::MAX as usize));
    }
}
