//! Each ground 1 to 17 with its place, alone and beside a later one, and each damaged field of each kind of
//! record. What a refusal leaves in the buffers is checked at every call by the shared helper.

mod common;

use common::samples::{
    one_of_each, CONSTANT, ENABLED, FIXED, FREE, MULTIPLEXER, OPERATOR, REGISTER, SECRET,
};
use common::{
    bench_longer, bench_on, certify_longer, certify_on, constant, enabled, fixed, free, multiplexer,
    operator, poke_bytes, record, register, RecordBytes, Refused, TICK,
};
use model::{is_loop, Operator::Add};

/// The first variable number past the table of one record of each sort.
const PAST: u8 = 8;

/// The table of one record of each sort with changes: (record, byte, what the byte becomes).
fn with(changes: &[(usize, usize, u8)]) -> Vec<u8> {
    let mut records = one_of_each();
    for &(place, byte, becomes) in changes {
        records[place][byte] = becomes;
    }
    records.as_flattened().to_vec()
}

/// Asserts that the certifying and the bench call refuse the table on this ground at this place, on buffers as
/// long as asked and longer, whatever the stimuli are.
fn assert_refused(table: &[u8], ground: u32, place: usize) {
    for longer in [0, 1, 9] {
        let refused = certify_longer(table, longer).unwrap_err();
        assert_eq!((refused.ground, refused.place), (ground, place), "certify");
        for stimuli in [&[][..], &[255; 3]] {
            let refused = bench_longer(table, stimuli, longer).unwrap_err();
            assert_eq!((refused.ground, refused.place), (ground, place), "bench");
        }
    }
}

/// Asserts that the bench refuses these stimuli on this ground at this place.
fn assert_bench_refused(table: &[u8], stimuli: &[u8], ground: u32, place: usize) {
    for longer in [0, 1, 9] {
        let row = Vec::new();
        let refused = bench_longer(table, stimuli, longer).unwrap_err();
        assert_eq!(refused, Refused { ground, place, row });
    }
}

#[test]
fn one_record_of_each_sort_is_accepted() {
    assert_eq!(one_of_each().len(), usize::from(PAST));
    assert!(certify_longer(&with(&[]), 0).is_ok());
    assert!(bench_longer(&with(&[]), &[], 0).is_ok());
}

#[test]
fn ground_1_before_2() {
    assert_refused(&[0; 65_552], 1, 0);
    assert_refused(&[0; 65_537], 1, 0);
    let longest = constant(8, 1).repeat(4096);
    assert!(certify_longer(&longest, 3).is_ok());
    assert!(bench_longer(&longest, &[], 3).is_ok());
}

#[test]
fn ground_2() {
    for length in [1, 15, 17, 65_535] {
        assert_refused(&vec![255; length], 2, 0);
    }
}

#[test]
fn grounds_1_and_2_before_3_and_4() {
    for (length, ground) in [(65_552, 1), (17, 2)] {
        let table = vec![0; length];
        assert_eq!(certify_on(&table, 0, 0).unwrap_err().ground, ground);
        assert_eq!(bench_on(&table, &[], 0, 0).unwrap_err().ground, ground);
    }
}

#[test]
fn ground_3_before_4_and_5() {
    let damaged = with(&[(0, 0, 6)]);
    for table in [with(&[]), damaged] {
        let n = table.len() / 16;
        for scratch in [0, n * 2 - 1, n * 2, n * 4 - 1, n * 4, n * 4 + 1] {
            for certificate in [0, n * 8 - 1] {
                let refused = certify_on(&table, certificate, scratch).unwrap_err();
                assert_eq!((refused.ground, refused.place), (3, 0));
            }
            for values in [0, n - 1] {
                let refused = bench_on(&table, &[9], values, scratch).unwrap_err();
                assert_eq!((refused.ground, refused.place), (3, 0));
            }
        }
    }
}

#[test]
fn ground_4_before_5_and_11() {
    let loop_of_one = operator(Add, 1, 0, 0).to_vec();
    for table in [with(&[]), with(&[(0, 0, 6)]), loop_of_one] {
        let n = table.len() / 16;
        for longer in [0, 7] {
            for scratch in [0, n * 2 - 1] {
                let refused = certify_on(&table, n * 8 + longer, scratch).unwrap_err();
                assert_eq!((refused.ground, refused.place), (4, 0));
            }
            for scratch in [0, n * 2, n * 4 - 1] {
                let refused = bench_on(&table, &[9], n + longer, scratch).unwrap_err();
                assert_eq!((refused.ground, refused.place), (4, 0));
            }
        }
    }
}

#[test]
fn ground_5() {
    for place in 0..one_of_each().len() {
        for kind in [6, 7, 128, 255] {
            assert_refused(&with(&[(place, 0, kind)]), 5, place);
        }
    }
}

#[test]
fn each_record_with_kind_5() {
    for (place, ground) in (0..).zip([None, Some(7), Some(7), None, None, Some(8), None, None]) {
        let table = with(&[(place, 0, 5)]);
        match ground {
            Some(ground) => assert_refused(&table, ground, place),
            None => assert!(certify_longer(&table, 0).is_ok()),
        }
    }
}

#[test]
fn ground_6() {
    for place in 0..one_of_each().len() {
        for width in [0, 33, 64, 255] {
            assert_refused(&with(&[(place, 1, width)]), 6, place);
        }
    }
}

#[test]
fn widths_1_and_32_are_accepted() {
    let records = [fixed(1, 1), constant(32, u32::MAX), register(1, 1, 0), free(32)];
    for table in records.into_iter().chain([enabled(1, 1, 0, 0), enabled(32, u32::MAX, 0, 0)]) {
        assert!(certify_longer(&table, 0).is_ok());
    }
}

#[test]
fn ground_7() {
    for (place, record) in one_of_each().iter().enumerate() {
        let limit = match record[0] {
            0 => 3,
            2 => 9,
            _ => 1,
        };
        for choice in limit..=255 {
            assert_refused(&with(&[(place, 2, choice)]), 7, place);
        }
    }
}

#[test]
fn every_operator_code_is_accepted() {
    for code in 0..9 {
        assert!(certify_longer(&with(&[(OPERATOR, 2, code)]), 0).is_ok());
    }
}

#[test]
fn ground_8_bytes_that_are_always_0() {
    for place in 0..one_of_each().len() {
        for byte in [3, 10, 11] {
            for becomes in [1, 128, 255] {
                assert_refused(&with(&[(place, byte, becomes)]), 8, place);
            }
        }
    }
}

#[test]
fn ground_8_unused_variable_numbers_and_values() {
    for (place, record) in one_of_each().iter().enumerate() {
        let (first_unused, has_value) = match (record[0], record[2]) {
            (0, choice) => (4, choice == 0),
            (1, _) => (4, true),
            (2, _) => (8, false),
            (3, _) => (10, false),
            (4, _) => (6, true),
            _ => (8, true),
        };
        for byte in (first_unused..10).chain(if has_value { 16..16 } else { 12..16 }) {
            for becomes in [1, 128, 255] {
                assert_refused(&with(&[(place, byte, becomes)]), 8, place);
            }
        }
    }
}

#[test]
fn a_value_is_unused_once_a_fixed_input_is_free_or_secret() {
    for choice in [1, 2] {
        assert_refused(&with(&[(FIXED, 2, choice)]), 8, FIXED);
    }
}

#[test]
fn ground_8_an_unused_variable_number_past_the_table() {
    for (place, byte) in [(OPERATOR, 8), (REGISTER, 6), (REGISTER, 8), (ENABLED, 8)] {
        for number in [PAST, 255] {
            assert_refused(&with(&[(place, byte, number)]), 8, place);
            assert_refused(&with(&[(place, byte, number), (place, 4, PAST)]), 8, place);
        }
    }
}

#[test]
fn ground_9() {
    let used = [(OPERATOR, &[4, 6][..]), (MULTIPLEXER, &[4, 6, 8]), (REGISTER, &[4]), (ENABLED, &[4, 6])];
    for (place, bytes) in used {
        for &byte in bytes {
            assert_refused(&with(&[(place, byte, PAST)]), 9, place);
            assert_refused(&with(&[(place, byte, 255)]), 9, place);
            assert_refused(&with(&[(place, byte + 1, 1)]), 9, place);
        }
    }
    for (place, byte) in [(REGISTER, 4), (ENABLED, 4), (ENABLED, 6)] {
        assert!(certify_longer(&with(&[(place, byte, PAST - 1)]), 0).is_ok());
    }
}

#[test]
fn ground_9_in_the_longest_table() {
    let mut records = vec![free(1); 4096];
    for last in [register(1, 0, 4095), enabled(1, 0, 4095, 4095)] {
        records[4095] = last;
        assert!(certify_longer(records.as_flattened(), 0).is_ok());
    }
    for last in [register(1, 0, 4096), enabled(1, 0, 4096, 4095), enabled(1, 0, 4095, 4096)] {
        records[4095] = last;
        assert_refused(records.as_flattened(), 9, 4095);
    }
}

#[test]
fn ground_10() {
    for place in [FIXED, CONSTANT, REGISTER, ENABLED] {
        assert!(certify_longer(&with(&[(place, 12, 15)]), 0).is_ok());
        assert_refused(&with(&[(place, 12, 16)]), 10, place);
        for byte in 13..16 {
            assert_refused(&with(&[(place, byte, 1)]), 10, place);
        }
        assert!(certify_longer(&with(&[(place, 1, 32), (place, 15, 255)]), 0).is_ok());
        assert_refused(&with(&[(place, 1, 31), (place, 15, 128)]), 10, place);
    }
}

#[test]
fn the_first_of_two_grounds_on_one_record() {
    for (place, zero, variable) in [(REGISTER, 3, 4), (ENABLED, 3, 4), (ENABLED, 8, 6)] {
        let changes = [(0, 6), (1, 0), (2, 1), (zero, 1), (variable, PAST), (12, 16)];
        let by_ground = changes.map(|(byte, becomes)| (place, byte, becomes));
        for earlier in 0..6 {
            for later in earlier + 1..6 {
                let table = with(&[by_ground[later], by_ground[earlier]]);
                assert_refused(&table, 5 + earlier as u32, place);
            }
        }
        assert_refused(&with(&by_ground), 5, place);
    }
    assert_refused(&with(&[(OPERATOR, 8, 1), (OPERATOR, 4, PAST)]), 8, OPERATOR);
    assert_refused(&with(&[(MULTIPLEXER, 12, 1), (MULTIPLEXER, 8, PAST)]), 8, MULTIPLEXER);
}

#[test]
fn an_earlier_record_before_an_earlier_ground() {
    assert_refused(&with(&[(FIXED, 12, 16), (FREE, 0, 6)]), 10, FIXED);
    assert_refused(&with(&[(MULTIPLEXER, 8, PAST), (REGISTER, 1, 0)]), 9, MULTIPLEXER);
    assert_refused(&with(&[(REGISTER, 12, 16), (ENABLED, 0, 6)]), 10, REGISTER);
    assert_refused(&with(&[(FREE, 3, 1), (OPERATOR, 2, 9)]), 8, FREE);
}

#[test]
fn a_record_before_a_loop() {
    let records = [operator(Add, 8, 0, 0), constant(8, 256)];
    assert_refused(records.as_flattened(), 10, 1);
}

#[test]
fn ground_11_shows_a_loop() {
    let table = [
        register(4, 0, 1),
        operator(Add, 4, 3, 0),
        constant(4, 1),
        multiplexer(4, 0, 2, 4),
        operator(Add, 4, 2, 1),
    ];
    assert_refused(table.as_flattened(), 11, 3);
    let refused = certify_longer(table.as_flattened(), 2).unwrap_err();
    assert_eq!(refused.row, [1, 3, 4]);
}

#[test]
fn the_longest_loop() {
    let ring = |i: u16| operator(Add, 8, (i + 1) % 4096, (i + 1) % 4096);
    let records: Vec<RecordBytes> = (0..4096).map(ring).collect();
    let refused = certify_longer(records.as_flattened(), 1).unwrap_err();
    let row: Vec<u16> = (0..4096).collect();
    assert_eq!(refused, Refused { ground: 11, place: 4096, row });
}

#[test]
fn what_is_a_loop() {
    let records =
        [operator(Add, 4, 1, 0), multiplexer(4, 4, 3, 0), register(4, 0, 2), constant(4, 3), free(4)];
    let table = records.as_flattened();
    assert!(is_loop(table, &[0]));
    assert!(is_loop(table, &[0, 1]));
    assert!(is_loop(table, &[1, 0]));
    for row in [&[][..], &[1], &[0, 0], &[0, 1, 0], &[2], &[3], &[4], &[5], &[65_535], &[0, 3]] {
        assert!(!is_loop(table, row), "{row:?}");
    }
    assert!(!is_loop(&record(9, 0, 0, [0; 3], 0), &[0]));
}

#[test]
fn a_register_breaks_a_loop() {
    let records = [operator(Add, 4, 1, 1), register(4, 0, 0)];
    assert!(certify_longer(records.as_flattened(), 0).is_ok());
    assert!(!is_loop(records.as_flattened(), &[0, 1]));
    assert!(!is_loop(records.as_flattened(), &[1, 0]));
}

#[test]
fn a_register_with_an_enable_breaks_a_loop() {
    for (a, b) in [(0, 2), (2, 0), (0, 0)] {
        let records = [operator(Add, 4, 1, 2), enabled(4, 0, a, b), free(4)];
        assert!(certify_longer(records.as_flattened(), 0).is_ok());
        for row in [&[0][..], &[1], &[0, 1], &[1, 0]] {
            assert!(!is_loop(records.as_flattened(), row));
        }
    }
    assert!(certify_longer(&enabled(4, 0, 0, 0), 0).is_ok());
}

#[test]
fn a_control_or_an_arm_never_taken_still_closes_a_loop() {
    for uses in [[1, 0, 0], [0, 1, 0], [0, 0, 1]] {
        let [a, b, c] = uses;
        let records = [constant(1, 0), multiplexer(1, a, b, c)];
        assert_refused(records.as_flattened(), 11, 1);
    }
}

#[test]
fn ground_11_before_12() {
    let table = operator(Add, 8, 0, 0);
    let refused = bench_longer(&table, &[0; 7], 2).unwrap_err();
    assert_eq!(refused, Refused { ground: 11, place: 1, row: vec![0] });
}

#[test]
fn ground_12_before_13_and_14() {
    for length in [1, 7, 9, 4097 * 8 + 1] {
        assert_bench_refused(&with(&[]), &vec![255; length], 12, 0);
    }
}

#[test]
fn ground_13_before_14() {
    assert_bench_refused(&with(&[]), &vec![255; 4097 * 8], 13, 0);
    assert_bench_refused(&with(&[]), &TICK.repeat(4097), 13, 0);
    assert!(bench_longer(&with(&[]), &TICK.repeat(4096), 0).is_ok());
}

#[test]
fn ground_14() {
    for byte in 0..8 {
        let mut stimulus = TICK;
        stimulus[byte] = if byte == 0 { 2 } else { 1 };
        assert_bench_refused(&with(&[]), [TICK, stimulus].as_flattened(), 14, 1);
        stimulus[byte] = 255;
        assert_bench_refused(&with(&[]), &stimulus, 14, 0);
    }
    let mut poke = poke_bytes(FREE as u16, 3);
    assert!(bench_longer(&with(&[]), &poke, 0).is_ok());
    poke[1] = 1;
    assert_bench_refused(&with(&[]), &poke, 14, 0);
}

#[test]
fn ground_14_before_15() {
    let mut poke = poke_bytes(CONSTANT as u16, 99);
    poke[1] = 1;
    assert_bench_refused(&with(&[]), &poke, 14, 0);
    poke[..2].copy_from_slice(&[2, 0]);
    assert_bench_refused(&with(&[]), &poke, 14, 0);
}

#[test]
fn ground_15_before_16() {
    let no_inputs = [CONSTANT, OPERATOR, MULTIPLEXER, REGISTER, ENABLED];
    for variable in no_inputs.into_iter().chain([usize::from(PAST), 65_535]) {
        for n in [0, 15, 16, u32::MAX] {
            assert_bench_refused(&with(&[]), &poke_bytes(variable as u16, n), 15, 0);
        }
    }
}

#[test]
fn ground_16() {
    for variable in [FREE, SECRET] {
        for n in [16, 65_536, u32::MAX] {
            let stimuli = [poke_bytes(FREE as u16, 15), TICK, poke_bytes(variable as u16, n)];
            assert_bench_refused(&with(&[]), stimuli.as_flattened(), 16, 2);
        }
    }
}

#[test]
fn ground_17_before_16() {
    // The low four bits of 25 are the fixed input's n.
    for n in [16, 25, 65_545, u32::MAX] {
        let stimuli = [poke_bytes(FIXED as u16, 9), poke_bytes(FIXED as u16, n)];
        assert_bench_refused(&with(&[]), stimuli.as_flattened(), 17, 1);
        assert_bench_refused(&with(&[]), &stimuli[1], 17, 0);
    }
}

#[test]
fn ground_17() {
    for n in [0, 8, 10, 15] {
        let stimuli = [poke_bytes(FIXED as u16, 9), poke_bytes(FIXED as u16, n)];
        assert_bench_refused(&with(&[]), stimuli.as_flattened(), 17, 1);
        // 0 too, which the input holds until it is poked.
        assert_bench_refused(&with(&[]), &stimuli[1], 17, 0);
    }
    assert!(bench_longer(&with(&[]), &poke_bytes(FIXED as u16, 9), 0).is_ok());
    let fixed_to_0 = with(&[(FIXED, 12, 0)]);
    assert_bench_refused(&fixed_to_0, &poke_bytes(FIXED as u16, 9), 17, 0);
    assert!(bench_longer(&fixed_to_0, &poke_bytes(FIXED as u16, 0), 0).is_ok());
}

#[test]
fn an_earlier_stimulus_before_an_earlier_ground() {
    let grounds =
        [(14, [3; 8]), (15, poke_bytes(PAST.into(), 0)), (16, poke_bytes(1, 16)), (17, poke_bytes(0, 8))];
    for (ground, first) in grounds {
        for (_, second) in grounds {
            let stimuli = [TICK, first, second];
            assert_bench_refused(&with(&[]), stimuli.as_flattened(), ground, 1);
        }
    }
}

#[test]
fn the_bench_on_an_empty_table() {
    assert_eq!(bench_longer(&[], &[], 2), Ok(vec![]));
    assert_eq!(bench_longer(&[], &TICK, 2), Ok(vec![]));
    assert_bench_refused(&[], &poke_bytes(0, 0), 15, 0);
}
