//! The grounds of the path call: each with its place, alone, beside the next and before all later ones, and its
//! limits; and on random calls the first that holds when each is read alone.

mod common;

use common::document_cases::case_a;
use common::grounds::{PathFaults, NOT_MARKED, PATH_GROUNDS};
use common::paths::{marked, path_longer, path_on, random_traced, random_variable};
use common::samples::{one_of_each, ENABLED, MULTIPLEXER, OPERATOR, REGISTER, SECRET};
use common::tables::damage;
use common::{
    cases, certify_longer, constant, enabled, fixed, free, multiplexer, operator, register, secret, Random,
    Refused, Table, MOST_RECORDS,
};
use model::Operator::{And, Less, ShiftLeft};

/// Asserts that a call is refused on this ground at this place, on buffers as long as asked and longer.
fn assert_refused(table: &[u8], variable: u32, ground: u32, place: usize) {
    for longer in [0, 1, 9] {
        let refused = path_longer(table, variable, longer).unwrap_err();
        assert_eq!((refused.ground, refused.place), (ground, place), "variable {variable}");
    }
}

/// Asserts that a call that meets these grounds is refused on the first of them, at its place.
fn assert_first(faults: PathFaults, meets: impl Fn(u32) -> bool + Copy) {
    let (table, variable) = faults.given(meets);
    let n = table.len() / 16;
    let answer = path_on(&table, variable, n - usize::from(meets(3)), n * 8 - usize::from(meets(4)));
    let refused = answer.err().map(|refused| (refused.ground, refused.place));
    assert_eq!(refused, faults.first(meets), "{faults:?}");
}

#[test]
fn each_ground_alone_beside_the_next_and_before_all_later_ones() {
    for variable in NOT_MARKED {
        for register in [REGISTER, ENABLED] {
            let faults = PathFaults { register, variable };
            for (i, ground) in PATH_GROUNDS.into_iter().enumerate() {
                let from = &PATH_GROUNDS[i..];
                assert_first(faults, |other| other == ground);
                assert_first(faults, |other| from.iter().take(2).any(|&met| met == other));
                assert_first(faults, |other| from.contains(&other));
            }
            assert_first(faults, |_| false);
        }
    }
}

#[test]
fn grounds_1_and_2_at_their_limits() {
    let longest = secret(8).repeat(MOST_RECORDS.into());
    assert_eq!(path_longer(&longest, 4095, 0), Ok(vec![4095]));
    for more in [1, 15, 16] {
        let table: Vec<u8> = secret(8).into_iter().cycle().take(longest.len() + more).collect();
        assert_refused(&table, 0, 1, 0);
    }
    for length in [1, 15, 17, 65_535] {
        assert_refused(&longest[..length], 0, 2, 0);
    }
}

/// However short the row is, and whether there is one or not.
#[test]
fn grounds_3_and_4_at_their_limits() {
    let (table, n) = (one_of_each(), one_of_each().len());
    let on = |variable: u32, row: usize, scratch: usize| {
        let answer = path_on(table.as_flattened(), variable, row, scratch);
        answer.map_err(|refused| (refused.ground, refused.place))
    };
    for variable in [SECRET as u32, ENABLED as u32, 0, u32::MAX] {
        for short in [0, 1, n - 1] {
            assert_eq!(on(variable, short, n * 8), Err((3, 0)));
            assert_eq!(on(variable, short, 0), Err((3, 0)));
        }
        for short in [0, 1, n * 4, n * 8 - 1] {
            assert_eq!(on(variable, n, short), Err((4, 0)));
            assert_eq!(on(variable, n + 5, short), Err((4, 0)));
        }
    }
    assert_eq!(on(SECRET as u32, n, n * 8), Ok(vec![SECRET as u16]));
    assert_eq!(on(ENABLED as u32, n, n * 8), Ok([ENABLED, MULTIPLEXER, SECRET].map(|v| v as u16).to_vec()));
    assert_eq!(on(0, n, n * 8), Err((23, 0)));
}

#[test]
fn ground_11_before_23() {
    let mut table = one_of_each();
    table[OPERATOR] = operator(And, 4, 0, OPERATOR as u16);
    let shown = Refused { ground: 11, place: 1, row: vec![OPERATOR as u16] };
    for variable in [0, SECRET as u32, OPERATOR as u32, 8, u32::MAX] {
        assert_eq!(path_longer(table.as_flattened(), variable, 3), Err(shown.clone()));
    }
}

#[test]
fn ground_23_by_what_is_open_or_always() {
    for variable in [1, 2, 3, 4, 5] {
        assert_refused(case_a(free(1)).as_flattened(), variable, 23, variable as usize);
        assert_refused(case_a(fixed(1, 0)).as_flattened(), variable, 23, variable as usize);
    }
    // Each uses the secret input, and none depends on it.
    let table = [
        secret(8),
        constant(8, 0),
        operator(And, 8, 0, 1),
        operator(Less, 1, 0, 1),
        operator(ShiftLeft, 8, 1, 0),
        multiplexer(8, 1, 0, 1),
        multiplexer(8, 0, 1, 1),
        enabled(8, 7, 0, 1),
        enabled(8, 0, 1, 0),
        register(8, 0, 2),
        enabled(8, 3, 10, 0),
    ];
    for variable in 1..table.len() as u32 {
        assert_refused(table.as_flattened(), variable, 23, variable as usize);
    }
}

#[test]
fn ground_23_by_what_does_not_exist() {
    for n in [0, 1, 2, 255, 256, 257, 4095, 4096] {
        let table = secret(8).repeat(n);
        let n = n as u32;
        for past in [n, n + 1, 2 * n + 1, 4096, 65_535, 65_536, 65_536 + n / 2, 1 << 31, u32::MAX] {
            assert_refused(&table, past, 23, past as usize);
        }
        if let Some(last) = n.checked_sub(1) {
            assert_eq!(path_longer(&table, last, 0), Ok(vec![last as u16]));
        }
    }
}

#[test]
fn a_chain_that_no_secret_reaches() {
    let chain: Table = (0..50).map(|i| if i == 0 { free(8) } else { register(8, 0, i - 1) }).collect();
    assert!(marked(chain.as_flattened()).is_empty());
    (0..60).for_each(|variable| assert_refused(chain.as_flattened(), variable, 23, variable as usize));
}

#[test]
fn the_call_refuses_as_the_grounds_say() {
    let mut random = Random::of_test("grounds of tracing", 117);
    let (mut met, tries) = ([0; 24], cases(30_000));
    for _ in 0..tries {
        let n = 1 + random.below(12);
        let mut table = random_traced(&mut random, n, true).as_flattened().to_vec();
        let variable = random_variable(&mut random, &table);
        if random.percent(20) {
            damage(&mut random, &mut table);
        }
        let n = table.len() / 16;
        let (row, scratch) = (n + 3 - random.below(5).min(n + 3), n * 8 + 3 - random.below(5));
        let refused = path_on(&table, variable, row, scratch).err();
        met[refused.as_ref().map_or(0, |refused| refused.ground as usize)] += 1;
        let refusal = |ground: u32, place: usize| Some(Refused { ground, place, row: vec![] });
        let expected = match certify_longer(&table, 0) {
            // On grounds 1 and 2, and on later ones where no buffer is short, the certifying call refuses alike,
            // and shows the same loop.
            Err(refused @ Refused { ground: 1 | 2, .. }) => Some(refused),
            _ if row < n => refusal(3, 0),
            _ if scratch < n * 8 => refusal(4, 0),
            Err(refused) => Some(refused),
            Ok(_) if marked(&table).contains(&variable) => None,
            Ok(_) => refusal(23, variable as usize),
        };
        assert_eq!(refused, expected, "variable {variable} of {table:?}");
    }
    println!("accepted and by ground: {met:?}");
    let tried = [0, 2, 3, 4, 5, 6, 7, 8, 9, 10, 11, 23];
    assert!(tries < 1000 || tried.into_iter().all(|ground| met[ground] > 0));
}
