//! The call for a bill: orders worked by hand, the clauses of request S-1 on orders of all sorts, and each of
//! grounds 3, 18 and 19 with its place, alone and beside a later one. What the call leaves in the shares is
//! checked at every call by the shared helper.

mod common;

use common::orders::{
    bill_longer, bill_on, cut_at_random, hand_orders, in_two, permutations, random_large_sizes,
    random_sizes, shuffled, BORDERS, FEW_SIZES, LARGEST_SIZE, MOST_SIZES,
};
use common::{cases, Random, Refused};
use std::iter::{repeat, repeat_n};

/// Asserts that an order is refused on this ground at this place, on shares of this length.
fn assert_refused_on(sizes: &[u32], length: usize, ground: u32, place: usize) {
    assert_eq!(bill_on(sizes, length), Err(Refused { ground, place, row: vec![] }), "{sizes:?}");
}

/// Asserts that an order is refused on this ground at this place, on shares as long as asked and longer.
fn assert_refused(sizes: &[u32], ground: u32, place: usize) {
    for longer in [0, 1, 9] {
        assert_refused_on(sizes, sizes.len() + longer, ground, place);
    }
}

/// Asserts that an order is accepted and that its shares add up to the bill. Gives the bill.
fn bill_of(sizes: &[u32]) -> u32 {
    let (bill, shares) = bill_longer(sizes, 0).unwrap();
    assert_eq!(shares.len(), sizes.len());
    assert_eq!(shares.iter().sum::<u32>(), bill, "{sizes:?}");
    bill
}

/// The prices of all connections in a row.
fn row_of_prices() -> impl Iterator<Item = u32> {
    repeat_n(40, 100).chain(repeat_n(30, 100)).chain(repeat(20))
}

/// The shares of an order by another way: each size takes so many from the row of prices.
fn shares_from_the_row(sizes: &[u32]) -> Vec<u32> {
    let mut row = row_of_prices();
    sizes.iter().map(|&size| row.by_ref().take(size as usize).sum()).collect()
}

/// Asserts that an order has the shares of the other way, and their sum for a bill.
fn assert_takes_from_the_row(sizes: &[u32]) {
    let shares = shares_from_the_row(sizes);
    assert_eq!(bill_longer(sizes, 3), Ok((shares.iter().sum(), shares)), "{sizes:?}");
}

#[test]
fn orders_worked_by_hand() {
    for order in hand_orders() {
        for longer in [0, 1, 5] {
            let billed = bill_longer(&order.sizes, longer);
            assert_eq!(billed, Ok((order.bill, order.shares.clone())), "{:?}", order.sizes);
        }
    }
}

#[test]
fn no_sizes() {
    for length in [0, 1, 9] {
        assert_eq!(bill_on(&[], length), Ok((0, vec![])));
    }
}

#[test]
fn one_more_connection_costs_its_price() {
    for (connections, price) in (0..300).zip(row_of_prices()) {
        assert_eq!(bill_of(&[connections + 1]) - bill_of(&[connections]), price, "{connections}");
        assert_eq!(bill_longer(&[connections, 1], 0).unwrap().1[1], price, "{connections}");
    }
}

#[test]
fn a_cut_changes_no_bill() {
    let mut random = Random::of_test("cuts", 16);
    for connections in BORDERS {
        let whole = bill_of(&[connections]);
        for cut in in_two(connections) {
            assert_eq!(bill_of(&cut), whole);
            assert_takes_from_the_row(&cut);
        }
        for length in 3..=MOST_SIZES {
            assert_eq!(bill_of(&cut_at_random(&mut random, connections, length)), whole);
        }
    }
}

#[test]
fn every_order_of_the_sizes_has_one_bill() {
    for sizes in FEW_SIZES {
        let permutations = permutations(sizes);
        assert_eq!(permutations.len(), (1..=sizes.len()).product());
        for permutation in permutations {
            assert_eq!(bill_of(&permutation), bill_of(sizes), "{permutation:?}");
        }
    }
}

#[test]
fn random_orders() {
    let mut random = Random::of_test("orders", 17);
    for _ in 0..cases(100_000) / 10 {
        let length = random.below(MOST_SIZES + 1);
        let sizes = random_sizes(&mut random, length);
        assert_takes_from_the_row(&sizes);
        assert_eq!(bill_of(&shuffled(&mut random, &sizes)), bill_of(&sizes));
    }
}

#[test]
fn large_random_orders() {
    let mut random = Random::of_test("large orders", 18);
    for _ in 0..cases(100_000) / 1000 {
        let length = random.below(MOST_SIZES + 1);
        assert_takes_from_the_row(&random_large_sizes(&mut random, length));
    }
}

#[test]
fn ground_3_before_18_and_19() {
    let sound = [5; MOST_SIZES + 1];
    let too_large = [LARGEST_SIZE + 1; MOST_SIZES + 1];
    for sizes in [sound, too_large] {
        for n in 1..=sizes.len() {
            for length in [0, n / 2, n - 1] {
                assert_refused_on(&sizes[..n], length, 3, 0);
            }
        }
    }
}

#[test]
fn ground_18_before_19() {
    for n in [MOST_SIZES + 1, MOST_SIZES + 2, 128, 256, 1000, 65_537] {
        for size in [0, 1, LARGEST_SIZE, LARGEST_SIZE + 1, u32::MAX] {
            assert_refused(&vec![size; n], 18, 0);
        }
    }
    for n in 0..=MOST_SIZES {
        assert!(bill_longer(&vec![1; n], 0).is_ok());
    }
}

#[test]
fn ground_19() {
    for place in 0..MOST_SIZES {
        for size in [LARGEST_SIZE + 1, 65_536, u32::MAX] {
            let mut sizes = [LARGEST_SIZE; MOST_SIZES];
            sizes[place] = size;
            assert_refused(&sizes, 19, place);
            assert_refused(&sizes[..=place], 19, place);
        }
    }
    assert!(bill_longer(&[LARGEST_SIZE; MOST_SIZES], 0).is_ok());
}

#[test]
fn the_first_size_that_is_too_large() {
    let mut sizes = [7; MOST_SIZES];
    for place in (0..MOST_SIZES).rev() {
        sizes[place] = LARGEST_SIZE + 1 + place as u32;
        assert_refused(&sizes, 19, place);
    }
}
