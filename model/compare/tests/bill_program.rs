//! The program bill_order, run on words: all that it prints, byte for byte. The program is the one that the
//! environment's `BILL_ORDER` names, or else the one that `rt run` builds.

#[path = "../../tests/common/mod.rs"]
mod common;
mod programs;

use common::orders::{
    bill_longer, enlarge, hand_orders, random_large_sizes, random_length, random_sizes, LARGEST_SIZE,
    MOST_SIZES,
};
use common::printed::printed_bill;
use common::{cases, Random};
use programs::{assert_complains, no_numbers, run, TOO_WIDE};
use std::path::PathBuf;

/// All that the program prints for these words.
fn output(words: &[PathBuf]) -> String {
    run("bill_order", words, &[], 1).output_alone()
}

/// The words for these sizes.
fn words(sizes: &[u32]) -> Vec<PathBuf> {
    sizes.iter().map(|size| size.to_string().into()).collect()
}

/// Asserts that the program prints the model's answer on shares that are long enough.
fn assert_prints_answer(sizes: &[u32]) {
    assert_eq!(output(&words(sizes)), printed_bill(&bill_longer(sizes, 0)), "{sizes:?}");
}

#[test]
fn whole_outputs() {
    assert_eq!(output(&[]), "bill 0\n");
    for (line, printed) in [
        ("201", "bill 7020\n0 7020\n"),
        ("0", "bill 0\n0 0\n"),
        ("100 0 101", "bill 7020\n0 4000\n1 0\n2 3020\n"),
        ("1 2 4096 4097 4098", "refused 19 at 3\n"),
        ("4294967295", "refused 19 at 0\n"),
        ("007 00", "bill 280\n0 280\n1 0\n"),
        ("0000000000000000000000000000000000000000000000004096", "bill 84920\n0 84920\n"),
        ("0004294967295", "refused 19 at 0\n"),
    ] {
        let words: Vec<PathBuf> = line.split(' ').map(Into::into).collect();
        assert_eq!(output(&words), printed, "{line}");
    }
}

#[test]
fn the_longest_words() {
    assert_eq!(output(&[format!("{:0>4096}", 7).into()]), "bill 280\n0 280\n");
    assert_complains_of(format!("{:0>4097}", 7).into());
    assert_complains_of("9".repeat(5000).into());
}

#[test]
fn orders_worked_by_hand() {
    for order in hand_orders() {
        let printed = printed_bill(&Ok((order.bill, order.shares)));
        assert_eq!(output(&words(&order.sizes)), printed, "{:?}", order.sizes);
    }
}

#[test]
fn more_sizes_than_an_order_can_have() {
    for length in [MOST_SIZES + 1, MOST_SIZES + 2, 100, 128, 256, 1000, 10_000] {
        for size in [0, 1, LARGEST_SIZE, LARGEST_SIZE + 1, u32::MAX] {
            assert_eq!(
                output(&words(&vec![size; length])),
                "refused 18 at 0\n",
                "{length} sizes of {size}"
            );
        }
    }
}

#[test]
fn a_size_that_is_too_large_at_each_place() {
    for place in 0..MOST_SIZES {
        let mut sizes = [LARGEST_SIZE; MOST_SIZES];
        sizes[place..].fill(LARGEST_SIZE + 1);
        assert_eq!(output(&words(&sizes)), format!("refused 19 at {place}\n"));
    }
}

#[test]
fn random_orders() {
    let mut random = Random::of_test("printed orders", 81);
    for _ in 0..cases(100_000) / 250 {
        let length = random_length(&mut random);
        let mut sizes = random_sizes(&mut random, length);
        assert_prints_answer(&sizes);
        enlarge(&mut random, &mut sizes);
        assert_prints_answer(&sizes);
    }
}

#[test]
fn largest_orders() {
    let mut random = Random::of_test("printed largest orders", 82);
    for _ in 0..20 {
        assert_prints_answer(&random_large_sizes(&mut random, MOST_SIZES));
    }
}

/// Asserts that the program complains of a word, wherever it stands and whatever else the order would be
/// refused on.
fn assert_complains_of(word: PathBuf) {
    let word = [word];
    let too_large = words(&[LARGEST_SIZE + 1]);
    assert_complains("bill_order", &word);
    assert_complains("bill_order", &[&word[..], &word].concat());
    assert_complains("bill_order", &[&word[..], &too_large].concat());
    assert_complains("bill_order", &[&too_large[..], &word].concat());
    for length in [1, MOST_SIZES - 1, MOST_SIZES, MOST_SIZES + 1, 100] {
        let sound = words(&vec![201; length]);
        assert_complains("bill_order", &[&sound[..], &word].concat());
        assert_complains("bill_order", &[&word[..], &sound].concat());
        assert_complains("bill_order", &[&sound[..], &word, &sound].concat());
    }
}

#[test]
fn words_that_are_no_numbers() {
    no_numbers().for_each(assert_complains_of);
}

#[test]
fn numbers_that_are_too_wide() {
    TOO_WIDE.into_iter().for_each(|word| assert_complains_of(word.into()));
}
