//! The archive's call for a bill held against the model's: the answer and every share, on shares that are as
//! long as asked, longer and shorter. Where it accepts, its shares are held to add up to the bill.

#[path = "../../tests/common/mod.rs"]
mod common;
mod lent;

use common::grounds::order_that_meets;
use common::orders::{
    cut_at_random, enlarge, hand_orders, in_two, permutations, random_large_sizes, random_length,
    random_sizes, shuffled, BORDERS, FEW_SIZES, LARGEST_SIZE, MOST_SIZES,
};
use common::{cases, widened, Random};
use lent::answers::random_calls;
use lent::{held_to_model, lengths_around, Buffers, Inputs, Lengths};
use model::Refusal;

/// What the archive answers on shares of this length, held against the model. The call takes no scratch.
fn bill_on(sizes: &[u32], lengths: Lengths) -> Result<u32, Refusal> {
    held_to_model(
        Inputs { sizes, ..Inputs::default() },
        &Buffers::new(lengths, widened),
        |lent| bill_added_up(sizes, lent.output),
        |lent| model::bill(sizes, lent.output),
    )
}

/// What the archive answers, its shares held to add up to the bill.
fn bill_added_up(sizes: &[u32], shares: &mut [u32]) -> Result<u32, Refusal> {
    let answer = compare::bill(sizes, shares);
    if let Ok(bill) = answer {
        let sum: u64 = shares[..sizes.len()].iter().copied().map(u64::from).sum();
        assert_eq!(sum, u64::from(bill), "the shares of {sizes:?}");
    }
    answer
}

/// What is asked for an order.
fn asked(sizes: &[u32]) -> Lengths {
    Lengths { output: sizes.len(), numbers: 0, scratch: 0, margin: 3 }
}

/// What the archive answers on shares as long as asked, held against the model.
fn bill(sizes: &[u32]) -> Result<u32, Refusal> {
    bill_on(sizes, asked(sizes))
}

/// Holds the archive against the model on shares of all lengths around the one asked for. Asserts that those
/// too short are refused, whatever the sizes are.
fn compare_on_all_lengths(sizes: &[u32]) {
    for output in lengths_around(sizes.len()) {
        let answer = bill_on(sizes, Lengths { output, ..asked(sizes) });
        assert_eq!(answer == refusal(3, 0), output < sizes.len(), "{output} shares for {sizes:?}");
    }
}

fn refusal(ground: u32, place: usize) -> Result<u32, Refusal> {
    Err(Refusal { ground, place })
}

#[test]
fn orders_worked_by_hand() {
    for order in hand_orders() {
        assert_eq!(bill(&order.sizes), Ok(order.bill));
        compare_on_all_lengths(&order.sizes);
    }
}

#[test]
fn every_set_of_grounds() {
    for met in [&[][..], &[3], &[18], &[19], &[3, 18], &[3, 19], &[18, 19], &[3, 18, 19]] {
        let meets = |ground: u32| met.contains(&ground);
        for place in 0..MOST_SIZES {
            let sizes = order_that_meets(meets, place);
            let refused = bill_on(&sizes, asked(&sizes).that_meet(meets)).err();
            let at_its_place = |&ground| Refusal { ground, place: if ground == 19 { place } else { 0 } };
            assert_eq!(refused, met.first().map(at_its_place), "grounds {met:?}");
        }
    }
}

#[test]
fn the_first_of_two_sizes_that_are_too_large() {
    for first in 0..MOST_SIZES {
        for second in first + 1..MOST_SIZES {
            let mut sizes = [LARGEST_SIZE; MOST_SIZES];
            for (earlier, later) in [(LARGEST_SIZE + 1, u32::MAX), (u32::MAX, LARGEST_SIZE + 1)] {
                (sizes[first], sizes[second]) = (earlier, later);
                assert_eq!(bill(&sizes), refusal(19, first));
                assert_eq!(bill(&sizes[..=second]), refusal(19, first));
            }
        }
    }
}

/// Numbers on both sides of the largest size, and others of which the low bits are a size.
const AROUND_THE_LARGEST: [u32; 12] =
    [0, 1, 4095, 4096, 4097, 8192, 65_535, 65_636, 1 << 31, (1 << 31) + 100, u32::MAX - 1, u32::MAX];

#[test]
fn sizes_around_the_largest() {
    for size in AROUND_THE_LARGEST {
        for place in [0, 1, 2, 31, 62, 63] {
            let mut sizes = [1; MOST_SIZES];
            sizes[place] = size;
            for sizes in [&sizes[..], &sizes[..=place]] {
                let refused = (size > LARGEST_SIZE).then_some(Refusal { ground: 19, place });
                assert_eq!(bill(sizes).err(), refused, "{sizes:?}");
                compare_on_all_lengths(sizes);
            }
        }
    }
}

#[test]
fn orders_of_all_lengths() {
    for n in (0..80).chain([100, 127, 128, 129, 255, 256, 257, 1000, 65_536, 65_600]) {
        for size in [0, 1, 3, 200, LARGEST_SIZE, LARGEST_SIZE + 1] {
            let sizes = vec![size; n];
            let ground_18 = (n > MOST_SIZES).then_some(18);
            let ground_19 = (n > 0 && size > LARGEST_SIZE).then_some(19);
            let ground = bill(&sizes).err().map(|refusal| refusal.ground);
            assert_eq!(ground, ground_18.or(ground_19), "{n} sizes of {size}");
            compare_on_all_lengths(&sizes);
        }
    }
}

#[test]
fn memory_around_the_sizes() {
    for other in [0, 1, LARGEST_SIZE, LARGEST_SIZE + 1, u32::MAX] {
        let memory = [[other; MOST_SIZES], [7; MOST_SIZES], [other; MOST_SIZES]];
        let memory = memory.as_flattened();
        for n in 0..=MOST_SIZES {
            assert_eq!(bill(&memory[MOST_SIZES..][..n]), bill(&vec![7; n]));
            assert_eq!(bill(&memory[2 * MOST_SIZES - n..][..n]), bill(&vec![7; n]));
        }
    }
}

#[test]
fn every_cut_in_two() {
    for connections in BORDERS {
        let whole = bill(&[connections]);
        for [one, other] in in_two(connections) {
            compare_on_all_lengths(&[one, other]);
            for sizes in [&[one, other][..], &[0, one, other], &[one, 0, other], &[one, other, 0]] {
                assert_eq!(bill(sizes), whole);
            }
            assert!(bill(&[one, other, 300]).is_ok());
        }
    }
}

#[test]
fn cuts_in_three() {
    for connections in BORDERS {
        for [one, rest] in in_two(connections) {
            for [other, third] in in_two(rest).step_by(7) {
                assert_eq!(bill(&[one, other, third]), bill(&[connections]));
            }
        }
    }
}

#[test]
fn cuts_in_many() {
    let mut random = Random::of_test("cuts", 71);
    for connections in BORDERS {
        for length in 3..=MOST_SIZES {
            for _ in 0..10 {
                let sizes = cut_at_random(&mut random, connections, length);
                assert_eq!(bill(&sizes), bill(&[connections]));
            }
        }
    }
}

#[test]
fn every_order_of_the_sizes_has_one_bill() {
    for sizes in FEW_SIZES {
        for permutation in permutations(sizes) {
            assert_eq!(bill(&permutation), bill(sizes));
        }
    }
}

/// Holds the archive against the model on so many random orders, each on shares of a random length, and where
/// it accepts on another order of the sizes, which has the same bill. Asserts that each of these grounds was
/// met.
fn compare_orders(
    random: &mut Random,
    orders: usize,
    grounds: &[usize],
    order: impl Fn(&mut Random) -> Vec<u32>,
) {
    random_calls(random, orders, grounds, |random| {
        let sizes = order(random);
        let answer = bill_on(&sizes, asked(&sizes).random(random));
        if answer.is_ok() {
            assert_eq!(bill(&shuffled(random, &sizes)), answer);
        }
        answer
    });
}

#[test]
fn random_orders() {
    let mut random = Random::of_test("orders", 72);
    compare_orders(&mut random, cases(100_000), &[0, 3, 18], |random| {
        let length = random_length(random);
        random_sizes(random, length)
    });
}

#[test]
fn enlarged_orders() {
    let mut random = Random::of_test("enlarged orders", 73);
    compare_orders(&mut random, cases(100_000), &[0, 3, 18, 19], |random| {
        let length = random_length(random);
        let mut sizes = random_sizes(random, length);
        enlarge(random, &mut sizes);
        sizes
    });
}

#[test]
fn largest_orders() {
    let mut random = Random::of_test("largest orders", 74);
    compare_orders(&mut random, cases(100_000) / 250, &[], |random| {
        let length = MOST_SIZES - random.below(2);
        random_large_sizes(random, length)
    });
}
