//! Orders, each a row of sizes, and the call for a bill made on shares whose contents are checked afterwards
//! by request S-1's clauses. There are orders worked by hand, connections cut into sizes, permutations of
//! sizes, and random orders.

use super::{check_output, noise, refused, widened, Random, Refused};
use model::bill;

/// The most sizes that an order can have.
pub const MOST_SIZES: usize = 64;

/// The largest size that an order can have.
pub const LARGEST_SIZE: u32 = 4096;

/// Numbers of connections at the borders of the tiers.
pub const BORDERS: [u32; 6] = [99, 100, 101, 199, 200, 201];

/// Few sizes, so that all their permutations can be tried.
pub const FEW_SIZES: [&[u32]; 3] = [&[99, 2, 100, 0, 57], &[1, 1, 98, 101, LARGEST_SIZE, 3], &[100; 3]];

/// What the call for a bill answers: the bill and the shares, or the refusal.
pub type Billed = Result<(u32, Vec<u32>), Refused>;

/// The call for a bill on shares of this length. What the request says of them is checked.
pub fn bill_on(sizes: &[u32], length: usize) -> Billed {
    let before: Vec<u32> = noise(length).map(widened).collect();
    let mut after = before.clone();
    let answer = bill(sizes, &mut after);
    check_output(answer, sizes.len(), &before, &after);
    let bill = answer.map_err(|refusal| refused(refusal, Vec::new()))?;
    after.truncate(sizes.len());
    Ok((bill, after))
}

/// The call for a bill on shares as long as asked and so many longer.
pub fn bill_longer(sizes: &[u32], longer: usize) -> Billed {
    bill_on(sizes, sizes.len() + longer)
}

/// An order: its sizes, each one's share, and the bill.
pub struct Order {
    pub sizes: Vec<u32>,
    pub shares: Vec<u32>,
    pub bill: u32,
}

/// Orders worked by hand: one size at each border and around it, several sizes across them, and the largest.
pub fn hand_orders() -> Vec<Order> {
    vec![
        order(&[], &[], 0),
        order(&[0], &[0], 0),
        order(&[1], &[40], 40),
        order(&[99], &[3960], 3960),
        order(&[100], &[4000], 4000),
        order(&[101], &[4030], 4030),
        order(&[199], &[6970], 6970),
        order(&[200], &[7000], 7000),
        order(&[201], &[7020], 7020),
        order(&[LARGEST_SIZE], &[84_920], 84_920),
        order(&[0, 0, 0], &[0, 0, 0], 0),
        order(&[99, 2, 98, 2, 5], &[3960, 70, 2940, 50, 100], 7120),
        order(&[5, 2, 98, 2, 99], &[200, 80, 3870, 60, 2910], 7120),
        order(&[0, 100, 0, 100, 0, 1, 0], &[0, 4000, 0, 3000, 0, 20, 0], 7020),
        order(&[150, 150], &[5500, 3500], 9000),
        order(&[201, 201], &[7020, 4020], 11_040),
        order(&[LARGEST_SIZE; 64], &[&[84_920][..], &[81_920; 63]].concat(), 5_245_880),
    ]
}

fn order(sizes: &[u32], shares: &[u32], bill: u32) -> Order {
    Order { sizes: sizes.to_vec(), shares: shares.to_vec(), bill }
}

/// Every way to cut so many connections in two.
pub fn in_two(connections: u32) -> impl Iterator<Item = [u32; 2]> {
    (0..=connections).map(move |first| [first, connections - first])
}

/// So many connections cut at random into so many sizes, at least one.
pub fn cut_at_random(random: &mut Random, connections: u32, sizes: usize) -> Vec<u32> {
    let mut ends: Vec<u32> = (1..sizes).map(|_| random.below(connections as usize + 1) as u32).collect();
    ends.push(connections);
    ends.sort_unstable();
    let starts = [0].into_iter().chain(ends.iter().copied());
    ends.iter().zip(starts).map(|(end, start)| end - start).collect()
}

/// The sizes in every order.
pub fn permutations(sizes: &[u32]) -> Vec<Vec<u32>> {
    let begun_with = |i: usize| {
        let rest = [&sizes[..i], &sizes[i + 1..]].concat();
        permutations(&rest).into_iter().map(move |rest| [&[sizes[i]], &rest[..]].concat())
    };
    match sizes {
        [] => vec![vec![]],
        _ => (0..sizes.len()).flat_map(begun_with).collect(),
    }
}

/// The sizes in a random order.
pub fn shuffled(random: &mut Random, sizes: &[u32]) -> Vec<u32> {
    random.order(sizes.len()).into_iter().map(|i| sizes[i]).collect()
}

/// A random number of sizes: mostly few, and sometimes about as many as an order can have, or more.
pub fn random_length(random: &mut Random) -> usize {
    match random.below(10) {
        0 => MOST_SIZES - 3 + random.below(6),
        1 => random.below(3 * MOST_SIZES),
        _ => random.below(12),
    }
}

/// So many random sizes that often reach the borders of the tiers together: all below a random limit, but for
/// a few at a border.
pub fn random_sizes(random: &mut Random, length: usize) -> Vec<u32> {
    let limit = random.pick(&[1, 2, 5, 20, 60, 110, 210]);
    let size = |random: &mut Random| match random.below(20) {
        0 => random.pick(&BORDERS),
        _ => random.below(limit) as u32,
    };
    (0..length).map(|_| size(random)).collect()
}

/// So many random sizes up to the largest.
pub fn random_large_sizes(random: &mut Random, length: usize) -> Vec<u32> {
    (0..length).map(|_| random.below(LARGEST_SIZE as usize + 1) as u32).collect()
}

/// Makes up to three of the sizes large, mostly too large.
pub fn enlarge(random: &mut Random, sizes: &mut [u32]) {
    for _ in 0..random.below(4).min(sizes.len()) {
        sizes[random.below(sizes.len())] = match random.below(4) {
            0 => LARGEST_SIZE + random.below(2) as u32,
            1 => 1 << (12 + random.below(20)),
            2 => u32::MAX - random.below(2) as u32,
            _ => random.next() as u32,
        };
    }
}
