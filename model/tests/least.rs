//! Demand 2 on random tables: the certificate is the least closed store, found here from below on all
//! variables at once and, for small tables, among all stores; the count is that of the rounds that change
//! a register. The rule is written here a second time, on a number where it is known and a secret or not.

mod common;

use common::shapes::{register_ring, table_or_shape, turned};
use common::tables::random_table;
use common::{cases, certify_longer, constant, enabled, operator, register, secret, Random};
use model::{closed, read_records, rule, Fact, InputKind, Operator, Record};

/// A fact in another form: always n is the number n, open and marked have none, and marked is secret.
#[derive(Debug, Clone, Copy, PartialEq, Eq)]
struct Known {
    number: Option<u32>,
    secret: bool,
}

/// What is known of a variable, or nothing yet, which lies below every fact.
type Below = Option<Known>;

fn always(n: u32) -> Below {
    Some(Known { number: Some(n), secret: false })
}

fn unknown(secret: bool) -> Below {
    Some(Known { number: None, secret })
}

/// The lowest at or above both, where nothing yet is below all.
fn join(a: Below, b: Below) -> Below {
    match (a, b) {
        (None, other) | (other, None) => other,
        (Some(a), Some(b)) if a == b => Some(a),
        (Some(a), Some(b)) => unknown(a.secret || b.secret),
    }
}

fn power(w: u32) -> u128 {
    2u128.pow(w)
}

fn narrow(a: Below, w: u32) -> Below {
    let known = a?;
    let number = known.number.map(|n| (u128::from(n) % power(w)) as u32);
    Some(Known { number, ..known })
}

/// The operator's result in 128-bit arithmetic. A multiple of 2^w is added to a difference, so that none is
/// negative.
fn result(operator: Operator, a: u32, b: u32, w: u32) -> u32 {
    let (a, b) = (u128::from(a), u128::from(b));
    let whole = match operator {
        Operator::Add => a + b,
        Operator::Subtract => power(w) * power(32) + a - b,
        Operator::And => a & b,
        Operator::Or => a | b,
        Operator::Xor => a ^ b,
        Operator::Equal => (a == b).into(),
        Operator::Less => (a < b).into(),
        Operator::ShiftLeft if b < 32 => a * power(b as u32),
        Operator::ShiftRight if b < 32 => a / power(b as u32),
        Operator::ShiftLeft | Operator::ShiftRight => 0,
    };
    (whole % power(w)) as u32
}

/// Whether an operand of which this much is known decides the operator: it is 0, and the result, which `with`
/// gives from the other operand's number, is then 0 whatever that is. Of the nine operators 0 and 1 tell which
/// are so (request S-7).
fn decides(operand: Known, with: impl Fn(u32) -> u32) -> bool {
    operand.number == Some(0) && [0, 1].into_iter().all(|other| with(other) == 0)
}

/// What the rule gives a variable from a store: nothing yet while an operand that it needs has nothing, for
/// an operator both, also where one decides. A fixed input holds 0 at first, and n once it is poked. A register
/// has its power-on value at least, and what it may load beside; one with an enable may load where that may be
/// other than 0, and a secret tells whether it did where it holds one of several numbers.
fn rule_from_below(record: &Record, store: &[Below]) -> Below {
    match *record {
        Record::Input { kind: InputKind::Fixed(n), .. } => join(always(0), always(n)),
        Record::Input { kind, .. } => unknown(kind == InputKind::Secret),
        Record::Constant { n, .. } => always(n),
        Record::Operator { width, operator, a, b } => {
            let (a, b) = (store[a]?, store[b]?);
            match (a.number, b.number) {
                (Some(a), Some(b)) => always(result(operator, a, b, width)),
                _ if decides(a, |b| result(operator, 0, b, width)) => always(0),
                _ if decides(b, |a| result(operator, a, 0, width)) => always(0),
                _ => unknown(a.secret || b.secret),
            }
        }
        Record::Multiplexer { width, a, b, c } => {
            let control = store[a]?;
            let (b, c) = (narrow(store[b], width), narrow(store[c], width));
            match control.number {
                Some(0) => c,
                Some(_) => b,
                None => join(b, c).map(|arms| Known {
                    secret: arms.secret || (control.secret && arms.number.is_none()),
                    ..arms
                }),
            }
        }
        Record::Register { width, a, power_on } => join(narrow(store[a], width), always(power_on)),
        Record::Enabled { width, a, b, power_on } => {
            let may_load = store[b].is_some_and(|enable| enable.number != Some(0));
            let loaded = if may_load { narrow(store[a], width) } else { None };
            let held = join(always(power_on), loaded)?;
            let by_secret = held.number.is_none() && store[b].is_some_and(|enable| enable.secret);
            Some(Known { secret: held.secret || by_secret, ..held })
        }
    }
}

fn to_fact(below: Below) -> Fact {
    match below.expect("without a loop every variable gets a fact") {
        Known { number: Some(n), .. } => Fact::Always(n),
        Known { secret: false, .. } => Fact::Open,
        Known { secret: true, .. } => Fact::Marked,
    }
}

/// The least closed store from below: every variable starts with nothing yet, and in any order takes the
/// join with what the rule gives, until none changes. The rule is monotone, so this stays at or below every
/// closed store; without a loop no variable is left with nothing.
fn least_from_below(random: &mut Random, records: &[Record]) -> Vec<Fact> {
    let mut store = vec![None; records.len()];
    loop {
        let before = store.clone();
        for i in random.order(records.len()) {
            store[i] = join(store[i], rule_from_below(&records[i], &store));
        }
        if store == before {
            return store.into_iter().map(to_fact).collect();
        }
    }
}

fn at_or_below(lower: &[Fact], upper: &[Fact]) -> bool {
    lower.iter().zip(upper).all(|(lower, upper)| lower.at_or_below(*upper))
}

/// The closed store reached from a store by raising each variable to the join with its rule's fact.
fn closed_above(records: &[Record], store: &[Fact]) -> Vec<Fact> {
    let mut store = store.to_vec();
    while !closed(records, &store) {
        for i in 0..records.len() {
            store[i] = store[i].join(rule(records, &store, i));
        }
    }
    store
}

/// A random fact: the given one, one above it or any other.
fn random_fact(random: &mut Random, fact: Fact) -> Fact {
    match random.below(6) {
        0 => Fact::Open,
        1 => Fact::Marked,
        2 => Fact::Always(random.below(4) as u32),
        3 => fact.join(Fact::Open),
        _ => fact,
    }
}

/// The registers' facts after each round, with every wire worked out from what it uses when it is asked
/// for; the last two are equal.
fn register_facts_by_round(records: &[Record]) -> Vec<Vec<Below>> {
    let start = records.iter().map(|record| match *record {
        Record::Register { power_on, .. } | Record::Enabled { power_on, .. } => always(power_on),
        _ => None,
    });
    let mut rounds: Vec<Vec<Below>> = vec![start.collect()];
    loop {
        let mut store = rounds[rounds.len() - 1].clone();
        (0..records.len()).for_each(|i| work_out(records, &mut store, i));
        let next =
            |record: &Record| if record.is_register() { rule_from_below(record, &store) } else { None };
        rounds.push(records.iter().map(next).collect());
        if rounds[rounds.len() - 1] == rounds[rounds.len() - 2] {
            return rounds;
        }
    }
}

/// Works out what the variable uses, if nothing is known of it yet, and then the variable.
fn work_out(records: &[Record], store: &mut [Below], i: usize) {
    if store[i].is_none() {
        for used in records[i].uses() {
            work_out(records, store, used);
        }
        store[i] = rule_from_below(&records[i], store);
    }
}

fn count_registers(records: &[Record]) -> usize {
    records.iter().filter(|record| record.is_register()).count()
}

/// The table's records, and the certifying call's count and certificate.
fn certified(table: &[[u8; 16]]) -> (Vec<Record>, u32, Vec<Fact>) {
    let (count, facts) = certify_longer(table.as_flattened(), 0).unwrap();
    (read_records(table.as_flattened()).unwrap(), count, facts)
}

#[test]
fn the_certificate_is_the_least_closed_store_from_below() {
    let mut random = Random::of_test("least from below", 1);
    for _ in 0..cases(30_000) {
        let n = 1 + random.below(60);
        let (records, _, facts) = certified(&table_or_shape(&mut random, n));
        assert!(closed(&records, &facts));
        assert!((0..records.len()).all(|i| facts[i] == rule(&records, &facts, i)));
        assert_eq!(facts, least_from_below(&mut random, &records));
    }
}

#[test]
fn the_certificate_is_the_least_of_all_closed_stores() {
    let mut random = Random::of_test("least of all", 2);
    let mut tried = 0;
    while tried < cases(2000) {
        let n = 1 + random.below(5);
        let (records, _, facts) = certified(&random_table(&mut random, n, false));
        if records.iter().any(|record| record.width() > 2) {
            continue;
        }
        tried += 1;
        let choices = [0, 1, 2, 3].map(Fact::Always).into_iter().chain([Fact::Open, Fact::Marked]);
        let choices: Vec<Fact> = choices.collect();
        for number in 0..choices.len().pow(n as u32) {
            let digit = |i: usize| choices[number / choices.len().pow(i as u32) % choices.len()];
            let store: Vec<Fact> = (0..n).map(digit).collect();
            assert!(store != facts || closed(&records, &store));
            assert!(!closed(&records, &store) || at_or_below(&facts, &store));
        }
    }
}

#[test]
fn every_closed_store_found_lies_at_or_above_the_certificate() {
    let mut random = Random::of_test("closed stores", 3);
    for _ in 0..cases(15_000) {
        let n = 1 + random.below(40);
        let (records, _, facts) = certified(&table_or_shape(&mut random, n));
        for _ in 0..4 {
            let start = facts.iter().map(|&fact| random_fact(&mut random, fact));
            let start: Vec<Fact> = start.collect();
            let store = closed_above(&records, &start);
            assert!(at_or_below(&facts, &store));
        }
    }
}

#[test]
fn the_count_is_that_of_the_rounds_that_change_a_register() {
    let mut random = Random::of_test("count", 4);
    let (mut longest, mut bound_met, tried) = (0, 0, cases(30_000));
    for _ in 0..tried {
        let n = 1 + random.below(40);
        let (records, count, facts) = certified(&table_or_shape(&mut random, n));
        let rounds = register_facts_by_round(&records);
        assert_eq!(count as usize, rounds.len() - 2);
        for (i, below) in rounds[rounds.len() - 1].iter().enumerate() {
            assert!(!records[i].is_register() || facts[i] == to_fact(*below));
        }
        let most = 2 * count_registers(&records);
        assert!(count as usize <= most);
        longest = longest.max(count);
        bound_met += usize::from(most > 0 && count as usize == most);
    }
    println!("most rounds {longest}, bound met {bound_met} times");
    assert!(tried < 1000 || longest >= 4, "too few rounds to tell counts apart");
}

#[test]
fn the_largest_tables() {
    let mut random = Random::of_test("largest", 5);
    for _ in 0..cases(8).min(8) {
        let (records, count, facts) = certified(&random_table(&mut random, 4096, false));
        assert!(closed(&records, &facts));
        assert_eq!(facts, least_from_below(&mut random, &records));
        assert_eq!(count as usize, register_facts_by_round(&records).len() - 2);
    }
}

#[test]
fn a_long_row_of_registers_takes_a_round_each() {
    let row = |i: u16| register(8, 0, i.saturating_sub(1));
    let mut table: Vec<[u8; 16]> = (0..1000).map(row).collect();
    table[0] = secret(8);
    let (_, count, facts) = certified(&table);
    assert_eq!(count, 999);
    assert!(facts.iter().all(|&fact| fact == Fact::Marked));
}

#[test]
fn a_long_row_of_enables_takes_a_round_each() {
    let row = |i: u16| enabled(8, 0, 999, i.saturating_sub(1));
    let mut table: Vec<[u8; 16]> = (0..1000).map(row).collect();
    (table[0], table[999]) = (secret(8), constant(8, 1));
    let (_, count, facts) = certified(&table);
    assert_eq!(count, 998);
    assert!(facts[..999].iter().all(|&fact| fact == Fact::Marked));
}

#[test]
fn a_ring_of_registers_takes_two_rounds_each() {
    let mut random = Random::of_test("ring", 19);
    for n in 4..100 {
        let ring = register_ring(&mut random, n);
        for table in [turned(&ring), ring] {
            let (records, count, facts) = certified(&table);
            assert_eq!(count as usize, 2 * count_registers(&records));
            assert!((0..n).all(|i| !records[i].is_register() || facts[i] == Fact::Marked));
        }
    }
}

#[test]
fn a_wire_row_as_long_as_a_table_can_be() {
    let row = |i: u16| operator(Operator::Add, 32, i + 1, 4095);
    let mut table: Vec<[u8; 16]> = (0..4095).map(row).collect();
    table.push(constant(32, 3));
    let (_, count, facts) = certified(&table);
    let expected = (0..4096).map(|i| Fact::Always(3 * (4096 - i)));
    assert_eq!((count, facts), (0, expected.collect()));
}
