//! The order of facts, the operators and the rules of inputs, multiplexers and registers, each held against
//! the words of document 01, or of requests S-2, S-3 and S-7, by example or over all of a small range.

mod common;

use common::{
    bench_longer, enabled, fixed, free, multiplexer, operator, poke_bytes, register, secret, TICK,
};
use model::Fact::{self, Always, Marked, Open};
use model::{closed, fits, read_records, remainder, rule, Operator, Operator::*};

/// Facts enough to meet every case of the order.
const FACTS: [Fact; 5] = [Always(0), Always(1), Always(6), Open, Marked];

#[test]
fn the_order_of_facts_is_a_partial_order() {
    for a in FACTS {
        assert!(a.at_or_below(a));
        for b in FACTS {
            assert!(a == b || !(a.at_or_below(b) && b.at_or_below(a)));
            for c in FACTS {
                assert!(a.at_or_below(c) || !(a.at_or_below(b) && b.at_or_below(c)));
            }
        }
    }
    assert!(Always(6).at_or_below(Open) && Open.at_or_below(Marked));
    assert!(!Open.at_or_below(Always(6)) && !Marked.at_or_below(Open));
    assert!(!Always(0).at_or_below(Always(6)));
}

#[test]
fn the_join_is_the_lowest_fact_at_or_above_both() {
    for a in FACTS {
        for b in FACTS {
            let join = a.join(b);
            assert!(a.at_or_below(join) && b.at_or_below(join));
            let above_both = |c: &Fact| a.at_or_below(*c) && b.at_or_below(*c);
            assert!(FACTS.into_iter().filter(above_both).all(|c| join.at_or_below(c)));
        }
    }
    assert_eq!(Always(0).join(Always(5)), Open);
}

#[test]
fn narrowing() {
    assert_eq!(Always(13).narrow(3), Always(5));
    assert_eq!(Always(u32::MAX).narrow(32), Always(u32::MAX));
    assert_eq!(Always(u32::MAX).narrow(31), Always(u32::MAX >> 1));
    assert_eq!((Open.narrow(1), Marked.narrow(1)), (Open, Marked));
    for w in 1..=32 {
        assert_eq!(remainder(u32::MAX, w), u32::MAX >> (32 - w));
        assert!(fits(u32::MAX >> (32 - w), w));
        assert!(w == 32 || !fits(1 << w, w));
    }
}

#[test]
fn operators_by_example() {
    let top = u32::MAX;
    let examples = [
        (Add, top, 1, 32, 0),
        (Add, 200, 100, 8, 44),
        (Add, 200, 100, 9, 300),
        (Subtract, 2, 5, 4, 13),
        (Subtract, 0, 1, 32, top),
        (Subtract, 0, top, 32, 1),
        (And, 12, 10, 8, 8),
        (And, 12, 10, 3, 0),
        (Or, 12, 10, 8, 14),
        (Xor, 12, 10, 8, 6),
        (Xor, 12, 10, 2, 2),
        (Equal, 257, 1, 1, 0),
        (Equal, 257, 257, 1, 1),
        (Less, 1, 256, 8, 1),
        (Less, 256, 1, 1, 0),
        (Less, 7, 7, 32, 0),
        (Less, top - 1, top, 1, 1),
        (ShiftLeft, 1, 31, 32, 1 << 31),
        (ShiftLeft, 1, 32, 32, 0),
        (ShiftLeft, top, top, 32, 0),
        (ShiftLeft, 3, 7, 8, 128),
        (ShiftLeft, 5, 0, 2, 1),
        (ShiftRight, top, 31, 32, 1),
        (ShiftRight, top, 32, 32, 0),
        (ShiftRight, top, 33, 32, 0),
        (ShiftRight, 255, 3, 8, 31),
        (ShiftRight, 255, 3, 4, 15),
        (ShiftRight, 255, 0, 4, 15),
    ];
    for (operator, a, b, w, result) in examples {
        assert_eq!(operator.result(a, b, w), result, "{operator:?} {a} {b} at width {w}");
    }
}

#[test]
fn operators_by_repeated_steps() {
    for w in 1..=6 {
        for (a, b) in (0..64).flat_map(|a| (0..64).map(move |b| (a, b))) {
            let power = 1 << w;
            let times = (0..b.min(40)).fold(u64::from(a), |n, _| n * 2);
            let divided = (0..b).fold(a, |n, _| n / 2);
            assert_eq!((Subtract.result(a, b, w) + b) % power, a % power);
            assert_eq!(Add.result(a, b, w), (a + b) % power);
            let times = if b < 32 { (times % u64::from(power)) as u32 } else { 0 };
            assert_eq!(ShiftLeft.result(a, b, w), times);
            assert_eq!(ShiftRight.result(a, b, w), divided % power);
        }
    }
}

#[test]
fn the_rule_of_an_input() {
    let fixed_to = |n: u32| if n == 0 { Always(0) } else { Open };
    for w in 1..=32 {
        let numbers = [0, 1, 1 << (w - 1), u32::MAX >> (32 - w)];
        let inputs = numbers.map(|n| (fixed(w, n), fixed_to(n)));
        for (input, fact) in inputs.into_iter().chain([(free(w), Open), (secret(w), Marked)]) {
            let records = read_records(&input).unwrap();
            // What the input has already counts for nothing.
            for own in FACTS {
                assert_eq!(rule(&records, &[own], 0), fact, "{input:?}");
            }
        }
    }
}

/// What the rule of an operator of width w gives from the facts of A and B.
fn operator_rule(code: Operator, w: u8, a: Fact, b: Fact) -> Fact {
    let records = [free(8), free(8), operator(code, w, 0, 1)];
    rule(&read_records(records.as_flattened()).unwrap(), &[a, b, Open], 2)
}

#[test]
fn the_operator_rule() {
    for (a, b, fact) in [
        (Always(6), Always(3), Always(2)),
        (Always(6), Open, Open),
        (Open, Always(6), Open),
        (Open, Open, Open),
        (Always(6), Marked, Marked),
        (Marked, Always(6), Marked),
        (Marked, Open, Marked),
        (Open, Marked, Marked),
        (Marked, Marked, Marked),
    ] {
        assert_eq!(operator_rule(And, 8, a, b), fact, "{a:?} {b:?}");
    }
}

#[test]
fn known_zeros_of_every_operator() {
    // Of each operator whether a zero decides as A, and as B.
    let decides = [
        (Add, [false, false]),
        (Subtract, [false, false]),
        (And, [true, true]),
        (Or, [false, false]),
        (Xor, [false, false]),
        (Equal, [false, false]),
        (Less, [false, true]),
        (ShiftLeft, [true, false]),
        (ShiftRight, [true, false]),
    ];
    assert_eq!(decides.map(|(code, _)| code), Operator::BY_CODE);
    for ((code, [as_a, as_b]), w) in decides.into_iter().flat_map(|row| (1..=32).map(move |w| (row, w))) {
        let unless = |decides, fact| if decides { Always(0) } else { fact };
        for other in [Open, Marked] {
            assert_eq!(operator_rule(code, w, Always(0), other), unless(as_a, other), "{code:?} {w}");
            assert_eq!(operator_rule(code, w, other, Always(0)), unless(as_b, other), "{code:?} {w}");
            // A number that is not 0, even where its remainder at the result's width is.
            for n in [1, 1 << (w - 1), (1u64 << w) as u32, 32, u32::MAX].into_iter().filter(|&n| n != 0) {
                assert_eq!(operator_rule(code, w, Always(n), other), other, "{code:?} {w} {n}");
                assert_eq!(operator_rule(code, w, other, Always(n)), other, "{code:?} {w} {n}");
            }
        }
        // Of two numbers always their result, which is 0 where one decides.
        for n in [0, 1, 5, 31, 32, u32::MAX] {
            let [of_a, of_b] = [code.result(0, n, w.into()), code.result(n, 0, w.into())];
            assert_eq!(operator_rule(code, w, Always(0), Always(n)), Always(of_a));
            assert_eq!(operator_rule(code, w, Always(n), Always(0)), Always(of_b));
            assert!((!as_a || of_a == 0) && (!as_b || of_b == 0), "{code:?} {w} {n}");
        }
    }
}

#[test]
fn the_multiplexer_rule() {
    let records = [free(8), free(8), free(8), multiplexer(2, 0, 1, 2)];
    let records = read_records(records.as_flattened()).unwrap();
    for (control, b, c, fact) in [
        (Always(0), Marked, Always(5), Always(1)),
        (Always(4), Always(6), Marked, Always(2)),
        (Always(4), Marked, Always(6), Marked),
        (Always(1), Open, Marked, Open),
        (Open, Always(1), Always(5), Always(1)),
        (Open, Always(1), Always(2), Open),
        (Open, Always(1), Marked, Marked),
        (Open, Open, Always(1), Open),
        (Marked, Always(1), Always(5), Always(1)),
        (Marked, Always(1), Always(2), Marked),
        (Marked, Open, Open, Marked),
        (Marked, Always(1), Open, Marked),
        (Marked, Marked, Marked, Marked),
    ] {
        let given = rule(&records, &[control, b, c, Open], 3);
        assert_eq!(given, fact, "{control:?} {b:?} {c:?}");
    }
}

#[test]
fn the_register_rule() {
    let records = [free(8), register(2, 1, 0)];
    let records = read_records(records.as_flattened()).unwrap();
    for (a, fact) in [(Always(5), Always(1)), (Always(6), Open), (Open, Open), (Marked, Marked)] {
        assert_eq!(rule(&records, &[a, Open], 1), fact, "{a:?}");
    }
}

#[test]
fn the_rule_of_a_register_with_an_enable() {
    let records = [free(8), free(8), enabled(2, 1, 0, 1)];
    let records = read_records(records.as_flattened()).unwrap();
    for (enable, a, fact) in [
        (Always(0), Always(5), Always(1)),
        (Always(0), Always(6), Always(1)),
        (Always(0), Open, Always(1)),
        (Always(0), Marked, Always(1)),
        (Always(1), Always(5), Always(1)),
        (Always(1), Always(6), Open),
        (Always(1), Open, Open),
        (Always(1), Marked, Marked),
        // The enable is not narrowed.
        (Always(4), Always(6), Open),
        (Always(4), Marked, Marked),
        (Open, Always(5), Always(1)),
        (Open, Always(6), Open),
        (Open, Open, Open),
        (Open, Marked, Marked),
        (Marked, Always(5), Always(1)),
        (Marked, Always(6), Marked),
        (Marked, Open, Marked),
        (Marked, Marked, Marked),
    ] {
        // What the register has already counts for nothing.
        for own in FACTS {
            assert_eq!(rule(&records, &[a, enable, own], 2), fact, "{enable:?} {a:?}");
        }
    }
}

#[test]
fn every_rule_is_monotone() {
    let pairs = FACTS.into_iter().flat_map(|a| FACTS.map(|b| (a, b)));
    let stores: Vec<[Fact; 4]> = pairs.flat_map(|(a, b)| FACTS.map(|c| [a, b, c, Open])).collect();
    let used = [free(8), free(8), free(8)];
    let others = [
        multiplexer(2, 0, 1, 2),
        register(2, 1, 0),
        enabled(2, 1, 0, 1),
        enabled(2, 0, 0, 1),
        enabled(2, 1, 0, 0),
    ];
    for record in Operator::BY_CODE.map(|code| operator(code, 8, 0, 1)).into_iter().chain(others) {
        let records = [&used[..], &[record]].concat();
        let records = read_records(records.as_flattened()).unwrap();
        for lower in &stores {
            let above = |upper: &&[Fact; 4]| (0..3).all(|i| lower[i].at_or_below(upper[i]));
            for upper in stores.iter().filter(above) {
                assert!(rule(&records, lower, 3).at_or_below(rule(&records, upper, 3)), "{record:?}");
            }
        }
    }
}

#[test]
fn closed_stores() {
    let records = [free(8), register(2, 1, 0)];
    let records = read_records(records.as_flattened()).unwrap();
    assert!(closed(&records, &[Open, Open]));
    assert!(closed(&records, &[Open, Marked]));
    assert!(closed(&records, &[Marked, Marked]));
    assert!(!closed(&records, &[Always(0), Open]));
    assert!(!closed(&records, &[Marked, Open]));
    assert!(!closed(&records, &[Open, Always(1)]));
}

#[test]
fn closed_stores_of_a_fixed_input() {
    for (n, at_or_above) in [(6, &[Open, Marked][..]), (0, &[Always(0), Open, Marked])] {
        let records = read_records(&fixed(8, n)).unwrap();
        for fact in FACTS {
            assert_eq!(closed(&records, &[fact]), at_or_above.contains(&fact), "{n} {fact:?}");
        }
    }
}

#[test]
fn closed_stores_with_an_enable() {
    let records = [free(8), fixed(8, 0), enabled(2, 1, 0, 1)];
    let records = read_records(records.as_flattened()).unwrap();
    assert!(closed(&records, &[Marked, Always(0), Always(1)]));
    assert!(closed(&records, &[Marked, Always(0), Open]));
    assert!(!closed(&records, &[Marked, Always(0), Always(0)]));
    assert!(!closed(&records, &[Marked, Open, Open]));
    assert!(!closed(&records, &[Open, Open, Always(1)]));
    assert!(closed(&records, &[Open, Open, Open]));
    assert!(!closed(&records, &[Open, Marked, Open]));
    assert!(closed(&records, &[Open, Marked, Marked]));
}

#[test]
fn a_tick_moves_all_registers_together() {
    let table = [register(8, 1, 1), register(8, 2, 0), register(1, 0, 1)];
    let after = |ticks| bench_longer(table.as_flattened(), &TICK.repeat(ticks), 0).unwrap();
    assert_eq!(after(0), [1, 2, 0]);
    assert_eq!(after(1), [2, 1, 0]);
    assert_eq!(after(2), [1, 2, 1]);
}

#[test]
fn a_tick_with_every_enable() {
    for (a, b) in (0..16).flat_map(|a| (0..16).map(move |b| (a, b))) {
        for power_on in 0..4 {
            let table = [free(4), free(4), enabled(2, power_on, 0, 1)];
            let stimuli = [poke_bytes(0, a), poke_bytes(1, b), TICK];
            let held = if b == 0 { power_on } else { a % 4 };
            let values = bench_longer(table.as_flattened(), stimuli.as_flattened(), 0);
            assert_eq!(values, Ok(vec![a, b, held]));
        }
    }
}

#[test]
fn every_input_holds_0_at_power_on() {
    for w in 1..=32 {
        let n = u32::MAX >> (32 - w);
        let inputs = [fixed(w, n), fixed(w, 0), free(w), secret(w)];
        let table = [&inputs[..], &[register(w, n, 0), enabled(w, n, 0, 0)]].concat();
        let after = |stimuli: &[[u8; 8]]| bench_longer(table.as_flattened(), stimuli.as_flattened(), 0);
        assert_eq!(after(&[]), Ok(vec![0, 0, 0, 0, n, n]));
        assert_eq!(after(&[TICK]), Ok(vec![0, 0, 0, 0, 0, n]));
        assert_eq!(after(&[TICK, poke_bytes(0, n)]), Ok(vec![n, 0, 0, 0, 0, n]));
        assert_eq!(after(&[TICK, poke_bytes(0, n), TICK]), Ok(vec![n, 0, 0, 0, n, n]));
    }
}

#[test]
fn pokes_move_wires_and_no_register() {
    let table = [free(8), fixed(4, 9), multiplexer(2, 0, 1, 3), register(8, 6, 0), operator(Add, 8, 2, 3)];
    let after = |stimuli: &[[u8; 8]]| bench_longer(table.as_flattened(), stimuli.as_flattened(), 0);
    let (free, fixed) = (poke_bytes(0, 200), poke_bytes(1, 9));
    assert_eq!(after(&[]), Ok(vec![0, 0, 2, 6, 8]));
    assert_eq!(after(&[free]), Ok(vec![200, 0, 0, 6, 6]));
    assert_eq!(after(&[fixed]), Ok(vec![0, 9, 2, 6, 8]));
    assert_eq!(after(&[fixed, free]), Ok(vec![200, 9, 1, 6, 7]));
    assert_eq!(after(&[fixed, free, TICK]), Ok(vec![200, 9, 1, 200, 201]));
    let again = [fixed, free, TICK, poke_bytes(0, 0), fixed];
    assert_eq!(after(&again), Ok(vec![0, 9, 0, 200, 200]));
}
