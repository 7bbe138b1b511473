//! How often random tables and runs meet each case of a register with an enable: of its rule, in the
//! certificate, and of its tick, on the bench. Other tests on random tables rest on that.

mod common;

use common::shapes::{chain, gates, layers, register_chain, register_ring, table_or_shape};
use common::tables::{random_stimuli, random_table};
use common::times::{beside, Times, ALL, MARKED, OPEN, OTHER, THIS};
use common::{cases, Random};
use model::{
    before_any_round, fits, poke, power_on, read_records, remainder, rounds, tick, Record, Stimulus,
};

/// What the certificates of random tables have of registers with an enable.
struct Certified {
    registers: usize,
    /// The enable's fact beside 0, and the data's, narrowed, beside the power-on value.
    operands: Times<[&'static str; 2]>,
    /// The enable's fact beside 0, and the register's beside the power-on value.
    results: Times<[&'static str; 2]>,
    /// The enable's fact beside 0 before any round, and in the end.
    rounds: Times<[&'static str; 2]>,
    /// Whether the register is its own data, or its own enable.
    own: Times<&'static str>,
}

impl Certified {
    /// Every case that can be, not met yet.
    fn none() -> Certified {
        let operands: Vec<_> = ALL.into_iter().flat_map(|b| ALL.map(|a| [b, a])).collect();
        let other_or_open = [OTHER, OPEN].into_iter().flat_map(|b| [THIS, OPEN, MARKED].map(|i| [b, i]));
        let this_or_marked = [[THIS, THIS], [MARKED, THIS], [MARKED, MARKED]];
        let results: Vec<_> = other_or_open.chain(this_or_marked).collect();
        let stay = ALL.map(|b| [b, b]);
        let rise = [[THIS, OPEN], [THIS, MARKED], [OTHER, OPEN], [OTHER, MARKED], [OPEN, MARKED]];
        Certified {
            registers: 0,
            operands: Times::none(&operands),
            results: Times::none(&results),
            rounds: Times::none(&[&stay[..], &rise].concat()),
            own: Times::none(&["data", "enable"]),
        }
    }

    /// Counts what the certificate of a table has.
    fn count(&mut self, records: &[Record]) {
        let (first, (_, facts)) = (before_any_round(records), rounds(records));
        for (i, record) in records.iter().enumerate() {
            let Record::Enabled { width, a, b, power_on } = *record else { continue };
            let enable = beside(0, facts[b]);
            self.registers += 1;
            self.operands.count([enable, beside(power_on, facts[a].narrow(width))]);
            self.results.count([enable, beside(power_on, facts[i])]);
            self.rounds.count([beside(0, first[b]), enable]);
            let own = [("data", a), ("enable", b)].into_iter().filter(|&(_, used)| used == i);
            own.for_each(|(operand, _)| self.own.count(operand));
        }
    }
}

#[test]
fn random_tables_meet_every_case_of_the_rule() {
    let mut random = Random::of_test("cases of the rule", 21);
    let (mut seen, tables) = (Certified::none(), cases(20_000));
    for _ in 0..tables {
        let n = 1 + random.below(40);
        let table = table_or_shape(&mut random, n);
        seen.count(&read_records(table.as_flattened()).unwrap());
    }
    if tables >= 1000 {
        seen.operands.assert_each(seen.registers, 2);
        seen.results.assert_each(seen.registers, 5);
        seen.rounds.assert_each(seen.registers, 2);
        seen.own.assert_each(seen.registers, 10);
    }
}

#[test]
fn every_shape_has_registers_with_an_enable() {
    let mut random = Random::of_test("enables in shapes", 22);
    let loopless = |random: &mut Random, n| random_table(random, n, false);
    let with_loops = |random: &mut Random, n| random_table(random, n, true);
    for shape in [loopless, with_loops, layers, chain, register_chain, register_ring, gates] {
        let (mut enabled, mut plain) = (0, 0);
        for _ in 0..100 {
            let records = read_records(shape(&mut random, 40).as_flattened()).unwrap();
            enabled += records.iter().filter(|record| matches!(record, Record::Enabled { .. })).count();
            plain += records.iter().filter(|record| matches!(record, Record::Register { .. })).count();
        }
        assert!(enabled > 20 && plain > 20, "{enabled} and {plain}");
    }
}

/// The cases of a tick that are counted, each where the data is not what the register holds: it holds; it
/// takes the data, takes it narrowed, or by an enable that is a multiple of 2^w; it takes the data while the
/// enable becomes 0, or holds while it ceases to be 0.
const TICKS: [&str; 6] = ["hold", "load", "narrowed load", "wide enable", "enable falls", "enable rises"];

/// The cases that a register with an enable meets at a tick between these two states.
fn met_at_tick(record: &Record, i: usize, before: &[u32], after: &[u32]) -> [bool; 6] {
    let Record::Enabled { width, a, b, .. } = *record else { return [false; 6] };
    let other = before[i] != remainder(before[a], width);
    let (hold, load) = (other && before[b] == 0, other && before[b] != 0);
    [
        hold,
        load,
        load && !fits(before[a], width),
        load && remainder(before[b], width) == 0,
        load && after[b] == 0,
        hold && after[b] != 0,
    ]
}

#[test]
fn random_runs_meet_every_case_of_the_tick() {
    let mut random = Random::of_test("cases of the tick", 23);
    let (mut seen, mut ticks, tables) = (Times::none(&TICKS), 0, cases(5000));
    for _ in 0..tables {
        let n = 1 + random.below(40);
        let records = read_records(table_or_shape(&mut random, n).as_flattened()).unwrap();
        let mut state = power_on(&records);
        for bytes in random_stimuli(&mut random, &records, 20) {
            if let Stimulus::Poke { variable, n } = Stimulus::read(&bytes, &records).unwrap() {
                state = poke(&records, &state, variable, n);
                continue;
            }
            let after = tick(&records, &state);
            for (i, record) in records.iter().enumerate() {
                ticks += usize::from(matches!(record, Record::Enabled { .. }));
                let met = met_at_tick(record, i, &state, &after);
                TICKS.into_iter().zip(met).filter(|(_, met)| *met).for_each(|(case, _)| seen.count(case));
            }
            state = after;
        }
    }
    if tables >= 1000 {
        seen.assert_each(ticks, 1);
    }
}
