//! Demand 3 tried on any two calls: after two lists of stimuli that differ only in values poked into secret
//! inputs, every variable called always or open holds the same value in both runs, and one called always
//! holds the certified number. Fixed inputs are poked at the same places of both lists. What occurred is
//! counted, so that a test can't pass where little does.

use super::fixed_pokes::{is_poked_late, FixedPokes};
use super::shapes::table_or_shape;
use super::tables::{other_secrets, random_stimuli};
use super::{Random, RecordBytes};
use model::{read_records, Fact, InputKind, Record};

/// The calls that demand 3 is about, each on a table, and on stimuli, that it accepts.
pub struct Calls {
    /// The facts that the certifying call writes.
    pub certify: fn(&[u8]) -> Vec<Fact>,
    /// The values that the bench call writes.
    pub bench: fn(&[u8], &[u8]) -> Vec<u32>,
}

impl Calls {
    /// Tries demand 3 on so many random tables of up to 50 records, half of them of one of the shapes, with
    /// lists of up to 40 stimuli.
    pub fn try_two_runs(&self, random: &mut Random, tables: usize) {
        let mut seen = Seen::default();
        for _ in 0..tables {
            let (n, length) = (1 + random.below(50), random.below(41));
            let table = table_or_shape(random, n);
            seen.count(&TwoRuns::random(random, self, &table, length));
        }
        seen.assert_fair(tables);
    }
}

/// A certified table and the values after two lists that differ only in values poked into secret inputs.
pub struct TwoRuns {
    pub records: Vec<Record>,
    pub values: [Vec<u32>; 2],
    facts: Vec<Fact>,
    /// One of the lists.
    list: Vec<u8>,
    lists_differ: bool,
}

impl TwoRuns {
    /// The two runs of these calls on a table and two random lists of this length, held to demand 3.
    pub fn random(random: &mut Random, calls: &Calls, table: &[RecordBytes], length: usize) -> TwoRuns {
        let table = table.as_flattened();
        let records = read_records(table).unwrap();
        let list = random_stimuli(random, &records, length);
        let other = other_secrets(random, &records, &list);
        let values = [&list, &other].map(|list| (calls.bench)(table, list.as_flattened()));
        let (facts, lists_differ) = ((calls.certify)(table), list != other);
        let runs = TwoRuns { records, values, facts, list: list.as_flattened().to_vec(), lists_differ };
        runs.assert_guarded();
        runs
    }

    /// The claim of demand 3.
    fn assert_guarded(&self) {
        let [one, other] = &self.values;
        for (i, fact) in self.facts.iter().enumerate() {
            match *fact {
                Fact::Always(n) => assert_eq!((one[i], other[i]), (n, n), "variable {i}"),
                Fact::Open => assert_eq!(one[i], other[i], "variable {i}"),
                Fact::Marked => {}
            }
        }
    }

    /// How many variables that are no input this is so of.
    fn count(&self, test: impl Fn(usize) -> bool) -> usize {
        let is_input = |i: &usize| matches!(self.records[*i], Record::Input { .. });
        (0..self.records.len()).filter(|i| !is_input(i) && test(*i)).count()
    }

    /// Whether the variable holds different values in the two runs.
    fn differs(&self, i: usize) -> bool {
        self.values[0][i] != self.values[1][i]
    }

    /// Whether the variable is a fixed input, with an n other than 0, that both lists poke late.
    fn is_tied_late(&self, i: usize) -> bool {
        let Record::Input { kind: InputKind::Fixed(n), .. } = self.records[i] else { return false };
        n != 0 && is_poked_late(&self.list, i)
    }

    /// Whether the variable is always a number other than 0, and no constant.
    fn is_worked_out_not_0(&self, i: usize) -> bool {
        let is_constant = matches!(self.records[i], Record::Constant { .. });
        !is_constant && matches!(self.facts[i], Fact::Always(n) if n != 0)
    }

    /// Whether the variable is a multiplexer with a marked control.
    fn has_marked_control(&self, i: usize) -> bool {
        matches!(self.records[i], Record::Multiplexer { a, .. } if self.facts[a] == Fact::Marked)
    }

    /// Whether the variable is a register with a marked enable.
    fn has_marked_enable(&self, i: usize) -> bool {
        matches!(self.records[i], Record::Enabled { b, .. } if self.facts[b] == Fact::Marked)
    }

    /// Whether the variable is a marked register whose enable is marked and whose data is not.
    fn is_marked_by_its_enable(&self, i: usize) -> bool {
        let is_marked = |variable: usize| self.facts[variable] == Fact::Marked;
        matches!(self.records[i], Record::Enabled { a, b, .. } if is_marked(b) && !is_marked(a) && is_marked(i))
    }
}

/// Whether a register reaches itself through uses.
fn has_feedback(records: &[Record]) -> bool {
    (0..records.len()).filter(|&i| records[i].is_register()).any(|start| {
        let mut reached: Vec<usize> = records[start].uses().collect();
        let mut next = 0;
        while next < reached.len() {
            for used in records[reached[next]].uses() {
                if !reached.contains(&used) {
                    reached.push(used);
                }
            }
            next += 1;
        }
        reached.contains(&start)
    })
}

/// How many of the tables tried have what the test is about, and how often their wires and registers do.
#[derive(Debug, Default)]
struct Seen {
    registers: usize,
    enables: usize,
    feedback: usize,
    multiplexers: usize,
    other_lists: usize,
    all_of_these: usize,
    /// A marked wire or register holds different values in the two runs.
    marked_differ: usize,
    /// The lists differ, and a wire or register is open.
    open: usize,
    /// A multiplexer with a marked control is always some number.
    always_under_marked_control: usize,
    /// A register with a marked enable is always some number.
    always_under_marked_enable: usize,
    /// The lists differ, and both poke a fixed input, with an n other than 0, late.
    tied_late: usize,
    fixed: FixedPokes,
    variables: Called,
}

/// How many wires and registers are called by each fact, how many but the constants are always a number other
/// than 0, how many are marked by their enable alone, and how many marked ones differ in the two runs.
#[derive(Debug, Default)]
struct Called {
    always: usize,
    always_not_0: usize,
    open: usize,
    marked: usize,
    marked_differ: usize,
    marked_by_enable: usize,
    marked_by_enable_differ: usize,
}

impl Seen {
    /// Counts what the table, its certificate and its two runs have.
    fn count(&mut self, runs: &TwoRuns) {
        let is = |i: usize, fact: Fact| runs.facts[i] == fact;
        let always = |i: usize| matches!(runs.facts[i], Fact::Always(_));
        let registers = runs.count(|i| runs.records[i].is_register());
        let enables = runs.count(|i| matches!(runs.records[i], Record::Enabled { .. }));
        let multiplexers = runs.count(|i| matches!(runs.records[i], Record::Multiplexer { .. }));
        let feedback = has_feedback(&runs.records);
        let all_of_these = feedback && multiplexers > 0 && runs.lists_differ;
        let open = runs.count(|i| is(i, Fact::Open));
        let marked_differ = runs.count(|i| is(i, Fact::Marked) && runs.differs(i));
        let under_marked_control = runs.count(|i| always(i) && runs.has_marked_control(i));
        let under_marked_enable = runs.count(|i| always(i) && runs.has_marked_enable(i));
        self.registers += usize::from(registers > 0);
        self.enables += usize::from(enables > 0);
        self.feedback += usize::from(feedback);
        self.multiplexers += usize::from(multiplexers > 0);
        self.other_lists += usize::from(runs.lists_differ);
        self.all_of_these += usize::from(all_of_these);
        self.marked_differ += usize::from(marked_differ > 0);
        self.open += usize::from(runs.lists_differ && open > 0);
        self.always_under_marked_control += usize::from(under_marked_control > 0);
        self.always_under_marked_enable += usize::from(under_marked_enable > 0);
        let tied_late = (0..runs.records.len()).any(|i| runs.is_tied_late(i));
        self.tied_late += usize::from(runs.lists_differ && tied_late);
        self.fixed.count(&runs.records, &runs.list);
        self.variables.always += runs.count(always);
        self.variables.always_not_0 += runs.count(|i| runs.is_worked_out_not_0(i));
        self.variables.open += open;
        self.variables.marked += runs.count(|i| is(i, Fact::Marked));
        self.variables.marked_differ += marked_differ;
        self.variables.marked_by_enable += runs.count(|i| runs.is_marked_by_its_enable(i));
        self.variables.marked_by_enable_differ +=
            runs.count(|i| runs.is_marked_by_its_enable(i) && runs.differs(i));
    }

    /// Asserts that each of these occurred in its share of the tables or variables, in percent.
    fn assert_fair(&self, tables: usize) {
        println!("of {tables}: {self:?}");
        let Called { always, open, marked, marked_by_enable, .. } = self.variables;
        let variables = always + open + marked;
        let shares = [
            (self.registers, tables, 50),
            (self.enables, tables, 50),
            (self.feedback, tables, 40),
            (self.multiplexers, tables, 50),
            (self.other_lists, tables, 30),
            (self.all_of_these, tables, 15),
            (self.marked_differ, tables, 20),
            (self.open, tables, 20),
            (self.always_under_marked_control, tables, 2),
            (self.always_under_marked_enable, tables, 2),
            (self.tied_late, tables, 10),
            (always, variables, 10),
            (self.variables.always_not_0, variables, 4),
            (open, variables, 10),
            (marked, variables, 10),
            (self.variables.marked_differ, variables, 3),
            (self.variables.marked_by_enable_differ, marked_by_enable, 1),
        ];
        for (i, (seen, all, percent)) in shares.into_iter().enumerate() {
            assert!(tables < 500 || seen * 100 >= all * percent, "share {i}: {self:?}");
        }
        if tables >= 500 {
            self.fixed.assert_each(20);
        }
    }
}
