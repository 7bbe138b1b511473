//! Document 01, "Facts": the three facts and their order, join and narrow, the rule of each kind of
//! record, and closed stores. A store gives each variable a fact, the fact of variable i at place i.

use crate::{remainder, InputKind, Operator, Record};

/// A fact of a variable: always n, open, or marked.
#[derive(Debug, Clone, Copy, PartialEq, Eq)]
pub enum Fact {
    Always(u32),
    Open,
    Marked,
}

impl Fact {
    /// The order: always n lies below open, open below marked, and two different numbers are not ordered.
    #[inline(always)]
    pub fn at_or_below(self, other: Fact) -> bool {
        match (self, other) {
            (Fact::Always(n), Fact::Always(other)) => n == other,
            (_, Fact::Always(_)) => false,
            (fact, Fact::Open) => fact != Fact::Marked,
            (_, Fact::Marked) => true,
        }
    }

    /// The lowest fact at or above both. Only two different numbers are not ordered, and above them the
    /// lowest is open.
    #[inline(always)]
    pub fn join(self, other: Fact) -> Fact {
        if self.at_or_below(other) {
            other
        } else if other.at_or_below(self) {
            self
        } else {
            Fact::Open
        }
    }

    /// The fact narrowed to width w: always n becomes always (n mod 2^w), the others stay.
    #[inline(always)]
    pub fn narrow(self, w: u32) -> Fact {
        match self {
            Fact::Always(n) => Fact::Always(remainder(n, w)),
            Fact::Open | Fact::Marked => self,
        }
    }
}

/// The rule: what the record of variable i gives from a store.
pub fn rule(records: &[Record], store: &[Fact], i: usize) -> Fact {
    records[i].fact(|variable| store[variable])
}

impl Record {
    /// The fact that the record's rule gives from the store of which `store` gives each variable's fact.
    #[inline(always)]
    pub fn fact(self, store: impl Fn(usize) -> Fact) -> Fact {
        match self {
            Record::Input { kind, .. } => kind.fact(),
            Record::Constant { n, .. } => Fact::Always(n),
            Record::Operator { width, operator, a, b } => {
                operator_fact(operator, width, store(a), store(b))
            }
            Record::Multiplexer { width, a, b, c } => {
                multiplexer(store(a), store(b).narrow(width), store(c).narrow(width))
            }
            Record::Register { width, a, power_on } => register(width, power_on, store(a)),
            Record::Enabled { width, a, b, power_on } => {
                enabled(store(b), power_on, register(width, power_on, store(a)))
            }
        }
    }
}

impl InputKind {
    /// The fact of an input. A fixed one holds 0 until its n is poked into it (request S-3).
    #[inline(always)]
    pub(crate) fn fact(self) -> Fact {
        match self {
            InputKind::Fixed(0) => Fact::Always(0),
            InputKind::Fixed(_) | InputKind::Free => Fact::Open,
            InputKind::Secret => Fact::Marked,
        }
    }
}

/// The operator's rule on A's and B's facts. Request S-7 comes before document 01's rule: the and of always 0
/// with any fact is always 0, and so are both shifts of always 0, and less where the right operand is always 0.
#[inline(always)]
fn operator_fact(operator: Operator, w: u32, a: Fact, b: Fact) -> Fact {
    match (operator, a, b) {
        (Operator::And, Fact::Always(0), _) | (Operator::And, _, Fact::Always(0)) => Fact::Always(0),
        (Operator::ShiftLeft | Operator::ShiftRight, Fact::Always(0), _) => Fact::Always(0),
        (Operator::Less, _, Fact::Always(0)) => Fact::Always(0),
        (_, Fact::Always(a), Fact::Always(b)) => Fact::Always(operator.result(a, b, w)),
        (_, Fact::Marked, _) | (_, _, Fact::Marked) => Fact::Marked,
        _ => Fact::Open,
    }
}

/// The multiplexer's rule on the control's fact and the facts of the arms B and C, already narrowed.
#[inline(always)]
fn multiplexer(control: Fact, b: Fact, c: Fact) -> Fact {
    match (control, b.join(c)) {
        (Fact::Always(0), _) => c,
        (Fact::Always(_), _) => b,
        (Fact::Open, join) => join,
        (Fact::Marked, Fact::Always(n)) => Fact::Always(n),
        (Fact::Marked, _) => Fact::Marked,
    }
}

/// The plain register's rule on A's fact.
#[inline(always)]
fn register(w: u32, power_on: u32, a: Fact) -> Fact {
    a.narrow(w).join(Fact::Always(power_on))
}

/// Request S-2's rule of a register with an enable, on the enable's fact and the fact of the plain register's
/// rule: enable always 0, always the power-on value; enable always another number or open, the plain
/// register's rule; enable marked, that rule's fact if it is always, else marked.
#[inline(always)]
fn enabled(enable: Fact, power_on: u32, register: Fact) -> Fact {
    match (enable, register) {
        (Fact::Always(0), _) => Fact::Always(power_on),
        (Fact::Always(_) | Fact::Open, fact) => fact,
        (Fact::Marked, Fact::Always(n)) => Fact::Always(n),
        (Fact::Marked, _) => Fact::Marked,
    }
}

/// Whether a store is closed: at every variable its fact is at or above what the rule gives from it.
pub fn closed(records: &[Record], store: &[Fact]) -> bool {
    (0..records.len()).all(|i| rule(records, store, i).at_or_below(store[i]))
}
