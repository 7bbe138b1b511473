//! Document 01, "The table": a record is one of five kinds, an operator record carries one of nine
//! operators, and an input is fixed, free or secret. Request S-2 has the sixth kind, the register with an
//! enable.

/// One of the nine operators on the values a and b of A and B.
#[derive(Debug, Clone, Copy, PartialEq, Eq)]
pub enum Operator {
    /// Code 0: a + b.
    Add,
    /// Code 1: a - b.
    Subtract,
    /// Code 2: bitwise and.
    And,
    /// Code 3: bitwise or.
    Or,
    /// Code 4: bitwise xor.
    Xor,
    /// Code 5: 1 where a equals b, else 0.
    Equal,
    /// Code 6: 1 where a is less than b, else 0.
    Less,
    /// Code 7: a times 2^b, and 0 where b is 32 or more.
    ShiftLeft,
    /// Code 8: a divided by 2^b, rounded down, and 0 where b is 32 or more.
    ShiftRight,
}

impl Operator {
    /// Each operator at the place of its code.
    pub const BY_CODE: [Operator; 9] = {
        let mut operators = [Operator::Add; 9];
        let mut code = 0;
        while code < operators.len() {
            operators[code] = Operator::with_code(code as u8);
            code += 1;
        }
        operators
    };

    /// The operator with this code, which is one of 0 to 8.
    #[inline(always)]
    pub(crate) const fn with_code(code: u8) -> Operator {
        match code {
            0 => Operator::Add,
            1 => Operator::Subtract,
            2 => Operator::And,
            3 => Operator::Or,
            4 => Operator::Xor,
            5 => Operator::Equal,
            6 => Operator::Less,
            7 => Operator::ShiftLeft,
            _ => Operator::ShiftRight,
        }
    }

    /// The operator's code: its place in `BY_CODE`.
    pub fn code(self) -> u8 {
        let is_this = |other: &Operator| *other == self;
        Operator::BY_CODE.iter().position(is_this).expect("BY_CODE has every operator") as u8
    }

    /// The result, worked out on whole numbers, and then its remainder by 2^w.
    #[inline(always)]
    pub fn result(self, a: u32, b: u32, w: u32) -> u32 {
        let (a, b) = (i64::from(a), i64::from(b));
        let whole = match self {
            Operator::Add => a + b,
            Operator::Subtract => a - b,
            Operator::And => a & b,
            Operator::Or => a | b,
            Operator::Xor => a ^ b,
            Operator::Equal => i64::from(a == b),
            Operator::Less => i64::from(a < b),
            Operator::ShiftLeft | Operator::ShiftRight if b >= 32 => 0,
            Operator::ShiftLeft => a * (1 << b),
            Operator::ShiftRight => a / (1 << b),
        };
        // 2^32 is a multiple of 2^w, so that the remainder by it has the same remainder by 2^w.
        remainder(whole as u32, w)
    }
}

/// What byte 2 says of an input: fixed, with its value n, or free or secret.
#[derive(Debug, Clone, Copy, PartialEq, Eq)]
pub enum InputKind {
    Fixed(u32),
    Free,
    Secret,
}

impl InputKind {
    /// How many there are.
    const COUNT: u8 = 3;

    /// The one with this code, which is one of 0 to 2, and the value n.
    #[inline(always)]
    pub(crate) fn with_code(code: u8, n: u32) -> InputKind {
        match code {
            0 => InputKind::Fixed(n),
            1 => InputKind::Free,
            _ => InputKind::Secret,
        }
    }
}

/// One of the six kinds of records.
#[derive(Debug, Clone, Copy, PartialEq, Eq)]
pub enum Kind {
    Input,
    Constant,
    Operator,
    Multiplexer,
    Register,
    /// A register with an enable.
    Enabled,
}

impl Kind {
    /// How many there are.
    pub(crate) const COUNT: u8 = 6;

    /// The kind with this number, which is one of 0 to 5.
    #[inline(always)]
    pub fn with_number(number: u8) -> Kind {
        match number {
            0 => Kind::Input,
            1 => Kind::Constant,
            2 => Kind::Operator,
            3 => Kind::Multiplexer,
            4 => Kind::Register,
            _ => Kind::Enabled,
        }
    }

    /// How many values byte 2 can have.
    #[inline(always)]
    pub(crate) fn choices(self) -> u8 {
        match self {
            Kind::Input => InputKind::COUNT,
            Kind::Operator => Operator::BY_CODE.len() as u8,
            Kind::Constant | Kind::Multiplexer | Kind::Register | Kind::Enabled => 1,
        }
    }

    /// How many of the variables A, B, C are used, from A on.
    #[inline(always)]
    pub fn uses(self) -> usize {
        match self {
            Kind::Input | Kind::Constant => 0,
            Kind::Register => 1,
            Kind::Operator | Kind::Enabled => 2,
            Kind::Multiplexer => 3,
        }
    }

    /// Whether its records are wires: constants, operators and multiplexers are.
    #[inline(always)]
    pub fn is_wire(self) -> bool {
        matches!(self, Kind::Constant | Kind::Operator | Kind::Multiplexer)
    }

    /// Whether its records are registers, with an enable or without.
    #[inline(always)]
    pub fn is_register(self) -> bool {
        matches!(self, Kind::Register | Kind::Enabled)
    }
}

/// A record read: one of six kinds, with its width, the variables A, B, C that it uses and its value n.
#[derive(Debug, Clone, Copy, PartialEq, Eq)]
pub enum Record {
    Input {
        width: u32,
        kind: InputKind,
    },
    Constant {
        width: u32,
        n: u32,
    },
    Operator {
        width: u32,
        operator: Operator,
        a: usize,
        b: usize,
    },
    /// Its control is A, its arms are B and C.
    Multiplexer {
        width: u32,
        a: usize,
        b: usize,
        c: usize,
    },
    Register {
        width: u32,
        a: usize,
        power_on: u32,
    },
    /// A register whose data is A and whose enable is B.
    Enabled {
        width: u32,
        a: usize,
        b: usize,
        power_on: u32,
    },
}

impl Record {
    /// The record's kind.
    #[inline(always)]
    pub fn kind(&self) -> Kind {
        match self {
            Record::Input { .. } => Kind::Input,
            Record::Constant { .. } => Kind::Constant,
            Record::Operator { .. } => Kind::Operator,
            Record::Multiplexer { .. } => Kind::Multiplexer,
            Record::Register { .. } => Kind::Register,
            Record::Enabled { .. } => Kind::Enabled,
        }
    }

    /// The width w of the record's variable.
    #[inline(always)]
    pub fn width(&self) -> u32 {
        match *self {
            Record::Input { width, .. }
            | Record::Constant { width, .. }
            | Record::Operator { width, .. }
            | Record::Multiplexer { width, .. }
            | Record::Register { width, .. }
            | Record::Enabled { width, .. } => width,
        }
    }

    /// The variables that the record uses, in the order A, B, C.
    pub fn uses(&self) -> impl Iterator<Item = usize> {
        let variables = match *self {
            Record::Input { .. } | Record::Constant { .. } => [None; 3],
            Record::Operator { a, b, .. } | Record::Enabled { a, b, .. } => [Some(a), Some(b), None],
            Record::Multiplexer { a, b, c, .. } => [Some(a), Some(b), Some(c)],
            Record::Register { a, .. } => [Some(a), None, None],
        };
        variables.into_iter().flatten()
    }

    /// The record with each variable that it uses renumbered.
    pub fn renumbered(self, number: impl Fn(usize) -> usize) -> Record {
        match self {
            Record::Input { .. } | Record::Constant { .. } => self,
            Record::Operator { width, operator, a, b } => {
                Record::Operator { width, operator, a: number(a), b: number(b) }
            }
            Record::Multiplexer { width, a, b, c } => {
                Record::Multiplexer { width, a: number(a), b: number(b), c: number(c) }
            }
            Record::Register { width, a, power_on } => Record::Register { width, a: number(a), power_on },
            Record::Enabled { width, a, b, power_on } => {
                Record::Enabled { width, a: number(a), b: number(b), power_on }
            }
        }
    }

    /// Whether the record is an input.
    pub fn is_input(&self) -> bool {
        self.kind() == Kind::Input
    }

    /// Whether the record is a wire.
    pub fn is_wire(&self) -> bool {
        self.kind().is_wire()
    }

    /// Whether the record is a register, with an enable or without.
    pub fn is_register(&self) -> bool {
        self.kind().is_register()
    }
}

/// The remainder of n by 2^w.
#[inline(always)]
pub fn remainder(n: u32, w: u32) -> u32 {
    (u64::from(n) % (1u64 << w)) as u32
}

/// Whether n fits the width w: it is one of 0 to 2^w - 1.
#[inline(always)]
pub fn fits(n: u32, w: u32) -> bool {
    u64::from(n) < 1u64 << w
}
