//! A simulator of the Verilog that `verilog` writes, by the rules of IEEE 1364 for unsigned values: an
//! expression is worked out at the greatest width of its target and its context-determined operands, and
//! the assignment cuts it. It reads the text alone and knows nothing of tables.

use std::collections::HashMap;

/// A variable of the module, with its width and value.
struct Variable {
    width: u32,
    value: u64,
}

/// What drives a variable: the words of an expression.
struct Driver {
    target: String,
    words: Vec<String>,
}

/// What drives a register at a rising edge of the clock: behind an `if`, only where the variable that is named
/// there is not 0.
struct Register {
    enable: Option<String>,
    driver: Driver,
}

/// A module, in the state after what has been done with it.
pub struct Module {
    ports: Vec<String>,
    variables: HashMap<String, Variable>,
    wires: Vec<Driver>,
    registers: Vec<Register>,
}

impl Module {
    /// The module that a text writes, with its inputs at 0 and its registers at their initial values.
    pub fn read(text: &str) -> Module {
        let (variables, wires, registers) = (HashMap::new(), Vec::new(), Vec::new());
        let mut module = Module { ports: Vec::new(), variables, wires, registers };
        for line in text.lines() {
            let code = line.split("//").next().unwrap();
            let code = code.trim().trim_end_matches([',', ';']);
            let words: Vec<String> = code.split_whitespace().map(plain).collect();
            module.read_line(words);
        }
        module.settle();
        module
    }

    fn read_line(&mut self, words: Vec<String>) {
        let text: Vec<&str> = words.iter().map(String::as_str).collect();
        let driver = |target: usize, from: usize| Driver {
            target: words[target].clone(),
            words: words[from..].to_vec(),
        };
        match text[..] {
            ["input" | "output", _, range, name] => {
                self.declare(name, 1 + number(&range[1..range.len() - 3]))
            }
            ["input" | "output", _, name] => self.declare(name, 1),
            ["assign", _, "=", ..] => self.wires.push(driver(1, 3)),
            ["always", "@(posedge", _, _, "<=", _] => {
                self.registers.push(Register { enable: None, driver: driver(3, 5) })
            }
            ["always", "@(posedge", _, "if", enable, "!=", "0)", _, "<=", _] => {
                let enable = Some(plain(enable.strip_prefix('(').unwrap()));
                self.registers.push(Register { enable, driver: driver(7, 9) })
            }
            ["initial", name, "=", n] => self.variables.get_mut(name).unwrap().value = literal(n).1,
            ["module", .., "("] | [")"] | ["endmodule"] => (),
            _ => panic!("the simulator does not know {text:?}"),
        }
    }

    fn declare(&mut self, name: &str, width: u32) {
        let before = self.variables.insert(name.to_string(), Variable { width, value: 0 });
        assert!(before.is_none(), "{name} is declared twice");
        self.ports.push(name.to_string());
    }

    /// The values of the ports, in their order.
    pub fn values(&self) -> Vec<u32> {
        self.ports.iter().map(|port| self.variables[port].value as u32).collect()
    }

    /// Sets an input by its place among the ports, and the wires follow.
    pub fn poke(&mut self, port: usize, value: u32) {
        let name = self.ports[port].clone();
        self.variables.get_mut(&name).unwrap().value = u64::from(value);
        self.settle();
    }

    /// A rising edge of the clock: all registers that are driven take their values from before it, and the
    /// wires follow.
    pub fn tick(&mut self) {
        let next: Vec<Option<u64>> = self.registers.iter().map(|register| self.next(register)).collect();
        for (register, next) in self.registers.iter().zip(next) {
            let target = self.variables.get_mut(&register.driver.target).unwrap();
            target.value = next.unwrap_or(target.value);
        }
        self.settle();
    }

    /// The value that drives a register at a rising edge, if one does.
    fn next(&self, Register { enable, driver }: &Register) -> Option<u64> {
        let driven = enable.as_ref().is_none_or(|enable| self.operand(enable).1 != 0);
        driven.then(|| self.driven(driver))
    }

    /// Assigns every wire until none changes.
    fn settle(&mut self) {
        let mut changed = true;
        while changed {
            changed = false;
            for driver in &self.wires {
                let value = self.driven(driver);
                let target = self.variables.get_mut(&driver.target).unwrap();
                changed |= target.value != value;
                target.value = value;
            }
        }
    }

    /// The value that a driver gives its target, cut to its width.
    fn driven(&self, driver: &Driver) -> u64 {
        let target = self.variables[&driver.target].width;
        let words: Vec<&str> = driver.words.iter().map(String::as_str).collect();
        let value = match words[..] {
            [operand] => self.operand(operand).1,
            [condition, "!=", "0", "?", b, ":", c] => {
                self.operand(if self.operand(condition).1 != 0 { b } else { c }).1
            }
            [a, operator, b] => binary(target, self.operand(a), operator, self.operand(b)),
            _ => panic!("the simulator does not know {words:?}"),
        };
        cut(value, target)
    }

    /// The width and value of a name or a literal.
    fn operand(&self, word: &str) -> (u32, u64) {
        match self.variables.get(word) {
            Some(variable) => (variable.width, variable.value),
            None => literal(word),
        }
    }
}

/// A binary expression, of operands by width and value, for a target of this width.
fn binary(target: u32, (a_width, a): (u32, u64), operator: &str, (b_width, b): (u32, u64)) -> u64 {
    let both = target.max(a_width).max(b_width);
    // The right operand of a shift does not widen it.
    let shifted = target.max(a_width);
    match operator {
        "+" => cut(a.wrapping_add(b), both),
        "-" => cut(a.wrapping_sub(b), both),
        "&" => a & b,
        "|" => a | b,
        "^" => a ^ b,
        "==" => u64::from(a == b),
        "<" => u64::from(a < b),
        "<<" if b < u64::from(shifted) => cut(a << b, shifted),
        ">>" if b < u64::from(shifted) => a >> b,
        "<<" | ">>" => 0,
        _ => panic!("the simulator does not know {operator}"),
    }
}

/// The width and value of a literal, as in `8'd5`.
fn literal(word: &str) -> (u32, u64) {
    let (width, value) = word.split_once("'d").unwrap_or_else(|| panic!("{word} is not declared"));
    (number(width), value.parse().unwrap())
}

/// A name without the backslash that escapes it.
fn plain(word: &str) -> String {
    word.trim_start_matches('\\').to_string()
}

fn number(digits: &str) -> u32 {
    digits.parse().unwrap()
}

/// The lowest bits of a value.
fn cut(value: u64, width: u32) -> u64 {
    value & ((1 << width) - 1)
}
