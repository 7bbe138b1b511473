//! A table as a Verilog module: every variable is a port, inputs in, wires and registers out. Who uses the
//! module drives the inputs, each with 0 until it is set; a fixed one is set to its own number alone.
//!
//! Verilog works out an expression at the greatest width of its operands and its target, unsigned values
//! extended by zeros, and cuts the result to the target: that is the remainder by 2^w. No width is above 32,
//! so a shift by 32 or more gives 0 by itself.

use crate::reserved::is_reserved;
use crate::{Place, Problem, Table};
use model::{find_loop, InputKind, Operator, Record};
use std::collections::HashSet;

/// The module of this name for a table without a loop.
pub fn verilog(table: &Table, module: &str) -> Result<String, Problem> {
    if let Some(row) = find_loop(&table.records) {
        let calls: Vec<String> = row.iter().chain(&row[..1]).map(|&wire| table.call(wire)).collect();
        return Err(Place::Line(table.lines[row[0]]).problem(format!("a loop: {}", calls.join(" uses "))));
    }
    let names = Names::of(table);
    let ports = ports(&table.records, &names);
    let body: String = table.records.iter().enumerate().map(|(i, record)| names.item(i, record)).collect();
    Ok(format!("module {} (\n{ports});\n{body}endmodule\n", escaped(module)))
}

/// The clock, if a register needs one, and then the variables, a line each.
fn ports(records: &[Record], names: &Names) -> String {
    let clock = records.iter().any(Record::is_register).then(|| format!("input wire {}", names.clock));
    let clock = clock.map(|port| (port, String::new()));
    let ports = records.iter().enumerate().map(|(i, record)| names.port(i, record));
    let ports: Vec<(String, String)> = clock.into_iter().chain(ports).collect();
    let line = |(i, (port, note)): (usize, &(String, String))| {
        let comma = if i + 1 < ports.len() { "," } else { "" };
        format!("    {port}{comma}{note}\n")
    };
    ports.iter().enumerate().map(line).collect()
}

/// What the module calls each variable and the clock.
struct Names {
    variables: Vec<String>,
    clock: String,
}

impl Names {
    /// Each variable's own name, `v` and its number where it has none, and `clock`, no two alike.
    fn of(table: &Table) -> Names {
        let mut taken: HashSet<String> = table.names.iter().flatten().cloned().collect();
        let mut fresh = |mut name: String| {
            while !taken.insert(name.clone()) {
                name.push('_');
            }
            name
        };
        let clock = fresh("clock".to_string());
        let names = table.names.iter().enumerate();
        let variables = names.map(|(i, name)| match name {
            Some(name) => escaped(name),
            None => fresh(format!("v{i}")),
        });
        Names { variables: variables.collect(), clock }
    }

    /// The port of a variable, and a note on what an input's values can be.
    fn port(&self, i: usize, record: &Record) -> (String, String) {
        let (direction, note) = match *record {
            Record::Input { kind, .. } => ("input wire", format!(" // {}", note(kind))),
            Record::Register { .. } | Record::Enabled { .. } => ("output reg", String::new()),
            _ => ("output wire", String::new()),
        };
        let range = match record.width() {
            1 => String::new(),
            w => format!("[{}:0] ", w - 1),
        };
        (format!("{direction} {range}{}", self.variables[i]), note)
    }

    /// What drives a variable; nothing in the module drives an input.
    fn item(&self, i: usize, record: &Record) -> String {
        let name = |variable: usize| &self.variables[variable];
        let target = name(i);
        match *record {
            Record::Input { .. } => String::new(),
            Record::Constant { width, n } => format!("    assign {target} = {width}'d{n};\n"),
            Record::Operator { operator, a, b, .. } => {
                format!("    assign {target} = {} {} {};\n", name(a), sign(operator), name(b))
            }
            Record::Multiplexer { a, b, c, .. } => {
                format!("    assign {target} = {} != 0 ? {} : {};\n", name(a), name(b), name(c))
            }
            Record::Register { width, a, power_on } => {
                let step = format!("{target} <= {}", name(a));
                self.register(target, width, power_on, &step)
            }
            Record::Enabled { width, a, b, power_on } => {
                let step = format!("if ({} != 0) {target} <= {}", name(b), name(a));
                self.register(target, width, power_on, &step)
            }
        }
    }

    /// What drives a register: its power-on value, and the step that is made at the clock's rising edge.
    fn register(&self, target: &str, width: u32, power_on: u32, step: &str) -> String {
        let initial = format!("    initial {target} = {width}'d{power_on};\n");
        initial + &format!("    always @(posedge {}) {step};\n", self.clock)
    }
}

/// What an input's values can be.
fn note(kind: InputKind) -> String {
    match kind {
        InputKind::Fixed(0) => "fixed: always 0".to_string(),
        InputKind::Fixed(n) => format!("fixed: 0 until set to {n}"),
        InputKind::Free => "free".to_string(),
        InputKind::Secret => "secret".to_string(),
    }
}

/// An operator's sign.
fn sign(operator: Operator) -> &'static str {
    match operator {
        Operator::Add => "+",
        Operator::Subtract => "-",
        Operator::And => "&",
        Operator::Or => "|",
        Operator::Xor => "^",
        Operator::Equal => "==",
        Operator::Less => "<",
        Operator::ShiftLeft => "<<",
        Operator::ShiftRight => ">>",
    }
}

/// A name as Verilog has to see it: a reserved word is one only without the backslash. The blank ends it.
fn escaped(name: &str) -> String {
    if is_reserved(name) {
        return format!("\\{name} ");
    }
    name.to_string()
}
