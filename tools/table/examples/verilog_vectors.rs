//! What `check-verilog` runs. In the folder that is the argument, each table gets a folder named by its
//! number: `table.v` has its module, `testbench.v` prints every variable's value at power-on and after each
//! stimulus, and `expected` has what it must print, by the model's bench.
//!
//! The tables are one of every rule for each width, the empty one, and random ones.

#[path = "../../../model/tests/common/mod.rs"]
mod common;
#[path = "../tests/runs/mod.rs"]
mod runs;

use common::samples::every_rule;
use common::{cases, Random};
use model::{Record, Stimulus};
use runs::Run;
use std::path::Path;
use std::{env, fs};
use table::verilog;

/// The module's name: a reserved word, and that of its file.
const MODULE: &str = "table";

/// What the testbench must print: lines of the number of stimuli done, the variable and its value.
fn expected(Run { table, list }: &Run) -> String {
    let lines = |done: usize| {
        let values = model::run(&table.records, &list[..done]).into_iter().enumerate();
        values.map(move |(i, value)| format!("{done} {} {value}\n", table.call(i)))
    };
    (0..=list.len()).flat_map(lines).collect()
}

/// The module with its ports connected by their places, and the stimuli. Every input is 0 until it is poked.
fn testbench(Run { table, list }: &Run) -> String {
    let records = || table.records.iter().enumerate();
    let declared: String = records().map(|(i, record)| declaration(i, record)).collect();
    // The clock stands before the variables, and only where there are registers.
    let clock = table.records.iter().any(Record::is_register).then(|| "clock".to_string());
    let ports: Vec<String> = clock.into_iter().chain(records().map(|(i, _)| format!("v{i}"))).collect();
    let ports = ports.join(", ");
    let shown: String = records()
        .map(|(i, _)| format!("        $display(\"%0d {} %0d\", done, v{i});\n", table.call(i)))
        .collect();
    let stimuli: String =
        list.iter().map(|stimulus| format!("        {} show;\n", step(stimulus))).collect();
    format!(
        "module testbench;
    reg clock = 0;
    integer done = 0;
{declared}    \\{MODULE} circuit ({ports});
    task show; begin
        #1;
{shown}        done = done + 1;
    end endtask
    initial begin
        show;
{stimuli}    end
endmodule
"
    )
}

/// What the testbench connects to a variable's port.
fn declaration(i: usize, record: &Record) -> String {
    let width = record.width();
    match record {
        Record::Input { .. } => format!("    reg [{}:0] v{i} = {width}'d0;\n", width - 1),
        _ => format!("    wire [{}:0] v{i};\n", width - 1),
    }
}

/// What a stimulus does. The clock stays high after a tick, so that nothing but its rising edge is one.
fn step(stimulus: &Stimulus) -> String {
    match stimulus {
        Stimulus::Poke { variable, n } => format!("v{variable} = 32'd{n};"),
        Stimulus::Tick => "clock = 0; #1 clock = 1;".to_string(),
    }
}

fn main() {
    let folder = env::args_os().nth(1).expect("the argument is a folder");
    let mut random = Random::of_test("the Verilog of tables", 47);
    let mut runs: Vec<Run> = (1..=32).map(|w| Run::of(&mut random, &every_rule(w))).collect();
    runs.push(Run::of(&mut random, &[]));
    runs.extend((0..cases(300)).map(|_| Run::random(&mut random)));
    for (i, run) in runs.iter().enumerate() {
        let folder = Path::new(&folder).join(i.to_string());
        fs::create_dir(&folder).unwrap();
        let module = verilog(&run.table, MODULE).unwrap();
        for (file, text) in
            [("table.v", module), ("testbench.v", testbench(run)), ("expected", expected(run))]
        {
            fs::write(folder.join(file), text).unwrap();
        }
    }
}
