//! Bench runs worked by hand: document 000's figure 1, cases A to C, two registers that feed each other,
//! registers with an enable, and fixed inputs that are poked early, late, twice and not at all.

use super::document_cases::case_a;
use super::{
    constant, enabled, fixed, free, multiplexer, operator, poke_bytes, register, secret, RecordBytes,
    StimulusBytes, TICK,
};
use model::Operator::{Add, Equal, Less, Subtract};

/// A run: its table and stimuli, and the values in the end.
pub struct Run {
    pub name: &'static str,
    pub table: Vec<u8>,
    pub stimuli: Vec<u8>,
    pub values: Vec<u32>,
}

/// Every run, at power-on and after each of its stimuli.
pub fn hand_runs() -> Vec<Run> {
    let of_registers = [accumulator(), case_a_counting(), exchange()];
    let with_an_enable = [hold_and_load(), enable_before_the_tick(), own_enable(), enable_each_other()];
    let of_fixed_inputs = [case_b_standing(), case_c_counting(), not_poked(), early(), late(), twice()];
    of_registers.into_iter().chain(with_an_enable).chain(of_fixed_inputs).flatten().collect()
}

/// The runs that these steps make, each a stimulus and the values after it: with none, the first, and so on.
fn runs<const N: usize>(
    name: &'static str,
    table: [RecordBytes; N],
    power_on: [u32; N],
    steps: &[(StimulusBytes, [u32; N])],
) -> Vec<Run> {
    let run = |done: usize| {
        let stimuli: Vec<StimulusBytes> = steps[..done].iter().map(|step| step.0).collect();
        let values = steps[..done].last().map_or(power_on, |step| step.1);
        Run {
            name,
            table: table.as_flattened().to_vec(),
            stimuli: stimuli.as_flattened().to_vec(),
            values: values.to_vec(),
        }
    };
    (0..=steps.len()).map(run).collect()
}

/// Document 000, figure 1: the rows of its table in which no wire is left to follow.
fn accumulator() -> Vec<Run> {
    let table = [
        free(8),                 // 0 in
        free(8),                 // 1 en
        free(8),                 // 2 rst
        register(8, 0, 5),       // 3 out
        register(8, 0, 3),       // 4 prev
        multiplexer(8, 2, 6, 7), // 5 t1
        constant(8, 0),          // 6 t2
        multiplexer(8, 1, 8, 3), // 7 t3
        operator(Add, 8, 3, 0),  // 8 t4
    ];
    let steps = [
        (poke_bytes(1, 1), [0, 1, 0, 0, 0, 0, 0, 0, 0]),
        (poke_bytes(0, 2), [2, 1, 0, 0, 0, 2, 0, 2, 2]),
        (TICK, [2, 1, 0, 2, 0, 4, 0, 4, 4]),
        (TICK, [2, 1, 0, 4, 2, 6, 0, 6, 6]),
    ];
    runs("figure 1 of document 000", table, [0; 9], &steps)
}

/// Case A: the register grows by 5 at a tick while the free input is 1, and the secret is held against 5.
fn case_a_counting() -> Vec<Run> {
    let steps = [
        (TICK, [0, 0, 5, 0, 0, 5, 0]),
        (poke_bytes(1, 1), [0, 1, 5, 0, 5, 5, 0]),
        (TICK, [0, 1, 5, 5, 10, 10, 0]),
        (poke_bytes(0, 5), [5, 1, 5, 5, 10, 10, 1]),
        (TICK, [5, 1, 5, 10, 15, 15, 1]),
        (poke_bytes(1, 0), [5, 0, 5, 10, 10, 15, 1]),
        (TICK, [5, 0, 5, 10, 10, 15, 1]),
        (poke_bytes(0, 255), [255, 0, 5, 10, 10, 15, 0]),
    ];
    runs("case A", case_a(free(1)), [0, 0, 5, 0, 0, 5, 0], &steps)
}

/// Two registers that feed each other, of widths 8 and 4, so that the second narrows what it takes; whether
/// the first is less than the second; the first less a fixed input, at width 4.
fn exchange() -> Vec<Run> {
    let table = [
        fixed(4, 9),
        register(8, 19, 2),
        register(4, 5, 1),
        operator(Less, 1, 1, 2),
        operator(Subtract, 4, 1, 0),
    ];
    let steps = [
        (TICK, [0, 5, 3, 0, 5]),
        (poke_bytes(0, 9), [9, 5, 3, 0, 12]),
        (TICK, [9, 3, 5, 1, 10]),
        (TICK, [9, 5, 3, 0, 12]),
    ];
    runs("exchange", table, [0, 19, 5, 0, 3], &steps)
}

/// A register of width 4 with an enable of width 8, which holds over several ticks, takes its data narrowed,
/// and takes it too where the enable is 16, whose remainder by 2^4 is 0; a sum with what it holds; and a
/// register fed by itself, which holds either way.
fn hold_and_load() -> Vec<Run> {
    let table = [free(8), free(8), enabled(4, 9, 0, 1), operator(Add, 8, 2, 1), enabled(4, 6, 4, 1)];
    let steps = [
        (TICK, [0, 0, 9, 9, 6]),
        (poke_bytes(0, 53), [53, 0, 9, 9, 6]),
        (TICK, [53, 0, 9, 9, 6]),
        (TICK, [53, 0, 9, 9, 6]),
        (poke_bytes(1, 16), [53, 16, 9, 25, 6]),
        (TICK, [53, 16, 5, 21, 6]),
        (poke_bytes(1, 0), [53, 0, 5, 5, 6]),
        (poke_bytes(0, 2), [2, 0, 5, 5, 6]),
        (TICK, [2, 0, 5, 5, 6]),
        (poke_bytes(1, 1), [2, 1, 5, 6, 6]),
        (TICK, [2, 1, 2, 3, 6]),
        (poke_bytes(0, 16), [16, 1, 2, 3, 6]),
        (TICK, [16, 1, 0, 1, 6]),
    ];
    runs("hold and load", table, [0, 0, 9, 9, 6], &steps)
}

/// A register that is 0 and 1 in turn is the enable of two others: they take their data where it was 1 before
/// the tick, which makes it 0, and the second takes what the first held before.
fn enable_before_the_tick() -> Vec<Run> {
    let table = [
        free(8),
        register(1, 0, 2),
        operator(Equal, 1, 1, 3),
        constant(1, 0),
        enabled(8, 200, 0, 1),
        enabled(8, 100, 4, 1),
    ];
    let steps = [
        (poke_bytes(0, 7), [7, 0, 1, 0, 200, 100]),
        (TICK, [7, 1, 0, 0, 200, 100]),
        (TICK, [7, 0, 1, 0, 7, 200]),
        (TICK, [7, 1, 0, 0, 7, 200]),
        (TICK, [7, 0, 1, 0, 7, 7]),
    ];
    runs("enable before the tick", table, [0, 0, 1, 0, 200, 100], &steps)
}

/// Registers that are their own enable: one takes its data until that is 0 at its width, the other never.
fn own_enable() -> Vec<Run> {
    let table = [free(8), enabled(4, 5, 0, 1), enabled(4, 0, 0, 2)];
    let steps = [
        (poke_bytes(0, 35), [35, 5, 0]),
        (TICK, [35, 3, 0]),
        (poke_bytes(0, 16), [16, 3, 0]),
        (TICK, [16, 0, 0]),
        (poke_bytes(0, 9), [9, 0, 0]),
        (TICK, [9, 0, 0]),
    ];
    runs("own enable", table, [0, 5, 0], &steps)
}

/// Two registers that enable each other: one is not 0 at power-on, and both hold once both are 0.
fn enable_each_other() -> Vec<Run> {
    let table = [free(4), enabled(4, 1, 0, 2), enabled(4, 0, 0, 1)];
    let steps = [
        (TICK, [0, 1, 0]),
        (poke_bytes(0, 6), [6, 1, 0]),
        (TICK, [6, 1, 6]),
        (TICK, [6, 6, 6]),
        (poke_bytes(0, 0), [0, 6, 6]),
        (TICK, [0, 0, 0]),
        (poke_bytes(0, 9), [9, 0, 0]),
        (TICK, [9, 0, 0]),
    ];
    runs("enable each other", table, [0, 1, 0], &steps)
}

/// Case B: the register never counts, whether the fixed input is poked or not.
fn case_b_standing() -> Vec<Run> {
    let values = [0, 0, 5, 0, 0, 5, 0];
    let steps = [TICK, poke_bytes(1, 0), TICK].map(|stimulus| (stimulus, values));
    runs("case B", case_a(fixed(1, 0)), values, &steps)
}

/// Case C: the register counts from the poke of the fixed input on.
fn case_c_counting() -> Vec<Run> {
    let steps = [
        (TICK, [0, 0, 5, 0, 0, 5, 0]),
        (TICK, [0, 0, 5, 0, 0, 5, 0]),
        (poke_bytes(1, 1), [0, 1, 5, 0, 5, 5, 0]),
        (TICK, [0, 1, 5, 5, 10, 10, 0]),
        (poke_bytes(1, 1), [0, 1, 5, 5, 10, 10, 0]),
        (TICK, [0, 1, 5, 10, 15, 15, 0]),
    ];
    runs("case C", case_a(fixed(1, 1)), [0, 0, 5, 0, 0, 5, 0], &steps)
}

/// The inputs of `fixed_inputs`, of which two are fixed, to 200 and to 0.
const TIED: u16 = 0;
const TIED_TO_0: u16 = 1;
const FREE: u16 = 2;
const SECRET: u16 = 3;

/// Inputs of each sort. A sum and a choice that follow a poke. Registers that take the fixed inputs, registers
/// with these as enables, and one that has the n of the fixed input that it takes at power-on.
fn fixed_inputs() -> [RecordBytes; 11] {
    [
        fixed(8, 200),
        fixed(8, 0),
        free(8),
        secret(8),
        operator(Add, 8, TIED, 6),     // 4
        multiplexer(8, TIED, 6, FREE), // 5
        register(8, 9, TIED),          // 6
        register(8, 7, TIED_TO_0),     // 7
        enabled(8, 5, 6, TIED),        // 8
        enabled(8, 6, 6, TIED_TO_0),   // 9
        register(8, 200, TIED),        // 10
    ]
}

/// At power-on every input holds 0 and each register its power-on value.
const AT_POWER_ON: [u32; 11] = [0, 0, 0, 0, 9, 0, 9, 7, 5, 6, 200];

/// Fixed inputs that are not poked hold 0 over ticks and over pokes of other inputs, and registers take it.
fn not_poked() -> Vec<Run> {
    let steps = [
        (poke_bytes(FREE, 17), [0, 0, 17, 0, 9, 17, 9, 7, 5, 6, 200]),
        (TICK, [0, 0, 17, 0, 0, 17, 0, 0, 5, 6, 0]),
        (poke_bytes(SECRET, 34), [0, 0, 17, 34, 0, 17, 0, 0, 5, 6, 0]),
        (TICK, [0, 0, 17, 34, 0, 17, 0, 0, 5, 6, 0]),
    ];
    runs("fixed inputs, not poked", fixed_inputs(), AT_POWER_ON, &steps)
}

/// Fixed inputs that are poked before the first tick: no register takes a 0 from the first of them.
fn early() -> Vec<Run> {
    let steps = [
        (poke_bytes(TIED, 200), [200, 0, 0, 0, 209, 9, 9, 7, 5, 6, 200]),
        (poke_bytes(TIED_TO_0, 0), [200, 0, 0, 0, 209, 9, 9, 7, 5, 6, 200]),
        (TICK, [200, 0, 0, 0, 144, 200, 200, 0, 9, 6, 200]),
        (TICK, [200, 0, 0, 0, 144, 200, 200, 0, 200, 6, 200]),
    ];
    runs("fixed inputs, poked early", fixed_inputs(), AT_POWER_ON, &steps)
}

/// Fixed inputs that are poked after ticks: until then the registers that take them have taken 0, and those
/// with one as enable have held.
fn late() -> Vec<Run> {
    let steps = [
        (TICK, [0, 0, 0, 0, 0, 0, 0, 0, 5, 6, 0]),
        (TICK, [0, 0, 0, 0, 0, 0, 0, 0, 5, 6, 0]),
        (poke_bytes(TIED, 200), [200, 0, 0, 0, 200, 0, 0, 0, 5, 6, 0]),
        (TICK, [200, 0, 0, 0, 144, 200, 200, 0, 0, 6, 200]),
        (poke_bytes(TIED_TO_0, 0), [200, 0, 0, 0, 144, 200, 200, 0, 0, 6, 200]),
        (TICK, [200, 0, 0, 0, 144, 200, 200, 0, 200, 6, 200]),
    ];
    runs("fixed inputs, poked late", fixed_inputs(), AT_POWER_ON, &steps)
}

/// Fixed inputs that are poked again, at once and after a tick, which changes nothing.
fn twice() -> Vec<Run> {
    let poked = [200, 0, 0, 0, 209, 9, 9, 7, 5, 6, 200];
    let ticked = [200, 0, 0, 0, 144, 200, 200, 0, 9, 6, 200];
    let steps = [
        (poke_bytes(TIED_TO_0, 0), AT_POWER_ON),
        (poke_bytes(TIED, 200), poked),
        (poke_bytes(TIED, 200), poked),
        (TICK, ticked),
        (poke_bytes(TIED_TO_0, 0), ticked),
        (poke_bytes(TIED, 200), ticked),
        (TICK, [200, 0, 0, 0, 144, 200, 200, 0, 200, 6, 200]),
    ];
    runs("fixed inputs, poked twice", fixed_inputs(), AT_POWER_ON, &steps)
}
