//! The tables and lists that are timed.

use crate::common::document_cases::case_a;
use crate::common::paths::marked;
use crate::common::samples::add;
use crate::common::shapes::{ring, turned};
use crate::common::tables::{random_number, random_stimuli, renumbered};
use crate::common::{
    constant, enabled, fixed, free, multiplexer, operator, poke_bytes, register, secret, Random,
    RecordBytes, Table, TICK,
};
use model::{read_records, Operator, Record};

/// A table, for the bench the list that runs on it, for trim the variables that are kept, and for path the one that
/// it traces from.
pub struct Shape {
    pub name: &'static str,
    pub table: Vec<u8>,
    pub stimuli: Vec<u8>,
    pub kept: Vec<u16>,
    pub variable: u32,
}

fn shape(name: &'static str, table: &[RecordBytes]) -> Shape {
    Shape { name, table: table.as_flattened().to_vec(), stimuli: vec![], kept: vec![], variable: 0 }
}

fn listed(name: &'static str, table: &[RecordBytes], list: &[[u8; 8]]) -> Shape {
    Shape { stimuli: list.as_flattened().to_vec(), ..shape(name, table) }
}

fn kept(name: &'static str, table: &[RecordBytes], kept: &[u16]) -> Shape {
    Shape { kept: kept.to_vec(), ..shape(name, table) }
}

/// From the last variable that is marked.
fn traced(name: &'static str, table: &[RecordBytes]) -> Shape {
    let variable = *marked(table.as_flattened()).last().expect("a variable is marked");
    Shape { variable, ..shape(name, table) }
}

/// The shapes for each call.
pub struct Shapes {
    pub for_certify: Vec<Shape>,
    pub for_bench: Vec<Shape>,
    pub for_trim: Vec<Shape>,
    pub for_path: Vec<Shape>,
}

/// The shapes. Those with enables are made after the others of certify and the bench, those for trim then, those of
/// operators that are not all known behind them, and those for path last, so that no other depends on them.
pub fn shapes(random: &mut Random) -> Shapes {
    let (mut for_certify, mut for_bench) = (for_certify(random), for_bench(random));
    let [certify_enabled, bench_enabled] = with_enables(random);
    for_certify.extend(certify_enabled);
    for_bench.extend(bench_enabled);
    let for_trim = for_trim(random);
    for_certify.extend(not_known(random));
    let for_path = for_path(random);
    Shapes { for_certify, for_bench, for_trim, for_path }
}

fn for_certify(random: &mut Random) -> Vec<Shape> {
    let in_order = operators(random, 4096);
    let mut shapes = vec![
        shape("case A", &case_a(free(1))),
        shape("operators, in order", &in_order),
        shape("operators, in reverse", &turned(&in_order)),
        shape("chain of registers", &registers(4096)),
        shape("ring of registers (2 R)", &ring(1024, |data| register(1 + random.below(32) as u8, 0, data))),
        shape("multiplexer tree", &multiplexers(random, 2048)),
    ];
    for n in [256, 512, 1024, 2048, 4096] {
        shapes.push(shape("random mix", &mix(random, n)));
    }
    for n in [256, 512, 1024, 2048] {
        shapes.push(shape("operators, in order", &operators(random, n)));
    }
    shapes
}

fn for_bench(random: &mut Random) -> Vec<Shape> {
    let few = mix(random, 400);
    let many = mix(random, 4096);
    let tree = multiplexers(random, 2048);
    vec![
        shape("case A, no stimulus", &case_a(free(1))),
        shape("random mix, no stimulus", &many),
        listed("random mix, ticks", &few, &[TICK; 4096]),
        listed("random mix, pokes", &few, &pokes(random, &few, 4096)),
        listed("random mix, ticks", &many, &[TICK; 256]),
        listed("random mix, pokes", &many, &pokes(random, &many, 256)),
        listed("operators, ticks", &operators(random, 4096), &[TICK; 256]),
        listed("chain of registers, ticks", &registers(4096), &[TICK; 256]),
        listed("multiplexer tree, pokes", &tree, &pokes(random, &tree, 256)),
    ]
}

/// Two for certify, and two for the bench on the same tables.
fn with_enables(random: &mut Random) -> [[Shape; 2]; 2] {
    let chain = enabled_registers(4096);
    let mix = mix_with_enables(random, 4096);
    let ticks = [TICK; 256];
    let mut enabled_ticks = ticks;
    enabled_ticks[0] = poke_bytes(ENABLE, 1);
    [
        [shape("chain with enables", &chain), shape("mix with enables", &mix)],
        [
            listed("chain with enables, ticks", &chain, &enabled_ticks),
            listed("mix with enables, ticks", &mix, &ticks),
        ],
    ]
}

/// Their certificates call all operators on a constant always, no register of a chain, and a part of a mix.
fn for_trim(random: &mut Random) -> Vec<Shape> {
    let (operators, registers) = (operators(random, 4096), registers(4096));
    let tree = multiplexers(random, 2048);
    let (many, with_enables) = (mix(random, 4096), mix_with_enables(random, 4096));
    let few = [256, 1024].map(|n| mix(random, n));
    let all: Vec<u16> = (0..4096).collect();
    let one = |name: &'static str, table: &[RecordBytes]| kept(name, table, &[last_user(table)]);
    vec![
        one("case A, one kept", &case_a(free(1))),
        one("operators, last kept", &operators),
        kept("operators, all kept", &operators, &all),
        one("chain of registers, last", &registers),
        one("multiplexer tree, root", &tree),
        one("random mix, one kept", &few[0]),
        one("random mix, one kept", &few[1]),
        one("random mix, one kept", &many),
        kept("random mix, none kept", &many, &[]),
        kept("random mix, all kept", &many, &all),
        one("mix with enables, one", &with_enables),
    ]
}

/// Long rows, through registers, which take a round each, and through wires; equally short ones; and wide tables, in
/// which much is searched for a short row.
fn for_path(random: &mut Random) -> Vec<Shape> {
    let ring = ring(1024, |data| register(1 + random.below(32) as u8, 0, data));
    let on_a_secret = operators_on(random, secret(32), 4096);
    vec![
        traced("case A", &case_a(free(1))),
        traced("registers on a secret", &registers_on(secret(1), 4096)),
        traced("ring of registers (2 R)", &ring),
        traced("wires on a secret", &wires_on_a_secret(4096)),
        traced("operators on a secret", &on_a_secret),
        equally_short(random, 64),
        traced("random mix", &mix(random, 256)),
        traced("random mix", &mix(random, 1024)),
        traced("random mix", &mix(random, 4096)),
        traced("mix with enables", &mix_with_enables(random, 4096)),
    ]
}

/// Operators of which none is always a number, and those on zeros, which decide some of them.
fn not_known(random: &mut Random) -> [Shape; 2] {
    [
        shape("operators, none known", &operators_on(random, free(32), 4096)),
        shape("operators on zeros", &operators_on_zeros(random, 4096)),
    ]
}

/// The last record that uses others.
fn last_user(table: &[RecordBytes]) -> u16 {
    let records = read_records(table.as_flattened()).unwrap();
    records.iter().rposition(|record| record.uses().count() > 0).unwrap() as u16
}

/// One constant and operators on it.
fn operators(random: &mut Random, n: usize) -> Table {
    operators_on(random, constant(32, 0x9e37_79b9), n)
}

/// A record, and operators of width 32, each on the one before it and on any before it.
fn operators_on(random: &mut Random, first: RecordBytes, n: usize) -> Table {
    let mut one = |i: usize| match i {
        0 => first,
        _ => operator(random.pick(&Operator::BY_CODE), 32, i as u16 - 1, random.below(i) as u16),
    };
    (0..n).map(&mut one).collect()
}

/// Six leaves, two zeros, two other constants, a free and a secret input; and operators on any two of them.
fn operators_on_zeros(random: &mut Random, n: usize) -> Table {
    let zeros = [constant(32, 0), fixed(32, 0)];
    let leaves = [zeros, [constant(32, 5), constant(32, 7)], [free(32), secret(32)]].concat();
    let two = |random: &mut Random| [0; 2].map(|_| random.below(leaves.len()) as u16);
    let operators = (leaves.len()..n).map(|_| {
        let [a, b] = two(random);
        operator(random.pick(&Operator::BY_CODE), 32, a, b)
    });
    leaves.iter().copied().chain(operators).collect()
}

/// A constant and a chain of registers behind it.
fn registers(n: usize) -> Table {
    registers_on(constant(1, 1), n)
}

/// A record and a chain of registers behind it, which takes a round for each of them.
fn registers_on(first: RecordBytes, n: usize) -> Table {
    let chain = (1..n).map(|i| register(1, 0, i as u16 - 1));
    std::iter::once(first).chain(chain).collect()
}

/// A secret input and a chain of adds behind it.
fn wires_on_a_secret(n: usize) -> Table {
    let chain = (1..n as u16).map(|i| add(i - 1));
    std::iter::once(secret(8)).chain(chain).collect()
}

/// Layers of a size, as many as there are variables in one: secret inputs, and then operators on any two of the layer
/// before, in a random order. From one of the last layer there are many rows, and all are equally short.
fn equally_short(random: &mut Random, size: usize) -> Shape {
    let mut table: Table = vec![secret(32); size];
    for i in size..size * size {
        let layer = i / size * size - size;
        let [a, b] = [0; 2].map(|_| (layer + random.below(size)) as u16);
        table.push(operator(Operator::Xor, 32, a, b));
    }
    let order = random.order(table.len());
    let variable = order[table.len() - 1] as u32;
    Shape { variable, ..shape("equally short rows", &renumbered(&table, &order)) }
}

/// The input that enables the registers of a chain.
const ENABLE: u16 = 0;

/// That input, free, a constant and a chain of registers behind it, which takes a round for each of them.
fn enabled_registers(n: usize) -> Table {
    let chain = (2..n).map(|i| enabled(1, 0, i as u16 - 1, ENABLE));
    [free(1), constant(1, 1)].into_iter().chain(chain).collect()
}

/// A tree of multiplexers over so many leaves, which also are their controls.
fn multiplexers(random: &mut Random, leaves: usize) -> Table {
    let mut table: Table = (0..leaves).map(|_| leaf(random, 8)).collect();
    for i in 0..leaves - 1 {
        let arm = 2 * i as u16;
        table.push(multiplexer(8, random.below(leaves) as u16, arm, arm + 1));
    }
    table
}

/// Twice as often as not what is always a number: a constant, or an input fixed to 0. (Fixed to another number
/// it is open, as a free one is.)
fn leaf(random: &mut Random, w: u8) -> RecordBytes {
    let n = random_number(random, u32::from(w));
    random.pick(&[fixed(w, 0), constant(w, n), constant(w, n), constant(w, n), free(w), secret(w)])
}

/// All kinds, half of the uses near and half far, in a random order. A register uses any variable.
fn mix(random: &mut Random, n: usize) -> Table {
    let table: Table = (0..n).map(|i| mixed(random, i, n)).collect();
    let order = random.order(n);
    renumbered(&table, &order)
}

fn mixed(random: &mut Random, i: usize, n: usize) -> RecordBytes {
    let w = random.pick(&[1, 8, 16, 32]);
    let reach = if random.percent(50) { i.min(16) } else { i }.max(1);
    let [a, b, c] = [0; 3].map(|_| (i.max(1) - 1 - random.below(reach)) as u16);
    match random.below(16) {
        _ if i < 8 => leaf(random, w),
        0..2 => leaf(random, w),
        2..9 => operator(random.pick(&Operator::BY_CODE), w, a, b),
        9..13 => multiplexer(w, a, b, c),
        _ => register(w, random_number(random, u32::from(w)), random.below(n) as u16),
    }
}

/// A mix in which half of the registers have an enable, any variable.
fn mix_with_enables(random: &mut Random, n: usize) -> Table {
    let mut table = mix(random, n);
    for bytes in &mut table {
        if let Ok(Record::Register { width, a, power_on }) = Record::read(bytes, n) {
            if random.percent(50) {
                *bytes = enabled(width as u8, power_on, a as u16, random.below(n) as u16);
            }
        }
    }
    table
}

/// Pokes of a table's inputs that the bench accepts.
fn pokes(random: &mut Random, table: &[RecordBytes], length: usize) -> Vec<[u8; 8]> {
    let records = read_records(table.as_flattened()).unwrap();
    let mut list = random_stimuli(random, &records, length * 3);
    list.retain(|stimulus| *stimulus != TICK);
    list.truncate(length);
    assert_eq!(list.len(), length);
    list
}
