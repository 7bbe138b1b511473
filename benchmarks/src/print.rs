//! What is printed: the table of ratios, a row a shape, and the one that holds two archives against each other.

use crate::measure::Compared;
use std::fmt::Display;

pub fn print_head() {
    println!("count: rounds of certify, stimuli of bench, records written by trim, variables in the row of path;");
    println!("ns each: the call's time by its evaluations, for trim by the table's records, for path by certify's");
    println!(
        "times are medians; a ratio is the archive's time by the variant's: below 1 the archive is faster"
    );
    println!();
    let [us, ns] = ["us a call", "ns each"];
    let [bytes, chunks, structs, worklist] = ["bytes", "chunks", "structs", "worklist"];
    let head = titles();
    println!("{head} {us:>9} | {ns:>7} | {bytes:>5} | {chunks:>6} | {structs:>7} | {worklist:>8} |");
    println!("|---|---|---:|---:|---:|---:|---:|---:|---:|---:|");
}

/// The titles of the cells with which every row begins.
fn titles() -> String {
    row_head("call", "shape", "records", "count")
}

pub fn row_head(call: &str, name: &str, n: impl Display, count: impl Display) -> String {
    format!("| {call:<7} | {name:<25} | {n:>7} | {count:>5} |")
}

pub fn print_row(head: &str, evaluations: usize, times: &[f64]) {
    let ratio = |i: usize| times.get(i).map_or(String::new(), |time| format!("{:.2}", times[0] / time));
    let (us, ns) = (times[0] / 1000.0, times[0] / evaluations as f64);
    let [bytes, chunks, structs, worklist] = [1, 2, 3, 4].map(ratio);
    println!("{head} {us:>9.2} | {ns:>7.1} | {bytes:>5} | {chunks:>6} | {structs:>7} | {worklist:>8} |");
}

/// The row of two archives' times, of which the first call is this one's.
pub fn compared_row(head: &str, Compared { quartiles, ratios }: &Compared, other_rules: bool) -> String {
    let [after, before] = quartiles.map(|spread| {
        let decimals = if spread[1] < 1000.0 { 4 } else { 2 };
        let [low, median, high] = spread.map(|ns| format!("{:.decimals$}", ns / 1000.0));
        format!("{median} ({low} to {high})")
    });
    let [lowest, _, middle, _, highest] = ratios;
    let mark = if other_rules { " *" } else { "" };
    before_cells(head, [before, after, format!("{middle:.2} ({lowest:.2} to {highest:.2}){mark}")])
}

/// The row where the earlier archive has no time.
pub fn empty_row(head: &str) -> String {
    before_cells(head, [""; 3].map(String::from))
}

fn before_cells(head: &str, [before, after, ratio]: [String; 3]) -> String {
    format!("{head} {before:>32} | {after:>32} | {ratio:>21} |")
}

pub fn print_before(rows: impl Iterator<Item = String>) {
    println!();
    println!("before and after: us a call of the earlier archive and of this one, both as shared objects,");
    println!("in turns: the median and the quartiles; after by before: the ratio of medians in five parts");
    println!(
        "of the turns: the middle one, lowest and highest; empty where the earlier one refuses, or has"
    );
    println!("no such call; * where certify or path answers or writes something else, as the earlier one's rules");
    println!("are others");
    println!();
    println!("{}", before_cells(&titles(), ["before", "after", "after by before"].map(String::from)));
    println!("|---|---|---:|---:|---:|---:|---:|");
    rows.for_each(|row| println!("{row}"));
}
