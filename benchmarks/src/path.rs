//! The path call in plain safe Rust on the same lent buffers: the facts are found in the scratch, behind the order;
//! then the variables are searched breadth-first along uses, the lowest first, up to the first secret input, and the row
//! leads back to where the search began. Linear but for the rounds.

use crate::certify::find_facts;
use crate::schedule::schedule;
use crate::table::{decoded, Bytes, Cells, Chunks, NumberCells, Table, TripleCells};
use model::{check_lengths, Fact, Kind, Refusal, PATH_ASKS};

pub type Answer = Result<u32, Refusal>;

/// Records and facts read byte by byte and number by number by index.
pub fn by_bytes(table: &[u8], variable: u32, row: &mut [u16], scratch: &mut [u16]) -> Answer {
    let records = check_lengths(table, PATH_ASKS, row.len(), scratch.len())?;
    let t = Bytes::checked(table, records.len())?;
    let part = &mut scratch[..records.len() * PATH_ASKS.scratch];
    let Room { order, facts, search } = Room::ordered(&t, part)?;
    let answer = trace(&t, order, NumberCells(facts), search, variable, row);
    part.fill(0);
    answer
}

/// Records and facts read as arrays of 16 bytes and of three numbers.
pub fn by_chunks(table: &[u8], variable: u32, row: &mut [u16], scratch: &mut [u16]) -> Answer {
    let records = check_lengths(table, PATH_ASKS, row.len(), scratch.len())?;
    let t = Chunks::checked(records)?;
    let part = &mut scratch[..records.len() * PATH_ASKS.scratch];
    let Room { order, facts, search } = Room::ordered(&t, part)?;
    let answer = trace(&t, order, TripleCells(facts.as_chunks_mut().0), search, variable, row);
    part.fill(0);
    answer
}

/// Records decoded into structs first.
pub fn by_structs(table: &[u8], variable: u32, row: &mut [u16], scratch: &mut [u16]) -> Answer {
    let records = check_lengths(table, PATH_ASKS, row.len(), scratch.len())?;
    let t = decoded(records)?;
    let part = &mut scratch[..records.len() * PATH_ASKS.scratch];
    let Room { order, facts, search } = Room::ordered(&t, part)?;
    let answer = trace(&t, order, TripleCells(facts.as_chunks_mut().0), search, variable, row);
    part.fill(0);
    answer
}

/// The wires in order with the registers behind them, and the room to stage these.
struct Order<'a> {
    scratch: &'a mut [u16],
    wires: usize,
    registers: usize,
}

/// A number for each variable: the queue of those that are found, for each the place of the one that it was found
/// from, and for each variable one more than its own place.
struct Search<'a> {
    queue: &'a mut [u16],
    parent: &'a mut [u16],
    found: &'a mut [u16],
}

/// The scratch's part in its parts.
struct Room<'a> {
    order: Order<'a>,
    facts: &'a mut [u16],
    search: Search<'a>,
}

impl<'a> Room<'a> {
    /// The part with the order in it and zeros behind; or a loop.
    fn ordered(t: &impl Table, part: &'a mut [u16]) -> Result<Room<'a>, Refusal> {
        let n = t.len();
        let (wires, registers) = schedule(t, n, part)?;
        let (scratch, rest) = part.split_at_mut(n * 2);
        let (facts, rest) = rest.split_at_mut(n * 3);
        let (queue, rest) = rest.split_at_mut(n);
        let (parent, found) = rest.split_at_mut(n);
        let search = Search { queue, parent, found };
        Ok(Room { order: Order { scratch, wires, registers }, facts, search })
    }
}

/// The row is written, or ground 23. Nothing is cleared.
fn trace(
    t: &impl Table,
    order: Order,
    mut cells: impl Cells,
    mut search: Search,
    variable: u32,
    row: &mut [u16],
) -> Answer {
    let (n, first) = (t.len(), variable as usize);
    find_facts(t, n, order.scratch, order.wires, order.registers, &mut cells);
    if first >= n || cells.load(first) != Fact::Marked {
        return Err(Refusal { ground: 23, place: first });
    }
    let end = find_secret(t, &cells, &mut search, first);
    Ok(write_row(&search, end, row))
}

/// Whether a marked variable is a secret input: no other input is marked.
#[inline(always)]
fn is_secret(t: &impl Table, v: usize) -> bool {
    t.kind(v) == Kind::Input
}

/// The place, among the variables that record v uses, of the arm that an always control passes over; else one that
/// none has.
#[inline(always)]
fn passed_over(t: &impl Table, cells: &impl Cells, v: usize) -> usize {
    if t.kind(v) != Kind::Multiplexer {
        return 3;
    }
    match cells.load(t.use_at(v, 0)) {
        Fact::Always(0) => 1,
        Fact::Always(_) => 2,
        _ => 3,
    }
}

/// What v uses, ascending; where it uses fewer than three, the first one again.
#[inline(always)]
fn sorted_uses(t: &impl Table, cells: &impl Cells, v: usize) -> [usize; 3] {
    let (passed_over, count) = (passed_over(t, cells, v), t.kind(v).uses());
    let mut uses = [t.use_at(v, 0); 3];
    for k in (1..count).filter(|&k| k != passed_over) {
        uses[k] = t.use_at(v, k);
    }
    uses.sort_unstable();
    uses
}

/// The place in the queue of the first secret input. A variable is found from the one that comes first in the queue,
/// and the lowest uses first, so that the queue ascends by length, and then by number.
fn find_secret(t: &impl Table, cells: &impl Cells, search: &mut Search, first: usize) -> usize {
    let Search { queue, parent, found } = search;
    (queue[0], found[first]) = (first as u16, 1);
    let (mut done, mut queued) = (0, 1);
    loop {
        let v = usize::from(queue[done]);
        if is_secret(t, v) {
            return done;
        }
        for u in sorted_uses(t, cells, v) {
            if found[u] == 0 && cells.load(u) == Fact::Marked {
                (queue[queued], parent[queued]) = (u as u16, done as u16);
                queued += 1;
                found[u] = queued as u16;
            }
        }
        done += 1;
    }
}

/// Writes the row, which leads back from a place along the parents. Its length.
fn write_row(search: &Search, end: usize, row: &mut [u16]) -> u32 {
    let (mut steps, mut i) = (0, end);
    while i > 0 {
        i = search.parent[i].into();
        steps += 1;
    }
    let mut i = end;
    for place in row[..=steps].iter_mut().rev() {
        *place = search.queue[i];
        i = search.parent[i].into();
    }
    steps as u32 + 1
}
