//! The wires in an order in which each stands after those that it uses, or a loop, depth-first in the lent
//! scratch: the finished wires from the front, the stack from place n down, and a state for each variable
//! from place n on.

use crate::table::Table;
use model::Refusal;

enum Visited {
    All(usize),
    Loop(usize, usize),
}

/// The state of a wire that is finished. One on the stack has one more than the number of its uses that are done.
const FINISHED: u16 = 5;

fn visit_all(t: &impl Table, n: usize, s: &mut [u16]) -> Visited {
    let (mut root, mut finished, mut top) = (0, 0, n);
    loop {
        if top == n {
            if root == n {
                return Visited::All(finished);
            }
            if t.wire_uses(root) == 0 || s[n + root] != 0 {
                root += 1;
            } else {
                top -= 1;
                s[n + root] = 1;
                s[top] = root as u16;
            }
            continue;
        }
        let v = usize::from(s[top]);
        let state = s[n + v];
        if state == t.wire_uses(v) {
            s[n + v] = FINISHED;
            s[finished] = v as u16;
            finished += 1;
            top += 1;
            continue;
        }
        let u = t.use_at(v, usize::from(state) - 1);
        if t.wire_uses(u) == 0 || s[n + u] == FINISHED {
            s[n + v] = state + 1;
        } else if s[n + u] == 0 {
            top -= 1;
            s[n + u] = 1;
            s[top] = u as u16;
        } else {
            return Visited::Loop(top, u);
        }
    }
}

/// The loop from the place of u on the stack down to the top, written to the front with its lowest variable first.
fn show_loop(s: &mut [u16], n: usize, top: usize, u: usize) -> usize {
    let mut end = top;
    while usize::from(s[end]) != u {
        end += 1;
    }
    let mut row: Vec<u16> = s[top..=end].iter().rev().copied().collect();
    let lowest = (0..row.len()).min_by_key(|&i| row[i]).unwrap_or(0);
    row.rotate_left(lowest);
    s[..n].fill(0);
    s[..row.len()].copy_from_slice(&row);
    row.len()
}

/// The wires in order and then the registers at the front of the scratch's part that the call asks for, and how many
/// there are; or a loop. The rest of the part is 0.
pub fn schedule(t: &impl Table, n: usize, s: &mut [u16]) -> Result<(usize, usize), Refusal> {
    s[n..n + n].fill(0);
    match visit_all(t, n, s) {
        Visited::All(wires) => {
            let mut registers = 0;
            for v in 0..n {
                if t.is_register(v) {
                    s[wires + registers] = v as u16;
                    registers += 1;
                }
            }
            s[wires + registers..].fill(0);
            Ok((wires, registers))
        }
        Visited::Loop(top, u) => {
            let size = show_loop(s, n, top, u);
            s[size..].fill(0);
            Err(Refusal::of_loop(size))
        }
    }
}
