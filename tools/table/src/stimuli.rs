//! A list's text: one line a stimulus, `poke input value` or `tick`. Names are those of the table's text.
//! Whether a stimulus can be made on the table is the model's word: grounds 14 to 17.

use crate::line::{lines, value};
use crate::{Place, Problem, Table};
use model::Stimulus;

/// The most stimuli that a list can have.
const MOST_STIMULI: usize = 4096;

/// The list of stimuli that a text writes for a table.
pub fn read_stimuli(table: &Table, text: &str) -> Result<Vec<Stimulus>, Problem> {
    let mut list = Vec::new();
    for line in lines(text) {
        let (stimulus, times) = read_stimulus(table, line.text).map_err(|what| line.problem(what))?;
        if times > MOST_STIMULI - list.len() {
            return Err(line.problem(format!("a list has at most {MOST_STIMULI} stimuli")));
        }
        list.resize(list.len() + times, stimulus);
    }
    Ok(list)
}

/// The stimulus that a line writes, and how often.
fn read_stimulus(table: &Table, line: &str) -> Result<(Stimulus, usize), String> {
    let words: Vec<&str> = line.split_whitespace().collect();
    match words[..] {
        ["tick"] => Ok((Stimulus::Tick, 1)),
        ["tick", times] => match value(times)? {
            0 => Err("a tick is made once or more".to_string()),
            times => Ok((Stimulus::Tick, times as usize)),
        },
        ["poke", input, n] => {
            let poke = Stimulus::Poke { variable: table.variable(input)?, n: value(n)? };
            Ok((checked(table, &stimulus_bytes(&poke))?, 1))
        }
        _ => Err("a stimulus is written: poke INPUT VALUE, or tick, or tick TIMES".to_string()),
    }
}

/// The stimulus in 8 bytes, if it can be made on the table.
fn checked(table: &Table, bytes: &[u8; 8]) -> Result<Stimulus, String> {
    let variable = usize::from(u16::from_le_bytes([bytes[2], bytes[3]]));
    Stimulus::read(bytes, &table.records).map_err(|ground| match ground {
        14 => "its kind is above 1, or a byte that must be 0 is not".to_string(),
        _ if variable >= table.records.len() => format!("there is no variable {variable}"),
        15 => format!("{} is no input", table.call(variable)),
        16 => format!("the value does not fit the width {}", table.records[variable].width()),
        _ => format!("{} is fixed and takes no value but its own", table.call(variable)),
    })
}

/// The 8 bytes of each stimulus, in order.
pub fn stimuli_bytes(list: &[Stimulus]) -> Vec<u8> {
    list.iter().flat_map(stimulus_bytes).collect()
}

/// The 8 bytes of a stimulus.
fn stimulus_bytes(stimulus: &Stimulus) -> [u8; 8] {
    match *stimulus {
        Stimulus::Tick => [1, 0, 0, 0, 0, 0, 0, 0],
        Stimulus::Poke { variable, n } => {
            let mut bytes = [0; 8];
            bytes[2..4].copy_from_slice(&(variable as u16).to_le_bytes());
            bytes[4..].copy_from_slice(&n.to_le_bytes());
            bytes
        }
    }
}

/// The text of a list in bytes, each input called as the table's text does.
pub fn stimuli_text(table: &Table, bytes: &[u8]) -> Result<String, Problem> {
    let (stimuli, rest) = bytes.as_chunks::<8>();
    if !rest.is_empty() {
        return Err(Place::File.problem("the length is not a multiple of 8"));
    }
    if stimuli.len() > MOST_STIMULI {
        return Err(Place::File.problem(format!("a list has at most {MOST_STIMULI} stimuli")));
    }
    let line = |(i, bytes)| match checked(table, bytes) {
        Ok(Stimulus::Tick) => Ok("tick\n".to_string()),
        Ok(Stimulus::Poke { variable, n }) => Ok(format!("poke {} {n}\n", table.call(variable))),
        Err(what) => Err(Place::Stimulus(i).problem(what)),
    };
    stimuli.iter().enumerate().map(line).collect()
}
