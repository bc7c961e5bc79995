//! The smallest machine, by double reversal.
//!
//! Reversing a machine and determinising it gives a machine of the reversed strings; doing so twice gives the smallest machine
//! of the strings themselves. The machine in between can be very large, so it has a bound, and past it states are
//! joined that no string tells apart, by the lengths of all pairs.

use std::collections::HashMap;

use crate::limits::BYTES;
use crate::machine::Machine;
use crate::pairs::Apart;

/// Most states of the reversed machine in between.
pub const BETWEEN: usize = 1024;

/// The determinised reversal of a machine, all states reached; none if it has more than `most` states.
pub fn reversed(machine: &Machine, most: usize) -> Option<Machine> {
    let samples = machine.samples();
    let width = (machine.states + 63) / 64;
    let mut start = vec![0u64; width];
    for (state, &mark) in machine.marks.iter().enumerate() {
        start[state / 64] |= u64::from(mark) << (state % 64);
    }
    let columns: Vec<Vec<usize>> = samples
        .iter()
        .map(|&byte| {
            (0..machine.states)
                .map(|state| machine.next(state, byte))
                .collect()
        })
        .collect();
    let mut column_of = vec![0; machine.classes];
    for (at, &byte) in samples.iter().enumerate() {
        column_of[machine.class[usize::from(byte)]] = at;
    }
    let mut result = Machine {
        states: 0,
        classes: samples.len(),
        class: machine
            .class
            .iter()
            .map(|&class| column_of[class])
            .collect(),
        marks: Vec::new(),
        cells: Vec::new(),
    };
    let mut known = HashMap::from([(start.clone(), 0)]);
    let mut sets = vec![start];
    while result.states < sets.len() {
        let set = sets[result.states].clone();
        result.states += 1;
        result.marks.push(set[0] & 1 == 1);
        for column in &columns {
            let mut before = vec![0u64; width];
            for (state, &next) in column.iter().enumerate() {
                before[state / 64] |= (set[next / 64] >> (next % 64) & 1) << (state % 64);
            }
            let number = match known.get(&before) {
                Some(&number) => number,
                None => {
                    known.insert(before.clone(), sets.len());
                    sets.push(before);
                    sets.len() - 1
                }
            };
            result.cells.push(number);
        }
        if sets.len() > most {
            return None;
        }
    }
    Some(result)
}

/// The smallest machine by double reversal, numbered as it comes; none if the one in between is too large.
pub fn twice_reversed(machine: &Machine) -> Option<Machine> {
    let between = reversed(machine, BETWEEN)?;
    reversed(&between, machine.states)
}

/// The smallest machine by joining states that no string tells apart; unreached ones may stay.
pub fn joined(machine: &Machine) -> Machine {
    let apart = Apart::new(&[machine]);
    let part: Vec<usize> = (0..machine.states)
        .map(|state| {
            (0..state)
                .find(|&other| apart.length(state, other).is_none())
                .unwrap_or(state)
        })
        .collect();
    Machine {
        cells: machine.cells.iter().map(|&cell| part[cell]).collect(),
        ..machine.clone()
    }
}

/// The same machine without unreached states, states and classes numbered as a canonical machine has them.
pub fn numbered(machine: &Machine) -> Machine {
    let mut number = vec![None; machine.states];
    number[0] = Some(0);
    let mut arrived = vec![0];
    let mut rows: Vec<Vec<usize>> = Vec::new();
    while rows.len() < arrived.len() {
        let from = arrived[rows.len()];
        let row = (0..BYTES)
            .map(|byte| {
                let next = machine.next(from, byte as u8);
                *number[next].get_or_insert_with(|| {
                    arrived.push(next);
                    arrived.len() - 1
                })
            })
            .collect();
        rows.push(row);
    }
    // Bytes of one class go alike, so the columns of one byte of each are compared.
    let mut samples: Vec<usize> = Vec::new();
    let mut same = vec![None; machine.classes];
    let class: Vec<usize> = (0..BYTES)
        .map(|byte| {
            *same[machine.class[byte]].get_or_insert_with(|| {
                let alike = |&other: &usize| rows.iter().all(|row| row[other] == row[byte]);
                samples.iter().position(alike).unwrap_or_else(|| {
                    samples.push(byte);
                    samples.len() - 1
                })
            })
        })
        .collect();
    Machine {
        states: rows.len(),
        classes: samples.len(),
        class,
        marks: arrived.iter().map(|&state| machine.marks[state]).collect(),
        cells: rows
            .iter()
            .flat_map(|row| samples.iter().map(move |&byte| row[byte]))
            .collect(),
    }
}

/// The canonical machine of the same strings.
pub fn smallest(machine: &Machine) -> Machine {
    match twice_reversed(machine) {
        Some(small) => numbered(&small),
        None => numbered(&joined(machine)),
    }
}

/// Whether the bytes of a room are a canonical machine's.
pub fn canonical(room: &[u8]) -> bool {
    Machine::read(room).map_or(false, |machine| smallest(&machine) == machine)
}
