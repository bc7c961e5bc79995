//! How far each state of a machine is from acceptance, and the bytes that say so at the end of a room.
//!
//! The states are met breadth first, backward: the accepting ones, then those from which a byte leads to one of them, and so on. What is never
//! met has no way.

use std::collections::VecDeque;

use crate::limits::{NO_WAY, STATES, WAY_AT};
use crate::machine::Machine;

/// The fewest bytes from each state to acceptance, if there is a way.
pub fn ways(machine: &Machine) -> Vec<Option<usize>> {
    let before = before(machine);
    let mut ways: Vec<Option<usize>> = machine.marks.iter().map(|mark| mark.then_some(0)).collect();
    let mut waiting: VecDeque<usize> = (0..machine.states)
        .filter(|&state| machine.marks[state])
        .collect();
    while let Some(state) = waiting.pop_front() {
        let farther = ways[state].map(|way| way + 1);
        for &from in &before[state] {
            if ways[from].is_none() {
                ways[from] = farther;
                waiting.push_back(from);
            }
        }
    }
    ways
}

/// For each state the states from which a byte leads to it.
fn before(machine: &Machine) -> Vec<Vec<usize>> {
    let samples = machine.samples();
    let mut before = vec![Vec::new(); machine.states];
    for state in 0..machine.states {
        for &byte in &samples {
            before[machine.next(state, byte)].push(state);
        }
    }
    before
}

/// The last bytes of the room of a machine that fits one: each way in two, the high one first, and zeros.
pub fn written(machine: &Machine) -> Vec<u8> {
    let way = |way: Option<usize>| way.map_or(NO_WAY, |way| way as u16).to_be_bytes();
    let mut bytes: Vec<u8> = ways(machine).into_iter().flat_map(way).collect();
    bytes.resize(2 * STATES, 0);
    bytes
}

/// Writes the right ways into a room that is sound but for them; any other is left as it is.
pub fn mend(room: &mut [u8]) {
    if let Some(machine) = Machine::table(room) {
        room[WAY_AT..][..2 * STATES].copy_from_slice(&written(&machine));
    }
}
