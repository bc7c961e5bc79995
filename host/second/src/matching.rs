//! Matching a text by a machine.

use crate::answer;
use crate::machine::Machine;
use crate::ways::ways;

/// Which states have a string that leads to acceptance.
pub fn live(machine: &Machine) -> Vec<bool> {
    let ways = ways(machine);
    ways.into_iter().map(|way| way.is_some()).collect()
}

/// The answer and place of matching a text.
pub fn answer(machine: &Machine, text: &[u8]) -> (u8, usize) {
    answer_by(machine, &live(machine), text)
}

/// The same, where the live states are known.
pub fn answer_by(machine: &Machine, live: &[bool], text: &[u8]) -> (u8, usize) {
    let mut state = 0;
    for (place, &byte) in text.iter().enumerate() {
        if !live[state] {
            return (answer::DEAD, place);
        }
        state = machine.next(state, byte);
    }
    if !live[state] {
        (answer::DEAD, text.len())
    } else if machine.marks[state] {
        (answer::ACCEPTED, 0)
    } else {
        (answer::UNFINISHED, 0)
    }
}
