//! What a sound room says of its states.

use crate::limits::{CELLS_AT, CLASSES_AT, NO_WAY, WAYS_AT};

/// The state that a text leads to from the start.
pub(crate) fn state_after(room: &[u8], text: &[u8]) -> usize {
    let classes = usize::from(room[1]);
    let next = |state: usize, byte: &u8| {
        let class = room[CLASSES_AT + usize::from(*byte)];
        usize::from(room[CELLS_AT + state * classes + usize::from(class)])
    };
    text.iter().fold(0, next)
}

/// The fewest bytes that lead from a state to acceptance; none, if there is no way, or no such state.
pub(crate) fn fewest_more(room: &[u8], state: usize) -> Option<usize> {
    if state >= usize::from(room[0]) {
        return None;
    }
    let at = WAYS_AT + 2 * state;
    match u16::from_be_bytes([room[at], room[at + 1]]) {
        NO_WAY => None,
        way => Some(usize::from(way)),
    }
}
