//! A complete machine over the 256 byte values, and the room it is written in.

use crate::limits::{BYTES, CELL_AT, CLASSES, CLASS_AT, MARK_AT, ROOM, STATES, WAY_AT};
use crate::ways;

/// A complete machine; state 0 starts. It may have more states than a room can hold.
#[derive(Clone, PartialEq, Eq, Debug)]
pub struct Machine {
    /// Number of states.
    pub states: usize,
    /// Number of classes.
    pub classes: usize,
    /// The class of each byte value.
    pub class: Vec<usize>,
    /// Whether each state accepts.
    pub marks: Vec<bool>,
    /// The next state, by row: state q, class c at q * classes + c.
    pub cells: Vec<usize>,
}

impl Machine {
    /// The next state after a byte.
    pub fn next(&self, state: usize, byte: u8) -> usize {
        self.cells[state * self.classes + self.class[usize::from(byte)]]
    }

    /// The state after a text, from the start.
    pub fn run(&self, text: &[u8]) -> usize {
        text.iter().fold(0, |state, &byte| self.next(state, byte))
    }

    /// The smallest byte of each class that some byte has, ascending.
    pub fn samples(&self) -> Vec<u8> {
        let mut seen = vec![false; self.classes];
        (0..BYTES)
            .filter(|&byte| !std::mem::replace(&mut seen[self.class[byte]], true))
            .map(|byte| byte as u8)
            .collect()
    }

    /// The machine in a room, if the room is long enough and sound.
    pub fn read(room: &[u8]) -> Option<Machine> {
        let room = room.get(..ROOM)?;
        Machine::table(room).filter(|machine| room[WAY_AT..] == ways::written(machine))
    }

    /// The machine in a room that is long enough and, but for its ways, sound.
    pub fn table(room: &[u8]) -> Option<Machine> {
        let room = room.get(..ROOM)?;
        let (states, classes) = head(room);
        if !(1..=STATES).contains(&states) || !(1..=CLASSES).contains(&classes) {
            return None;
        }
        let (marks, no_marks) = room[MARK_AT..CELL_AT].split_at(states);
        let (cells, no_cells) = room[CELL_AT..WAY_AT].split_at(states * classes);
        let class = &room[CLASS_AT..MARK_AT];
        let sound = class.iter().all(|&class| usize::from(class) < classes)
            && marks.iter().all(|&mark| mark < 2)
            && cells.iter().all(|&cell| usize::from(cell) < states)
            && no_marks.iter().chain(no_cells).all(|&unused| unused == 0);
        if !sound {
            return None;
        }
        Some(Machine {
            states,
            classes,
            class: class.iter().map(|&class| usize::from(class)).collect(),
            marks: marks.iter().map(|&mark| mark == 1).collect(),
            cells: cells.iter().map(|&cell| usize::from(cell)).collect(),
        })
    }

    /// The room of a machine that fits one.
    pub fn room(&self) -> Vec<u8> {
        assert!(self.states <= STATES && self.classes <= CLASSES);
        let mut room = vec![0; ROOM];
        room[0] = self.states as u8;
        room[1] = self.classes as u8;
        for (at, &class) in self.class.iter().enumerate() {
            room[CLASS_AT + at] = class as u8;
        }
        for (at, &mark) in self.marks.iter().enumerate() {
            room[MARK_AT + at] = u8::from(mark);
        }
        for (at, &cell) in self.cells.iter().enumerate() {
            room[CELL_AT + at] = cell as u8;
        }
        room[WAY_AT..].copy_from_slice(&ways::written(self));
        room
    }
}

/// The numbers of states and of classes that a room says.
pub fn head(room: &[u8]) -> (usize, usize) {
    (usize::from(room[0]), usize::from(room[1]))
}

/// Whether the bytes of a room are there and sound.
pub fn sound(room: &[u8]) -> bool {
    Machine::read(room).is_some()
}
