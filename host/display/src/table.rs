//! The table of a compiled machine, walked a byte at a time.

use palgondur::{limits, Machine};

/// A machine whose states are met one after the other.
pub struct Table {
    machine: Machine,
}

impl Table {
    /// The state in which every machine starts.
    pub const START: usize = 0;

    /// The table of a machine.
    pub fn new(machine: Machine) -> Table {
        Table { machine }
    }

    /// The state that a byte leads to.
    pub fn next(&self, state: usize, byte: u8) -> usize {
        let room = self.machine.room();
        let class = room[limits::CLASSES_AT + usize::from(byte)];
        let cell = state * self.machine.classes() + usize::from(class);
        usize::from(room[limits::CELLS_AT + cell])
    }

    /// The fewest bytes that lead from a state to acceptance; none, if there is no way.
    pub fn more(&self, state: usize) -> Option<usize> {
        self.machine.fewest_more(state)
    }
}

#[cfg(test)]
mod tests {
    use super::*;

    #[test]
    fn a_text_is_walked_byte_by_byte() {
        // The pattern, the text, how many bytes more at least.
        let rows = [
            ("a*", "", Some(0)),
            ("[0-9][0-9][0-9]", "41", Some(1)),
            ("[0-9][0-9][0-9]", "4A", None),
            ("abcd|b", "a", Some(3)),
            ("(aa)*b", "aaa", Some(2)),
        ];
        for (pattern, text, more) in rows {
            let table = Table::new(Machine::compile(pattern).unwrap());
            let step = |state, byte| table.next(state, byte);
            let state = text.bytes().fold(Table::START, step);
            assert_eq!(state, table.machine.state_after(text));
            assert_eq!(table.more(state), more, "{pattern} after {text:?}");
        }
    }
}
