//! Drawing rooms whose ways are wrong.

use super::{Draw, ROOM_DAMAGES};
use second::limits::{BYTES, CLASSES, NO_WAY, STATES, WAY_AT};
use second::machine::Machine;
use second::ways::{ways, written};

/// A kind of damage to the ways of a room.
#[derive(Clone, Copy, PartialEq, Eq, Debug)]
pub enum WayDamage {
    /// One too small or too great by 1.
    Near,
    /// No way for a live state.
    Live,
    /// A way for a dead state.
    Dead,
    /// The two bytes of one exchanged.
    Exchanged,
    /// One of an unused state that is not 0.
    Unused,
    /// All of them 0.
    Zero,
    /// One of a state that nothing reaches.
    Unreached,
    /// Ways that go by a class that no byte has.
    Class,
    /// The ways from before a mark, a cell or the class of a byte was changed.
    Old,
}

/// All kinds of damage to the ways of a room.
pub const WAY_DAMAGES: [WayDamage; 9] = [
    WayDamage::Near,
    WayDamage::Live,
    WayDamage::Dead,
    WayDamage::Exchanged,
    WayDamage::Unused,
    WayDamage::Zero,
    WayDamage::Unreached,
    WayDamage::Class,
    WayDamage::Old,
];

impl Draw {
    /// A sound room with damage of any kind, once in three times to its ways.
    pub fn any_damage(&mut self, room: &[u8]) -> Vec<u8> {
        if self.once_in(3) {
            let damage = self.pick(&WAY_DAMAGES);
            return self.damaged_ways(room, damage);
        }
        let damage = self.pick(&ROOM_DAMAGES);
        self.damaged_room(room, damage)
    }

    /// A sound room with damage of a kind to its ways alone; zeros and the ways of another machine may be right all the same.
    pub fn damaged_ways(&mut self, room: &[u8], damage: WayDamage) -> Vec<u8> {
        let machine = Machine::read(room).expect("a sound room");
        let ways = ways(&machine);
        let (live, dead): (Vec<usize>, Vec<usize>) =
            (0..machine.states).partition(|&state| ways[state].is_some());
        let far: Vec<usize> = live
            .iter()
            .copied()
            .filter(|&state| ways[state] > Some(0))
            .collect();
        let mut room = room.to_vec();
        match damage {
            WayDamage::Live if !live.is_empty() => put(&mut room, self.pick(&live), NO_WAY),
            WayDamage::Dead if !dead.is_empty() => {
                let way = self.pick(&[0, 1, machine.states as u16, 256, NO_WAY - 1]);
                put(&mut room, self.pick(&dead), way);
            }
            WayDamage::Exchanged if !far.is_empty() => {
                let at = WAY_AT + 2 * self.pick(&far);
                room.swap(at, at + 1);
            }
            WayDamage::Unused if machine.states < STATES => {
                let state = self.pick(&[machine.states, STATES - 1]);
                put(&mut room, state, self.pick(&[1, 256, NO_WAY]));
            }
            WayDamage::Zero => room[WAY_AT..].fill(0),
            WayDamage::Unreached if machine.states < STATES => {
                room = self.with_unreached(&machine).room();
                self.miss(&mut room, machine.states);
            }
            WayDamage::Class => room = self.by_no_byte(&machine),
            WayDamage::Old => room = self.outdated(&machine),
            _ => {
                let state = self.below(machine.states);
                self.miss(&mut room, state);
            }
        }
        room
    }

    /// Makes the way of a state too small or too great by 1.
    fn miss(&mut self, room: &mut [u8], state: usize) {
        let at = WAY_AT + 2 * state;
        let way = u16::from_be_bytes([room[at], room[at + 1]]);
        let change = self.pick(&[1, NO_WAY]);
        put(room, state, way.wrapping_add(change));
    }

    /// The machine with one more state that nothing leads to.
    fn with_unreached(&mut self, machine: &Machine) -> Machine {
        let mut wide = machine.clone();
        wide.states += 1;
        wide.marks.push(self.once_in(4));
        for _ in 0..machine.classes {
            wide.cells.push(self.below(machine.states));
        }
        wide
    }

    /// The room of the machine with one more class that no byte has, if it can have more, and the ways as if some byte had it.
    fn by_no_byte(&mut self, machine: &Machine) -> Vec<u8> {
        let mut wide = machine.clone();
        if machine.classes < CLASSES {
            let rows = machine.cells.chunks(machine.classes);
            wide.cells = rows
                .flat_map(|row| [row, &[self.below(machine.states)]].concat())
                .collect();
            wide.classes += 1;
        }
        let mut room = wide.room();
        wide.class = (0..BYTES).map(|byte| byte % wide.classes).collect();
        room[WAY_AT..].copy_from_slice(&written(&wide));
        room
    }

    /// The room of the machine with one change, and the ways from before it.
    fn outdated(&mut self, machine: &Machine) -> Vec<u8> {
        let mut other = machine.clone();
        let state = self.below(machine.states);
        match self.below(4) {
            0 => other.marks[state] = !other.marks[state],
            1 => other.class[self.below(BYTES)] = self.below(machine.classes),
            _ => other.cells[self.below(machine.cells.len())] = state,
        }
        let mut room = other.room();
        room[WAY_AT..].copy_from_slice(&written(machine));
        room
    }
}

/// Makes a room say something of the way of a state.
fn put(room: &mut [u8], state: usize, way: u16) {
    room[WAY_AT + 2 * state..][..2].copy_from_slice(&way.to_be_bytes());
}
