//! Drawing rooms and forms: sound ones, damaged ones, and a pair at the bound of comparing.

use super::Draw;
use second::form;
use second::limits::{self, BYTES, CELL_AT, CLASS_AT, MARK_AT, STATES, WAY_AT};
use second::machine::{head, Machine};
use second::ways;

/// A kind of damage to a room, its ways aside.
#[derive(Clone, Copy, PartialEq, Eq, Debug)]
pub enum RoomDamage {
    /// One byte, anywhere, changed.
    Byte,
    /// An unused cell that is not 0.
    UnusedCell,
    /// An unused mark that is not 0.
    UnusedMark,
    /// The number of states out of range or changed.
    States,
    /// The number of classes out of range or changed.
    Classes,
    /// A byte's class at or above the number of classes.
    Class,
    /// A mark that is neither 0 nor 1.
    Mark,
    /// A used cell at or above the number of states.
    Cell,
}

/// All kinds of damage to a room, its ways aside.
pub const ROOM_DAMAGES: [RoomDamage; 8] = [
    RoomDamage::Byte,
    RoomDamage::UnusedCell,
    RoomDamage::UnusedMark,
    RoomDamage::States,
    RoomDamage::Classes,
    RoomDamage::Class,
    RoomDamage::Mark,
    RoomDamage::Cell,
];

/// A kind of damage to a form.
#[derive(Clone, Copy, PartialEq, Eq, Debug)]
pub enum FormDamage {
    /// One bit, anywhere, flipped.
    Flipped,
    /// One byte more.
    Appended,
    /// One or more bytes less.
    Cut,
    /// A filling bit set, if there is one.
    Filled,
    /// Another form number.
    Numbered,
    /// The number of states or of classes changed.
    Sized,
    /// The same strings by a machine that is not canonical.
    Relabelled,
}

/// All kinds of damage to a form.
pub const FORM_DAMAGES: [FormDamage; 7] = [
    FormDamage::Flipped,
    FormDamage::Appended,
    FormDamage::Cut,
    FormDamage::Filled,
    FormDamage::Numbered,
    FormDamage::Sized,
    FormDamage::Relabelled,
];

impl Draw {
    /// A sound room that need not be canonical: it may have unreached and equal states, and classes that no byte has.
    pub fn room(&mut self) -> Vec<u8> {
        self.machine().room()
    }

    /// The machine of such a room.
    pub fn machine(&mut self) -> Machine {
        let states = match self.below(12) {
            0 => STATES,
            1 => self.between(1, STATES),
            2 => self.between(1, 24),
            _ => self.between(1, 7),
        };
        let classes = match self.below(12) {
            0 => limits::CLASSES,
            1 => self.between(1, limits::CLASSES),
            _ => self.between(1, 5),
        };
        let used = self.between(1, classes);
        let thin = self.once_in(2);
        let class = (0..BYTES)
            .map(|_| {
                if thin && !self.once_in(32) {
                    0
                } else {
                    self.below(used)
                }
            })
            .collect();
        let rare = self.between(2, 6);
        let marks = (0..states).map(|_| self.once_in(rare)).collect();
        let goals = if self.once_in(2) {
            states
        } else {
            self.between(1, states)
        };
        let chain = self.once_in(3);
        let cells = (0..states * classes)
            .map(|at| {
                let state = at / classes;
                if chain && self.below(3) > 0 {
                    (state + 1) % states
                } else {
                    self.below(goals)
                }
            })
            .collect();
        let mut machine = Machine {
            states,
            classes,
            class,
            marks,
            cells,
        };
        for _ in 0..self.below(4) {
            let (from, to) = (self.below(states), self.below(states));
            machine.marks[to] = machine.marks[from];
            for at in 0..classes {
                machine.cells[to * classes + at] = machine.cells[from * classes + at];
            }
        }
        machine
    }

    /// A machine of the same strings with its states but the start, and its classes, in another order, and perhaps one more state
    /// that is unreached or equal to another, and one more class that no byte has.
    pub fn relabelled(&mut self, machine: &Machine) -> Machine {
        let mut wide = machine.clone();
        if machine.states < STATES && self.once_in(2) {
            let like = self.below(machine.states);
            let row = wide.cells[like * wide.classes..(like + 1) * wide.classes].to_vec();
            wide.cells.extend(row);
            wide.marks.push(machine.marks[like]);
            wide.states += 1;
            for cell in wide.cells.iter_mut().filter(|cell| **cell == like) {
                if self.once_in(2) {
                    *cell = machine.states;
                }
            }
        }
        if machine.classes < limits::CLASSES && self.once_in(2) {
            wide.cells = wide
                .cells
                .chunks(wide.classes)
                .flat_map(|row| [row, &[0]].concat())
                .collect();
            wide.classes += 1;
        }
        let mut states: Vec<usize> = (0..wide.states).collect();
        self.shuffle(&mut states[1..]);
        let mut classes: Vec<usize> = (0..wide.classes).collect();
        self.shuffle(&mut classes);
        let mut other = wide.clone();
        for byte in 0..BYTES {
            other.class[byte] = classes[wide.class[byte]];
        }
        for state in 0..wide.states {
            other.marks[states[state]] = wide.marks[state];
            for class in 0..wide.classes {
                let to = states[state] * wide.classes + classes[class];
                other.cells[to] = states[wide.cells[state * wide.classes + class]];
            }
        }
        other
    }

    /// A sound room with damage of a kind; a changed byte or number may leave it sound, and then it has the ways of what it became.
    pub fn damaged_room(&mut self, room: &[u8], damage: RoomDamage) -> Vec<u8> {
        let mut room = room.to_vec();
        let (states, classes) = head(&room);
        let used = CELL_AT + states * classes;
        let above = |draw: &mut Draw, least: usize| draw.between(least, 255) as u8;
        match damage {
            RoomDamage::Byte => {
                let most = self.pick(&[2, MARK_AT, CELL_AT, used, WAY_AT]);
                let at = self.below(most);
                let change = self.between(1, 255) as u8;
                room[at] = room[at].wrapping_add(if self.once_in(2) { 1 } else { change });
            }
            RoomDamage::UnusedCell if used < WAY_AT => {
                let at = self.pick(&[used, WAY_AT - 1, (used + WAY_AT) / 2]);
                room[at] = above(self, 1);
            }
            RoomDamage::UnusedMark if states < STATES => {
                let at = self.between(MARK_AT + states, CELL_AT - 1);
                room[at] = above(self, 1);
            }
            RoomDamage::States | RoomDamage::UnusedMark => {
                room[0] = match self.below(3) {
                    0 => 0,
                    1 => above(self, STATES + 1),
                    _ => room[0].wrapping_add(self.pick(&[1, 255])),
                }
            }
            RoomDamage::Classes | RoomDamage::UnusedCell => {
                room[1] = match self.below(3) {
                    0 => 0,
                    1 => above(self, limits::CLASSES + 1),
                    _ => room[1].wrapping_add(self.pick(&[1, 255])),
                }
            }
            RoomDamage::Class => {
                let at = CLASS_AT + self.below(BYTES);
                room[at] = if self.once_in(2) {
                    classes as u8
                } else {
                    above(self, classes)
                };
            }
            RoomDamage::Mark => {
                let at = MARK_AT + self.below(states);
                room[at] = above(self, 2);
            }
            RoomDamage::Cell => {
                let at = CELL_AT + self.below(states * classes);
                room[at] = if self.once_in(2) {
                    states as u8
                } else {
                    above(self, states)
                };
            }
        }
        ways::mend(&mut room);
        room
    }
}

impl Draw {
    /// The form of a canonical machine with damage of a kind; a flipped bit or another order may leave it whole.
    pub fn damaged_form(&mut self, machine: &Machine, damage: FormDamage) -> Vec<u8> {
        let mut bits = form::bits(machine);
        let mut bytes = form::bytes(&bits);
        match damage {
            FormDamage::Flipped => {
                let at = self.below(bits.len());
                bits[at] = !bits[at];
                form::bytes(&bits)
            }
            FormDamage::Appended => {
                let byte = if self.once_in(2) { 0 } else { self.byte() };
                bytes.push(byte);
                bytes
            }
            FormDamage::Cut => {
                let length = match self.below(3) {
                    0 => bytes.len() - 1,
                    1 => self.below(4),
                    _ => self.below(bytes.len()),
                };
                bytes.truncate(length);
                bytes
            }
            FormDamage::Filled => {
                let fill = bytes.len() * 8 - bits.len();
                if fill > 0 {
                    let at = self.below(fill);
                    *bytes.last_mut().expect("a form has bytes") |= 1 << at;
                }
                bytes
            }
            FormDamage::Numbered => {
                bytes[0] = bytes[0] & 0x0f | self.pick(&[0, 2, 3, 9, 15]) << 4;
                bytes
            }
            FormDamage::Sized => {
                let at = self.between(4, 16);
                bits[at] = !bits[at];
                form::bytes(&bits)
            }
            FormDamage::Relabelled => form::packed(&self.relabelled(machine)),
        }
    }
}

/// A cycle of 128 states, and one of 127 after a tail of 0 or 1: told apart by a string of s + t - 2 bytes and by no shorter one,
/// the bound of word and rounds.
pub fn bound_pair(tail: usize) -> (Machine, Machine) {
    let (left, right) = (STATES, STATES - 1 + tail);
    let left_next = |state: usize| (state + 1) % left;
    let right_next = |state: usize| if state + 1 < right { state + 1 } else { tail };
    // States met by one of the first s + t - 2 strings must be marked alike; that leaves two parts.
    let mut part: Vec<usize> = (0..left + right).collect();
    let (mut one, mut other) = (0, 0);
    for _ in 0..left + right - 2 {
        let (old, new) = (part[left + other], part[one]);
        for value in part.iter_mut().filter(|value| **value == old) {
            *value = new;
        }
        one = left_next(one);
        other = right_next(other);
    }
    let marked = part[one];
    let unary = |parts: &[usize], next: &dyn Fn(usize) -> usize| Machine {
        states: parts.len(),
        classes: 1,
        class: vec![0; BYTES],
        marks: parts.iter().map(|&value| value == marked).collect(),
        cells: (0..parts.len()).map(next).collect(),
    };
    (
        unary(&part[..left], &left_next),
        unary(&part[left..], &right_next),
    )
}
