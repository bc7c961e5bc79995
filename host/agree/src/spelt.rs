//! Cases spelt by bytes: every string of bytes spells a case of an operation. This is what the fuzzer's targets read.
//!
//! The first byte says which buffers are short or longer and what is in them. A room is spelt by a pattern or by a table, and then by a few changed bytes. It has the
//! right ways, unless other ones are spelt.

use second::desk::Desk;
use second::form;
use second::limits;
use second::machine::Machine;
use second::smallest::smallest;
use second::ways;

use crate::case::{form_length, Case, Operation};

/// The case that the bytes spell.
pub fn case(operation: Operation, bytes: &[u8]) -> Case {
    let mut spelt = Spelt { rest: bytes };
    let buffers = spelt.byte();
    let reads = match operation {
        Operation::Compile => vec![spelt.rest.to_vec()],
        Operation::Minimise | Operation::Pack => vec![spelt.room()],
        Operation::Match => vec![spelt.room(), spelt.rest.to_vec()],
        Operation::Compare => vec![spelt.room(), spelt.room()],
        Operation::Unpack => vec![spelt.form()],
        Operation::DeskOpen | Operation::DeskKey => return spelt.desk(operation, buffers),
    };
    let reads: Vec<&[u8]> = reads.iter().map(|read| &read[..]).collect();
    let mut case = Case::new(operation, &reads);
    if operation == Operation::Match {
        return case;
    }
    let exact = match operation {
        Operation::Pack => form_length(usize::from(reads[0][0]), usize::from(reads[0][1])),
        _ => operation.output(),
    };
    let dirt = [0xa5, 0, 0xff, 1][usize::from(buffers >> 6)];
    case.output = vec![dirt; length(exact, buffers)];
    case.bytes = vec![dirt; length(limits::SCRATCH_BYTES, buffers >> 2)];
    case.words = vec![u64::from(dirt) << 13; length(limits::SCRATCH_WORDS, buffers >> 4)];
    case
}

/// The exact length, or by two bits one less or some more.
fn length(exact: usize, bits: u8) -> usize {
    [exact, exact, exact + 5, exact - 1][usize::from(bits & 3)]
}

/// The bytes that are left; after them come zeros.
struct Spelt<'a> {
    rest: &'a [u8],
}

impl Spelt<'_> {
    fn byte(&mut self) -> u8 {
        let (&byte, rest) = self.rest.split_first().unwrap_or((&0, &[]));
        self.rest = rest;
        byte
    }

    /// A number below a bound.
    fn below(&mut self, bound: usize) -> usize {
        usize::from(self.byte()) % bound
    }

    /// A machine: by a pattern, by a table, or by a table made smallest.
    fn machine(&mut self, kind: u8) -> Machine {
        match kind & 3 {
            0 | 1 => {
                let length = self.below(256).min(self.rest.len());
                let (pattern, rest) = self.rest.split_at(length);
                self.rest = rest;
                second::machine(pattern).unwrap_or_else(|_| nothing())
            }
            2 => self.table(),
            _ => smallest(&self.table()),
        }
    }

    fn table(&mut self) -> Machine {
        let (states, classes) = (
            self.below(limits::STATES) + 1,
            self.below(limits::CLASSES) + 1,
        );
        let mut class = vec![self.below(classes); limits::BYTES];
        for _ in 0..self.below(limits::CLASSES) {
            let (byte, value) = (self.byte(), self.below(classes));
            class[usize::from(byte)] = value;
        }
        let marks: Vec<u8> = (0..states).step_by(8).map(|_| self.byte()).collect();
        Machine {
            states,
            classes,
            class,
            marks: (0..states)
                .map(|state| marks[state / 8] >> (state % 8) & 1 == 1)
                .collect(),
            cells: (0..states * classes).map(|_| self.below(states)).collect(),
        }
    }

    /// A room, with up to three bytes changed before its ways, of the exact length, short by one or longer.
    fn room(&mut self) -> Vec<u8> {
        let kind = self.byte();
        let mut room = self.machine(kind).room();
        for _ in 0..kind >> 2 & 3 {
            let at = self.below(256) * 256 + self.below(256);
            room[at % limits::WAY_AT] = self.byte();
        }
        self.ways(kind >> 6, &mut room);
        room.resize(length(limits::ROOM, kind >> 4), 0xe1);
        room
    }

    /// The ways of a changed room: the right ones, those from before the changes, or the right ones with the bits of one changed.
    fn ways(&mut self, kind: u8, room: &mut [u8]) {
        if kind != 2 {
            ways::mend(room);
        }
        if kind == 3 {
            let at = limits::WAY_AT + 2 * self.below(limits::STATES);
            room[at] ^= self.byte();
            room[at + 1] ^= self.byte();
        }
    }

    /// The bytes that are left, or the form of a room with up to three bytes changed, cut or longer by one.
    fn form(&mut self) -> Vec<u8> {
        let kind = self.byte();
        if kind >> 6 == 3 {
            return self.rest.to_vec();
        }
        let mut form = form::packed(&self.machine(kind));
        for _ in 0..kind >> 2 & 3 {
            let at = (self.below(256) * 256 + self.below(256)) % form.len();
            form[at] ^= self.byte();
        }
        match kind >> 4 & 3 {
            2 => form.push(self.byte()),
            3 => form.truncate(form.len() - 1),
            _ => {}
        }
        form
    }
}

/// The entry desk.
impl Spelt<'_> {
    /// Opening, or a key on a form that was typed and then changed in up to three bytes; the rooms of up to four fields.
    fn desk(&mut self, operation: Operation, buffers: u8) -> Case {
        let fields = usize::from(buffers >> 6) + 1;
        let mut rooms = Vec::new();
        for at in 1..=fields {
            rooms.extend(self.room());
            rooms.resize(at * limits::ROOM, 0);
        }
        let count = match self.byte() {
            0 => fields,
            other => usize::from(other),
        };
        let mut form = self.typed(fields, &rooms);
        rooms.resize(length(rooms.len(), buffers), 0xe1);
        form.resize(length(form.len(), buffers >> 2), 0x1e);
        match operation {
            Operation::DeskOpen => Case::opening(count, &rooms, &form),
            _ => Case::pressing(&rooms, &form, count as u8),
        }
    }

    /// A form that was typed, if it can be opened, with up to three bytes changed.
    fn typed(&mut self, fields: usize, rooms: &[u8]) -> Vec<u8> {
        let changes = self.below(4);
        let changes: Vec<(usize, u8)> = (0..changes)
            .map(|_| (self.below(256) * 256 + self.below(256), self.byte()))
            .collect();
        let mut form = match Desk::open(fields, rooms) {
            Some(mut desk) => {
                self.rest.iter().for_each(|&key| {
                    desk.key(key);
                });
                desk.form()
            }
            None => vec![0; limits::ENTRY_FORM],
        };
        for (at, value) in changes {
            // Half of the places are before the texts.
            let most = [limits::ENTRY_FORM, limits::TEXT_AT][at % 2];
            form[at / 2 % most] = value;
        }
        form
    }
}

/// The machine that accepts nothing.
fn nothing() -> Machine {
    second::machine(b"\\0").expect("a legal pattern")
}
