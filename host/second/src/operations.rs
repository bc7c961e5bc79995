//! The whole operations, with every buffer as document 01 leaves it.
//!
//! Each gives the number of its answer and then the answer's values, 0 where it has none. Tails past the stated sizes are
//! neither read nor written.

use crate::answer;
use crate::desk::Desk;
use crate::form;
use crate::judge::judge;
use crate::limits;
use crate::machine::Machine;
use crate::matching;
use crate::pairs;
use crate::sets::Automaton;
use crate::smallest::{canonical, smallest};

/// Whether scratch is shorter than it must be.
fn short_scratch(bytes: &[u8], words: &[u64]) -> bool {
    bytes.len() < limits::SCRATCH_BYTES || words.len() < limits::SCRATCH_WORDS
}

/// Makes the named scratch zero.
fn clear(bytes: &mut [u8], words: &mut [u64]) {
    bytes[..limits::SCRATCH_BYTES].fill(0);
    words[..limits::SCRATCH_WORDS].fill(0);
}

/// Writes a machine into a room.
fn write(machine: &Machine, room: &mut [u8]) {
    room[..limits::ROOM].copy_from_slice(&machine.room());
}

/// The canonical machine of a pattern, or the refusal from LONG to STATES with its place.
pub fn machine(pattern: &[u8]) -> Result<Machine, (u8, usize)> {
    let automaton = Automaton::new(&judge(pattern)?);
    if automaton.pattern_classes().1 > limits::CLASSES {
        return Err((answer::CLASSES, 0));
    }
    match automaton.reached(limits::STATES) {
        Some((_, machine)) => Ok(smallest(&machine)),
        None => Err((answer::STATES, 0)),
    }
}

/// Compiles a pattern into a room: the answer's number and place.
pub fn compile(
    pattern: &[u8],
    room: &mut [u8],
    bytes: &mut [u8],
    words: &mut [u64],
) -> (u8, usize) {
    if room.len() < limits::ROOM || short_scratch(bytes, words) {
        return (answer::ROOM, 0);
    }
    clear(bytes, words);
    match machine(pattern) {
        Ok(machine) => {
            write(&machine, room);
            (answer::DONE, 0)
        }
        Err(refusal) => refusal,
    }
}

/// Writes into a room the canonical machine of the strings of another.
pub fn minimise(from: &[u8], to: &mut [u8], bytes: &mut [u8], words: &mut [u64]) -> u8 {
    if from.len() < limits::ROOM || to.len() < limits::ROOM || short_scratch(bytes, words) {
        return answer::ROOM;
    }
    clear(bytes, words);
    match Machine::read(from) {
        Some(machine) => {
            write(&smallest(&machine), to);
            answer::DONE
        }
        None => answer::FORM,
    }
}

/// Matches a text by a room: the answer's number and place.
pub fn match_text(room: &[u8], text: &[u8]) -> (u8, usize) {
    if room.len() < limits::ROOM {
        return (answer::ROOM, 0);
    }
    match Machine::read(room) {
        Some(machine) => matching::answer(&machine, text),
        None => (answer::FORM, 0),
    }
}

/// Compares two rooms: the answer's number, length and rounds.
pub fn compare(
    left: &[u8],
    right: &[u8],
    word: &mut [u8],
    bytes: &mut [u8],
    words: &mut [u64],
) -> (u8, usize, usize) {
    let short_rooms = left.len() < limits::ROOM || right.len() < limits::ROOM;
    if short_rooms || word.len() < limits::WORD || short_scratch(bytes, words) {
        return (answer::ROOM, 0, 0);
    }
    clear(bytes, words);
    let (left, right) = match (Machine::read(left), Machine::read(right)) {
        (Some(left), Some(right)) => (left, right),
        _ => return (answer::FORM, 0, 0),
    };
    let rounds = pairs::rounds(&left, &right);
    match pairs::separation(&left, &right) {
        Some(string) => {
            word[..string.len()].copy_from_slice(&string);
            (answer::SEPARATED, string.len(), rounds)
        }
        None => (answer::SAME, 0, rounds),
    }
}

/// Packs a canonical room: the answer's number and the byte count of the form.
pub fn pack(room: &[u8], form: &mut [u8], bytes: &mut [u8], words: &mut [u64]) -> (u8, usize) {
    if room.len() < limits::ROOM || short_scratch(bytes, words) {
        return (answer::ROOM, 0);
    }
    clear(bytes, words);
    let machine = match Machine::read(room) {
        Some(machine) if canonical(room) => machine,
        _ => return (answer::FORM, 0),
    };
    let packed = form::packed(&machine);
    match form.get_mut(..packed.len()) {
        Some(output) => {
            output.copy_from_slice(&packed);
            (answer::DONE, packed.len())
        }
        None => (answer::ROOM, 0),
    }
}

/// Unpacks a form into a room.
pub fn unpack(form: &[u8], room: &mut [u8], bytes: &mut [u8], words: &mut [u64]) -> u8 {
    if room.len() < limits::ROOM || short_scratch(bytes, words) {
        return answer::ROOM;
    }
    clear(bytes, words);
    match form::unpacked(form) {
        Some(machine) => {
            write(&machine, room);
            answer::DONE
        }
        None => answer::FORM,
    }
}

/// Whether an entry form, or the rooms of so many fields, are shorter than they must be.
fn short_desk(count: usize, rooms: &[u8], form: &[u8]) -> bool {
    form.len() < limits::ENTRY_FORM || rooms.len() < count * limits::ROOM
}

/// Opens an entry form with so many fields, each with its room.
pub fn desk_open(count: usize, rooms: &[u8], form: &mut [u8]) -> u8 {
    if !(1..=limits::FIELDS).contains(&count) {
        return answer::FIELDS;
    }
    if short_desk(count, rooms, form) {
        return answer::ROOM;
    }
    match Desk::open(count, rooms) {
        Some(desk) => {
            form[..limits::ENTRY_FORM].copy_from_slice(&desk.form());
            answer::DONE
        }
        None => answer::FORM,
    }
}

/// Presses a key on an entry form.
pub fn desk_key(rooms: &[u8], form: &mut [u8], key: u8) -> u8 {
    let count = form.first().map_or(0, |&count| usize::from(count));
    if short_desk(count, rooms, form) {
        return answer::ROOM;
    }
    let form = &mut form[..limits::ENTRY_FORM];
    match Desk::showing(rooms, form) {
        Some(mut desk) => {
            let number = desk.key(key);
            form.copy_from_slice(&desk.form());
            number
        }
        None => answer::FORM,
    }
}
