//! All small cases of a kind.

use std::collections::HashSet;

use cases::exhaustive::{patterns, strings};
use second::desk::{Desk, BACK, ENTER};
use second::limits;
use second::machine::Machine;

use crate::case::{Case, Operation};

/// All texts of up to so many pattern bytes, to be compiled.
pub fn compiling(most: usize) -> impl Iterator<Item = Case> {
    patterns(most).map(|pattern| Case::new(Operation::Compile, &[&pattern]))
}

/// All texts of up to so many bytes of those that make hex escapes, of the line end among others, ranges and dots, to be compiled.
pub fn hex(most: usize) -> impl Iterator<Item = Case> {
    strings(b"\\x0aG[]-.", most).map(|pattern| Case::new(Operation::Compile, &[&pattern]))
}

/// All patterns of up to so many pattern bytes that are taken.
pub fn taken(most: usize) -> Vec<Vec<u8>> {
    patterns(most)
        .filter(|pattern| second::machine(pattern).is_ok())
        .collect()
}

/// All machines of so many states and classes in which byte a has the class given and every other byte class 0.
pub fn machines(states: usize, classes: usize, class: usize) -> impl Iterator<Item = Machine> {
    let cells = states * classes;
    let goals: Vec<u8> = (0..states as u8).collect();
    let mut map = vec![0; limits::BYTES];
    map[usize::from(b'a')] = class;
    let tables = strings(&goals, cells).filter(move |table| table.len() == cells);
    tables.flat_map(move |table| {
        let map = map.clone();
        (0..1 << states).map(move |marks: usize| Machine {
            states,
            classes,
            class: map.clone(),
            marks: (0..states).map(|state| marks >> state & 1 == 1).collect(),
            cells: table.iter().map(|&cell| usize::from(cell)).collect(),
        })
    })
}

/// The rooms of a machine with each of these ways for each of its states, in every way.
pub fn ways(machine: &Machine, ways: &[u16]) -> Vec<Vec<u8>> {
    let (room, states) = (machine.room(), machine.states);
    let numbers: Vec<u8> = (0..ways.len() as u8).collect();
    let choices = strings(&numbers, states).filter(|choice| choice.len() == states);
    choices
        .map(|choice| {
            let chosen = choice.iter().map(|&number| ways[usize::from(number)]);
            let bytes: Vec<u8> = chosen.flat_map(u16::to_be_bytes).collect();
            let mut room = room.clone();
            room[limits::WAY_AT..][..bytes.len()].copy_from_slice(&bytes);
            room
        })
        .collect()
}

/// The rooms that differ from a room in one byte of its ways.
pub fn changed_ways(room: &[u8]) -> impl Iterator<Item = Vec<u8>> + '_ {
    let places = limits::WAY_AT..limits::ROOM;
    places.flat_map(move |at| {
        let values = (0..=255).filter(move |&value| value != room[at]);
        values.map(move |value| {
            let mut room = room.to_vec();
            room[at] = value;
            room
        })
    })
}

/// A case with each of its buffers short by one, exact and longer by three, in every way, zero and dirty.
pub fn buffers(operation: Operation, reads: &[&[u8]], exact: usize) -> Vec<Case> {
    let rooms = match operation {
        Operation::Compile | Operation::Unpack => 0,
        Operation::Compare => 2,
        _ => 1,
    };
    let mut cases = Vec::new();
    for choice in 0.. {
        let mut rest = choice / 2;
        let mut length = |exact: usize| {
            let length = [exact - 1, exact, exact + 3][rest % 3];
            rest /= 3;
            length
        };
        let dirt = if choice % 2 == 0 { 0 } else { 0xb7 };
        let mut case = Case::new(operation, reads);
        for read in &mut case.reads[..rooms] {
            read.resize(length(limits::ROOM), dirt);
        }
        if operation != Operation::Match {
            case.output = vec![dirt; length(exact)];
            case.bytes = vec![dirt; length(limits::SCRATCH_BYTES)];
            case.words = vec![u64::from(dirt) << 32; length(limits::SCRATCH_WORDS)];
        }
        if rest > 0 {
            break;
        }
        cases.push(case);
    }
    cases
}

/// All forms that up to so many of the keys lead to, each once.
pub fn forms(count: usize, rooms: &[u8], keys: &[u8], most: usize) -> Vec<Vec<u8>> {
    let mut desks = vec![Desk::open(count, rooms).expect("sound rooms")];
    let mut known = HashSet::from([desks[0].form()]);
    let mut from = 0;
    for _ in 0..most {
        let to = desks.len();
        for at in from..to {
            for &key in keys {
                let mut desk = desks[at].clone();
                desk.key(key);
                if known.insert(desk.form()) {
                    desks.push(desk);
                }
            }
        }
        from = to;
    }
    desks.iter().map(Desk::form).collect()
}

/// All forms that differ from a form in one byte: any other value before the texts, a few others in the texts.
pub fn changed(form: &[u8]) -> impl Iterator<Item = Vec<u8>> + '_ {
    let values = |at: usize| match at {
        0..=17 => (0..=255).collect(),
        _ => vec![0, b'\n', BACK, ENTER, b'a'],
    };
    let changes =
        (0..form.len()).flat_map(move |at| values(at).into_iter().map(move |to| (at, to)));
    changes.filter(|&(at, to)| form[at] != to).map(|(at, to)| {
        let mut form = form.to_vec();
        form[at] = to;
        form
    })
}

/// A case of the desk with its form of every length up to a few more bytes than it needs, and then with its rooms of every length about a whole number of them.
pub fn desk_lengths(case: &Case) -> Vec<Case> {
    let mut cases = Vec::new();
    for length in 0..=limits::ENTRY_FORM + 4 {
        let mut other = case.clone();
        other.output.resize(length, 0xb7);
        cases.push(other);
    }
    let rooms = case.reads[0].len() / limits::ROOM;
    for length in (0..=rooms + 1).flat_map(|rooms| {
        let exact = rooms * limits::ROOM;
        exact.saturating_sub(3)..=exact + 3
    }) {
        let mut other = case.clone();
        other.reads[0].resize(length, 0xb7);
        cases.push(other);
    }
    cases
}
