//! The entry desk: forms that are opened and typed key by key, and single calls.

use cases::draw::{Draw, Typing, ENTRY_DAMAGES};
use second::desk::{Desk, BACK, ENTER};
use second::limits::{self, FIELDS};
use second::machine::Machine;

use super::{content, legal, length, machine, source};
use crate::case::Case;
use crate::many::Tally;

/// Patterns of fields that may be left empty, end at once, fill up, have no word, or have none that can be typed.
const PATTERNS: [&[u8]; 10] = [
    b"\\e",
    b"\\0",
    b"a\\0",
    b".*",
    b"a*b*",
    b"[0-9A-F][0-9A-F]*",
    b"([03569ACF][12478BDE]|[12478BDE][03569ACF])",
    b"\\x08|\\x0d",
    b"a(b|\\x0d)*",
    b"(ab*|a)b",
];

/// So many single calls are run for each form that is typed.
const SINGLE: u64 = 4;

/// Runs what is drawn of a seed and a number: a form that is opened and typed, and a few single calls.
pub fn run(tally: &mut Tally, seed: u64, number: u64) {
    let (opening, keys) = typing(seed, number);
    tally.type_keys(&format_args!("seed {seed}, desk {number}"), opening, &keys);
    for number in SINGLE * number..SINGLE * (number + 1) {
        let name = format!("seed {seed}, single call {number}");
        tally.run(&name, &case(seed, number));
    }
}

/// The form of a seed and a number, as the case that opens it, and the keys to press on it.
pub fn typing(seed: u64, number: u64) -> (Case, Vec<u8>) {
    // The single calls are drawn from the even numbers.
    let draw = &mut source(seed, 2 * number + 1);
    let machines = machines(draw);
    let mut keys = typed(draw, &machines).1;
    let rooms = lent(draw, &machines);
    let form = length(draw, limits::ENTRY_FORM);
    let form = content(draw, form);
    // On a form that is not opened two keys are enough.
    if form.len() < limits::ENTRY_FORM || Desk::open(machines.len(), &rooms).is_none() {
        keys.truncate(2);
    }
    (Case::opening(machines.len(), &rooms, &form), keys)
}

/// The single call of a seed and a number: an opening, or a key on a form that is whole or damaged.
pub fn case(seed: u64, number: u64) -> Case {
    let draw = &mut source(seed, 2 * number);
    let machines = machines(draw);
    let rooms = lent(draw, &machines);
    let form = length(draw, limits::ENTRY_FORM);
    let mut form = content(draw, form);
    if draw.once_in(4) {
        let count = machines.len();
        let count = match draw.below(4) {
            0 => draw.pick(&[0, FIELDS + 1, 255, 256 + count, usize::MAX]),
            1 => count + draw.below(2),
            _ => count,
        };
        return Case::opening(count, &rooms, &form);
    }
    let (desk, _) = typed(draw, &machines);
    let mut shown = desk.form();
    if !draw.once_in(3) {
        let damage = draw.pick(&ENTRY_DAMAGES);
        shown = draw.damaged_entry(&shown, damage);
    }
    let front = form.len().min(shown.len());
    form[..front].copy_from_slice(&shown[..front]);
    let key = match draw.below(4) {
        0 => draw.pick(&[BACK, ENTER]),
        1 => draw.pick(b"\nab0"),
        _ => draw.key(&desk, Typing::Along),
    };
    Case::pressing(&rooms, &form, key)
}

/// The machines of the fields, of one to four most often.
fn machines(draw: &mut Draw) -> Vec<Machine> {
    let count = match draw.below(16) {
        0 => FIELDS,
        1 => draw.between(5, FIELDS),
        _ => draw.between(1, 4),
    };
    (0..count).map(|_| field(draw)).collect()
}

/// The machine of a field, canonical or not.
fn field(draw: &mut Draw) -> Machine {
    let pattern = match draw.below(16) {
        0 => return machine(draw),
        1..=3 => return draw.machine(),
        4..=8 => draw.pick(&PATTERNS).to_vec(),
        _ => legal(draw, 9),
    };
    match second::machine(&pattern) {
        Ok(machine) if draw.once_in(3) => draw.relabelled(&machine),
        Ok(machine) => machine,
        Err(_) => draw.machine(),
    }
}

/// The machines' rooms end to end.
fn end_to_end(machines: &[Machine]) -> Vec<u8> {
    machines.iter().flat_map(Machine::room).collect()
}

/// The rooms as they may be lent: one of them damaged, two exchanged, with a tail or another room behind, or too short.
fn lent(draw: &mut Draw, machines: &[Machine]) -> Vec<u8> {
    let mut machines = machines.to_vec();
    let (one, other) = (draw.below(machines.len()), draw.below(machines.len()));
    if draw.once_in(24) {
        machines.swap(one, other);
    }
    let mut rooms = end_to_end(&machines);
    if draw.once_in(12) {
        let room = one * limits::ROOM..(one + 1) * limits::ROOM;
        let damaged = draw.any_damage(&rooms[room.clone()]);
        rooms[room].copy_from_slice(&damaged);
    }
    if draw.once_in(16) {
        rooms.extend(field(draw).room());
        return rooms;
    }
    let length = length(draw, rooms.len());
    let tail = content(draw, length.saturating_sub(rooms.len()));
    rooms.truncate(length);
    rooms.extend(tail);
    rooms
}

/// A desk at which keys were pressed, and the keys.
fn typed(draw: &mut Draw, machines: &[Machine]) -> (Desk, Vec<u8>) {
    let mut desk = Desk::open(machines.len(), &end_to_end(machines)).expect("sound rooms");
    let (typing, count) = match draw.below(16) {
        0 => (Typing::Long, draw.between(100, 150)),
        1 | 2 => (Typing::Wild, draw.below(30)),
        _ => (Typing::Along, draw.below(60)),
    };
    let keys = draw.keys(&mut desk, typing, count);
    (desk, keys)
}
