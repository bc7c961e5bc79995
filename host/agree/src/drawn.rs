//! Cases drawn from a seed: case N of a seed is always the same one. Those of the entry desk are numbered by themselves.

use cases::draw::{bound_pair, Alphabet, Draw, FORM_DAMAGES, LIMITS};
use second::form;
use second::limits;
use second::machine::Machine;
use second::smallest::smallest;

use crate::case::{form_length, Case, Operation};

pub mod desk;

/// The source of a seed and a number.
fn source(seed: u64, number: u64) -> Draw {
    let first = Draw::new(seed).bits();
    Draw::new(Draw::new(first ^ number).bits())
}

/// The case of a seed and a number, of all operations but the desk's.
pub fn case(seed: u64, number: u64) -> Case {
    let draw = &mut source(seed, number);
    match draw.below(16) {
        0..=4 => {
            let text = pattern(draw);
            lent(draw, Operation::Compile, vec![text], limits::ROOM)
        }
        5 | 6 => {
            let from = any_room(draw);
            lent(draw, Operation::Minimise, vec![from], limits::ROOM)
        }
        7 | 8 => matching(draw),
        9..=11 => comparing(draw),
        12 | 13 => packing(draw),
        _ => {
            let packed = any_form(draw);
            lent(draw, Operation::Unpack, vec![packed], limits::ROOM)
        }
    }
}

/// A case with drawn buffers; its output should have the exact length given.
fn lent(draw: &mut Draw, operation: Operation, reads: Vec<Vec<u8>>, exact: usize) -> Case {
    let (output, bytes, words) = (
        length(draw, exact),
        length(draw, limits::SCRATCH_BYTES),
        length(draw, limits::SCRATCH_WORDS),
    );
    Case {
        operation,
        reads,
        number: 0,
        output: content(draw, output),
        bytes: content(draw, bytes),
        words: content(draw, words)
            .into_iter()
            .map(|byte| u64::from(byte) << 40 | u64::from(byte))
            .collect(),
    }
}

/// Most often the exact length, else a longer or a shorter one.
fn length(draw: &mut Draw, exact: usize) -> usize {
    match draw.below(64) {
        0 => exact - 1,
        1 => draw.below(exact),
        2..=20 => exact + draw.between(1, 40),
        _ => exact,
    }
}

/// What a buffer holds before: zero, one byte, or some of each.
fn content(draw: &mut Draw, length: usize) -> Vec<u8> {
    match draw.below(4) {
        0 => vec![0; length],
        1 => vec![draw.byte(); length],
        _ => {
            let (start, step) = (draw.byte(), draw.byte() | 1);
            (0..length)
                .map(|at| (at as u8).wrapping_mul(step) ^ start)
                .collect()
        }
    }
}

fn either(draw: &mut Draw) -> Alphabet {
    draw.pick(&[Alphabet::Small, Alphabet::Full])
}

/// A legal pattern of up to so many atoms.
fn legal(draw: &mut Draw, most: usize) -> Vec<u8> {
    let (atoms, alphabet) = (draw.between(1, most), either(draw));
    draw.legal(atoms, alphabet)
}

/// Any pattern: legal, with ranges in any order, changed, near a limit, or of bytes in any order.
pub fn pattern(draw: &mut Draw) -> Vec<u8> {
    match draw.below(32) {
        0..=9 => legal(draw, 9),
        10..=12 => legal(draw, 40),
        13..=15 => draw.ranges(5),
        16..=23 => {
            let text = legal(draw, 12);
            draw.mutated(&text)
        }
        24..=26 => {
            let limit = draw.pick(&LIMITS);
            draw.near(limit)
        }
        27 => {
            let limit = draw.pick(&LIMITS);
            let text = draw.near(limit);
            draw.mutated(&text)
        }
        28 => {
            let length = draw.below(40);
            (0..length).map(|_| draw.byte()).collect()
        }
        _ => {
            let length = draw.below(16);
            draw.text(length, b"ab()|*+?[]-\\x0e.4^{")
        }
    }
}

/// The machine of a pattern that is taken.
fn compiled(draw: &mut Draw) -> Machine {
    loop {
        if let Ok(machine) = second::machine(&pattern(draw)) {
            return machine;
        }
    }
}

/// A canonical machine.
fn canonical(draw: &mut Draw) -> Machine {
    match draw.below(3) {
        0 => smallest(&draw.machine()),
        _ => compiled(draw),
    }
}

/// A machine that fits a room, canonical or not.
fn machine(draw: &mut Draw) -> Machine {
    match draw.below(4) {
        0 => draw.machine(),
        1 => {
            let machine = canonical(draw);
            draw.relabelled(&machine)
        }
        _ => canonical(draw),
    }
}

/// A room as it may be lent to be read: with damage, with a tail, or too short.
fn spoilt(draw: &mut Draw, machine: &Machine) -> Vec<u8> {
    let mut room = machine.room();
    if draw.once_in(6) {
        room = draw.any_damage(&room);
    }
    let length = length(draw, limits::ROOM);
    let tail = content(draw, length.saturating_sub(limits::ROOM));
    room.truncate(length);
    room.extend(tail);
    room
}

fn any_room(draw: &mut Draw) -> Vec<u8> {
    let machine = machine(draw);
    spoilt(draw, &machine)
}

/// Matching: a text that walks among live states, one of the bytes of a pattern, or any bytes, now and then a long one.
fn matching(draw: &mut Draw) -> Case {
    let machine = machine(draw);
    let text = match draw.below(8) {
        0 => {
            let length = draw.below(30);
            draw.text(length, b"\nabc")
        }
        1 => {
            let length = draw.below(3000);
            let samples = machine.samples();
            draw.text(length, &samples)
        }
        _ => draw.walk(&machine, 24),
    };
    Case::new(Operation::Match, &[&spoilt(draw, &machine), &text])
}

/// Two machines: any two, two of the same strings, two that differ in one cell or mark, a pattern and a changed one, or two at the bound.
fn pair(draw: &mut Draw) -> (Machine, Machine) {
    let left = machine(draw);
    let right = match draw.below(12) {
        0..=3 => machine(draw),
        4 | 5 => draw.relabelled(&left),
        6 | 7 => {
            let mut right = draw.relabelled(&left);
            let (cell, mark) = (draw.below(right.cells.len()), draw.below(right.states));
            if draw.once_in(2) {
                right.cells[cell] = mark;
            } else {
                right.marks[mark] = !right.marks[mark];
            }
            right
        }
        8..=10 => {
            let text = legal(draw, 9);
            let other = draw.mutated(&text);
            match (second::machine(&text), second::machine(&other)) {
                (Ok(one), Ok(other)) => return (one, other),
                _ => machine(draw),
            }
        }
        _ if draw.once_in(8) => return bound_pair(draw.below(2)),
        _ => left.clone(),
    };
    if draw.once_in(2) {
        (left, right)
    } else {
        (right, left)
    }
}

fn comparing(draw: &mut Draw) -> Case {
    let (left, right) = pair(draw);
    let reads = vec![spoilt(draw, &left), spoilt(draw, &right)];
    lent(draw, Operation::Compare, reads, limits::WORD)
}

/// Packing, most often of a canonical room, into an output near the form's length.
fn packing(draw: &mut Draw) -> Case {
    let machine = if draw.once_in(5) {
        machine(draw)
    } else {
        canonical(draw)
    };
    let room = spoilt(draw, &machine);
    let exact = form_length(machine.states, machine.classes);
    let exact = exact + draw.pick(&[0, 0, 0, 0, 1, 500]);
    let mut case = lent(draw, Operation::Pack, vec![room], exact);
    if draw.once_in(12) {
        case.output
            .truncate(form_length(machine.states, machine.classes) - 1);
    }
    case
}

/// The form of a canonical machine, whole or with damage of any kind; or bytes in any order.
fn any_form(draw: &mut Draw) -> Vec<u8> {
    if draw.once_in(40) {
        let length = draw.below(300);
        return content(draw, length);
    }
    let machine = canonical(draw);
    if draw.once_in(3) {
        return form::packed(&machine);
    }
    let damage = draw.pick(&FORM_DAMAGES);
    draw.damaged_form(&machine, damage)
}
