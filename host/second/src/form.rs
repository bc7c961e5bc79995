//! The packed form, as a list of bits built field by field.

use crate::limits::BYTES;
use crate::machine::Machine;
use crate::smallest::smallest;

/// The number of this form.
pub const NUMBER: usize = 1;
/// Bits of each field: form number, states less one, classes less one, a class, a mark, a cell.
const WIDTHS: [usize; 6] = [4, 7, 6, 6, 1, 7];

/// Adds a field, most significant bit first.
fn put(bits: &mut Vec<bool>, value: usize, width: usize) {
    bits.extend((0..width).rev().map(|at| value >> at & 1 == 1));
}

/// Takes a field off the front of the bits.
fn take(bits: &mut &[bool], width: usize) -> Option<usize> {
    let field = bits.get(..width)?;
    *bits = &bits[width..];
    Some(
        field
            .iter()
            .fold(0, |value, &bit| value * 2 + usize::from(bit)),
    )
}

/// The bits of a machine that fits a room, before filling.
pub fn bits(machine: &Machine) -> Vec<bool> {
    let [number, states, classes, class, mark, cell] = WIDTHS;
    let mut bits = Vec::new();
    put(&mut bits, NUMBER, number);
    put(&mut bits, machine.states - 1, states);
    put(&mut bits, machine.classes - 1, classes);
    machine
        .class
        .iter()
        .for_each(|&value| put(&mut bits, value, class));
    machine
        .marks
        .iter()
        .for_each(|&value| put(&mut bits, usize::from(value), mark));
    machine
        .cells
        .iter()
        .for_each(|&value| put(&mut bits, value, cell));
    bits
}

/// The bytes of a list of bits, filled with zero bits.
pub fn bytes(bits: &[bool]) -> Vec<u8> {
    bits.chunks(8)
        .map(|chunk| {
            (0..8).fold(0, |byte, at| {
                byte * 2 + u8::from(chunk.get(at) == Some(&true))
            })
        })
        .collect()
}

/// The form of a machine that fits a room, canonical or not.
pub fn packed(machine: &Machine) -> Vec<u8> {
    bytes(&bits(machine))
}

/// The canonical machine whose form these bytes are, if they are one.
pub fn unpacked(form: &[u8]) -> Option<Machine> {
    let all: Vec<bool> = form
        .iter()
        .flat_map(|byte| (0..8).rev().map(move |at| byte >> at & 1 == 1))
        .collect();
    let [number, states, classes, class, mark, cell] = WIDTHS;
    let mut rest = &all[..];
    if take(&mut rest, number)? != NUMBER {
        return None;
    }
    let states = take(&mut rest, states)? + 1;
    let classes = take(&mut rest, classes)? + 1;
    let mut fields = |count: usize, width: usize| -> Option<Vec<usize>> {
        (0..count).map(|_| take(&mut rest, width)).collect()
    };
    let class = fields(BYTES, class)?;
    let marks = fields(states, mark)?;
    let cells = fields(states * classes, cell)?;
    if rest.len() >= 8 || rest.contains(&true) {
        return None;
    }
    let in_bounds =
        class.iter().all(|&class| class < classes) && cells.iter().all(|&cell| cell < states);
    if !in_bounds {
        return None;
    }
    let machine = Machine {
        states,
        classes,
        class,
        marks: marks.into_iter().map(|mark| mark == 1).collect(),
        cells,
    };
    if smallest(&machine) == machine {
        Some(machine)
    } else {
        None
    }
}
