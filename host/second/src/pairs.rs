//! Pairs of states: how short a string tells two states apart, and the first shortest string between two starts.
//!
//! Lengths are found for all pairs at once, backward, in breadth: pairs with different marks are told apart by no byte, and a pair
//! that some byte sends to a pair told apart by d bytes is told apart by d + 1. Rounds are the greatest length so found.

use std::collections::VecDeque;

use crate::limits::BYTES;
use crate::machine::Machine;

/// Lengths of the shortest strings that tell states apart, of several machines side by side.
pub struct Apart {
    size: usize,
    lengths: Vec<Option<usize>>,
}

impl Apart {
    /// The lengths for all states of the machines together, reached or not.
    pub fn new(machines: &[&Machine]) -> Apart {
        let marks: Vec<bool> = machines
            .iter()
            .flat_map(|machine| machine.marks.iter().copied())
            .collect();
        let size = marks.len();
        let before = before(machines, size);
        let mut apart = Apart {
            size,
            lengths: vec![None; size * size],
        };
        let mut waiting = VecDeque::new();
        for left in 0..size {
            for right in 0..left {
                if marks[left] != marks[right] {
                    apart.lengths[left * size + right] = Some(0);
                    waiting.push_back((left, right, 0));
                }
            }
        }
        while let Some((left, right, length)) = waiting.pop_front() {
            for column in &before {
                for &first in &column[left] {
                    for &second in &column[right] {
                        let (high, low) = (first.max(second), first.min(second));
                        let place = &mut apart.lengths[high * size + low];
                        if place.is_none() {
                            *place = Some(length + 1);
                            waiting.push_back((high, low, length + 1));
                        }
                    }
                }
            }
        }
        apart
    }

    /// The length of the shortest string that tells two states apart, if any does.
    pub fn length(&self, left: usize, right: usize) -> Option<usize> {
        self.lengths[left.max(right) * self.size + left.min(right)]
    }

    /// The greatest length, 0 if there is none.
    pub fn rounds(&self) -> usize {
        self.lengths.iter().flatten().copied().max().unwrap_or(0)
    }
}

/// One byte, the smallest, of each joint class of the machines, ascending.
fn joint_samples(machines: &[&Machine]) -> Vec<u8> {
    let joints = machines.iter().map(|machine| machine.classes).product();
    let mut seen = vec![false; joints];
    (0..BYTES)
        .filter(|&byte| {
            let joint = machines.iter().fold(0, |joint, machine| {
                joint * machine.classes + machine.class[byte]
            });
            !std::mem::replace(&mut seen[joint], true)
        })
        .map(|byte| byte as u8)
        .collect()
}

/// For each joint class, and each state, the states that the class sends to it.
fn before(machines: &[&Machine], size: usize) -> Vec<Vec<Vec<usize>>> {
    joint_samples(machines)
        .into_iter()
        .map(|byte| {
            let mut column = vec![Vec::new(); size];
            let mut base = 0;
            for machine in machines {
                for state in 0..machine.states {
                    column[base + machine.next(state, byte)].push(base + state);
                }
                base += machine.states;
            }
            column
        })
        .collect()
}

/// The first, in byte order, of the shortest strings that separate the two starts, if any does.
pub fn separation(left: &Machine, right: &Machine) -> Option<Vec<u8>> {
    let samples = joint_samples(&[left, right]);
    let mut seen = vec![false; left.states * right.states];
    seen[0] = true;
    // Each pair met, with the number of the pair it was met from and the byte.
    let mut met = vec![(0, 0, 0, 0)];
    let mut at = 0;
    while at < met.len() {
        let (one, other, _, _) = met[at];
        if left.marks[one] != right.marks[other] {
            let mut word = Vec::new();
            while at != 0 {
                word.push(met[at].3);
                at = met[at].2;
            }
            word.reverse();
            return Some(word);
        }
        for &byte in &samples {
            let (one, other) = (left.next(one, byte), right.next(other, byte));
            if !std::mem::replace(&mut seen[one * right.states + other], true) {
                met.push((one, other, at, byte));
            }
        }
        at += 1;
    }
    None
}

/// The number of rounds of the two machines together.
pub fn rounds(left: &Machine, right: &Machine) -> usize {
    Apart::new(&[left, right]).rounds()
}
