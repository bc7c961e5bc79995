//! Drawing patterns, texts, rooms, forms and keys from a seed, for the comparison run.
//!
//! The same seed draws the same things. What is drawn is not judged here: a pattern near a limit may stand on either side of it.

use second::machine::Machine;
use second::matching::live;

mod desks;
mod patterns;
mod rooms;
mod ways;

pub use desks::{EntryDamage, Typing, ENTRY_DAMAGES};
pub use patterns::{Alphabet, Limit, LIMITS};
pub use rooms::{bound_pair, FormDamage, RoomDamage, FORM_DAMAGES, ROOM_DAMAGES};
pub use ways::{WayDamage, WAY_DAMAGES};

/// A source of drawn things: splitmix64 over a seed.
#[derive(Clone, Debug)]
pub struct Draw {
    state: u64,
}

impl Draw {
    /// The source of a seed.
    pub fn new(seed: u64) -> Draw {
        Draw { state: seed }
    }

    /// The next 64 bits.
    pub fn bits(&mut self) -> u64 {
        self.state = self.state.wrapping_add(0x9e37_79b9_7f4a_7c15);
        let mut mixed = self.state;
        mixed = (mixed ^ mixed >> 30).wrapping_mul(0xbf58_476d_1ce4_e5b9);
        mixed = (mixed ^ mixed >> 27).wrapping_mul(0x94d0_49bb_1331_11eb);
        mixed ^ mixed >> 31
    }

    /// A number below a bound that is not 0.
    pub fn below(&mut self, bound: usize) -> usize {
        ((u128::from(self.bits()) * bound as u128) >> 64) as usize
    }

    /// A number from low to high, both included.
    pub fn between(&mut self, low: usize, high: usize) -> usize {
        low + self.below(high - low + 1)
    }

    /// True once in so many times.
    pub fn once_in(&mut self, times: usize) -> bool {
        self.below(times) == 0
    }

    /// Any byte.
    pub fn byte(&mut self) -> u8 {
        self.bits() as u8
    }

    /// One of the things, which must not be none.
    pub fn pick<T: Copy>(&mut self, things: &[T]) -> T {
        things[self.below(things.len())]
    }

    /// Puts the things in some order.
    pub fn shuffle<T>(&mut self, things: &mut [T]) {
        for at in (1..things.len()).rev() {
            let other = self.below(at + 1);
            things.swap(at, other);
        }
    }
}

/// Texts to match.
impl Draw {
    /// A text of a length over an alphabet that must not be empty.
    pub fn text(&mut self, length: usize, alphabet: &[u8]) -> Vec<u8> {
        (0..length).map(|_| self.pick(alphabet)).collect()
    }

    /// A text of at most a length that mostly walks among the live states of a machine.
    pub fn walk(&mut self, machine: &Machine, most: usize) -> Vec<u8> {
        let live = live(machine);
        let samples = machine.samples();
        let (mut text, mut state) = (Vec::new(), 0);
        for _ in 0..self.below(most + 1) {
            let good: Vec<u8> = samples
                .iter()
                .copied()
                .filter(|&byte| live[machine.next(state, byte)])
                .collect();
            let byte = if good.is_empty() || self.once_in(20) {
                self.byte()
            } else {
                self.pick(&good)
            };
            state = machine.next(state, byte);
            text.push(byte);
        }
        text
    }
}
