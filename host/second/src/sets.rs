//! Sets of positions, by an automaton with empty steps in Thompson's way.
//!
//! Each node of the tree has an entry and an exit; empty steps join them, and a position is the one step from its entry to its
//! exit that reads a byte. A mark copies nothing: the three differ only in whether a step leads past the part, and whether one
//! leads back to its entry. The set that a text reaches is the set of positions that can be the one read last; the text that has
//! no byte reaches {0}.

use std::collections::HashMap;

use crate::limits;
use crate::machine::Machine;
use crate::text::{Mark, Node, Position, Tree};

/// How many words of 64 bits a set has.
const WORDS: usize = limits::POSITIONS / 64 + 1;

/// A set of positions, of which 0 stands for the start: bit p % 64 of the word p / 64 is that of position p.
#[derive(Clone, Copy, PartialEq, Eq, Debug, Hash)]
pub struct Set([u64; WORDS]);

impl Set {
    /// The set of one position.
    fn one(position: usize) -> Set {
        [position].into_iter().collect()
    }

    /// Whether the set has the position.
    pub fn has(&self, position: usize) -> bool {
        self.0[position / 64] >> (position % 64) & 1 == 1
    }

    /// The positions that both sets have.
    fn common(mut self, other: &Set) -> Set {
        for (word, other) in self.0.iter_mut().zip(other.0) {
            *word &= other;
        }
        self
    }
}

impl FromIterator<usize> for Set {
    fn from_iter<I: IntoIterator<Item = usize>>(positions: I) -> Set {
        let mut words = [0; WORDS];
        for position in positions {
            words[position / 64] |= 1 << (position % 64);
        }
        Set(words)
    }
}

/// The automaton of a tree of no more positions than are taken.
pub struct Automaton {
    steps: Vec<Vec<usize>>,
    entries: Vec<usize>,
    positions: Vec<Position>,
}

/// The entry of the whole expression.
const START: usize = 0;
/// The exit of the whole expression.
const END: usize = 1;

fn entry(node: usize) -> usize {
    2 * node
}

fn exit(node: usize) -> usize {
    2 * node + 1
}

impl Automaton {
    /// The automaton of a tree.
    pub fn new(tree: &Tree) -> Automaton {
        let mut steps = vec![Vec::new(); 2 * tree.nodes.len()];
        let mut entries = vec![START; tree.positions.len() + 1];
        for (at, node) in tree.nodes.iter().enumerate() {
            match node {
                Node::Nothing => {}
                Node::Empty => steps[entry(at)].push(exit(at)),
                Node::Position(position) => entries[*position] = entry(at),
                Node::Union(parts) => {
                    for &part in parts {
                        steps[entry(at)].push(entry(part));
                        steps[exit(part)].push(exit(at));
                    }
                }
                Node::Product(parts) => {
                    let mut from = entry(at);
                    for &part in parts {
                        steps[from].push(entry(part));
                        from = exit(part);
                    }
                    steps[from].push(exit(at));
                }
                Node::Marked(mark, part) => {
                    steps[entry(at)].push(entry(*part));
                    steps[exit(*part)].push(exit(at));
                    if *mark != Mark::Plus {
                        steps[entry(at)].push(exit(at));
                    }
                    if *mark != Mark::Option {
                        steps[exit(*part)].push(entry(*part));
                    }
                }
            }
        }
        Automaton {
            steps,
            entries,
            positions: tree.positions.clone(),
        }
    }

    /// Which entries and exits empty steps reach after the positions of a set.
    fn closure(&self, set: &Set) -> Vec<bool> {
        let mut reached = vec![false; self.steps.len()];
        let mut waiting: Vec<usize> = (1..self.entries.len())
            .filter(|&position| set.has(position))
            .map(|position| self.entries[position] + 1)
            .collect();
        if set.has(0) {
            waiting.push(START);
        }
        while let Some(at) = waiting.pop() {
            if !std::mem::replace(&mut reached[at], true) {
                waiting.extend(&self.steps[at]);
            }
        }
        reached
    }

    /// The positions that can be read next after a set, and whether the text may end there.
    fn after(&self, set: &Set) -> (Set, bool) {
        let reached = self.closure(set);
        let next = (1..self.entries.len())
            .filter(|&position| reached[self.entries[position]])
            .collect();
        (next, reached[END])
    }

    /// Whether the expression has the empty word.
    pub fn null(&self) -> bool {
        self.after(&Set::one(0)).1
    }

    /// The positions that can be read first.
    pub fn first(&self) -> Set {
        self.after(&Set::one(0)).0
    }

    /// The positions that can be read last.
    pub fn last(&self) -> Set {
        (1..self.entries.len())
            .filter(|&position| self.after(&Set::one(position)).1)
            .collect()
    }

    /// The positions that can be read after a position.
    pub fn follow(&self, position: usize) -> Set {
        self.after(&Set::one(position)).0
    }

    /// The positions that hold a byte.
    fn holding(&self, byte: u8) -> Set {
        (1..self.entries.len())
            .filter(|&position| self.positions[position - 1].holds.has(byte))
            .collect()
    }

    /// The pattern class of each byte value, numbered by smallest byte, and the number of classes.
    pub fn pattern_classes(&self) -> (Vec<usize>, usize) {
        let mut known: Vec<Set> = Vec::new();
        let class = (0..limits::BYTES)
            .map(|byte| {
                let held = self.holding(byte as u8);
                known
                    .iter()
                    .position(|&other| other == held)
                    .unwrap_or_else(|| {
                        known.push(held);
                        known.len() - 1
                    })
            })
            .collect();
        (class, known.len())
    }

    /// The sets reached from {0}, in order of arrival, as a machine; none if they are more than `most`.
    pub fn reached(&self, most: usize) -> Option<(Vec<Set>, Machine)> {
        let (class, classes) = self.pattern_classes();
        let mut machine = Machine {
            states: 0,
            classes,
            class,
            marks: Vec::new(),
            cells: Vec::new(),
        };
        let holding: Vec<Set> = machine
            .samples()
            .into_iter()
            .map(|byte| self.holding(byte))
            .collect();
        let start = Set::one(0);
        let mut sets = vec![start];
        let mut known = HashMap::from([(start, 0)]);
        while machine.states < sets.len() {
            let (next, accepts) = self.after(&sets[machine.states]);
            machine.marks.push(accepts);
            machine.states += 1;
            for held in &holding {
                let set = next.common(held);
                let fresh = sets.len();
                let number = *known.entry(set).or_insert(fresh);
                if number == fresh {
                    sets.push(set);
                }
                machine.cells.push(number);
            }
            if sets.len() > most {
                return None;
            }
        }
        Some((sets, machine))
    }
}
