//! The judgement of a pattern text: LONG, SYNTAX, RANGE, DEPTH, POSITIONS, each with its place.
//!
//! A prefix is viable if some continuation makes it legal. That is found by trying: finish an escape, finish a range or close a
//! class, add an atom, close what is open, and ask the recogniser. One of these few continuations works if any works at all.

use crate::answer;
use crate::limits;
use crate::text::{self, Tree};

/// The ends that finish an escape.
const ESCAPES: [&[u8]; 4] = [b"", b"\\", b"41", b"1"];
/// The ends that finish a range and close a class.
const CLASSES: [&[u8]; 3] = [b"", b"]", b"a]"];
/// The atom that may be missing.
const ATOMS: [&[u8]; 2] = [b"", b"a"];

/// Whether the text with these ends, and then all parentheses closed, is legal.
fn completes(prefix: &[u8], ends: [&[u8]; 3]) -> bool {
    let mut whole = prefix.to_vec();
    ends.iter().for_each(|end| whole.extend_from_slice(end));
    match text::tokens(&whole).and_then(|tokens| tokens.open()) {
        Some(open) => {
            whole.resize(whole.len() + open, b')');
            text::tree(&whole).is_some()
        }
        None => false,
    }
}

/// Whether some continuation makes the prefix legal.
pub fn viable(prefix: &[u8]) -> bool {
    ESCAPES.iter().any(|escape| {
        CLASSES.iter().any(|class| {
            ATOMS
                .iter()
                .any(|atom| completes(prefix, [escape, class, atom]))
        })
    })
}

/// Length of the longest viable prefix. A prefix of a viable text is viable, so the lengths are halved.
pub fn longest_viable(text: &[u8]) -> usize {
    let (mut good, mut bad) = (0, text.len() + 1);
    while good + 1 < bad {
        let middle = (good + bad) / 2;
        if viable(&text[..middle]) {
            good = middle;
        } else {
            bad = middle;
        }
    }
    good
}

/// The tree of a pattern that no refusal from LONG to POSITIONS meets, or the first such refusal with its place.
pub fn judge(pattern: &[u8]) -> Result<Tree, (u8, usize)> {
    if pattern.len() > limits::PATTERN {
        return Err((answer::LONG, 0));
    }
    let tree = match text::tree(pattern) {
        Some(tree) => tree,
        None => return Err((answer::SYNTAX, longest_viable(pattern))),
    };
    if let Some(range) = tree.ranges.iter().find(|range| range.low > range.high) {
        return Err((answer::RANGE, range.dash));
    }
    if let Some(open) = tree.opens.iter().find(|open| open.1 > limits::DEPTH) {
        return Err((answer::DEPTH, open.0));
    }
    if let Some(position) = tree.positions.get(limits::POSITIONS) {
        return Err((answer::POSITIONS, position.place));
    }
    Ok(tree)
}
