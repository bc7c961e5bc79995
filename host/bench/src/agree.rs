//! Before anything is measured: that ours, libfa, RE2 and the plain loops accept the same strings.

use crate::fa::Automaton;
use crate::ours::room_of;
use crate::plain;
use crate::re2::Matcher;
use crate::subjects::{Pattern, Subject};
use palgondur::raw;

/// Letters of the strings that are tried, and how long these are at most.
const ALPHABET: &[u8] = b"ab0F1x";
const LONGEST: usize = 5;

/// Tries every pattern and answers the number of strings that were tried; a disagreement ends the program.
pub fn check(subjects: &[Subject]) -> usize {
    let mut tried = 0;
    for subject in subjects {
        let mut texts = strings();
        texts.extend((7..40).map(subject.text));
        for pattern in [&subject.pattern, &subject.other] {
            check_pattern(pattern, &texts);
            tried += texts.len();
        }
    }
    tried
}

fn check_pattern(pattern: &Pattern, texts: &[Vec<u8>]) {
    let room = room_of(&pattern.text);
    let (fa, re2) = (
        Automaton::smallest(&pattern.text),
        Matcher::new(&pattern.text),
    );
    for text in texts {
        let ours = raw::match_text(&room, text).0 == 0;
        // Sound: the room was compiled.
        let loops = [plain::safe(&room, text), unsafe {
            plain::unchecked(&room, text)
        }];
        let all = [
            ours,
            loops[0],
            loops[1],
            fa.accepts(text),
            re2.accepts(text),
        ];
        let shown = String::from_utf8_lossy(text);
        assert!(
            all.iter().all(|&one| one == ours),
            "{} on {shown}: {all:?}",
            pattern.text
        );
    }
}

/// All strings of the alphabet, up to the greatest length.
fn strings() -> Vec<Vec<u8>> {
    let mut all = vec![Vec::new()];
    let mut from = 0;
    for _ in 0..LONGEST {
        let to = all.len();
        for i in from..to {
            for &letter in ALPHABET {
                let longer = [&all[i][..], &[letter]].concat();
                all.push(longer);
            }
        }
        from = to;
    }
    all
}
