//! The parts of the second program against each other: two ways to each answer.

use cases::draw::{bound_pair, Alphabet, Draw, FORM_DAMAGES};
use cases::exhaustive::{patterns, strings};
use second::answer::*;
use second::derive::Language;
use second::judge::{judge, longest_viable, viable};
use second::machine::Machine;
use second::matching::{answer_by, live};
use second::pairs::{rounds, separation, Apart};
use second::smallest::{joined, numbered, smallest, twice_reversed};
use second::{canonical, limits, sound};

/// The language and the machine of a pattern that is taken.
fn both(pattern: &[u8]) -> Option<(Language, Machine)> {
    let machine = second::machine(pattern).ok()?;
    Some((Language::new(&judge(pattern).ok()?), machine))
}

fn agree(pattern: &[u8], texts: &mut dyn Iterator<Item = Vec<u8>>) {
    if let Some((mut language, machine)) = both(pattern) {
        // The room is read, and its live states are found, once for all texts.
        let read = Machine::read(&machine.room()).expect("sound");
        let live = live(&read);
        for text in texts {
            let answer = answer_by(&read, &live, &text);
            assert_eq!(answer, language.answer(&text), "{}", pattern.escape_ascii());
            assert_eq!(answer.0 == ACCEPTED, language.has(&text));
            assert_eq!(answer.0 == ACCEPTED, machine.marks[machine.run(&text)]);
        }
    }
}

#[test]
fn derivatives_and_rooms_agree() {
    let mut draw = Draw::new(1);
    for _ in 0..400 {
        let atoms = draw.between(1, 9);
        let pattern = draw.legal(atoms, Alphabet::Small);
        agree(&pattern, &mut strings(b"\nabc", 5));
    }
    for _ in 0..200 {
        let atoms = draw.between(1, 9);
        let pattern = draw.legal(atoms, Alphabet::Full);
        if let Ok(machine) = second::machine(&pattern) {
            agree(
                &pattern,
                &mut strings(&machine.samples()[..machine.classes.min(5)], 4),
            );
            agree(&pattern, &mut (0..20).map(|_| draw.walk(&machine, 12)));
        }
    }
}

#[test]
fn derivatives_and_rooms_agree_on_all_short_patterns() {
    for pattern in patterns(4) {
        agree(&pattern, &mut strings(b"\0\nabc", 3));
    }
}

#[test]
fn legal_texts_by_rewriting() {
    // Every atom of up to four pattern bytes, parentheses aside, becomes a letter; then what is made of letters, until nothing does.
    let ascii = |text: Vec<u8>| String::from_utf8(text).expect("ASCII");
    let escapes = "\\|*+?()[]-.".chars().map(|byte| format!("\\{byte}"));
    let inside = strings(b"ab|*+?()e0.", 2).skip(1).map(ascii);
    let classes = inside.map(|inside| format!("[{inside}]"));
    let others = ["\\e", "\\0", "b", "e", "0", "-", "."].map(String::from);
    let atoms: Vec<String> = escapes.chain(classes).chain(others).collect();
    let made = ["a*", "a+", "a?", "aa", "a|a", "(a)"];
    for text in patterns(4) {
        let mut rest = ascii(text.clone());
        for atom in &atoms {
            rest = rest.replace(atom, "a");
        }
        for whole in made.repeat(text.len()) {
            rest = rest.replace(whole, "a");
        }
        let legal = second::text::tree(&text).is_some();
        assert_eq!(legal, rest == "a", "{}", text.escape_ascii());
    }
}

#[test]
fn viable_prefixes_by_trying_every_continuation() {
    // Every continuation of up to four bytes: a prefix of three bytes needs no longer one.
    let bytes = b"a|*+?()[]-\\x0";
    let mut lost = std::collections::HashSet::new();
    for prefix in strings(bytes, 3) {
        let begun = prefix.split_last().map_or(&[][..], |(_, begun)| begun);
        let legal = |end: Vec<u8>| second::text::tree(&[&prefix[..], &end].concat()).is_some();
        let some = !lost.contains(begun) && strings(bytes, 4).any(legal);
        assert_eq!(viable(&prefix), some, "{}", prefix.escape_ascii());
        if !some {
            lost.insert(prefix);
        }
    }
}

#[test]
fn longest_viable_prefix_by_counting_up() {
    let mut draw = Draw::new(2);
    for turn in 0..3000 {
        let atoms = draw.between(1, 12);
        let kind = if turn % 2 == 0 {
            Alphabet::Small
        } else {
            Alphabet::Full
        };
        let legal = draw.legal(atoms, kind);
        let text = draw.mutated(&legal);
        let count = (1..=text.len())
            .take_while(|&length| viable(&text[..length]))
            .count();
        assert_eq!(longest_viable(&text), count, "{}", text.escape_ascii());
        assert!(second::text::tree(&legal).is_some());
    }
}

#[test]
fn both_ways_to_the_smallest_agree() {
    let mut draw = Draw::new(3);
    for _ in 0..600 {
        let machine = draw.machine();
        let small = numbered(&joined(&machine));
        if let Some(twice) = twice_reversed(&machine) {
            assert_eq!(numbered(&twice), small);
        }
        assert_eq!(smallest(&machine), small);
        assert_eq!(smallest(&small), small);
        let room = machine.room();
        assert_eq!(Machine::read(&room).as_ref(), Some(&machine));
        assert_eq!(canonical(&room), machine == small);
        assert!(canonical(&small.room()));
        let other = draw.relabelled(&machine);
        assert!(sound(&other.room()));
        assert_eq!(smallest(&other), small);
        assert_eq!(separation(&machine, &other), None);
    }
}

#[test]
fn the_machine_between_may_be_too_large() {
    let pattern = [b".".repeat(20), b"a.*".to_vec()].concat();
    let machine = second::machine(&pattern).expect("a taken pattern");
    assert_eq!((machine.states, machine.classes), (23, 3));
    assert!(twice_reversed(&machine).is_none());
    assert!(canonical(&machine.room()));
}

#[test]
fn words_and_rounds_agree() {
    let mut draw = Draw::new(4);
    for turn in 0..200 {
        let left = draw.machine();
        let mut right = if turn % 2 == 0 {
            draw.machine()
        } else {
            draw.relabelled(&left)
        };
        if turn % 4 == 1 {
            let at = draw.below(right.states);
            right.marks[at] = !right.marks[at];
        }
        let apart = Apart::new(&[&left, &right]);
        let word = separation(&left, &right);
        assert_eq!(word.as_ref().map(Vec::len), apart.length(0, left.states));
        if let Some(word) = word {
            assert_ne!(left.marks[left.run(&word)], right.marks[right.run(&word)]);
            assert!(word.len() <= apart.rounds());
        }
        assert!(apart.rounds() + 2 <= left.states + right.states);
        assert_eq!(apart.rounds(), rounds(&left, &right));
        assert_eq!(apart.rounds(), rounds_by_splitting(&left, &right));
    }
}

/// Rounds straight from their definition: split until nothing splits.
fn rounds_by_splitting(left: &Machine, right: &Machine) -> usize {
    let all: Vec<(&Machine, usize, usize)> = (0..left.states)
        .map(|state| (left, state, 0))
        .chain((0..right.states).map(|state| (right, state, left.states)))
        .collect();
    let mut part: Vec<usize> = all
        .iter()
        .map(|(machine, state, _)| usize::from(machine.marks[*state]))
        .collect();
    let count = |part: &[usize]| {
        let mut sorted = part.to_vec();
        sorted.sort_unstable();
        sorted.dedup();
        sorted.len()
    };
    let mut turns = 0;
    loop {
        let mut known = std::collections::HashMap::new();
        let next: Vec<usize> = all
            .iter()
            .enumerate()
            .map(|(at, &(machine, state, base))| {
                let row: Vec<usize> = (0..=255)
                    .map(|byte| part[base + machine.next(state, byte)])
                    .collect();
                let fresh = known.len();
                *known.entry((part[at], row)).or_insert(fresh)
            })
            .collect();
        if count(&next) == count(&part) {
            return turns;
        }
        part = next;
        turns += 1;
    }
}

#[test]
fn words_are_first_among_the_shortest() {
    let mut draw = Draw::new(5);
    let mut separated = 0;
    for _ in 0..300 {
        let (one, other) = (draw.between(1, 6), draw.between(1, 6));
        let (one, other) = (
            draw.legal(one, Alphabet::Small),
            draw.legal(other, Alphabet::Small),
        );
        if let (Some((mut one, left)), Some((mut other, right))) = (both(&one), both(&other)) {
            // The byte 0 stands for all that are not the line end, a, b or c.
            let first = strings(b"\0\nabc", 4).find(|text| one.has(text) != other.has(text));
            match separation(&left, &right) {
                Some(word) if word.len() <= 4 => assert_eq!(first, Some(word)),
                _ => assert_eq!(first, None),
            }
            separated += usize::from(first.is_some());
        }
    }
    assert!(separated > 100);
}

#[test]
fn forms_come_back_and_damage_is_seen() {
    let mut draw = Draw::new(6);
    let mut bytes = vec![0; limits::SCRATCH_BYTES];
    let mut words = vec![0; limits::SCRATCH_WORDS];
    for _ in 0..100 {
        let machine = smallest(&draw.machine());
        let form = second::form::packed(&machine);
        let bits = 1553 + machine.states + 7 * machine.states * machine.classes;
        assert_eq!(form.len(), (bits + 7) / 8);
        assert_eq!(second::form::unpacked(&form), Some(machine.clone()));
        for damage in FORM_DAMAGES {
            let other = draw.damaged_form(&machine, damage);
            let mut room = vec![0; limits::ROOM];
            let taken = second::unpack(&other, &mut room, &mut bytes, &mut words) == DONE;
            if taken {
                let mut again = vec![0; other.len()];
                let answer = second::pack(&room, &mut again, &mut bytes, &mut words);
                assert_eq!((answer, &again), ((DONE, other.len()), &other));
            }
            assert!(!taken || canonical(&room));
        }
    }
}

#[test]
fn bounds_of_the_word() {
    for (tail, length) in [(0, 253), (1, 254)] {
        let (left, right) = bound_pair(tail);
        let (left, right) = (left.room(), right.room());
        assert!(second::canonical(&left) && second::canonical(&right));
        let mut word = vec![7; limits::WORD];
        let mut bytes = vec![7; limits::SCRATCH_BYTES];
        let mut words = vec![7; limits::SCRATCH_WORDS];
        let answer = second::compare(&left, &right, &mut word, &mut bytes, &mut words);
        assert_eq!(answer, (SEPARATED, length, length));
        assert!(word[..length].iter().all(|&byte| byte == 0));
        assert!(word[length..].iter().all(|&byte| byte == 7));
    }
}
