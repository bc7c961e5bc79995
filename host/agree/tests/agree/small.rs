//! All small cases of a kind.

use agree::case::form_length;
use agree::many::Tally;
use agree::{both, small, Case, Operation};
use cases::exhaustive::strings;
use second::derive::Language;
use second::desk::BACK;
use second::judge::judge;
use second::limits;

use crate::say;

/// Runs all cases, says how many of what they were, and fails if one differs.
pub fn all(what: &str, cases: impl Iterator<Item = Case>) -> Tally {
    let mut tally = Tally::default();
    for (number, case) in cases.enumerate() {
        tally.run(&format_args!("{what}, case {number}"), &case);
    }
    say(format!("agree: {} cases, {what}\n{tally}", tally.cases));
    tally.check();
    tally
}

/// The room of a pattern that is taken.
pub fn room(pattern: &[u8]) -> Vec<u8> {
    let outcome = both(&Case::new(Operation::Compile, &[pattern])).expect("one outcome");
    assert_eq!(outcome.answer, (0, 0, 0));
    outcome.output
}

#[test]
fn all_short_texts_compiled() {
    all(
        "all texts of up to 4 of 15 pattern bytes",
        small::compiling(4),
    );
    all(
        "all texts of up to 4 bytes of hex escapes, ranges and dots",
        small::hex(4),
    );
}

#[test]
fn all_short_strings_matched() {
    let mut count = 0;
    for pattern in small::taken(4) {
        let room = room(&pattern);
        let mut language = Language::new(&judge(&pattern).expect("a taken pattern"));
        for text in strings(b"\0\nabc", 3) {
            let answer = palgondur::raw::match_text(&room, &text);
            assert_eq!(
                answer,
                language.answer(&text),
                "{} {}",
                pattern.escape_ascii(),
                text.escape_ascii()
            );
            assert_eq!(answer.0 == 0, language.has(&text));
            count += 1;
        }
    }
    say(format!("agree: {count} cases, all texts of up to 3 of five bytes by all taken patterns of up to 4 bytes, against derivatives"));
}

#[test]
fn all_pairs_compared() {
    let mut rooms: Vec<Vec<u8>> = strings(b"ab|*+?.", 3)
        .filter(|pattern| second::machine(pattern).is_ok())
        .map(|pattern| room(&pattern))
        .collect();
    rooms.sort();
    rooms.dedup();
    let pairs = rooms.iter().flat_map(|left| {
        let case = move |right: &Vec<u8>| Case::new(Operation::Compare, &[left, right]);
        rooms.iter().map(case)
    });
    all(
        "all pairs of rooms of patterns of up to 3 bytes of ab|*+?.",
        pairs,
    );
}

#[test]
fn all_small_machines() {
    let machines = || {
        let sizes = [
            (1, 1, 0),
            (1, 2, 1),
            (2, 1, 0),
            (2, 2, 0),
            (2, 2, 1),
            (3, 1, 0),
            (3, 2, 1),
        ];
        sizes
            .into_iter()
            .flat_map(|(states, classes, class)| small::machines(states, classes, class))
    };
    let by = |operation: Operation| {
        machines().map(move |machine| Case::new(operation, &[&machine.room()]))
    };
    all(
        "all machines of up to 3 states and 2 classes minimised",
        by(Operation::Minimise),
    );
    all(
        "all machines of up to 3 states and 2 classes packed",
        by(Operation::Pack),
    );
    let forms =
        machines().map(|machine| Case::new(Operation::Unpack, &[&second::form::packed(&machine)]));
    all(
        "the forms of all machines of up to 3 states and 2 classes unpacked",
        forms,
    );
}

/// The cases of a room for each operation that judges one.
fn judging(room: &[u8]) -> Vec<Case> {
    let whole = second::machine(b"a").expect("a taken pattern").room();
    vec![
        Case::new(Operation::Minimise, &[room]),
        Case::new(Operation::Compare, &[room, &whole]),
        Case::new(Operation::Compare, &[&whole, room]),
        Case::new(Operation::Pack, &[room]),
        Case::opening(1, room, &[0xa5; limits::ENTRY_FORM]),
        Case::pressing(room, &small::forms(1, &whole, b"", 0)[0], BACK),
    ]
}

#[test]
fn all_ways_of_small_machines() {
    let choices = [0, 1, 2, 3, 256, 65534, 65535];
    let sizes = [(1, 1, 0), (2, 1, 0), (2, 2, 0), (2, 2, 1), (3, 1, 0)];
    let rooms = || {
        let machines = sizes
            .into_iter()
            .flat_map(|(states, classes, class)| small::machines(states, classes, class));
        machines.flat_map(move |machine| small::ways(&machine, &choices))
    };
    let tally = all(
        "all choices of ways for machines of up to 3 states, matched",
        rooms().map(|room| Case::new(Operation::Match, &[&room, b""])),
    );
    // For each machine one of the choices is right.
    let machines = sizes.map(|(states, classes, class)| {
        let machines = small::machines(states, classes, class);
        machines.count() as u64
    });
    let wrong = tally.answers[&(Operation::Match, 9)];
    assert_eq!(tally.cases - wrong, machines.iter().sum());
    all(
        "some choices of ways for machines of up to 3 states, by the other operations",
        rooms().step_by(11).flat_map(|room| judging(&room)),
    );
}

#[test]
fn all_changes_of_one_byte_of_the_ways() {
    let room = room(b"(ab*|a)b");
    let matched = |room: Vec<u8>| Case::new(Operation::Match, &[&room, b"a"]);
    let tally = all(
        "all changes of one byte of the ways",
        small::changed_ways(&room).map(matched),
    );
    assert_eq!(tally.answers[&(Operation::Match, 9)], 256 * 255);
}

#[test]
fn all_lengths_of_buffers() {
    let (good, other) = (room(b"a*b"), room(b"a*bb"));
    let mut bad = good.clone();
    bad[limits::WAY_AT - 1] = 1;
    let mut astray = good.clone();
    astray[limits::WAY_AT + 1] += 1;
    // A fourth state, which leads to the first, and so needs one byte more than that.
    let mut double = good.clone();
    double[0] += 1;
    double[limits::WAY_AT + 7] = 2;
    let form = second::form::packed(&second::machine(b"a*b").expect("a taken pattern"));
    let long = b"*".repeat(limits::PATTERN + 1);
    let exact = form_length(usize::from(good[0]), usize::from(good[1]));
    let mut cases = Vec::new();
    for pattern in [&b"a*b"[..], b"a|", b"[b-a]", &long, b""] {
        cases.extend(small::buffers(Operation::Compile, &[pattern], limits::ROOM));
    }
    for room in [&good, &bad, &astray, &double] {
        cases.extend(small::buffers(Operation::Minimise, &[room], limits::ROOM));
        cases.extend(small::buffers(Operation::Match, &[room, b"aab"], 0));
        cases.extend(small::buffers(Operation::Pack, &[room], exact));
        cases.extend(small::buffers(
            Operation::Compare,
            &[&good, room],
            limits::WORD,
        ));
        cases.extend(small::buffers(
            Operation::Compare,
            &[room, &other],
            limits::WORD,
        ));
    }
    for form in [&form[..], &form[1..], b""] {
        cases.extend(small::buffers(Operation::Unpack, &[form], limits::ROOM));
    }
    all(
        "all buffers short, exact and longer, zero and dirty",
        cases.into_iter(),
    );
}
