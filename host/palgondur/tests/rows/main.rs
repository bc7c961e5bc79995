//! The library through its types: the samples, and rows of questions and answers that are its own, all run by `agree`.

mod desk;

use cases::samples;
use palgondur::{limits, Comparison, Form, Machine, Match, Refusal, Scratch};
use std::fmt::Debug;

/// Asks each row's question, and fails on the rows that are answered otherwise, all of them named.
fn agree<Question: Debug, Answer: Debug + PartialEq>(
    rows: &[(Question, Answer)],
    ask: impl Fn(&Question) -> Answer,
) {
    let wrong: Vec<String> = rows
        .iter()
        .map(|(question, wanted)| (question, wanted, ask(question)))
        .filter(|(_, wanted, given)| *wanted != given)
        .map(|(question, wanted, given)| format!("{question:?}: {given:?}, not {wanted:?}"))
        .collect();
    assert!(wrong.is_empty(), "{}", wrong.join("\n"));
}

/// The machine of a pattern that is taken.
fn machine(pattern: &str) -> Machine {
    Machine::compile(pattern).unwrap()
}

/// A pattern of 99 sets of positions and as many more as it has letters d.
fn many_sets(letters: usize) -> String {
    let (five, four) = ("(a|b)".repeat(5), "(a|b)".repeat(4));
    format!("(a|b)*a{five}|c(a|b)*a{four}|{}", "d".repeat(letters))
}

/// What the types answer to a question of the samples.
fn asked(question: &samples::Question) -> Result<String, Refusal> {
    let room = |given| {
        let compiled = |pattern: &str| machine(pattern).room().to_vec();
        Machine::from_room(samples::room(given, compiled))
    };
    let sizes = |machine: Machine| samples::sizes((machine.states(), machine.classes()));
    Ok(match question.operation {
        "compile" => sizes(Machine::compile(question.given)?),
        "table" => samples::table(room(question.given)?.room()),
        "minimise" => sizes(room(question.given)?.minimised()),
        "match" => match room(question.given)?.matches(samples::text(question.other)) {
            Match::Accepted => "accepted".to_string(),
            Match::Dead { place, .. } => format!("dead {place}"),
            Match::Unfinished { .. } => "unfinished".to_string(),
            other => format!("{other:?}"),
        },
        "compare" => compared(&room(question.given)?, &room(question.other)?),
        _ => {
            let machine = room(question.given)?;
            let form = machine.pack()?;
            assert_eq!(form.unpack()?, machine);
            format!("bytes {}", form.bytes().len())
        }
    })
}

/// The comparison of two machines, either way round, in words.
fn compared(left: &Machine, right: &Machine) -> String {
    let answer = left.compare(right);
    assert_eq!(right.compare(left), answer);
    match answer {
        Comparison::Same { rounds } => format!("same rounds {rounds}"),
        Comparison::Separated { word, rounds } => samples::separated(&word, rounds),
    }
}

#[test]
fn samples_hold() {
    samples::hold(|question| {
        asked(question).unwrap_or_else(|refusal| match question.operation {
            "compile" => {
                let (number, place) = (refusal.number(), refusal.place().unwrap_or(0));
                format!("refused {number} at {place}")
            }
            _ => format!("refused {}", refusal.number()),
        })
    });
}

#[test]
fn bytes_beyond_ascii_are_bytes() {
    assert_eq!(Machine::compile("é"), Err(Refusal::Syntax(0)));
    assert_eq!(machine("..").matches("é"), Match::Accepted);
}

#[test]
fn long_strings_are_matched() {
    let long = vec![b'a'; 1 << 20];
    assert_eq!(machine("a*").matches(&long), Match::Accepted);
    let unfinished = machine("a*bc").matches(&long);
    assert!(matches!(
        unfinished,
        Match::Unfinished { fewest_more: 2, .. }
    ));
}

#[test]
fn unfinished_texts_tell_the_fewest_bytes_more() {
    // The pattern and the text; the bytes that it wants at least, none if there is no way.
    let rows = [
        (("a*", ""), Some(0)),
        (("\\e", ""), Some(0)),
        (("\\e", "a"), None),
        (("\\0", ""), None),
        (("a\\0", ""), None),
        (("[0-9][0-9][0-9]", ""), Some(3)),
        (("[0-9][0-9][0-9]", "41"), Some(1)),
        (("[0-9][0-9][0-9]", "417"), Some(0)),
        (("[0-9][0-9][0-9]", "4A"), None),
        (("abcd|b", ""), Some(1)),
        (("abcd|b", "a"), Some(3)),
        (("abcd|b", "abc"), Some(1)),
        (("(aa)*b", "aaa"), Some(2)),
        (("(abc)+", "abc"), Some(0)),
        (("(abc)+", "abca"), Some(2)),
    ];
    agree(&rows, |(pattern, text)| {
        let machine = machine(pattern);
        let more = machine.fewest_more(machine.state_after(text));
        match (machine.matches(text), more) {
            (Match::Accepted, Some(0)) | (Match::Dead { .. }, None) => (),
            (Match::Unfinished { fewest_more, .. }, Some(1..)) => {
                assert_eq!(Some(fewest_more), more);
            }
            (answer, _) => panic!("{pattern} {text:?}: {answer:?}, {more:?}"),
        }
        more
    });
    let longest = machine(&"a".repeat(63));
    assert_eq!(longest.fewest_more(0), Some(63));
    // There are no states from their number on, though the room has bytes for 128.
    for state in [longest.states(), 127, 128, usize::MAX] {
        assert_eq!(longest.fewest_more(state), None);
    }
}

#[test]
fn damaged_forms_are_refused() {
    let form = machine("a*").pack().unwrap();
    // A place in the form, and what is done to the byte there.
    let rows: Vec<((usize, u8), Result<Machine, Refusal>)> = vec![
        ((0, 0x00), Ok(machine("a*"))),
        ((0, 0x10), Err(Refusal::Form)),
        ((0, 0x01), Err(Refusal::Form)),
        ((2, 0x08), Err(Refusal::Form)),
        ((100, 0x01), Err(Refusal::Form)),
        ((197, 0x01), Err(Refusal::Form)),
    ];
    agree(&rows, |&(place, flipped)| {
        let mut bytes = form.bytes().to_vec();
        bytes[place] ^= flipped;
        Form::from(bytes).unpack()
    });
    let lengths = [
        (0, false),
        (1, false),
        (197, false),
        (198, true),
        (199, false),
    ];
    agree(&lengths, |&length| {
        let mut bytes = form.bytes().to_vec();
        bytes.resize(length, 0);
        Form::from(&bytes[..]).unpack().is_ok()
    });
}

#[test]
fn rooms_from_outside_are_judged() {
    // Places in the room of a*, and the bytes that are put there. Its ways, from 8,578 on, are 0 and 65,535.
    let rows: Vec<(Vec<(usize, u8)>, Result<usize, Refusal>)> = vec![
        (vec![(0, 2)], Ok(2)),
        (vec![(0, 0)], Err(Refusal::Form)),
        (vec![(0, 129)], Err(Refusal::Form)),
        (vec![(1, 65)], Err(Refusal::Form)),
        (vec![(2, 1)], Ok(2)),
        (vec![(2, 2)], Err(Refusal::Form)),
        (vec![(259, 1), (8_580, 0), (8_581, 0)], Ok(2)),
        (vec![(259, 1)], Err(Refusal::Form)),
        (vec![(259, 2)], Err(Refusal::Form)),
        (vec![(260, 1)], Err(Refusal::Form)),
        (vec![(386, 2)], Err(Refusal::Form)),
        (vec![(389, 0), (8_580, 0), (8_581, 1)], Ok(2)),
        (vec![(389, 0), (8_580, 1), (8_581, 0)], Err(Refusal::Form)),
        (vec![(389, 0), (8_580, 0), (8_581, 2)], Err(Refusal::Form)),
        (vec![(389, 0)], Err(Refusal::Form)),
        (vec![(8_577, 1)], Err(Refusal::Form)),
        (vec![(8_578, 1)], Err(Refusal::Form)),
        (vec![(8_579, 1)], Err(Refusal::Form)),
        (vec![(8_580, 0), (8_581, 0)], Err(Refusal::Form)),
        (vec![(8_581, 254)], Err(Refusal::Form)),
        (vec![(8_582, 1)], Err(Refusal::Form)),
        (vec![(8_833, 1)], Err(Refusal::Form)),
    ];
    let room = *machine("a*").room();
    agree(&rows, |puts| {
        let mut room = room;
        puts.iter().for_each(|&(place, byte)| room[place] = byte);
        Machine::from_room(room).map(|machine| machine.states())
    });
    let lengths = [
        (0, Err(Refusal::Room)),
        // As long as a room was before it had ways.
        (8_578, Err(Refusal::Room)),
        (limits::ROOM - 1, Err(Refusal::Room)),
        (limits::ROOM, Ok(machine("a*"))),
        (limits::ROOM + 1, Ok(machine("a*"))),
    ];
    agree(&lengths, |&length| {
        let mut room = room.to_vec();
        room.resize(length, 7);
        Machine::from_room(room)
    });
}

#[test]
fn machines_that_are_not_canonical_are_minimised_before_packing() {
    let mut room = *machine("a*").room();
    room[259] = 1;
    room[8_580..8_582].fill(0);
    let all = Machine::from_room(room).unwrap();
    assert_eq!(all.matches("anything"), Match::Accepted);
    assert_eq!(all.pack(), Err(Refusal::Form));
    let every = machine("[\\x00-\\xFF]*");
    assert_ne!(all, every);
    assert_eq!(all.compare(&every), Comparison::Same { rounds: 0 });
    assert_eq!(all.minimised(), every);
    assert_eq!(all.minimised().pack(), every.pack());
}

#[test]
fn a_stored_form_keeps_its_meaning() {
    // `.*` as it was packed when a dot held the line end too: one class, and one state, which accepts.
    let mut form = [0; 196];
    (form[0], form[194]) = (0x10, 0x40);
    let stored = Form::from(&form[..]).unpack().unwrap();
    assert_eq!(stored.matches("two\nlines"), Match::Accepted);
    let word = b"\n".to_vec();
    let separated = Comparison::Separated { word, rounds: 1 };
    assert_eq!(stored.compare(&machine(".*")), separated);
}

#[test]
fn a_lent_scratch_changes_no_answer() {
    let mut scratch = Scratch::default();
    for pattern in ["(ab*|a)b", "[b-a]", "a*", &many_sets(29), &many_sets(30)] {
        let lent = Machine::compile_with(pattern, &mut scratch);
        assert_eq!(lent, Machine::compile(pattern));
        if let Ok(lent) = lent {
            let other = machine("a*b");
            assert_eq!(lent.minimised_with(&mut scratch), lent);
            assert_eq!(
                lent.compare_with(&other, &mut scratch),
                lent.compare(&other)
            );
            let form = lent.pack_with(&mut scratch);
            assert_eq!(form, lent.pack());
            assert_eq!(form.unwrap().unpack_with(&mut scratch), Ok(lent));
        }
    }
}

#[test]
fn refusals_are_shown_under_the_pattern() {
    let deep = "(".repeat(33) + "a" + &")".repeat(33);
    let rows: Vec<(&[u8], String)> = vec![
        (
            b"",
            "\n^ the pattern ends before its expression does".into(),
        ),
        (
            b"a|",
            "a|\n  ^ the pattern ends before its expression does".into(),
        ),
        (
            b"(a",
            "(a\n  ^ the pattern ends before its expression does".into(),
        ),
        (b"a)", "a)\n ^ no expression goes on this way here".into()),
        (
            b"\\xG1",
            "\\xG1\n  ^ no expression goes on this way here".into(),
        ),
        (
            b"ab\n",
            "ab\\x0A\n  ^ no expression goes on this way here".into(),
        ),
        (
            b"a\xC3\xA9",
            "a\\xC3\\xA9\n ^ no expression goes on this way here".into(),
        ),
        (
            b"[b-a]",
            "[b-a]\n  ^ the low end of this range is above its high end".into(),
        ),
        (
            deep.as_bytes(),
            format!(
                "{deep}\n{}^ this opens inside 32 parentheses, and there are at most 32",
                " ".repeat(32)
            ),
        ),
        (
            &[b'a'; 64],
            format!(
                "{}\n{}^ 63 positions stand before this one, and there are at most 63",
                "a".repeat(64),
                " ".repeat(63)
            ),
        ),
        (
            &[b'a'; 1_025],
            format!("{}\na pattern has at most 1024 bytes", "a".repeat(1_025)),
        ),
    ];
    agree(&rows, |pattern| {
        Machine::compile(pattern).unwrap_err().shown(pattern)
    });
    // A caret stands under its byte also where bytes before it are shown longer than they are.
    assert_eq!(
        Refusal::Syntax(2).shown(b"\x00\x7F)~"),
        "\\x00\\x7F)~\n        ^ no expression goes on this way here"
    );
}

#[test]
fn refusals_have_their_number_place_and_sentence() {
    let rows = [
        (Refusal::Room, (1, None, "a room, the scratch or the output is too short")),
        (Refusal::Long, (2, None, "a pattern has at most 1024 bytes")),
        (Refusal::Syntax(7), (3, Some(7), "at 7: no expression goes on this way here")),
        (Refusal::Range(0), (4, Some(0), "at 0: the low end of this range is above its high end")),
        (
            Refusal::Depth(8),
            (5, Some(8), "at 8: this opens inside 32 parentheses, and there are at most 32"),
        ),
        (
            Refusal::Positions(9),
            (6, Some(9), "at 9: 63 positions stand before this one, and there are at most 63"),
        ),
        (Refusal::Classes, (7, None, "a pattern has at most 64 classes of bytes")),
        (Refusal::States, (8, None, "a pattern reaches at most 128 sets of positions")),
        (
            Refusal::Form,
            (9, None, "neither a sound room (to be packed, a canonical one) nor a form as packing writes it"),
        ),
    ];
    let rows = rows.map(|(refusal, (number, place, sentence))| {
        (refusal, (number, place, sentence.to_string()))
    });
    agree(&rows, |refusal| {
        (refusal.number(), refusal.place(), refusal.to_string())
    });
    for (refusal, (number, place, _)) in &rows {
        assert_eq!(Refusal::of(*number, place.unwrap_or(0)), Some(*refusal));
    }
    for number in (0..=u8::MAX).filter(|number| !(1..=9).contains(number)) {
        assert_eq!(Refusal::of(number, 5), None);
    }
}

#[test]
fn the_sizes_are_those_of_the_rules() {
    assert_eq!(
        (limits::ROOM, limits::FORM, limits::WORD),
        (8_834, 7_379, 254)
    );
    assert_eq!((limits::WAYS_AT, limits::NO_WAY), (8_578, 65_535));
    assert_eq!(
        (limits::FIELDS, limits::TEXT, limits::ENTRY),
        (16, 128, 2_066)
    );
}
