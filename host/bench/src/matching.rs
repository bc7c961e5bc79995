//! Matching a long text beside plain loops over the same table and RE2, and a short one beside one reading of the room.

use crate::clock::{black_box, race, runner, Effort, Runner, LONG, SHORT};
use crate::ours::room_of;
use crate::plain;
use crate::re2::Matcher;
use crate::subjects::Subject;
use crate::table::{self, Row, Target};
use palgondur::raw;

/// Bytes of the long text and of the short one.
const MANY: usize = 64_000_000;
const FEW: usize = 32;

const SAFE: &str = "the safe loop";
const UNCHECKED: &str = "the loop without checks";
const RE2: &str = "RE2";
const READING: &str = "the room read once";
const WIDE_READING: &str = "the room summed in 64 bits";

/// Measures both lengths.
pub fn measure(subjects: &[Subject]) -> Vec<Target> {
    let long: Vec<Row> = subjects.iter().flat_map(long).collect();
    let about = "Other: the loop over classes and cells written in safe Rust; the same with `get_unchecked`; `RE2::FullMatch` in Latin-1. The loops do not judge the room. The star patterns accept their text; a pattern of fixed length is dead after a few bytes, and ours and the loops run through the rest in the dead state (RE2 would stop there, and is left out).";
    table::print("Matching 64 MB (64,000,000 bytes)", about, &long);
    let short: Vec<Row> = subjects.iter().flat_map(short).collect();
    let about = "Ours judges the soundness of the room each time. Other: the 8,834 bytes of the room read once, as their sum in one byte, which the compiler makes a loop over many bytes at a time; their sum in 64 bits, which is much slower and no measure of reading; `RE2::FullMatch`. The target goes by the first.";
    table::print("Matching 32 bytes", about, &short);
    vec![
        Target::new(
            "matching 64 MB is no slower than the safe loop (3 % allowed for measuring)",
            0.97,
            beside(&long, SAFE),
        ),
        Target::new(
            "matching 32 bytes takes at most three times one reading of the room",
            1.0 / 3.0,
            beside(&short, READING),
        ),
    ]
}

/// The rows beside one of the others.
fn beside<'a>(rows: &'a [Row], other: &'a str) -> impl Iterator<Item = &'a Row> {
    rows.iter()
        .filter(move |row| row.what.ends_with(&format!("beside {other}")))
}

fn long(subject: &Subject) -> Vec<Row> {
    let (room, text) = (room_of(&subject.pattern.text), (subject.text)(MANY));
    let re2 = Matcher::new(&subject.pattern.text);
    let (room, text) = (&room[..], &text[..]);
    let mut others: Vec<(&str, Runner)> = vec![
        (
            SAFE,
            runner(|| plain::safe(black_box(room), black_box(text))),
        ),
        // Sound: the room was compiled.
        (
            UNCHECKED,
            runner(|| unsafe { plain::unchecked(black_box(room), black_box(text)) }),
        ),
    ];
    if raw::match_text(room, text).0 == 0 {
        assert!(re2.accepts(text));
        others.push((RE2, runner(|| re2.accepts(black_box(text)))));
    }
    rows(subject, room, text, &LONG, others)
}

fn short(subject: &Subject) -> Vec<Row> {
    let (room, text) = (room_of(&subject.pattern.text), (subject.text)(FEW));
    let re2 = Matcher::new(&subject.pattern.text);
    let (room, text) = (&room[..], &text[..]);
    let others: Vec<(&str, Runner)> = vec![
        (READING, runner(|| plain::read(black_box(room)))),
        (WIDE_READING, runner(|| plain::sum(black_box(room)))),
        (RE2, runner(|| re2.accepts(black_box(text)))),
    ];
    rows(subject, room, text, &SHORT, others)
}

/// Ours against each of the others, in one race.
fn rows(
    subject: &Subject,
    room: &[u8],
    text: &[u8],
    effort: &Effort,
    others: Vec<(&str, Runner)>,
) -> Vec<Row> {
    let (names, mut runners): (Vec<&str>, Vec<Runner>) = others.into_iter().unzip();
    runners.push(runner(|| raw::match_text(black_box(room), black_box(text))));
    let times = race(effort, runners);
    let row = |(i, name): (usize, &&str)| Row {
        what: format!("match, {}, beside {name}", answer(room, text)),
        pattern: subject.pattern.shown.clone(),
        ours: times[names.len()],
        other: times[i],
    };
    names.iter().enumerate().map(row).collect()
}

/// The answer of the match, in words.
fn answer(room: &[u8], text: &[u8]) -> String {
    match raw::match_text(room, text) {
        (0, _) => "accepted".into(),
        (raw::DEAD, place) => format!("dead at {place}"),
        (raw::UNFINISHED, _) => "unfinished".into(),
        (number, _) => panic!("refused {number}"),
    }
}
