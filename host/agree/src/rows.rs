//! Rows: files of plain text, one row a line, fields between spaces. A line that begins with `#` and a space says what the columns are, or what stands below it.

use std::fmt;

use crate::case::{form_length, Case, Operation};
use crate::run::{both, Outcome};
use crate::written::read;
use cases::samples::{hex, listed};
use second::limits::WAY_AT;
use second::machine::head;
use second::sets::{Automaton, Set};

mod desk;

/// The files of rows, each with its runner.
pub const FILES: [File; 10] = [
    ("patterns", include_str!("../rows/patterns.txt"), pattern),
    ("matches", include_str!("../rows/matches.txt"), matched),
    (
        "comparisons",
        include_str!("../rows/comparisons.txt"),
        comparison,
    ),
    ("laws", include_str!("../rows/laws.txt"), law),
    ("rooms", include_str!("../rows/rooms.txt"), room),
    ("forms", include_str!("../rows/forms.txt"), form),
    (
        "positions",
        include_str!("../rows/positions.txt"),
        positions,
    ),
    ("desks", include_str!("../rows/desks.txt"), desk::typed),
    (
        "openings",
        include_str!("../rows/openings.txt"),
        desk::opened,
    ),
    (
        "entries",
        include_str!("../rows/entries.txt"),
        desk::changed,
    ),
];

/// A file's name, its text, and what runs a row of it: what is found must be what the row says.
pub type File = (
    &'static str,
    &'static str,
    fn(&[&str]) -> Result<(), String>,
);

/// Runs every row of a file: the number of rows, or each that fails with its line.
pub fn run(file: &File) -> Result<usize, String> {
    let (name, text, runner) = file;
    let rows = text
        .lines()
        .zip(1..)
        .filter(|(line, _)| !line.starts_with("# ") && !line.is_empty());
    let mut count = 0;
    let mut failed = String::new();
    for (line, number) in rows {
        let fields: Vec<&str> = line.split_whitespace().collect();
        count += 1;
        if let Err(fault) = runner(&fields) {
            failed += &format!("\n{name}.txt:{number}: {line}\n  {fault}");
        }
    }
    if failed.is_empty() {
        Ok(count)
    } else {
        Err(failed)
    }
}

/// Both sides' outcome.
fn outcome(operation: Operation, reads: &[&[u8]]) -> Result<Outcome, String> {
    both(&Case::new(operation, reads)).map_err(|difference| difference.to_string())
}

fn bytes(field: &str) -> Result<Vec<u8>, String> {
    read(field).ok_or_else(|| format!("not a field of bytes: {field}"))
}

/// Whether what is found is what the row says.
fn expect(found: impl fmt::Display, says: &[&str]) -> Result<(), String> {
    let found = found.to_string();
    if found == says.join(" ") {
        Ok(())
    } else {
        Err(format!("found: {found}"))
    }
}

/// The room of a pattern that is taken.
fn compiled(pattern: &str) -> Result<Vec<u8>, String> {
    let outcome = outcome(Operation::Compile, &[&bytes(pattern)?])?;
    match outcome.answer {
        (0, _, _) => Ok(outcome.output),
        answer => Err(format!("{pattern} is refused: {answer:?}")),
    }
}

/// `PATTERN -> taken N K LENGTH` or `PATTERN -> refused NUMBER PLACE`.
fn pattern(row: &[&str]) -> Result<(), String> {
    let outcome = outcome(Operation::Compile, &[&bytes(row[0])?])?;
    let (number, place, _) = outcome.answer;
    if number != 0 {
        return expect(format!("refused {number} {place}"), &row[2..]);
    }
    let (states, classes, length) = packed(&outcome.output)?;
    expect(format!("taken {states} {classes} {length}"), &row[2..])
}

/// The room's n and k and the length of its form, which unpacks to the room again.
fn packed(room: &[u8]) -> Result<(usize, usize, usize), String> {
    let pack = outcome(Operation::Pack, &[room])?;
    let (number, length, _) = pack.answer;
    let (states, classes) = head(room);
    if number != 0 || length != form_length(states, classes) {
        return Err(format!("packing answers {number}, length {length}"));
    }
    let back = outcome(Operation::Unpack, &[&pack.output[..length]])?;
    if back.answer.0 != 0 || back.output != room {
        return Err("unpacking gives another room".to_string());
    }
    Ok((states, classes, length))
}

/// `PATTERN TEXT -> accepted`, `dead PLACE` or `unfinished`.
fn matched(row: &[&str]) -> Result<(), String> {
    let outcome = outcome(Operation::Match, &[&compiled(row[0])?, &bytes(row[1])?])?;
    expect(match_words(outcome.answer.0, outcome.answer.1), &row[3..])
}

fn match_words(number: u8, place: usize) -> String {
    match number {
        0 => "accepted".to_string(),
        64 => format!("dead {place}"),
        65 => "unfinished".to_string(),
        _ => format!("refused {number} {place}"),
    }
}

/// The answer of comparing two patterns, in words, and its rounds.
fn compared(left: &str, right: &str) -> Result<(String, usize), String> {
    let outcome = outcome(Operation::Compare, &[&compiled(left)?, &compiled(right)?])?;
    let (number, length, rounds) = outcome.answer;
    match number {
        0 => Ok(("same".to_string(), rounds)),
        66 => Ok((
            format!("separated {}", hex(&outcome.output[..length])),
            rounds,
        )),
        _ => Err(format!("comparing is refused: {number}")),
    }
}

/// `LEFT RIGHT -> same rounds R` or `separated HEX rounds R`.
fn comparison(row: &[&str]) -> Result<(), String> {
    let (answer, rounds) = compared(row[0], row[1])?;
    expect(format!("{answer} rounds {rounds}"), &row[3..])
}

/// `LAW LEFT RIGHT -> same` or `separated HEX`.
fn law(row: &[&str]) -> Result<(), String> {
    let (answer, _) = compared(row[1], row[2])?;
    expect(answer, &row[4..])
}

/// `PATTERN CHANGES -> minimise ANSWER match ANSWER compare ANSWER pack ANSWER`: the numbers of the four operations on the pattern's room with bytes changed;
/// matching the empty text, comparing with the pattern itself.
fn room(row: &[&str]) -> Result<(), String> {
    let whole = compiled(row[0])?;
    let mut changed = whole.clone();
    change(&mut changed, row[1])?;
    let number =
        |operation, reads: &[&[u8]]| outcome(operation, reads).map(|outcome| outcome.answer.0);
    let minimise = number(Operation::Minimise, &[&changed])?;
    let matching = number(Operation::Match, &[&changed, b""])?;
    let compare = number(Operation::Compare, &[&whole, &changed])?;
    let pack = number(Operation::Pack, &[&changed])?;
    expect(
        format!("minimise {minimise} match {matching} compare {compare} pack {pack}"),
        &row[3..],
    )
}

/// Makes the changes `AT=VALUE` between commas, in a room also `wSTATE=WAY` and `wFIRST-LAST=WAY`; `-` is none.
fn change(bytes: &mut [u8], changes: &str) -> Result<(), String> {
    for change in changes.split(',').filter(|&change| change != "-") {
        let (at, value) = change.split_once('=').ok_or("a change is AT=VALUE")?;
        if let Some(states) = at.strip_prefix('w') {
            put_ways(bytes, states, value.parse().map_err(|_| "not a way")?)?;
            continue;
        }
        let at: usize = at.parse().map_err(|_| "not a place")?;
        bytes[at] = value.parse().map_err(|_| "not a byte")?;
    }
    Ok(())
}

/// Gives a way to a state of a room, or to all states from one to another.
fn put_ways(room: &mut [u8], states: &str, way: u16) -> Result<(), String> {
    let (first, last) = states.split_once('-').unwrap_or((states, states));
    let number = |word: &str| word.parse().map_err(|_| "not a state");
    let (first, last): (usize, usize) = (number(first)?, number(last)?);
    for state in first..=last {
        room[WAY_AT + 2 * state..][..2].copy_from_slice(&way.to_be_bytes());
    }
    Ok(())
}

/// `PATTERN CHANGE -> NUMBER`: unpacking the pattern's form after a change: `whole`, `flip:BIT`, `cut:BYTES`, `more:HEX`.
fn form(row: &[&str]) -> Result<(), String> {
    let pack = outcome(Operation::Pack, &[&compiled(row[0])?])?;
    let mut form = pack.output[..pack.answer.1].to_vec();
    let (kind, number) = row[1].split_once(':').unwrap_or((row[1], "0"));
    let number: usize = number.parse().map_err(|_| "not a number")?;
    match kind {
        "whole" => {}
        "flip" => form[number / 8] ^= 0x80 >> (number % 8),
        "cut" => form.truncate(form.len() - number),
        "more" => form.push(number as u8),
        _ => return Err("no such change".to_string()),
    }
    expect(outcome(Operation::Unpack, &[&form])?.answer.0, &row[3..])
}

/// `PATTERN -> NULLABLE FIRST LAST FOLLOW`: sets of positions, which only the second program shows.
fn positions(row: &[&str]) -> Result<(), String> {
    let tree = second::text::tree(&bytes(row[0])?).ok_or("not a legal pattern")?;
    let automaton = Automaton::new(&tree);
    let size = tree.positions.len();
    let set = |set: Set| listed(&(0..=size).filter(|&at| set.has(at)).collect::<Vec<_>>());
    let follow: Vec<String> = (1..=size).map(|at| set(automaton.follow(at))).collect();
    let null = if automaton.null() { "nullable" } else { "not" };
    let (first, last) = (set(automaton.first()), set(automaton.last()));
    expect(
        format!("{null} {first} {last} {}", follow.join("/")),
        &row[2..],
    )
}
