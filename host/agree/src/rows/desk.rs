//! Rows of the entry desk.

use second::desk::{BACK, ENTER};
use second::limits;

use super::{bytes, change, compiled, expect};
use crate::case::Case;
use crate::run::{both, Outcome};
use crate::written::written;

/// Both sides' outcome.
fn outcome(case: &Case) -> Result<Outcome, String> {
    both(case).map_err(|difference| difference.to_string())
}

/// What a row has before its arrow and after it.
fn sides<'a, 'b>(row: &'a [&'b str]) -> Result<(&'a [&'b str], &'a [&'b str]), String> {
    let arrow = row.iter().position(|&field| field == "->");
    let arrow = arrow.ok_or("a row has an arrow")?;
    Ok((&row[..arrow], &row[arrow + 1..]))
}

/// The rooms of patterns end to end; `unsound` stands for one that is not sound.
fn rooms(patterns: &[&str]) -> Result<Vec<u8>, String> {
    let mut rooms = Vec::new();
    for &pattern in patterns {
        let sound = pattern != "unsound";
        let mut room = compiled(if sound { pattern } else { "a" })?;
        room[limits::ROOM - 1] = u8::from(!sound);
        rooms.extend(room);
    }
    Ok(rooms)
}

/// A form opened and typed: the number of opening and of each key, and the form.
fn after(fields: usize, rooms: &[u8], keys: &[u8]) -> Result<(Vec<u8>, Vec<u8>), String> {
    let mut case = Case::opening(fields, rooms, &[0xa5; limits::ENTRY_FORM]);
    let mut last = outcome(&case)?;
    let mut numbers = vec![last.answer.0];
    for &key in keys {
        case = case.next(last.output, key);
        last = outcome(&case)?;
        numbers.push(last.answer.0);
    }
    Ok((numbers, last.output))
}

/// Numbers between commas, `N*T` for a run of T.
fn runs(numbers: &[u8]) -> String {
    let (mut names, mut rest) = (Vec::new(), numbers);
    while let Some(&first) = rest.first() {
        let run = rest.iter().take_while(|&&number| number == first).count();
        names.push(match run {
            1 => first.to_string(),
            _ => format!("{first}*{run}"),
        });
        rest = &rest[run..];
    }
    names.join(",")
}

/// `KEYS PATTERN... -> NUMBERS CLOSED TEXT...`.
pub fn typed(row: &[&str]) -> Result<(), String> {
    let (row, says) = sides(row)?;
    let patterns = &row[1..];
    let (numbers, form) = after(patterns.len(), &rooms(patterns)?, &bytes(row[0])?)?;
    let mut found = format!("{} {}", runs(&numbers), form[1]);
    for field in 0..patterns.len() {
        let from = limits::TEXT_AT + limits::TEXT * field;
        let length = usize::from(form[limits::LENGTH_AT + field]);
        found += &format!(" {}", written(&form[from..from + length]));
    }
    expect(found, says)
}

/// `COUNT FORM ROOMS PATTERN... -> NUMBER`: the lengths of the form and of the rooms.
pub fn opened(row: &[&str]) -> Result<(), String> {
    let (row, says) = sides(row)?;
    let number = |at: usize| row[at].parse().map_err(|_| "not a number");
    let (count, form, length): (usize, usize, usize) = (number(0)?, number(1)?, number(2)?);
    let mut rooms = rooms(&row[3..])?;
    rooms.resize(length, 255);
    let outcome = outcome(&Case::opening(count, &rooms, &vec![0xa5; form]))?;
    expect(outcome.answer.0, says)
}

/// `CHANGES KEYS PATTERN... -> NUMBERS`: the numbers of three keys, each pressed on the form that the keys before gave, with bytes changed.
pub fn changed(row: &[&str]) -> Result<(), String> {
    let (row, says) = sides(row)?;
    let patterns = &row[2..];
    let rooms = rooms(patterns)?;
    let (_, mut form) = after(patterns.len(), &rooms, &bytes(row[1])?)?;
    change(&mut form, row[0])?;
    let mut numbers = Vec::new();
    for key in [BACK, ENTER, b'a'] {
        let outcome = outcome(&Case::pressing(&rooms, &form, key))?;
        numbers.push(outcome.answer.0.to_string());
    }
    expect(numbers.join(" "), says)
}
