//! The entry desk: drawn ones, and all small cases of a kind.

use agree::drawn::desk;
use agree::{many, small, Case};
use second::desk::{Desk, BACK, ENTER};
use second::limits::ENTRY_FORM;

use crate::small::{all, room};
use crate::{number, say};

/// The seed and the number of desks of a run that names none.
const SEED: u64 = 20_260;
const DESKS: u64 = 1_000;

#[test]
fn drawn_desks() {
    let seed = number("AGREE_SEED").unwrap_or(SEED);
    let count = number("AGREE_DESKS").unwrap_or(DESKS);
    let tally = many::each(count, |tally, number| desk::run(tally, seed, number));
    say(format!(
        "agree: {} cases of {count} desks, seed {seed}\n{tally}",
        tally.cases
    ));
    tally.check();
    // A run of this length gives every answer of the desk's operations.
    if count >= DESKS {
        assert_eq!(tally.missing(|operation| operation.is_desk()), []);
    }
}

/// The rooms of patterns, end to end.
fn rooms(patterns: &[&[u8]]) -> Vec<u8> {
    patterns.iter().flat_map(|pattern| room(pattern)).collect()
}

/// The form that keys lead to.
fn form(count: usize, rooms: &[u8], keys: &[u8]) -> Vec<u8> {
    let mut desk = Desk::open(count, rooms).expect("sound rooms");
    keys.iter().for_each(|&key| {
        desk.key(key);
    });
    desk.form()
}

/// The patterns of small desks: among them fields that are empty, that have no word, and that have 0x08, 0x0A or 0x0D in their words.
const DESKS_OF: [&[&[u8]]; 6] = [
    &[b"(ab*|a)b"],
    &[b"a*", b"b|ab"],
    &[b"\\e", b"(a|b)*", b"\\0"],
    &[b"\\x08*", b"a(\\x0d|b)"],
    &[b".", b".*|\\x0a"],
    &[b"aa*", b"a|b", b"\\e|b"],
];

/// All keys given, pressed on all forms of the small desks that up to so many keys lead to.
fn pressed(most: usize, keys: &[u8]) -> Vec<Case> {
    let mut cases = Vec::new();
    for patterns in DESKS_OF {
        let rooms = rooms(patterns);
        for form in small::forms(patterns.len(), &rooms, &KEYS, most) {
            cases.extend(keys.iter().map(|&key| Case::pressing(&rooms, &form, key)));
        }
    }
    cases
}

/// Keys that go on, that no field of some machines goes on with, the line end among them, that take back and that close.
const KEYS: [u8; 6] = [b'\n', b'a', b'b', b'z', BACK, ENTER];

#[test]
fn all_short_sequences_of_keys() {
    all(
        "all forms of up to 6 keys of six and each of the six after",
        pressed(6, &KEYS).into_iter(),
    );
    let every: Vec<u8> = (0..=255).collect();
    all(
        "all forms of up to 3 keys of six and every key after",
        pressed(3, &every).into_iter(),
    );
}

#[test]
fn all_changes_of_one_byte() {
    let rooms = rooms(&[b"a*b*", b"(a|b)*", b"b"]);
    for keys in [&b""[..], b"ab\rba", b"b\raab\rb\r"] {
        let form = form(3, &rooms, keys);
        let cases = small::changed(&form).map(|form| Case::pressing(&rooms, &form, b'a'));
        all("all changes of one byte of a form", cases);
    }
}

#[test]
fn all_counts() {
    let rooms = room(b"a*").repeat(40);
    let shown = form(3, &rooms, b"a\r");
    let opened = (0..=300).map(|count| Case::opening(count, &rooms, &shown));
    let pressed = (0..=255).map(|count| {
        let mut form = shown.clone();
        form[0] = count;
        Case::pressing(&rooms, &form, b'a')
    });
    all("all counts, with rooms for forty", opened.chain(pressed));
}

#[test]
fn all_lengths_at_the_desk() {
    let rooms = rooms(&[b"a*", b"b"]);
    let form = form(2, &rooms, b"aa\r");
    let mut other = form.clone();
    other[ENTRY_FORM - 1] = 1;
    let mut cases = Vec::new();
    for count in [0, 2, 3, 17] {
        cases.extend(small::desk_lengths(&Case::opening(count, &rooms, &form)));
    }
    for form in [&form, &other] {
        cases.extend(small::desk_lengths(&Case::pressing(&rooms, form, b'b')));
    }
    all(
        "all lengths of forms and rooms at the desk",
        cases.into_iter(),
    );
}
