//! The entry desk against its definition: the forms that are taken are those that some keys lead to.

use std::collections::HashSet;

use cases::exhaustive::strings;
use second::answer::FORM;
use second::desk::{Desk, BACK, ENTER};
use second::limits::{ENTRY_FORM, LENGTH_AT, TEXT, TEXT_AT};

/// The rooms of patterns, end to end.
fn rooms(patterns: &[&[u8]]) -> Vec<u8> {
    let room = |pattern: &&[u8]| second::machine(pattern).expect("a taken pattern").room();
    patterns.iter().flat_map(room).collect()
}

/// The form with these numbers and texts, whether keys lead to it or not.
fn form(count: usize, closed: usize, texts: &[Vec<u8>]) -> Vec<u8> {
    let mut form = vec![0; ENTRY_FORM];
    form[0] = count as u8;
    form[1] = closed as u8;
    for (field, text) in texts.iter().enumerate() {
        form[LENGTH_AT + field] = text.len() as u8;
        form[TEXT_AT + TEXT * field..][..text.len()].copy_from_slice(text);
    }
    form
}

/// Whether a form is taken as one that keys lead to.
fn taken(rooms: &[u8], form: &[u8]) -> bool {
    second::desk_key(rooms, &mut form.to_vec(), BACK) != FORM
}

/// All forms that any number of these keys leads to with no text longer than `most`.
fn reached(count: usize, rooms: &[u8], keys: &[u8], most: usize) -> HashSet<Vec<u8>> {
    let mut waiting = vec![Desk::open(count, rooms).expect("sound rooms")];
    let mut known = HashSet::new();
    while let Some(desk) = waiting.pop() {
        let within = desk.at().map_or(true, |(_, _, text)| text.len() <= most);
        if within && known.insert(desk.form()) {
            for &key in keys {
                let mut next = desk.clone();
                next.key(key);
                waiting.push(next);
            }
        }
    }
    known
}

#[test]
fn forms_are_taken_exactly_if_keys_lead_to_them() {
    let bytes = [b'\n', b'a', b'b', BACK, ENTER];
    let texts: Vec<Vec<u8>> = strings(&bytes, 2).collect();
    let desks: [&[&[u8]]; 7] = [
        &[b"a*"],
        &[b"\\0"],
        &[b"(ab*|a)b", b"a|b"],
        &[b"a*b*", b"\\0"],
        &[b"\\e", b"..*"],
        &[b"(a|\\x08)*", b"(b|\\x0d)*"],
        &[b"b*", b"\\e|a\\0"],
    ];
    for patterns in desks {
        let (count, rooms) = (patterns.len(), rooms(patterns));
        let reached = reached(count, &rooms, &bytes, 2);
        let mut found = HashSet::new();
        for closed in 0..=count + 1 {
            for (one, other) in texts
                .iter()
                .flat_map(|one| texts.iter().map(move |other| (one, other)))
            {
                let form = form(count, closed, &[one.clone(), other.clone()]);
                assert_eq!(taken(&rooms, &form), reached.contains(&form));
                if reached.contains(&form) {
                    found.insert(form);
                }
            }
        }
        // No form was reached that was not tried.
        assert_eq!(found, reached);
    }
}
