//! The entry desk: the texts that were typed, the keys that change them, and the form that shows them.
//!
//! Whether bytes are a form that keys can give is found by typing. The keys that would have made the bytes are read out of them and pressed at a
//! desk just opened, and the form of that desk must be the same bytes.

use crate::answer;
use crate::limits::{ENTRY_FORM, FIELDS, LENGTH_AT, ROOM, TEXT, TEXT_AT};
use crate::machine::Machine;
use crate::matching::{answer_by, live};

/// The key that takes back the last byte of the open field.
pub const BACK: u8 = 0x08;
/// The key that closes the open field.
pub const ENTER: u8 = 0x0d;

/// A desk at which the fields of a form are typed, one after the other.
#[derive(Clone, Debug)]
pub struct Desk {
    /// The machine of each field, and its live states.
    fields: Vec<(Machine, Vec<bool>)>,
    /// The texts of the fields that are closed.
    closed: Vec<Vec<u8>>,
    /// The text of the open field; empty if none is open.
    open: Vec<u8>,
}

impl Desk {
    /// A desk just opened with so many fields; none if a form may not have so many, or if a room is not there or not sound.
    pub fn open(count: usize, rooms: &[u8]) -> Option<Desk> {
        if !(1..=FIELDS).contains(&count) {
            return None;
        }
        let field = |at: usize| {
            let machine = Machine::read(rooms.get(at * ROOM..)?)?;
            let live = live(&machine);
            Some((machine, live))
        };
        Some(Desk {
            fields: (0..count).map(field).collect::<Option<_>>()?,
            closed: Vec::new(),
            open: Vec::new(),
        })
    }

    /// The desk whose form the 2,066 bytes are, if keys lead to one.
    pub fn showing(rooms: &[u8], form: &[u8]) -> Option<Desk> {
        let mut desk = Desk::open(usize::from(form[0]), rooms)?;
        let typed = keys(form)
            .into_iter()
            .all(|key| desk.key(key) == answer::DONE);
        if typed && desk.form() == form {
            Some(desk)
        } else {
            None
        }
    }

    /// Presses a key: the answer's number.
    pub fn key(&mut self, key: u8) -> u8 {
        let (machine, live) = match self.fields.get(self.closed.len()) {
            Some(field) => field,
            None => return answer::CLOSED,
        };
        let judged = |text: &[u8]| answer_by(machine, live, text).0;
        match key {
            BACK => {
                self.open.pop();
            }
            ENTER if judged(&self.open) != answer::ACCEPTED => return answer::UNFINISHED_FIELD,
            ENTER => self.closed.push(std::mem::take(&mut self.open)),
            _ if self.open.len() == TEXT => return answer::LENGTH,
            _ => {
                let longer = [&self.open[..], &[key]].concat();
                if judged(&longer) == answer::DEAD {
                    return answer::DEAD_BYTE;
                }
                self.open = longer;
            }
        }
        answer::DONE
    }

    /// The 2,066 bytes of the form.
    pub fn form(&self) -> Vec<u8> {
        let mut texts: Vec<&[u8]> = self.closed.iter().map(|text| &text[..]).collect();
        texts.push(&self.open);
        texts.resize(FIELDS, &[]);
        let mut form = vec![self.fields.len() as u8, self.closed.len() as u8];
        form.extend(texts.iter().map(|text| text.len() as u8));
        for text in texts {
            form.extend_from_slice(text);
            form.resize(form.len() + TEXT - text.len(), 0);
        }
        form
    }

    /// The machine of the open field, its live states, and its text; none if all fields are closed.
    pub fn at(&self) -> Option<(&Machine, &[bool], &[u8])> {
        let (machine, live) = self.fields.get(self.closed.len())?;
        Some((machine, live, &self.open))
    }
}

/// The keys that would have made a form's bytes: the texts up to the open field's, with the closing key between.
fn keys(form: &[u8]) -> Vec<u8> {
    let texts: Vec<&[u8]> = (0..=usize::from(form[1]))
        .map(|field| text(form, field))
        .collect();
    texts.join(&ENTER)
}

/// The bytes that a form has as the text of a field; none for a field past the last.
fn text(form: &[u8], field: usize) -> &[u8] {
    if field >= FIELDS {
        return &[];
    }
    let from = TEXT_AT + TEXT * field;
    let to = from + usize::from(form[LENGTH_AT + field]);
    &form[from..to.min(ENTRY_FORM)]
}
