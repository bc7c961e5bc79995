//! Drawing what happens at the entry desk: keys that get somewhere, and forms with damage.

use super::Draw;
use second::desk::{Desk, BACK, ENTER};
use second::limits::{ENTRY_FORM, FIELDS, LENGTH_AT, TEXT, TEXT_AT};

/// How keys are drawn.
#[derive(Clone, Copy, PartialEq, Eq, Debug)]
pub enum Typing {
    /// On to the next field where the open one may be closed, with some keys that are refused or take back.
    Along,
    /// Few keys but text, to fill a field.
    Long,
    /// Any of the keys, whatever they do.
    Wild,
}

/// A kind of damage to an entry form.
#[derive(Clone, Copy, PartialEq, Eq, Debug)]
pub enum EntryDamage {
    /// Another number of fields.
    Count,
    /// Another number of closed fields.
    Closed,
    /// Another length of a field.
    Length,
    /// A byte of a text changed.
    Text,
    /// A key in the place of a byte of a text.
    Key,
    /// A byte past a text that is not 0.
    Past,
    /// A later field with a text, if there is a later one.
    Later,
    /// Two texts exchanged, with their lengths.
    Exchanged,
    /// One byte, anywhere, changed.
    Byte,
}

/// All kinds of damage to an entry form.
pub const ENTRY_DAMAGES: [EntryDamage; 9] = [
    EntryDamage::Count,
    EntryDamage::Closed,
    EntryDamage::Length,
    EntryDamage::Text,
    EntryDamage::Key,
    EntryDamage::Past,
    EntryDamage::Later,
    EntryDamage::Exchanged,
    EntryDamage::Byte,
];

impl Draw {
    /// A key for a desk.
    pub fn key(&mut self, desk: &Desk, typing: Typing) -> u8 {
        let (machine, live, text) = match desk.at() {
            Some(open) => open,
            None => return self.wild_key(),
        };
        let state = machine.run(text);
        let (good, dead): (Vec<u8>, Vec<u8>) = (0..=255)
            .filter(|&byte| byte != BACK && byte != ENTER)
            .partition(|&byte| live[machine.next(state, byte)]);
        let accepted = machine.marks[state];
        let turn = match typing {
            Typing::Along => self.below(32),
            Typing::Long => self.below(320),
            Typing::Wild => return self.wild_key(),
        };
        match turn {
            _ if text.len() == TEXT && self.once_in(4) => ENTER,
            0 | 1 => BACK,
            2 => ENTER,
            3 if !dead.is_empty() => self.pick(&dead),
            4 => self.byte(),
            5..=14 if accepted && typing == Typing::Along => ENTER,
            _ if !good.is_empty() => self.pick(&good),
            _ if accepted || self.once_in(4) => ENTER,
            _ => BACK,
        }
    }

    fn wild_key(&mut self) -> u8 {
        match self.below(8) {
            0 | 1 => BACK,
            2 | 3 => ENTER,
            4 => self.byte(),
            _ => self.pick(b"\nabc0"),
        }
    }

    /// So many keys, pressed one after the other at a desk. Once all fields are closed, a few are enough.
    pub fn keys(&mut self, desk: &mut Desk, typing: Typing, count: usize) -> Vec<u8> {
        let (mut keys, mut after) = (Vec::new(), 0);
        while keys.len() < count && after < 3 {
            after += usize::from(desk.at().is_none());
            let key = self.key(desk, typing);
            desk.key(key);
            keys.push(key);
        }
        keys
    }

    /// An entry form with damage of a kind; it may be one that keys can give all the same.
    pub fn damaged_entry(&mut self, form: &[u8], damage: EntryDamage) -> Vec<u8> {
        let mut form = form[..ENTRY_FORM].to_vec();
        let (count, closed) = (usize::from(form[0]), usize::from(form[1]));
        let used: Vec<usize> = (0..FIELDS)
            .filter(|&field| form[LENGTH_AT + field] > 0)
            .collect();
        // Most often a field that has a text.
        let field = if used.is_empty() || self.once_in(4) {
            self.below(FIELDS)
        } else {
            self.pick(&used)
        };
        let (text, length) = (
            TEXT_AT + TEXT * field,
            usize::from(form[LENGTH_AT + field]).min(TEXT),
        );
        let change = self.between(1, 255) as u8;
        match damage {
            EntryDamage::Count => {
                form[0] = match self.below(4) {
                    0 => 0,
                    1 => self.between(FIELDS + 1, 255) as u8,
                    2 => form[0].wrapping_add(self.pick(&[1, 255])),
                    _ => self.between(1, FIELDS) as u8,
                }
            }
            EntryDamage::Closed => {
                form[1] = match self.below(4) {
                    0 => (count + 1) as u8,
                    1 => self.below(count + 1) as u8,
                    2 => form[1].wrapping_add(self.pick(&[1, 255])),
                    _ => change,
                }
            }
            EntryDamage::Length => {
                form[LENGTH_AT + field] = match self.below(4) {
                    0 => self.between(TEXT, 255) as u8,
                    1 => 0,
                    2 => (length + 1) as u8,
                    _ => (length as u8).wrapping_sub(1),
                }
            }
            EntryDamage::Text if length > 0 => {
                let at = text + self.below(length);
                form[at] = if self.once_in(2) {
                    self.pick(b"\nabc0")
                } else {
                    form[at].wrapping_add(change)
                };
            }
            EntryDamage::Key if length > 0 => {
                let at = text + self.pick(&[0, length / 2, length - 1]);
                form[at] = self.pick(&[BACK, ENTER]);
            }
            EntryDamage::Past if length < TEXT => {
                let at = text + self.pick(&[length, (length + TEXT) / 2, TEXT - 1]);
                form[at] = if self.once_in(2) {
                    self.pick(&[BACK, ENTER, b'a'])
                } else {
                    change
                };
            }
            EntryDamage::Later if closed + 1 < FIELDS => {
                let later = self.pick(&[closed + 1, count.min(FIELDS - 1), FIELDS - 1]);
                form[LENGTH_AT + later] = self.between(1, 3) as u8;
                let from = TEXT_AT + TEXT * later;
                let typed = self.text(usize::from(form[LENGTH_AT + later]), b"abc");
                form[from..from + typed.len()].copy_from_slice(&typed);
            }
            EntryDamage::Exchanged => {
                let other = self.below(FIELDS);
                form.swap(LENGTH_AT + field, LENGTH_AT + other);
                for at in 0..TEXT {
                    form.swap(text + at, TEXT_AT + TEXT * other + at);
                }
            }
            _ => {
                let most = self.pick(&[TEXT_AT, TEXT_AT + TEXT, ENTRY_FORM]);
                let at = self.below(most);
                form[at] = form[at].wrapping_add(change);
            }
        }
        form
    }
}
