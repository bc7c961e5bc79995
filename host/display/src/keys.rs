//! Keys: the bytes that a terminal sends, taken apart into presses.
//!
//! Most keys send one byte. Others send several: the arrows, function keys, Alt with a key, characters beyond ASCII.
//! Terminals also send reports (of the mouse, the focus) and answers that nobody typed. The letters in these are no
//! keys, so each must be found whole, however its bytes come in, at once or late. What is whole is said by a pattern in
//! the library's own language, and its compiled machine is walked byte by byte. Nothing here depends on time.

use crate::table::Table;
use palgondur::{limits, Machine};

/// What a terminal sends: a key, a report, an answer or a paste.
#[derive(Clone, PartialEq, Eq, Debug)]
pub enum Press {
    /// A key of one byte, below 0x80 and not 0x1B.
    Byte(u8),
    /// Something of another kind, or part of it where the rest is missing: its first bytes.
    Other(Vec<u8>),
    /// A text that was pasted.
    Paste(Paste),
}

/// A pasted text.
#[derive(Clone, PartialEq, Eq, Debug, Default)]
pub struct Paste {
    /// Its first bytes: more than a field can take, or all of them.
    pub bytes: Vec<u8>,
    /// The number of its bytes.
    pub length: usize,
}

/// The byte with which most keys of several bytes begin. Anywhere in one it begins a new one.
const ESCAPE: u8 = 0x1B;

/// What goes before a pasted text and after it.
const BEFORE: &[u8] = b"\x1B[200~";
const AFTER: &[u8] = b"\x1B[201~";

/// So many bytes are kept of what is no key.
const KEPT: usize = 32;

/// The pattern of what follows 0x1B, up to where it is whole. Bytes from 0x80 on also stand by themselves, without
/// 0x1B before them: the 8-bit controls, and characters in UTF-8.
fn rest() -> String {
    // 0x00 to 0x1F are in no report or answer: one that is met breaks off what is not whole, and is part of it.
    let control = r"\x00-\x1A\x1C-\x1F";
    let last = format!(r"[{control}\x40-\xFF]");
    // A coordinate of the mouse: a byte, or two.
    let place = format!(r"([{control}\x20-\xC1\xE0-\xFF]|[\xC2-\xDF][{control}\x20-\xFF])");
    let tail = r"[\x80-\xBF]";
    let kinds = [
        // CSI: numbers and marks, then a letter or the like. So are most keys, reports and answers. Three kinds end
        // elsewhere: F1 to F5 of the console, reports of the mouse, and keys with Shift in rxvt.
        [
            r"(\[|\x9B)(".to_string(),
            format!(r"[{control}\x40-\x4C\x4E-\x5A\x5C-\xFF]"),
            format!(r"|\[[{control}\x20-\xFF]"),
            format!(r"|M{place}{place}{place}"),
            format!(r"|[0-9]+(\x24|{last}|[\x20-\x23\x25-\x2F\x3A-\x3F][\x20-\x3F]*{last})"),
            format!(r"|[\x20-\x2F\x3A-\x3F][\x20-\x3F]*{last})"),
        ]
        .concat(),
        // SS3: F1 to F4 and the keypad, with numbers before the letter in old terminals.
        format!(r"(O|\x8F)[0-9;]*[{control}\x20-\x2F\x3A\x3C-\xFF]"),
        // Strings: OSC, DCS, APC, PM, SOS.
        format!(r"[PX\]\^_][\x20-\xFF]*[{control}]"),
        format!(r"[\x90\x98\x9D-\x9F][\x20-\x9B\x9D-\xFF]*[{control}\x9C]"),
        // Characters in UTF-8.
        format!(r"[\xC2-\xDF]{tail}|[\xE0-\xEF]{tail}{tail}|[\xF0-\xF4]{tail}{tail}{tail}"),
        // Any other byte: Alt with a key, or a byte that is no character.
        format!(
            r"[{control}\x20-\x4E\x51-\x57\x59\x5A\x5C\x60-\x8E\x91-\x97\x99\x9A\x9C\xA0-\xC1\xF5-\xFF]"
        ),
    ];
    kinds.join("|")
}

/// Takes bytes apart into presses, one after the other.
pub struct Keys {
    rest: Table,
    within: Within,
}

/// What the next byte belongs to.
enum Within {
    /// Nothing: it begins a key.
    Nothing,
    /// A key of several bytes: the first of them, and the state that they lead to.
    Key(Vec<u8>, usize),
    /// A pasted text, with so many bytes of its end come in.
    Paste(Paste, usize),
}

impl Keys {
    /// The keys of a terminal, none of them pressed so far.
    pub fn new() -> Keys {
        let machine = Machine::compile(rest()).expect("a legal pattern");
        Keys {
            rest: Table::new(machine),
            within: Within::Nothing,
        }
    }

    /// The first bytes of what is not whole yet, if there is such a thing.
    pub fn unfinished(&self) -> Option<&[u8]> {
        match &self.within {
            Within::Nothing => None,
            Within::Key(bytes, _) => Some(bytes),
            Within::Paste(..) => Some(BEFORE),
        }
    }

    /// Drops what is not whole yet.
    pub fn drop_unfinished(&mut self) {
        self.within = Within::Nothing;
    }

    /// Takes a byte, and adds what is whole by it to the presses.
    pub fn take(&mut self, byte: u8, presses: &mut Vec<Press>) {
        match std::mem::replace(&mut self.within, Within::Nothing) {
            Within::Nothing => self.begin(byte, presses),
            Within::Key(bytes, state) => self.go_on(bytes, state, byte, presses),
            Within::Paste(paste, ending) => self.paste(paste, ending, byte, presses),
        }
    }

    /// The first byte of a key.
    fn begin(&mut self, byte: u8, presses: &mut Vec<Press>) {
        match byte {
            ESCAPE => self.within = Within::Key(vec![ESCAPE], Table::START),
            0x00..=0x7F => presses.push(Press::Byte(byte)),
            _ => self.go_on(Vec::new(), Table::START, byte, presses),
        }
    }

    /// A further byte of a key of several bytes.
    fn go_on(&mut self, mut bytes: Vec<u8>, state: usize, byte: u8, presses: &mut Vec<Press>) {
        let next = self.rest.next(state, byte);
        match self.rest.more(next) {
            // 0x1B twice or more is one thing with what follows: so some terminals send Alt with an arrow.
            None if byte == ESCAPE && bytes.ends_with(&[ESCAPE]) => {
                self.within = Within::Key(vec![ESCAPE, ESCAPE], Table::START);
            }
            // The byte is no part of it: it begins another key.
            None => {
                presses.push(Press::Other(bytes));
                self.begin(byte, presses);
            }
            Some(more) => {
                if bytes.len() < KEPT {
                    bytes.push(byte);
                }
                match bytes.strip_suffix(BEFORE) {
                    _ if more > 0 => self.within = Within::Key(bytes, next),
                    None => presses.push(Press::Other(bytes)),
                    Some(before) => {
                        let before = (!before.is_empty()).then(|| Press::Other(before.to_vec()));
                        presses.extend(before);
                        self.within = Within::Paste(Paste::default(), 0);
                    }
                }
            }
        }
    }

    /// A further byte of a pasted text, or of its end.
    fn paste(&mut self, mut paste: Paste, ending: usize, byte: u8, presses: &mut Vec<Press>) {
        let mut add = |bytes: &[u8]| {
            paste.length += bytes.len();
            let room = limits::TEXT + KEPT - paste.bytes.len();
            paste.bytes.extend(bytes.iter().take(room));
        };
        let ending = if byte == AFTER[ending] {
            ending + 1
        } else {
            // 0x1B stands only at the beginning of the end, so there it may begin again, and nowhere else.
            add(&AFTER[..ending]);
            if byte == ESCAPE {
                1
            } else {
                add(&[byte]);
                0
            }
        };
        if ending == AFTER.len() {
            presses.push(Press::Paste(paste));
        } else {
            self.within = Within::Paste(paste, ending);
        }
    }
}

impl Default for Keys {
    fn default() -> Keys {
        Keys::new()
    }
}
