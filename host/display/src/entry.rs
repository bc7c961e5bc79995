//! An entry: a form that is being filled in, and what the keys of a terminal do to it.
//!
//! Only a press that is one byte goes to the desk. All else is refused whole and by its name, and so is whatever comes
//! at once with a refused key, behind it: nobody could have seen the refusal. A refusal is said, and counted with the
//! field.

use crate::form::{Field, Form};
use crate::keys::{Keys, Paste, Press};
use crate::names;
use crate::screen::{Mark, Shown, View};
use palgondur::{limits, Desk, KeyRefusal};
use unicode_width::UnicodeWidthStr;

/// The keys that are the display's own: Ctrl-C leaves the form, Ctrl-R shows what is masked, or masks it again.
const LEAVE: u8 = 0x03;
const SHOW: u8 = 0x12;

/// What most terminals send for Backspace.
const DELETE: u8 = 0x7F;

/// What the first Ctrl-C asks.
const ASKS: &str = "Ctrl-C again leaves the form and drops what was entered; any other key goes on";

/// How an entry stands.
#[derive(Clone, Copy, PartialEq, Eq, Debug)]
pub enum Stand {
    /// A field is open.
    Open,
    /// All fields are closed.
    Filled,
    /// It was left.
    Left,
}

/// A form that is being filled in.
pub struct Entry {
    form: Form,
    desk: Desk,
    keys: Keys,
    /// What is said of the last keys, and whether one of them was refused.
    message: String,
    refused: bool,
    /// The refusals since the field was opened.
    refusals: usize,
    /// Whether masked fields are shown.
    clear: bool,
    /// Whether the last key was the first Ctrl-C.
    asked: bool,
}

impl Entry {
    /// An entry of a form, all of its fields empty; or in a sentence why there is none.
    pub fn new(form: Form) -> Result<Entry, String> {
        let desk = form.open()?;
        Ok(Entry {
            form,
            desk,
            keys: Keys::new(),
            message: String::new(),
            refused: false,
            refusals: 0,
            clear: false,
            asked: false,
        })
    }

    /// Takes the bytes that came in at once, and judges them press by press up to the first that is refused.
    pub fn take(&mut self, bytes: &[u8]) -> Stand {
        // Ctrl-C alone is heard even within a paste that does not end.
        if bytes == [LEAVE] {
            self.keys.drop_unfinished();
        }
        let alone = bytes.len() == 1;
        let may_leave = std::mem::take(&mut self.asked) || self.is_untouched();
        self.message.clear();
        let (mut presses, mut count, mut refusal) = (Vec::new(), 0, None);
        for &byte in bytes {
            self.keys.take(byte, &mut presses);
            for press in presses.drain(..) {
                count += 1;
                match press {
                    _ if refusal.is_some() => (),
                    Press::Byte(LEAVE) if may_leave => return Stand::Left,
                    Press::Byte(LEAVE) => self.asked = true,
                    press => {
                        let answer = self.press(&press, alone);
                        refusal = answer.err().map(|(name, reason)| (count, name, reason));
                    }
                }
            }
        }
        self.refused = refusal.is_some();
        self.refusals += usize::from(self.refused);
        match refusal {
            Some((_, name, reason)) if count == 1 => {
                self.message = format!("{name} refused: {reason}");
            }
            Some((place, name, reason)) => {
                let whole = format!("{name}, {place} of {count} that came at once, refused");
                let rest = count - place;
                self.message = format!("{whole}: {reason}; {rest} behind it not tried");
            }
            None if self.asked => self.message = ASKS.to_string(),
            None => self.say_unfinished(),
        }
        match self.desk.open_field() {
            Some(_) => Stand::Open,
            None => Stand::Filled,
        }
    }

    /// Judges a press. If it is refused: its name, and why.
    fn press(&mut self, press: &Press, alone: bool) -> Result<(), (String, String)> {
        let refused = |name: String, reason: &str| Err((name, reason.to_string()));
        let key = match press {
            Press::Paste(paste) => return self.paste(paste),
            Press::Other(bytes) => {
                return refused(names::other(bytes), "only keys of one byte are typed");
            }
            Press::Byte(key) => *key,
        };
        let given = match key {
            SHOW => {
                self.clear = !self.clear;
                if !self.has_masked() {
                    self.message = "no field of this form is masked".to_string();
                }
                return Ok(());
            }
            b'\t' => {
                let reason = "it moves nothing: fields are closed in their order, by Enter";
                return refused(names::byte(key), reason);
            }
            Desk::CLOSE if !alone => {
                return refused(
                    names::byte(key),
                    "it closes a field only where it comes alone",
                );
            }
            DELETE => Desk::TAKE_BACK,
            _ => key,
        };
        match self.desk.key(given) {
            Ok(()) => {
                if key == Desk::CLOSE {
                    self.refusals = 0;
                }
                Ok(())
            }
            Err(refusal) => Err((names::byte(key), self.reason(refusal))),
        }
    }

    /// Why the desk refused a key; of a text that is not finished, what it wants.
    fn reason(&self, refusal: KeyRefusal) -> String {
        match (refusal, self.desk.open_field()) {
            (KeyRefusal::Unfinished, Some(open)) => self.wants(open, " to finish"),
            _ => refusal.to_string(),
        }
    }

    /// Types a pasted text, byte by byte up to the first that is refused.
    fn paste(&mut self, paste: &Paste) -> Result<(), (String, String)> {
        let length = paste.length;
        for (taken, &byte) in paste.bytes.iter().enumerate() {
            let answer = match byte {
                LEAVE | SHOW | b'\t' | Desk::TAKE_BACK | Desk::CLOSE | 0x1B | DELETE.. => {
                    Err("no text that is typed has it".to_string())
                }
                _ => self.desk.key(byte).map_err(|refusal| refusal.to_string()),
            };
            if let Err(reason) = answer {
                let (place, rest) = (taken + 1, length - taken - 1);
                let name = names::first(&paste.bytes[taken..]);
                let name = format!("{name}, byte {place} of {length} in the paste,");
                return Err((
                    name,
                    format!("{reason}; {taken} taken, {rest} behind it not tried"),
                ));
            }
        }
        self.message = format!("pasted, {length} of {length} bytes taken");
        Ok(())
    }

    /// Says what is not whole yet, if there is such a thing.
    fn say_unfinished(&mut self) {
        let said = match self.keys.unfinished() {
            None => return,
            Some([0x1B, b'[', b'2', b'0', b'0', b'~']) => "a paste is coming in".to_string(),
            Some([0x1B, b'P' | b'X' | b']' | b'^' | b'_', ..]) => {
                "a terminal's string is coming in; Enter ends it".to_string()
            }
            Some([0x1B] | [0x1B, 0x1B]) => {
                "Escape refused; a key that follows belongs to it".to_string()
            }
            Some(bytes) => format!(
                "{} is not whole; what follows belongs to it",
                names::sequence(bytes)
            ),
        };
        self.message = said;
    }

    /// Whether nothing has been entered.
    fn is_untouched(&self) -> bool {
        self.desk.closed() == 0 && self.desk.text(0).map_or(true, <[u8]>::is_empty)
    }

    /// Whether a field is masked.
    fn has_masked(&self) -> bool {
        self.form.fields.iter().any(|field| field.masked)
    }

    /// Whether one of the last keys was refused.
    pub fn is_refused(&self) -> bool {
        self.refused
    }

    /// What is shown of the entry.
    pub fn view(&self) -> View {
        let fields = (0..self.desk.fields()).map(|number| self.shown(number));
        let open = self.desk.open_field();
        let show = match (self.has_masked(), self.clear) {
            (false, _) => "",
            (true, false) => " Ctrl-R shows what is masked,",
            (true, true) => " Ctrl-R masks it again,",
        };
        View {
            title: self.form.title.clone(),
            fields: fields.collect(),
            hint: open.map_or(String::new(), |open| self.hint(open)),
            message: self.message.clone(),
            help: format!(
                "Enter closes the open field, Backspace takes back a byte,{show} Ctrl-C leaves."
            ),
        }
    }

    /// What a field wants, in its author's words and counted, and how many keys it refused.
    fn hint(&self, number: usize) -> String {
        let Field { label, hint, .. } = &self.form.fields[number];
        let refusals = match self.refusals {
            0 => String::new(),
            1 => "1 key refused".to_string(),
            many => format!("{many} keys refused"),
        };
        let mut notes = vec![self.wants(number, ""), refusals];
        notes.retain(|note| !note.is_empty());
        match &notes[..] {
            [] => format!("{label}: {hint}"),
            _ => format!("{label}: {hint} ({})", notes.join("; ")),
        }
    }

    /// How many bytes more a field wants at least, and for what; nothing, if its text is accepted.
    fn wants(&self, number: usize, what: &str) -> String {
        let room = limits::TEXT - self.desk.text(number).map_or(0, <[u8]>::len);
        match (self.desk.fewest_more(number), room) {
            (None, _) => "no text is accepted".to_string(),
            (Some(0), _) => String::new(),
            (Some(more), _) if more <= room => format!("at least {more} more{what}"),
            (Some(more), 0) => format!("at least {more} more{what}, but room for none"),
            (Some(more), _) => format!("at least {more} more{what}, but room for only {room}"),
        }
    }

    /// A field, as it is shown.
    fn shown(&self, number: usize) -> Shown {
        let text = self.desk.text(number).unwrap_or_default();
        let more = self.desk.fewest_more(number).unwrap_or(0);
        let field = &self.form.fields[number];
        Shown {
            mark: match self.desk.open_field() {
                Some(open) if open == number => Mark::Open,
                Some(open) if open < number => Mark::Later,
                _ => Mark::Closed,
            },
            label: field.label.clone(),
            text: printed(text, field.masked && !self.clear),
            more: more.min(limits::TEXT - text.len()),
        }
    }

    /// The labels and texts, a line for each field. Masked fields are written as they are only where that is asked for.
    pub fn lines(&self, clear: bool) -> Vec<String> {
        let fields = &self.form.fields;
        let widest = fields.iter().map(|field| field.label.width()).max();
        let line = |(number, field): (usize, &Field)| {
            let text = self.desk.text(number).unwrap_or_default();
            let gap = 2 + widest.unwrap_or(0) - field.label.width();
            format!(
                "{}{:gap$}{}",
                field.label,
                "",
                printed(text, field.masked && !clear)
            )
        };
        fields.iter().enumerate().map(line).collect()
    }
}

/// A text as it is printed: each byte as itself, or as the escape that a pattern has for it; masked, as stars.
fn printed(text: &[u8], masked: bool) -> String {
    if masked {
        return "*".repeat(text.len());
    }
    let byte = |byte: &u8| match byte {
        b'\\' => "\\\\".to_string(),
        0x20..=0x7E => char::from(*byte).to_string(),
        _ => format!("\\x{byte:02X}"),
    };
    text.iter().map(byte).collect()
}
