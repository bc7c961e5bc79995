//! The rule that the display must keep, written once more by other means: where a press ends is looked for in the bytes
//! that follow, and what a press does to a field of hex digits is said of its text.

/// What a press is.
#[derive(Clone, PartialEq, Eq, Debug)]
pub enum Kind {
    /// A key of one byte.
    Byte(u8),
    /// Anything else that is no paste.
    Other,
    /// A paste of these bytes.
    Paste(Vec<u8>),
}

/// The first press of these bytes, and its length. None, if it is not whole.
pub fn press(bytes: &[u8]) -> Option<(usize, Kind)> {
    let escapes = bytes.iter().take_while(|byte| **byte == 0x1B).count();
    let first = *bytes.get(escapes)?;
    if escapes == 0 && first < 0x80 {
        return Some((1, Kind::Byte(first)));
    }
    if escapes > 0 && bytes[escapes..].starts_with(b"[200~") {
        if escapes > 1 {
            return Some((escapes - 1, Kind::Other));
        }
        let text = &bytes[6..];
        let end = text.windows(6).position(|end| end == b"\x1B[201~")?;
        return Some((6 + end + 6, Kind::Paste(text[..end].to_vec())));
    }
    // An 8-bit control is 0x1B and a byte from 0x40 to 0x5F.
    let (control, eight) = match first {
        0x80..=0x9F => (first - 0x40, true),
        0x1B..=0x7F => (first, false),
        _ => (0, false),
    };
    let rest = &bytes[escapes + 1..];
    let length = match control {
        b'[' => sequence(rest)?,
        b'O' => up_to(rest, |byte| !matches!(byte, b'0'..=b'9' | b';'))?,
        b'P' | b'X' | b']' | b'^' | b'_' => {
            up_to(rest, |byte| byte < 0x20 || (eight && byte == 0x9C))?
        }
        0 if first >= 0xC2 => character(first, rest)?,
        _ => 0,
    };
    Some((escapes + 1 + length, Kind::Other))
}

/// The length up to a byte that ends it, which counts with it, or up to 0x1B, which does not.
fn up_to(rest: &[u8], ends: impl Fn(u8) -> bool) -> Option<usize> {
    let place = rest.iter().position(|&byte| byte == 0x1B || ends(byte))?;
    Some(if rest[place] == 0x1B {
        place
    } else {
        place + 1
    })
}

/// The length of what follows CSI.
fn sequence(rest: &[u8]) -> Option<usize> {
    match rest.first()? {
        // The function keys of the console.
        b'[' => Some(if *rest.get(1)? == 0x1B { 1 } else { 2 }),
        // The mouse: three coordinates, of one byte or two.
        b'M' => {
            let mut place = 1;
            for _ in 0..3 {
                let two = matches!(rest.get(place)?, 0xC2..=0xDF);
                for _ in 0..1 + usize::from(two) {
                    if *rest.get(place)? == 0x1B {
                        return Some(place);
                    }
                    place += 1;
                }
            }
            Some(place)
        }
        _ => {
            let digits = rest.iter().take_while(|byte| byte.is_ascii_digit()).count();
            if digits > 0 && *rest.get(digits)? == b'$' {
                return Some(digits + 1);
            }
            up_to(rest, |byte| !(0x20..=0x3F).contains(&byte))
        }
    }
}

/// The length of what follows the first byte of a character: what of it is there.
fn character(first: u8, rest: &[u8]) -> Option<usize> {
    let wanted = match first {
        0xC2..=0xDF => 1,
        0xE0..=0xEF => 2,
        0xF0..=0xF4 => 3,
        _ => 0,
    };
    let goes_on = |byte: &&u8| (0x80..=0xBF).contains(*byte);
    let there = rest.iter().take(wanted).take_while(goes_on).count();
    (there == wanted || there < rest.len()).then_some(there)
}

/// A field that takes up to 128 hex digits, and the bytes on the line that are no whole press yet.
#[derive(Default)]
pub struct Field {
    /// Its text.
    pub text: Vec<u8>,
    waiting: Vec<u8>,
}

impl Field {
    /// Takes bytes that come in at once.
    pub fn take(&mut self, bytes: &[u8]) {
        self.waiting.extend(bytes);
        let mut refused = false;
        while let Some((length, kind)) = press(&self.waiting) {
            self.waiting.drain(..length);
            refused = refused || !self.judge(kind);
        }
    }

    /// Whether a press is taken.
    fn judge(&mut self, kind: Kind) -> bool {
        match kind {
            Kind::Other => false,
            Kind::Paste(text) => text.iter().all(|byte| self.add(*byte)),
            Kind::Byte(0x08 | 0x7F) => {
                self.text.pop();
                true
            }
            // Shows what is masked.
            Kind::Byte(0x12) => true,
            Kind::Byte(byte) => self.add(byte),
        }
    }

    /// Whether a byte is taken as text.
    fn add(&mut self, byte: u8) -> bool {
        let taken = matches!(byte, b'0'..=b'9' | b'A'..=b'F') && self.text.len() < 128;
        if taken {
            self.text.push(byte);
        }
        taken
    }
}
