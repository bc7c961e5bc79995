//! Keys by their names, as the message names what was refused.

use unicode_width::UnicodeWidthChar;

/// The name of a key of one byte.
pub fn byte(key: u8) -> String {
    match key {
        0x08 | 0x7F => "Backspace".to_string(),
        0x09 => "Tab".to_string(),
        0x0A => "Line end".to_string(),
        0x0D => "Enter".to_string(),
        0x1B => "Escape".to_string(),
        0x20 => "Space".to_string(),
        0x21..=0x7E => format!("'{}'", char::from(key)),
        0x00..=0x1F => format!("Ctrl-{}", char::from(key + 0x40)),
        _ => format!("byte 0x{key:02X}"),
    }
}

/// The name of what is no key of one byte, from its first bytes.
pub fn other(bytes: &[u8]) -> String {
    let escapes = bytes.iter().take_while(|byte| **byte == 0x1B).count();
    let (escape, rest) = bytes.split_at(escapes);
    let alt = |name: String| match escape.len() {
        0 => name,
        _ => format!("Alt-{name}"),
    };
    // With 0x1B twice the key after it has its own.
    let prefix = if escape.len() > 1 { "Alt-" } else { "" };
    match rest {
        [] => byte(0x1B),
        [b'[' | 0x9B, b'[', letter @ b'A'..=b'E'] => format!("{prefix}F{}", letter - b'A' + 1),
        [b'[' | 0x9B, b'M' | b'<', ..] => "a report of the mouse".to_string(),
        [b'[' | 0x9B, numbers @ .., last] => match control(numbers, *last, 1) {
            Some(name) => format!("{prefix}{name}"),
            None => sequence(bytes),
        },
        [b'O' | 0x8F, numbers @ .., last] => match keypad(*last).or(control(numbers, *last, 4)) {
            Some(name) => format!("{prefix}{name}"),
            None => sequence(bytes),
        },
        [b'P' | b'X' | b']' | b'^' | b'_' | 0x90 | 0x98 | 0x9D..=0x9F, _, ..] => {
            "a terminal's string".to_string()
        }
        [key @ 0x00..=0x7F] => alt(byte(*key)),
        [0x80..=0xFF] => byte(rest[0]),
        _ if std::str::from_utf8(rest).is_ok() => alt(first(rest)),
        _ => sequence(bytes),
    }
}

/// The name of what these bytes begin with: a character beyond ASCII, or else a byte.
pub fn first(bytes: &[u8]) -> String {
    let text = (2..=4).find_map(|length| std::str::from_utf8(bytes.get(..length)?).ok());
    match (text.and_then(|text| text.chars().next()), bytes.first()) {
        (Some(character), _) if !character.is_ascii() => match character.width() {
            Some(1..) => format!("'{character}'"),
            // It would not be seen, or would change what is.
            _ => format!("U+{:04X}", u32::from(character)),
        },
        (_, Some(key)) => byte(*key),
        (_, None) => String::new(),
    }
}

/// The name of a key, report or answer of the terminal, from the numbers and the last byte of its sequence. `low` is
/// what is held where rxvt ends an arrow in a small letter.
fn control(numbers: &[u8], last: u8, low: u8) -> Option<String> {
    let numbers = std::str::from_utf8(numbers).ok()?;
    let (first, second) = numbers.split_once(';').unwrap_or((numbers, ""));
    let key = match (last, first) {
        (b'A', _) | (b'a', "") => "Up",
        (b'B', _) | (b'b', "") => "Down",
        (b'C', _) | (b'c', "") => "Right",
        (b'D', _) | (b'd', "") => "Left",
        (b'E', _) => "the middle of the keypad",
        (b'F', _) => "End",
        (b'H', _) => "Home",
        (b'P', _) => "F1",
        (b'Q', _) => "F2",
        (b'R', "" | "1") => "F3",
        (b'S', _) => "F4",
        (b'Z', _) => "Shift-Tab",
        (b'~' | b'$' | b'^' | b'@', _) => numbered(first)?,
        (b'I' | b'O', "") => return Some("a report of the focus".to_string()),
        (b'M' | b'm', _) => return Some("a report of the mouse".to_string()),
        (b'R' | b'c' | b'n' | b't' | b'y', _) => {
            return Some("an answer of the terminal".to_string());
        }
        _ => return None,
    };
    // xterm sends one more than the sum of what is held; rxvt ends the key in another way.
    let held = match last {
        b'a'..=b'd' => low,
        b'$' => 1,
        b'^' => 4,
        b'@' => 5,
        _ => second.parse::<u8>().unwrap_or(1).saturating_sub(1),
    };
    let names = [(4, "Ctrl-"), (2, "Alt-"), (1, "Shift-")];
    let names = names.iter().filter(|(bit, _)| held & bit != 0);
    let names: String = names.map(|(_, name)| *name).collect();
    Some(names + key)
}

/// The name of a key that is sent as a number.
fn numbered(number: &str) -> Option<&'static str> {
    const NAMES: [&str; 35] = [
        "",
        "Home",
        "Insert",
        "Delete",
        "End",
        "Page up",
        "Page down",
        "Home",
        "End",
        "",
        "",
        "F1",
        "F2",
        "F3",
        "F4",
        "F5",
        "",
        "F6",
        "F7",
        "F8",
        "F9",
        "F10",
        "",
        "F11",
        "F12",
        "F13",
        "F14",
        "",
        "F15",
        "F16",
        "",
        "F17",
        "F18",
        "F19",
        "F20",
    ];
    match number {
        "201" => Some("the end of a paste"),
        _ => {
            let name = NAMES.get(number.parse::<usize>().ok()?)?;
            (!name.is_empty()).then_some(name)
        }
    }
}

/// The name of a key of the keypad.
fn keypad(last: u8) -> Option<String> {
    match last {
        b'M' => Some("Enter of the keypad".to_string()),
        b'j'..=b'y' => Some(format!("'{}' of the keypad", char::from(last - 0x40))),
        _ => None,
    }
}

/// What has no name, by its bytes.
pub fn sequence(bytes: &[u8]) -> String {
    let hex: Vec<String> = bytes.iter().map(|byte| format!("{byte:02X}")).collect();
    match bytes.len() {
        0..=8 => format!("a key of several bytes ({})", hex.join(" ")),
        _ => format!("a key of several bytes ({} ..)", hex[..8].join(" ")),
    }
}
