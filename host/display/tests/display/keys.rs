//! Keys that are not one byte: each is refused whole, by its name.

use crate::rule;
use crate::terminal::Display;
use crate::{form, shown, USUAL};
use display::keys::{Keys, Press};
use display::names;

/// What a terminal sends, and what it is called.
fn rows() -> Vec<(Vec<u8>, String)> {
    let mut rows: Vec<(Vec<u8>, String)> = Vec::new();
    let mut add = |bytes: &[u8], name: &str| rows.push((bytes.to_vec(), name.to_string()));
    // F1 to F12 of the console, xterm and rxvt.
    let numbers = [11, 12, 13, 14, 15, 17, 18, 19, 20, 21, 23, 24];
    for (place, number) in numbers.into_iter().enumerate() {
        let name = format!("F{}", place + 1);
        let letter = place as u8;
        add(format!("\x1B[{number}~").as_bytes(), &name);
        if place < 5 {
            add(&[0x1B, b'[', b'[', b'A' + letter], &name);
        }
        if place < 4 {
            add(&[0x1B, b'O', b'P' + letter], &name);
        }
    }
    // Alt with each hex digit and some more.
    for key in "0123456789ABCDEFabcdefGk\\|~".bytes() {
        add(&[0x1B, key], &format!("Alt-'{}'", char::from(key)));
    }
    let more: [(&[u8], &str); 55] = [
        (b"\x1B[A", "Up"),
        (b"\x1B[B", "Down"),
        (b"\x1B[C", "Right"),
        (b"\x1B[D", "Left"),
        (b"\x1BOA", "Up"),
        (b"\x1BOF", "End"),
        (b"\x1B[H", "Home"),
        (b"\x1B[1~", "Home"),
        (b"\x1B[2~", "Insert"),
        (b"\x1B[3~", "Delete"),
        (b"\x1B[5~", "Page up"),
        (b"\x1B[6~", "Page down"),
        (b"\x1B[8~", "End"),
        (b"\x1B[Z", "Shift-Tab"),
        (b"\x1B[1;5A", "Ctrl-Up"),
        (b"\x1B[1;2P", "Shift-F1"),
        (b"\x1B[1;3R", "Alt-F3"),
        (b"\x1B[15;6~", "Ctrl-Shift-F5"),
        (b"\x1BO5P", "F1"),
        (b"\x1B[23$", "Shift-F11"),
        (b"\x1B[11^", "Ctrl-F1"),
        (b"\x1B[24@", "Ctrl-Shift-F12"),
        (b"\x1B[a", "Shift-Up"),
        (b"\x1BOc", "Ctrl-Right"),
        (b"\x1B\x1B[A", "Alt-Up"),
        (b"\x1B\x1BOP", "Alt-F1"),
        (b"\x1BOM", "Enter of the keypad"),
        (b"\x1BOu", "'5' of the keypad"),
        (b"\x1B\r", "Alt-Enter"),
        (b"\x1B\x7F", "Alt-Backspace"),
        (b"\x1B\x01", "Alt-Ctrl-A"),
        ("\x1Bé".as_bytes(), "Alt-'é'"),
        ("é".as_bytes(), "'é'"),
        ("€".as_bytes(), "'€'"),
        ("🔑".as_bytes(), "'🔑'"),
        ("\u{202E}".as_bytes(), "U+202E"),
        // Reports of the mouse and the focus.
        (b"\x1B[M ABC"[..6].as_ref(), "a report of the mouse"),
        (b"\x1B[M \xC2\xA0A", "a report of the mouse"),
        (b"\x1B[<0;65;66M", "a report of the mouse"),
        (b"\x1B[<0;65;66m", "a report of the mouse"),
        (b"\x1B[32;65;66M", "a report of the mouse"),
        (b"\x1B[I", "a report of the focus"),
        (b"\x1B[O", "a report of the focus"),
        // Answers and strings.
        (b"\x1B[?62;1;6c", "an answer of the terminal"),
        (b"\x1B[>0;95;0c", "an answer of the terminal"),
        (b"\x1B[12;40R", "an answer of the terminal"),
        (b"\x1B[?2004;1$y", "an answer of the terminal"),
        (b"\x1B[8;24;80t", "an answer of the terminal"),
        (b"\x1B]0;A\x07", "a terminal's string"),
        (b"\x1BP1$rA\r", "a terminal's string"),
        (b"\x9DA0\x9C", "a terminal's string"),
        // The 8-bit controls, and bytes that are no character.
        (b"\x9BA", "Up"),
        (b"\x8FP", "F1"),
        (b"\x84", "byte 0x84"),
        (b"\xFF", "byte 0xFF"),
    ];
    for (bytes, name) in more {
        add(bytes, name);
    }
    rows
}

#[test]
fn other_keys_are_refused_whole() {
    let mut display = Display::start(&[&form("hex")], USUAL);
    display.key(b"01");
    let cursor = display.cursor();
    for (number, (bytes, name)) in rows().into_iter().enumerate() {
        let wanted = format!("{name} refused: only keys of one byte are typed");
        display.key(&bytes);
        let seen = (
            shown(&display, "component"),
            display.cursor(),
            display.bells(),
        );
        assert_eq!(
            seen,
            (("01".to_string(), wanted), cursor, number + 1),
            "{bytes:02X?}"
        );
        // The key after it is typed.
        display.key(b"A");
        assert_eq!(
            shown(&display, "component"),
            ("01A".to_string(), String::new()),
            "{bytes:02X?}"
        );
        display.key(b"\x7F");
    }
}

#[test]
fn keys_that_come_in_pieces_are_refused_whole() {
    let mut display = Display::start(&[&form("hex")], USUAL);
    let mut bells = 0;
    let some = rows()
        .into_iter()
        .filter(|(bytes, _)| bytes.len() > 1)
        .step_by(4);
    // A string that ends in two bytes is followed by a key of its own.
    for (bytes, name) in some {
        for byte in &bytes {
            assert_eq!(shown(&display, "component").0, "", "{bytes:02X?}");
            display.key(&[*byte]);
        }
        bells += 1;
        let wanted = format!("{name} refused: only keys of one byte are typed");
        let seen = (shown(&display, "component"), display.bells());
        assert_eq!(seen, ((String::new(), wanted), bells), "{bytes:02X?}");
    }
    // What is not whole says so.
    let rows: [(&[u8], &str); 6] = [
        (b"\x1B", "Escape refused; a key that follows belongs to it"),
        (
            b"[",
            "a key of several bytes (1B 5B) is not whole; what follows belongs to it",
        ),
        (b"A", "Up refused: only keys of one byte are typed"),
        (b"\x1B]A", "a terminal's string is coming in; Enter ends it"),
        (
            b"0\r",
            "a terminal's string refused: only keys of one byte are typed",
        ),
        (
            b"\xC3",
            "a key of several bytes (C3) is not whole; what follows belongs to it",
        ),
    ];
    for (bytes, message) in rows {
        display.key(bytes);
        let wanted = (String::new(), message.to_string());
        assert_eq!(shown(&display, "component"), wanted, "{bytes:02X?}");
    }
    // A byte that begins a character, then a key of another kind: nothing is typed.
    display.key(b"\x1B[A");
    let wanted = at_once("byte 0xC3", 1, 2, "only keys of one byte are typed");
    assert_eq!(shown(&display, "component"), (String::new(), wanted));
}

/// What is said of so many keys that came at once, where one of them is refused.
fn at_once(name: &str, place: usize, count: usize, reason: &str) -> String {
    let rest = count - place;
    format!("{name}, {place} of {count} that came at once, refused: {reason}; {rest} behind it not tried")
}

#[test]
fn what_comes_at_once_behind_a_refused_key_is_not_tried() {
    let dead = "no text of this field goes on this way";
    let kind = "only keys of one byte are typed";
    let alone = "it closes a field only where it comes alone";
    let moves = "it moves nothing: fields are closed in their order, by Enter";
    let none = String::new;
    // What is sent; then the text of the field, and the message.
    let string = || at_once("a terminal's string", 1, 2, kind);
    let rows: [(&[u8], &str, String); 10] = [
        // Strings that end in two bytes, and a byte of Latin-1 before an arrow.
        (b"\x1BP1$rA\x1B\\", "", string()),
        (b"\x1B]0;A\x1B\\", "", string()),
        (b"\xE9\x1B[A", "", at_once("byte 0xE9", 1, 2, kind)),
        (
            b"0123 4567 89AB CDEF",
            "0123",
            at_once("Space", 5, 19, dead),
        ),
        (b"4567", "01234567", none()),
        (b"\x7F\x7FA", "012345A", none()),
        (b"\x1B[[A0", "012345A", at_once("F1", 1, 2, kind)),
        (b"7\r", "012345A7", at_once("Enter", 2, 2, alone)),
        (b"89ABCDEF", "012345A789ABCDEF", none()),
        (b"\t", "012345A789ABCDEF", format!("Tab refused: {moves}")),
    ];
    let mut display = Display::start(&[&form("hex")], USUAL);
    for (bytes, text, message) in rows {
        display.key(bytes);
        let wanted = (text.to_string(), message);
        assert_eq!(shown(&display, "component"), wanted, "{bytes:02X?}");
    }
    // The refusals since the field was opened stay on the screen.
    let hint = "  component: 16 hex digits (7 keys refused)";
    assert!(
        display.rows().iter().any(|row| row == hint),
        "{:#?}",
        display.rows()
    );
    display.key(b"\r");
    let hint = "  secret: hex digits";
    assert!(
        display.rows().iter().any(|row| row == hint),
        "{:#?}",
        display.rows()
    );
}

#[test]
fn keys_are_named() {
    for (bytes, name) in rows() {
        assert_eq!(names::other(&bytes), name, "{bytes:02X?}");
    }
}

#[test]
fn bytes_are_taken_apart_as_the_rule_says() {
    let mut random = crate::drawn::Random::new(7);
    let mut keys = Keys::new();
    for _ in 0..20_000 {
        let bytes = crate::drawn::keyboard(&mut random, 12);
        let mut presses = Vec::new();
        keys.drop_unfinished();
        bytes.iter().for_each(|byte| keys.take(*byte, &mut presses));
        let (mut rest, mut wanted) = (&bytes[..], Vec::new());
        while let Some((length, kind)) = rule::press(rest) {
            wanted.push(match kind {
                rule::Kind::Byte(byte) => Press::Byte(byte),
                rule::Kind::Paste(bytes) => {
                    let length = bytes.len();
                    Press::Paste(display::keys::Paste { bytes, length })
                }
                rule::Kind::Other => Press::Other(rest[..length].to_vec()),
            });
            rest = &rest[length..];
        }
        // Of 0x1B again and again two are kept, or one before a paste; of all other bytes the first.
        for press in &mut wanted {
            if let Press::Other(bytes) = press {
                while bytes.starts_with(b"\x1B\x1B\x1B") || bytes == b"\x1B\x1B" {
                    bytes.remove(0);
                }
                bytes.truncate(32);
            }
        }
        assert_eq!(presses, wanted, "{bytes:02X?}");
        assert_eq!(
            keys.unfinished().is_some(),
            !rest.is_empty(),
            "{bytes:02X?}"
        );
    }
}
