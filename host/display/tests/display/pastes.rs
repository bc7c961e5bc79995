//! Pastes: typed byte by byte, up to the first that is refused.

use crate::terminal::Display;
use crate::{form, shown, USUAL};

/// A text as a terminal marks it that was pasted.
fn paste(text: &[u8]) -> Vec<u8> {
    [b"\x1B[200~", text, b"\x1B[201~"].concat()
}

/// What is said of a paste of so many bytes, where one of them is refused.
fn refused(name: &str, place: usize, length: usize, reason: &str) -> String {
    let (taken, rest) = (place - 1, length - place);
    let counted = format!("{taken} taken, {rest} behind it not tried");
    format!("{name}, byte {place} of {length} in the paste, refused: {reason}; {counted}")
}

/// What the desk says of a byte, and what the display says of one that is a key.
const DEAD: &str = "no text of this field goes on this way";
const NONE: &str = "no text that is typed has it";

#[test]
fn a_paste_stops_at_the_first_refused_byte() {
    let mut display = Display::start(&[&form("hex")], USUAL);
    let digits = "0123456789ABCDEF";
    for length in 1..=digits.len() {
        for wrong in 0..length {
            let mut text = digits.as_bytes()[..length].to_vec();
            text[wrong] = b'g';
            display.key(&paste(&text));
            let wanted = refused("'g'", wrong + 1, length, DEAD);
            let seen = shown(&display, "component");
            assert_eq!(seen, (digits[..wrong].to_string(), wanted));
            assert_eq!(display.cursor(), (2, (21 + wrong) as u16));
            if wrong > 0 {
                display.key(&vec![0x7F; wrong]);
            }
        }
        display.key(&paste(&digits.as_bytes()[..length]));
        let wanted = format!("pasted, {length} of {length} bytes taken");
        let seen = shown(&display, "component");
        assert_eq!(seen, (digits[..length].to_string(), wanted));
        display.key(&vec![0x7F; length]);
    }
}

#[test]
fn a_paste_is_judged_and_never_repaired() {
    let asks = "Ctrl-C again leaves the form and drops what was entered; any other key goes on";
    let grouped = b"0123 4567 89AB CDEF g0123 4567 89AB CDEF";
    // What is sent; then the field, up to which digit it is filled, and the message.
    let rows: [(Vec<u8>, usize, String); 13] = [
        (paste(grouped), 4, refused("Space", 5, 40, DEAD)),
        (paste(b"4567\r"), 8, refused("Enter", 5, 5, NONE)),
        (paste(b"8\x08\x08\x08"), 9, refused("Backspace", 2, 4, NONE)),
        (paste(b"\x7F"), 9, refused("Backspace", 1, 1, NONE)),
        (paste(b"\x03"), 9, refused("Ctrl-C", 1, 1, NONE)),
        (paste(b"\x1B[A9"), 9, refused("Escape", 1, 4, NONE)),
        (paste(b"9\x1B[20"), 10, refused("Escape", 2, 5, NONE)),
        (paste("Aé".as_bytes()), 11, refused("'é'", 2, 3, NONE)),
        (paste(b"BCDEF0"), 16, refused("'0'", 6, 6, DEAD)),
        (paste(b""), 16, "pasted, 0 of 0 bytes taken".to_string()),
        // Ctrl-C alone is heard within a paste that does not end; then the line is free again.
        (
            b"\x1B[200~0".to_vec(),
            16,
            "a paste is coming in".to_string(),
        ),
        (b"\x03".to_vec(), 16, asks.to_string()),
        (b"\x7F".to_vec(), 15, String::new()),
    ];
    let digits = "0123456789ABCDEF";
    let mut display = Display::start(&[&form("hex")], USUAL);
    for (bytes, length, message) in rows {
        display.key(&bytes);
        let wanted = (digits[..length].to_string(), message);
        assert_eq!(shown(&display, "component"), wanted, "{bytes:02X?}");
    }
}

#[test]
fn a_remark_stays_one_line() {
    let mut display = Display::start(&[&form("remark")], USUAL);
    display.key(b"\r");
    let rows: [(Vec<u8>, &str, String); 3] = [
        (paste(b"one\ntwo"), "one", refused("Line end", 4, 7, DEAD)),
        (b"\n".to_vec(), "one", format!("Line end refused: {DEAD}")),
        (
            paste(b" two"),
            "one two",
            "pasted, 4 of 4 bytes taken".into(),
        ),
    ];
    for (bytes, text, message) in rows {
        display.key(&bytes);
        let wanted = (text.to_string(), message);
        assert_eq!(shown(&display, "remark"), wanted, "{bytes:02X?}");
    }
}

#[test]
fn a_paste_may_come_in_pieces_and_be_long() {
    let mut display = Display::start(&[&form("hex")], USUAL);
    display.key(b"01\x1B[20");
    for (piece, text, message) in [
        (&b"0~DEF"[..], "01", "a paste is coming in"),
        (b"\x1B", "01", "a paste is coming in"),
        (b"[201~", "01DEF", "pasted, 3 of 3 bytes taken"),
        (b"23456789ABC", "01DEF23456789ABC", ""),
    ] {
        display.key(piece);
        let wanted = (text.to_string(), message.to_string());
        assert_eq!(shown(&display, "component"), wanted, "{piece:02X?}");
    }
    display.key(b"\r");
    display.send(&paste(&[b'0'; 3_000]));
    display.until(|screen| screen.contents().contains("of 3000"));
    let reason = "a field has at most 128 bytes";
    let wanted = ("*".repeat(59), refused("'0'", 129, 3_000, reason));
    assert_eq!(shown(&display, "secret"), wanted);
    assert_eq!(display.rows().concat().matches('*').count(), 128);
}
