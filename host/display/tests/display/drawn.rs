//! A keyboard whose bytes are drawn at random: the form never holds what the rule does not give.

use crate::rule::Field;
use crate::terminal::Display;
use crate::{form, terminal};
use std::time::{Duration, Instant};

/// Numbers drawn at random (xorshift), from a seed.
pub struct Random(u64);

impl Random {
    /// The numbers of a seed.
    pub fn new(seed: u64) -> Random {
        Random(seed.wrapping_mul(0x9E37_79B9_7F4A_7C15) | 1)
    }

    /// A number below this one.
    pub fn below(&mut self, limit: usize) -> usize {
        self.0 ^= self.0 << 13;
        self.0 ^= self.0 >> 7;
        self.0 ^= self.0 << 17;
        (self.0 >> 33) as usize % limit
    }
}

/// The bytes of up to so many presses and pieces of presses, but for Ctrl-C, which leaves, and Enter, which closes a
/// field where it comes alone.
pub fn keyboard(random: &mut Random, most: usize) -> Vec<u8> {
    let pieces: [&[u8]; 20] = [
        b"\x1B",
        b"\x1B[",
        b"\x1BO",
        b"\x1B[[",
        b"\x1B[M",
        b"\x1B[<0;3;4",
        b"\x1B]0;",
        b"\x1BP",
        b"\x1B[200~",
        b"\x1B[201~",
        b"\x1B[200~0A\x1B[201~",
        b"\x1B[1;5",
        b"\x9B",
        b"\x9D",
        b"\x9C",
        b"\x8F",
        b"\xC3",
        b"\xE2\x82",
        b"\xF0\x9F\x94\x91",
        b"\x1B\\",
    ];
    let digits = b"0123456789ABCDEF";
    let mut bytes = Vec::new();
    for _ in 0..1 + random.below(most) {
        match random.below(10) {
            0..=3 => bytes.push(digits[random.below(16)]),
            4 => bytes.push(0x7F),
            5 => bytes.push(random.below(256) as u8),
            6 => bytes.push(0x20 + random.below(0x5F) as u8),
            7 => {
                bytes.extend([b'~', b'u', b'$', b'M', b'\x07', b'\t', b'\x1A'].get(random.below(7)))
            }
            _ => bytes.extend(pieces[random.below(20)]),
        }
    }
    bytes.retain(|byte| *byte != 0x03 && *byte != 0x0D);
    bytes
}

/// For so many seconds, or as many as the variable says.
fn seconds() -> Duration {
    let said = std::env::var("DRAWN_SECONDS").ok();
    Duration::from_secs(said.map_or(3, |said| said.parse().unwrap()))
}

/// The text of the first field of the form `remark`, which goes on in further lines.
fn text(display: &Display) -> String {
    let rows = display.rows();
    let lines = rows[2..].iter().take_while(|row| !row.contains("remark"));
    lines
        .map(|row| row.get(18..).unwrap_or("").trim_end())
        .collect()
}

#[test]
fn a_drawn_keyboard_types_what_the_rule_gives() {
    let seed = std::env::var("DRAWN_SEED").map_or(11, |said| said.parse().unwrap());
    let mut random = Random::new(seed);
    let begun = Instant::now();
    let (mut bursts, mut all) = (0, 0);
    while begun.elapsed() < seconds() {
        let mut display = Display::start(&[&form("remark")], (40, 80));
        let mut field = Field::default();
        for _ in 0..400 {
            let bytes = keyboard(&mut random, 6);
            if bytes.is_empty() || begun.elapsed() >= seconds() {
                continue;
            }
            display.key(&bytes);
            field.take(&bytes);
            let wanted = String::from_utf8(field.text.clone()).unwrap();
            assert_eq!(
                text(&display),
                wanted,
                "after {bytes:02X?}, the {bursts}th of seed {seed}"
            );
            bursts += 1;
            all += bytes.len();
        }
        display.signal(libc::SIGTERM);
        display.ended();
    }
    println!("{bursts} bursts, {all} bytes");
    assert!(bursts > 0);
}

#[test]
fn drawn_sizes_show_the_cursor() {
    let mut random = Random::new(5);
    let mut display = Display::start(&[&form("remark")], (24, 80));
    let (mut typed, mut size) = (String::new(), (24, 80));
    for _ in 0..60 {
        let digits: String = (0..random.below(6))
            .map(|_| b"0123456789ABCDEF"[random.below(16)] as char)
            .collect();
        if !digits.is_empty() && typed.len() + digits.len() <= 128 {
            display.key(digits.as_bytes());
            typed += &digits;
        }
        let next: terminal::Size = (4 + random.below(12) as u16, 20 + random.below(60) as u16);
        if next != size {
            display.resize(next);
            size = next;
        }
        // The cursor stands behind the last digit.
        let (row, column) = display.cursor();
        let before = display.rows()[usize::from(row)]
            .chars()
            .nth(usize::from(column).wrapping_sub(1));
        match (typed.chars().last(), column) {
            (Some(_), 0) => assert_eq!(typed.len() % usize::from(size.1), 0),
            (Some(last), _) if before != Some(' ') => {
                assert_eq!(before, Some(last), "{:#?}", display.rows())
            }
            _ => (),
        }
        assert_eq!(
            display.rows()[usize::from(row)]
                .chars()
                .nth(usize::from(column)),
            None
        );
    }
}
