//! Drawing patterns: legal ones, changed ones, and ones near a limit.

use super::Draw;
use second::limits::{self, BYTES, STATES};
use second::text::TWELVE;

/// Which bytes patterns are made of.
#[derive(Clone, Copy, PartialEq, Eq, Debug)]
pub enum Alphabet {
    /// The letters a, b and c, the line end, and few kinds of atoms.
    Small,
    /// Every byte value, by every kind of atom.
    Full,
}

/// The marks that may stand after a factor.
const MARKS: &[u8; 3] = b"*+?";

/// A limit of document 01 that patterns are drawn near to.
#[derive(Clone, Copy, PartialEq, Eq, Debug)]
pub enum Limit {
    /// Bytes of the pattern: 1,023 to 1,026.
    Length,
    /// Nested parentheses: 31 to 34.
    Depth,
    /// Positions: 62 to 65.
    Positions,
    /// Pattern classes: 63 to 66.
    Classes,
    /// Sets reached: 127 to 130.
    Sets,
}

/// All limits.
pub const LIMITS: [Limit; 5] = [
    Limit::Length,
    Limit::Depth,
    Limit::Positions,
    Limit::Classes,
    Limit::Sets,
];

impl Draw {
    /// A legal pattern with so many atoms, at least one, parentheses aside.
    pub fn legal(&mut self, atoms: usize, alphabet: Alphabet) -> Vec<u8> {
        let mut pattern = Vec::new();
        self.expression(&mut pattern, atoms.max(1), 0, alphabet, false);
        pattern
    }

    fn expression(
        &mut self,
        out: &mut Vec<u8>,
        atoms: usize,
        depth: usize,
        alphabet: Alphabet,
        solid: bool,
    ) {
        if atoms > 1 && self.once_in(3) {
            let left = self.between(1, atoms - 1);
            self.expression(out, left, depth, alphabet, solid);
            out.push(b'|');
            self.expression(out, atoms - left, depth, alphabet, solid);
        } else {
            self.branch(out, atoms, depth, alphabet, solid);
        }
    }

    fn branch(
        &mut self,
        out: &mut Vec<u8>,
        atoms: usize,
        depth: usize,
        alphabet: Alphabet,
        solid: bool,
    ) {
        if atoms > 1 && (depth >= limits::DEPTH || !self.once_in(3)) {
            let left = self.between(1, atoms - 1);
            self.branch(out, left, depth, alphabet, solid);
            self.branch(out, atoms - left, depth, alphabet, solid);
        } else {
            if atoms > 1 || (depth < limits::DEPTH && self.once_in(8)) {
                out.push(b'(');
                self.expression(out, atoms, depth + 1, alphabet, solid);
                out.push(b')');
            } else {
                self.atom(out, alphabet, solid);
            }
            while self.once_in(4) {
                let mark = self.pick(MARKS);
                out.push(mark);
            }
        }
    }

    /// An atom without parentheses; a solid one is a position.
    fn atom(&mut self, out: &mut Vec<u8>, alphabet: Alphabet, solid: bool) {
        if !solid && self.once_in(12) {
            let word: &[u8] = if self.once_in(2) { b"\\e" } else { b"\\0" };
            out.extend_from_slice(word);
        } else if alphabet == Alphabet::Small {
            let kinds: [&[u8]; 9] = [
                b"a", b"a", b"b", b"b", b"c", b".", b"[ab]", b"[a-c]", b"\\x0A",
            ];
            let kind = self.pick(&kinds);
            out.extend_from_slice(kind);
        } else {
            match self.below(8) {
                0 => out.push(b'.'),
                1 | 2 => self.class(out, false),
                3 => {
                    let byte = self.byte();
                    self.hex(out, byte);
                }
                4 => {
                    let byte = self.pick(b"()|*[]{}\\.+?^-");
                    out.extend_from_slice(&[b'\\', byte]);
                }
                _ => {
                    let byte = self.printable(TWELVE);
                    out.push(byte);
                }
            }
        }
    }

    /// A byte 0x20 to 0x7E that is not among the excepted.
    fn printable(&mut self, except: &[u8]) -> u8 {
        loop {
            let byte = self.between(0x20, 0x7e) as u8;
            if !except.contains(&byte) {
                return byte;
            }
        }
    }

    fn hex(&mut self, out: &mut Vec<u8>, byte: u8) {
        out.extend_from_slice(b"\\x");
        for digit in [byte / 16, byte % 16] {
            let digit = char::from_digit(u32::from(digit), 16).unwrap_or('0');
            let upper = self.once_in(2);
            out.push(if upper {
                digit.to_ascii_uppercase()
            } else {
                digit
            } as u8);
        }
    }

    /// A byte as a class may write it.
    fn class_byte(&mut self, out: &mut Vec<u8>, byte: u8) {
        let plain = (0x20..=0x7e).contains(&byte) && !b"[]\\-^".contains(&byte);
        let escaped = TWELVE.contains(&byte) || b"^-".contains(&byte);
        if plain && !self.once_in(4) {
            out.push(byte);
        } else if escaped && !self.once_in(4) {
            out.extend_from_slice(&[b'\\', byte]);
        } else {
            self.hex(out, byte);
        }
    }

    /// A class of a few items; the ends of a range stand in any order if `any_order`.
    fn class(&mut self, out: &mut Vec<u8>, any_order: bool) {
        out.push(b'[');
        for _ in 0..self.between(1, 4) {
            let (mut low, mut high) = (self.byte(), self.byte());
            if self.once_in(2) {
                low = self.printable(b"");
                high = self.printable(b"");
            }
            if low > high && !any_order {
                std::mem::swap(&mut low, &mut high);
            }
            self.class_byte(out, low);
            if self.once_in(2) {
                out.push(b'-');
                self.class_byte(out, high);
            }
        }
        out.push(b']');
    }

    /// A legal pattern with classes in it whose ranges may have low above high.
    pub fn ranges(&mut self, atoms: usize) -> Vec<u8> {
        let mut pattern = Vec::new();
        for _ in 0..self.between(1, 3) {
            let some = self.between(1, atoms.max(1));
            let part = self.legal(some, Alphabet::Small);
            pattern.extend_from_slice(&part);
            self.class(&mut pattern, true);
        }
        pattern
    }

    /// The pattern with one or two small changes: a byte replaced, dropped, doubled or put in, or the end cut off.
    pub fn mutated(&mut self, pattern: &[u8]) -> Vec<u8> {
        let mut pattern = pattern.to_vec();
        for _ in 0..self.between(1, 2) {
            let byte = match self.below(4) {
                0 => self.byte(),
                1 => self.printable(b""),
                _ => self.pick(b"()|*[]{}\\.+?^-xeab0"),
            };
            let at = self.below(pattern.len() + 1);
            match self.below(5) {
                0 => pattern.truncate(at),
                1 => pattern.insert(at, byte),
                _ if at == pattern.len() => pattern.push(byte),
                2 => pattern[at] = byte,
                3 => {
                    pattern.remove(at);
                }
                _ => pattern.insert(at, pattern[at]),
            }
        }
        pattern
    }

    /// A pattern near a limit, on either side of it.
    pub fn near(&mut self, limit: Limit) -> Vec<u8> {
        match limit {
            Limit::Length => self.near_length(),
            Limit::Depth => self.near_depth(),
            Limit::Positions => self.near_positions(),
            Limit::Classes => self.near_classes(),
            Limit::Sets => self.near_sets(),
        }
    }

    /// A legal text of 1,023 to 1,026 bytes.
    pub fn near_length(&mut self) -> Vec<u8> {
        let length = self.between(limits::PATTERN - 1, limits::PATTERN + 2);
        let atoms = self.between(1, 12);
        let mut pattern = self.legal(atoms, Alphabet::Small);
        let mut wraps = 0;
        while pattern.len() < length {
            match self.below(4) {
                0 if pattern.len() + 2 <= length => pattern.extend_from_slice(b"\\e"),
                1 if pattern.len() + 3 <= length => pattern.extend_from_slice(b"|\\e"),
                2 if pattern.len() + 2 <= length && wraps < limits::DEPTH / 2 => {
                    pattern.insert(0, b'(');
                    pattern.push(b')');
                    wraps += 1;
                }
                _ => {
                    let mark = self.pick(MARKS);
                    pattern.push(mark);
                }
            }
        }
        pattern
    }

    /// A pattern whose parentheses nest 31 to 34 deep, with others beside.
    pub fn near_depth(&mut self) -> Vec<u8> {
        let depth = self.between(limits::DEPTH - 1, limits::DEPTH + 2);
        let beside: [&[u8]; 6] = [b"", b"", b"a", b"b|", b"(a)", b"[(]"];
        let after: [&[u8]; 8] = [b"", b"", b"*", b"+", b"?", b"a", b"|b", b"\\("];
        let mut pattern = Vec::new();
        for _ in 0..depth {
            let part = self.pick(&beside);
            pattern.extend_from_slice(part);
            pattern.push(b'(');
        }
        pattern.push(b'c');
        for _ in 0..depth {
            pattern.push(b')');
            let part = self.pick(&after);
            pattern.extend_from_slice(part);
        }
        pattern
    }

    /// A legal pattern of 62 to 65 positions.
    pub fn near_positions(&mut self) -> Vec<u8> {
        let positions = self.between(limits::POSITIONS - 1, limits::POSITIONS + 2);
        let mut pattern = Vec::new();
        if self.once_in(2) {
            self.expression(&mut pattern, positions, 0, Alphabet::Small, true);
            return pattern;
        }
        for at in 0..positions {
            let full = self.once_in(2);
            let kind = if full {
                Alphabet::Full
            } else {
                Alphabet::Small
            };
            self.atom(&mut pattern, kind, true);
            if self.once_in(16) && at + 1 < positions {
                pattern.push(b'|');
            }
        }
        pattern
    }

    /// A pattern of 63 to 66 pattern classes and at most 63 positions.
    pub fn near_classes(&mut self) -> Vec<u8> {
        let classes = self.between(limits::CLASSES - 1, limits::CLASSES + 2);
        let overlaps = self.between(2, 6);
        let mut bytes: Vec<u8> = (0..BYTES).map(|byte| byte as u8).collect();
        self.shuffle(&mut bytes);
        // One class for the bytes that no position holds, three for two classes with one byte in common.
        let (pairs, singles) = bytes.split_at(3 * overlaps);
        let mut atoms = Vec::new();
        for three in pairs.chunks(3) {
            for two in three.windows(2) {
                let mut atom = vec![b'['];
                two.iter()
                    .for_each(|&byte| self.class_byte(&mut atom, byte));
                atom.push(b']');
                atoms.push(atom);
            }
        }
        for &byte in &singles[..classes - 1 - 3 * overlaps] {
            let mut atom = Vec::new();
            if (0x20..=0x7e).contains(&byte) && !TWELVE.contains(&byte) {
                atom.push(byte);
            } else {
                self.hex(&mut atom, byte);
            }
            atoms.push(atom);
        }
        self.shuffle(&mut atoms);
        let between: &[u8] = if self.once_in(2) { b"|" } else { b"" };
        atoms.join(between)
    }

    /// A pattern that reaches 127 to 130 sets.
    pub fn near_sets(&mut self) -> Vec<u8> {
        let sets = self.between(STATES - 1, STATES + 2);
        let mut letters: Vec<u8> = (b'a'..=b'z').collect();
        self.shuffle(&mut letters);
        let (a, b, c, d) = (letters[0], letters[1], letters[2], letters[3]);
        let mut branches: Vec<Vec<u8>> = Vec::new();
        if self.once_in(2) {
            // 99 sets, and one more for each letter of the last branch.
            let choice = [b'(', a, b'|', b, b')'];
            let counted = |times: usize| [&choice[..], &[b'*', a], &choice.repeat(times)].concat();
            branches.push(counted(5));
            branches.push([vec![c], counted(4)].concat());
            branches.push(vec![d; sets - 99]);
        } else {
            // Two cycles without a common divisor, and one more set for each letter of the last branch. Whether a cycle may be
            // left out makes no other set.
            let (one, other) = self.pick(&[(9, 13), (8, 15), (7, 17), (10, 11), (5, 23)]);
            for times in [one, other] {
                let mark = self.pick(b"*+");
                branches.push([vec![b'('], vec![a; times], vec![b')', mark]].concat());
            }
            branches.push(vec![d; sets - 2 - one * other]);
        }
        self.shuffle(&mut branches);
        branches.join(&b"|"[..])
    }
}
