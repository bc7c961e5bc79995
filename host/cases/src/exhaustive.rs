//! All strings up to a length over an alphabet, shortest first, then in the alphabet's order.

/// Pattern bytes that together reach every rule of the grammar but hex.
pub const PATTERN_BYTES: &[u8; 15] = b"ab|*+?()[]-\\e0.";

/// The iterator over all strings up to a length.
#[derive(Clone, Debug)]
pub struct Strings {
    alphabet: Vec<u8>,
    most: usize,
    next: Option<Vec<usize>>,
}

/// All strings of at most `most` bytes over an alphabet, the empty one included.
pub fn strings(alphabet: &[u8], most: usize) -> Strings {
    Strings {
        alphabet: alphabet.to_vec(),
        most,
        next: Some(Vec::new()),
    }
}

/// All texts of at most `most` bytes over the pattern bytes above, legal or not.
pub fn patterns(most: usize) -> Strings {
    strings(PATTERN_BYTES, most)
}

impl Iterator for Strings {
    type Item = Vec<u8>;

    fn next(&mut self) -> Option<Vec<u8>> {
        let mut digits = self.next.take()?;
        let string = digits.iter().map(|&digit| self.alphabet[digit]).collect();
        let last = self.alphabet.len().saturating_sub(1);
        match digits.iter().rposition(|&digit| digit < last) {
            Some(at) => {
                digits[at] += 1;
                digits[at + 1..].fill(0);
                self.next = Some(digits);
            }
            None if digits.len() < self.most && !self.alphabet.is_empty() => {
                self.next = Some(vec![0; digits.len() + 1]);
            }
            None => {}
        }
        Some(string)
    }
}
