//! The library's operations, with the buffers that they are lent.

use palgondur::{limits, raw};

/// A room and the scratch. The operations leave the scratch zero, so nothing is cleared between two calls.
pub struct Lent {
    pub room: Vec<u8>,
    pub bytes: Vec<u8>,
    pub words: Vec<u64>,
}

impl Lent {
    pub fn new() -> Lent {
        Lent {
            room: vec![0; limits::ROOM],
            bytes: vec![0; limits::SCRATCH_BYTES],
            words: vec![0; limits::SCRATCH_WORDS],
        }
    }

    /// Compiles a pattern into the room.
    pub fn compile(&mut self, pattern: &str) {
        let (number, place) = raw::compile(
            pattern.as_bytes(),
            &mut self.room,
            &mut self.bytes,
            &mut self.words,
        );
        assert_eq!(number, 0, "{pattern} is refused at {place}");
    }

    /// Compares two rooms with the scratch: the answer's number, the length of the separating string, and the rounds.
    pub fn compare(&mut self, left: &[u8], right: &[u8], word: &mut [u8]) -> (u8, usize, usize) {
        raw::compare(left, right, word, &mut self.bytes, &mut self.words)
    }
}

/// The room of a pattern.
pub fn room_of(pattern: &str) -> Vec<u8> {
    let mut lent = Lent::new();
    lent.compile(pattern);
    lent.room
}
