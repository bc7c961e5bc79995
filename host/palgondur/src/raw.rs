//! The operations as the archive has them: slices of any length in, numbers out.
//!
//! Nothing is judged here: a room or scratch that is too short is the operation's ROOM. The numbers are those of
//! [`Refusal::number`](crate::Refusal::number), for the desk also of
//! [`OpenRefusal::number`](crate::OpenRefusal::number) and [`KeyRefusal::number`](crate::KeyRefusal::number), and 0 for
//! Done, Accepted and Same, [`DEAD`], [`UNFINISHED`], [`SEPARATED`]. A number that an answer does not have is 0.
//!
//! ```
//! use palgondur::{limits, raw};
//!
//! let (mut room, mut bytes, mut words) = ([0; limits::ROOM], [0; limits::SCRATCH_BYTES], [0; limits::SCRATCH_WORDS]);
//! assert_eq!(raw::compile(b"(ab*|a)b", &mut room, &mut bytes, &mut words), (0, 0));
//! assert_eq!(raw::match_text(&room, b"ac"), (raw::DEAD, 2));
//! assert_eq!(raw::compile(b"a|", &mut room, &mut bytes, &mut words), (3, 2));
//! assert_eq!(raw::match_text(&room[1..], b"ac"), (1, 0));
//!
//! let mut form = [0; limits::ENTRY];
//! assert_eq!(raw::desk_open(1, &room, &mut form), 0);
//! assert_eq!(raw::desk_key(&room, &mut form, b'a'), 0);
//! assert_eq!(raw::desk_key(&room, &mut form, b'c'), 10);
//! assert_eq!(raw::desk_key(&room[1..], &mut form, b'b'), 1);
//! assert_eq!((form[2], form[18], form[19]), (1, b'a', 0));
//! ```

/// The number of a match that is Dead.
pub const DEAD: u8 = 64;
/// The number of a match that is Unfinished.
pub const UNFINISHED: u8 = 65;
/// The number of a comparison that is Separated.
pub const SEPARATED: u8 = 66;

#[allow(improper_ctypes)]
extern "C" {
    fn palgondur_compile(
        pattern: &[u8],
        room: &mut [u8],
        bytes: &mut [u8],
        words: &mut [u64],
        place: &mut usize,
    ) -> u8;
    fn palgondur_minimise(from: &[u8], to: &mut [u8], bytes: &mut [u8], words: &mut [u64]) -> u8;
    fn palgondur_match(room: &[u8], text: &[u8], place: &mut usize) -> u8;
    fn palgondur_compare(
        left: &[u8],
        right: &[u8],
        word: &mut [u8],
        bytes: &mut [u8],
        words: &mut [u64],
        length: &mut usize,
        rounds: &mut usize,
    ) -> u8;
    fn palgondur_pack(
        room: &[u8],
        form: &mut [u8],
        bytes: &mut [u8],
        words: &mut [u64],
        length: &mut usize,
    ) -> u8;
    fn palgondur_unpack(form: &[u8], room: &mut [u8], bytes: &mut [u8], words: &mut [u64]) -> u8;
    fn palgondur_desk_open(count: usize, rooms: &[u8], form: &mut [u8]) -> u8;
    fn palgondur_desk_key(rooms: &[u8], form: &mut [u8], key: u8) -> u8;
}

// Why the calls below are sound. Each function's proved contract takes slices of every length and content, so there is
// nothing a caller has to keep but Rust's rules for references, and the types here keep those: an exclusive borrow
// overlaps nothing else that is lent. The archive takes a slice as a pointer and a length, the way Rust passes it,
// writes only what is lent as `&mut`, keeps no reference, calls nothing back and does not unwind.

/// Compiles `pattern` into `room`: the answer's number and its place.
pub fn compile(
    pattern: &[u8],
    room: &mut [u8],
    bytes: &mut [u8],
    words: &mut [u64],
) -> (u8, usize) {
    let mut place = 0;
    let number = unsafe { palgondur_compile(pattern, room, bytes, words, &mut place) };
    (number, place)
}

/// Writes the canonical machine of the strings of `from` into `to`: the answer's number.
pub fn minimise(from: &[u8], to: &mut [u8], bytes: &mut [u8], words: &mut [u64]) -> u8 {
    unsafe { palgondur_minimise(from, to, bytes, words) }
}

/// Matches `text` against `room`: the answer's number and its place.
pub fn match_text(room: &[u8], text: &[u8]) -> (u8, usize) {
    let mut place = 0;
    let number = unsafe { palgondur_match(room, text, &mut place) };
    (number, place)
}

/// Compares two rooms, with the separating string at the front of `word`: the answer's number, the string's length, and
/// the rounds.
pub fn compare(
    left: &[u8],
    right: &[u8],
    word: &mut [u8],
    bytes: &mut [u8],
    words: &mut [u64],
) -> (u8, usize, usize) {
    let (mut length, mut rounds) = (0, 0);
    let number =
        unsafe { palgondur_compare(left, right, word, bytes, words, &mut length, &mut rounds) };
    (number, length, rounds)
}

/// Packs `room` into the front of `form`: the answer's number and the form's length.
pub fn pack(room: &[u8], form: &mut [u8], bytes: &mut [u8], words: &mut [u64]) -> (u8, usize) {
    let mut length = 0;
    let number = unsafe { palgondur_pack(room, form, bytes, words, &mut length) };
    (number, length)
}

/// Unpacks `form`, all of it, into `room`: the answer's number.
pub fn unpack(form: &[u8], room: &mut [u8], bytes: &mut [u8], words: &mut [u64]) -> u8 {
    unsafe { palgondur_unpack(form, room, bytes, words) }
}

/// Opens an entry form of `count` fields at the front of `form`, for the rooms that lie end to end in `rooms`: the
/// answer's number.
pub fn desk_open(count: usize, rooms: &[u8], form: &mut [u8]) -> u8 {
    unsafe { palgondur_desk_open(count, rooms, form) }
}

/// Gives a key to the entry form at the front of `form`, whose fields have the rooms that lie end to end in `rooms`:
/// the answer's number.
pub fn desk_key(rooms: &[u8], form: &mut [u8], key: u8) -> u8 {
    unsafe { palgondur_desk_key(rooms, form, key) }
}
