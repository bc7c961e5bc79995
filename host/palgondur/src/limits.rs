//! The numbers that bound the work. A number that follows from others is written as it follows.

/// Bytes of a pattern, at most.
pub const PATTERN: usize = 1_024;
/// Parentheses inside each other, at most.
pub const NESTED: usize = 32;
/// Positions (literals, byte escapes, classes and dots) of a pattern, at most.
pub const POSITIONS: usize = 63;
/// Classes of a pattern or a machine, at most.
pub const CLASSES: usize = 64;
/// Sets reached in compiling, and states of a machine, at most.
pub const STATES: usize = 128;
/// Where the class of each byte value begins in a machine room, after the two numbers.
pub const CLASSES_AT: usize = 2;
/// Where the accept marks begin.
pub const MARKS_AT: usize = CLASSES_AT + 256;
/// Where the cells begin, by row.
pub const CELLS_AT: usize = MARKS_AT + STATES;
/// Where the ways begin: of each state the fewest bytes from it to acceptance, in two bytes, the high one first.
pub const WAYS_AT: usize = CELLS_AT + STATES * CLASSES;
/// The way of a state from which nothing leads to acceptance.
pub const NO_WAY: u16 = 65_535;
/// Bytes of a machine room.
pub const ROOM: usize = WAYS_AT + 2 * STATES;
/// Bytes of a packed form, at most: its bit fields, filled to a whole byte.
pub const FORM: usize = (4 + 7 + 6 + 256 * 6 + STATES + STATES * CLASSES * 7 + 7) / 8;
/// Bytes of a separating string, at most.
pub const WORD: usize = 2 * STATES - 2;
/// Bytes of scratch.
pub const SCRATCH_BYTES: usize = 32_768;
/// Words of scratch, of eight bytes each.
pub const SCRATCH_WORDS: usize = 256;
/// Fields of an entry form, at most.
pub const FIELDS: usize = 16;
/// Bytes of a field's text, at most.
pub const TEXT: usize = 128;
/// Bytes of an entry form: the two numbers, the length of each text, the texts.
pub const ENTRY: usize = 2 + FIELDS + FIELDS * TEXT;
