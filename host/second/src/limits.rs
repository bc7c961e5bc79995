//! The numbers of document 01 that bound the work, and where the parts of a room and of an entry form lie.

/// Longest pattern that is taken, in bytes.
pub const PATTERN: usize = 1024;
/// Most nested parentheses.
pub const DEPTH: usize = 32;
/// Most positions.
pub const POSITIONS: usize = 63;
/// Most classes, of a pattern and of a room.
pub const CLASSES: usize = 64;
/// Most sets reached, and most states of a room.
pub const STATES: usize = 128;
/// Number of byte values.
pub const BYTES: usize = 256;

/// Where the classes of the byte values begin in a room.
pub const CLASS_AT: usize = 2;
/// Where the accept marks begin in a room.
pub const MARK_AT: usize = CLASS_AT + BYTES;
/// Where the cells begin in a room.
pub const CELL_AT: usize = MARK_AT + STATES;
/// Where the ways begin in a room, two bytes each.
pub const WAY_AT: usize = CELL_AT + STATES * CLASSES;
/// Number of bytes of a room.
pub const ROOM: usize = WAY_AT + 2 * STATES;
/// The way of a state from which nothing leads to acceptance.
pub const NO_WAY: u16 = 65535;

/// Bytes of scratch.
pub const SCRATCH_BYTES: usize = 32768;
/// Eight-byte words of scratch.
pub const SCRATCH_WORDS: usize = 256;
/// Room for a separating string.
pub const WORD: usize = 2 * STATES - 2;

/// Most fields of an entry form.
pub const FIELDS: usize = 16;
/// Most bytes of a field.
pub const TEXT: usize = 128;
/// Where the lengths of the fields begin in an entry form.
pub const LENGTH_AT: usize = 2;
/// Where the texts of the fields begin in an entry form.
pub const TEXT_AT: usize = LENGTH_AT + FIELDS;
/// Number of bytes of an entry form.
pub const ENTRY_FORM: usize = TEXT_AT + FIELDS * TEXT;
