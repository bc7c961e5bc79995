//! The numbers of the answers.

/// Done, of compiling, minimising, packing, unpacking, and of the desk.
pub const DONE: u8 = 0;
/// Accepted, of matching.
pub const ACCEPTED: u8 = 0;
/// Same, of comparing.
pub const SAME: u8 = 0;
/// A buffer is too short.
pub const ROOM: u8 = 1;
/// The pattern is too long.
pub const LONG: u8 = 2;
/// Not an expression.
pub const SYNTAX: u8 = 3;
/// A range with low above high.
pub const RANGE: u8 = 4;
/// Too many nested parentheses.
pub const DEPTH: u8 = 5;
/// Too many positions.
pub const POSITIONS: u8 = 6;
/// Too many pattern classes.
pub const CLASSES: u8 = 7;
/// Too many sets reached.
pub const STATES: u8 = 8;
/// A room or a form that is not as it must be.
pub const FORM: u8 = 9;
/// A byte that no text of the open field goes on with.
pub const DEAD_BYTE: u8 = 10;
/// The open field is not finished.
pub const UNFINISHED_FIELD: u8 = 11;
/// The open field is full.
pub const LENGTH: u8 = 12;
/// All fields are closed.
pub const CLOSED: u8 = 13;
/// A form may not have so many fields.
pub const FIELDS: u8 = 21;
/// Dead, of matching.
pub const DEAD: u8 = 64;
/// Unfinished, of matching.
pub const UNFINISHED: u8 = 65;
/// Separated, of comparing.
pub const SEPARATED: u8 = 66;
