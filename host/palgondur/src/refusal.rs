//! Refusals, and how they are shown.

use crate::limits;
use std::fmt;

/// Why an operation refused. A place counts the pattern's bytes from 0.
#[derive(Clone, Copy, PartialEq, Eq, Hash, Debug)]
#[non_exhaustive]
pub enum Refusal {
    /// A room, the scratch or the output is shorter than it must be.
    Room,
    /// The pattern is over [`limits::PATTERN`] bytes.
    Long,
    /// Not an expression. The place is the length of the longest prefix that something would complete.
    Syntax(usize),
    /// A range has its low end above its high end. The place is its dash.
    Range(usize),
    /// More than [`limits::NESTED`] parentheses inside each other. The place is the first that opens too deep.
    Depth(usize),
    /// More than [`limits::POSITIONS`] positions. The place is the first byte of the first one too many.
    Positions(usize),
    /// The pattern has over [`limits::CLASSES`] classes of bytes.
    Classes,
    /// The pattern reaches over [`limits::STATES`] sets of positions.
    States,
    /// A room is not sound; for packing, not canonical; for unpacking, the bytes are none that packing writes.
    Form,
}

impl Refusal {
    /// The refusal of a number and place as the operations of [`raw`](crate::raw) give them, if it is one.
    ///
    /// ```
    /// use palgondur::Refusal;
    ///
    /// assert_eq!(Refusal::of(3, 2), Some(Refusal::Syntax(2)));
    /// assert_eq!(Refusal::of(0, 0), None);
    /// ```
    pub fn of(number: u8, place: usize) -> Option<Refusal> {
        Some(match number {
            1 => Refusal::Room,
            2 => Refusal::Long,
            3 => Refusal::Syntax(place),
            4 => Refusal::Range(place),
            5 => Refusal::Depth(place),
            6 => Refusal::Positions(place),
            7 => Refusal::Classes,
            8 => Refusal::States,
            9 => Refusal::Form,
            _ => return None,
        })
    }

    /// The refusal's number.
    pub fn number(self) -> u8 {
        match self {
            Refusal::Room => 1,
            Refusal::Long => 2,
            Refusal::Syntax(_) => 3,
            Refusal::Range(_) => 4,
            Refusal::Depth(_) => 5,
            Refusal::Positions(_) => 6,
            Refusal::Classes => 7,
            Refusal::States => 8,
            Refusal::Form => 9,
        }
    }

    /// The place in the pattern, of those refusals that name one.
    pub fn place(self) -> Option<usize> {
        match self {
            Refusal::Syntax(place)
            | Refusal::Range(place)
            | Refusal::Depth(place)
            | Refusal::Positions(place) => Some(place),
            _ => None,
        }
    }

    /// The refused pattern on one line, and under it a caret at the place, if there is one, and the reason. Bytes that
    /// are not printed as they are stand as `\xNN`.
    ///
    /// ```
    /// use palgondur::Machine;
    ///
    /// let pattern = "ab|[z-a]";
    /// let shown = Machine::compile(pattern).unwrap_err().shown(pattern);
    /// assert_eq!(shown, [
    ///     "ab|[z-a]",
    ///     "     ^ the low end of this range is above its high end",
    /// ].join("\n"));
    /// ```
    pub fn shown(self, pattern: impl AsRef<[u8]>) -> String {
        let pattern = pattern.as_ref();
        let text: String = pattern.iter().map(|&byte| printed(byte)).collect();
        match self.place() {
            None => format!("{text}\n{}", self.reason()),
            Some(place) => {
                let before = pattern.iter().take(place);
                let column: usize = before.map(|&byte| printed(byte).len()).sum();
                let reason = match self {
                    Refusal::Syntax(_) if place >= pattern.len() => {
                        "the pattern ends before its expression does".to_string()
                    }
                    _ => self.reason(),
                };
                format!("{text}\n{:column$}^ {reason}", "")
            }
        }
    }

    /// What was expected, in one sentence.
    fn reason(self) -> String {
        match self {
            Refusal::Room => "a room, the scratch or the output is too short".to_string(),
            Refusal::Long => format!("a pattern has at most {} bytes", limits::PATTERN),
            Refusal::Syntax(_) => "no expression goes on this way here".to_string(),
            Refusal::Range(_) => "the low end of this range is above its high end".to_string(),
            Refusal::Depth(_) => {
                let most = limits::NESTED;
                format!("this opens inside {most} parentheses, and there are at most {most}")
            }
            Refusal::Positions(_) => {
                let most = limits::POSITIONS;
                format!("{most} positions stand before this one, and there are at most {most}")
            }
            Refusal::Classes => {
                format!("a pattern has at most {} classes of bytes", limits::CLASSES)
            }
            Refusal::States => {
                format!("a pattern reaches at most {} sets of positions", limits::STATES)
            }
            Refusal::Form => {
                "neither a sound room (to be packed, a canonical one) nor a form as packing writes it".to_string()
            }
        }
    }
}

/// A byte as it is printed.
fn printed(byte: u8) -> String {
    match byte {
        0x20..=0x7E => char::from(byte).to_string(),
        _ => format!("\\x{byte:02X}"),
    }
}

/// Done, or the refusal of a number.
pub(crate) fn done(number: u8, place: usize) -> Result<(), Refusal> {
    match (number, Refusal::of(number, place)) {
        (0, _) => Ok(()),
        (_, Some(refusal)) => Err(refusal),
        _ => unreachable!("{number} is no answer"),
    }
}

/// The reason, after the place if there is one.
impl fmt::Display for Refusal {
    fn fmt(&self, to: &mut fmt::Formatter<'_>) -> fmt::Result {
        if let Some(place) = self.place() {
            write!(to, "at {place}: ")?;
        }
        to.write_str(&self.reason())
    }
}

impl std::error::Error for Refusal {}
