//! The entry desk: a form of fields that takes keys one by one.

use crate::{limits, raw, room, Machine};
use std::fmt;

/// An entry form that is being filled in, with the machine of each of its fields.
///
/// The fields are filled in their order. One of them is open, and the keys go to it; those before it are closed, and
/// stay as they are; those after it are empty. A field takes no byte after which its machine could accept nothing, and
/// is closed only with a text that its machine accepts. A refused key changes nothing.
///
/// ```
/// use palgondur::{Desk, KeyRefusal, Machine};
///
/// let mut desk = Desk::open(&[Machine::compile("[0-9A-F][0-9A-F]")?, Machine::compile("a*")?])?;
/// assert_eq!((desk.fields(), desk.open_field()), (2, Some(0)));
///
/// desk.key(b'4')?;
/// assert_eq!(desk.key(b'G'), Err(KeyRefusal::DeadByte));
/// assert_eq!(desk.key(Desk::CLOSE), Err(KeyRefusal::Unfinished));
/// assert_eq!(desk.text(0), Some(&b"4"[..]));
///
/// desk.key(b'B')?;
/// desk.key(Desk::TAKE_BACK)?;
/// desk.key(b'A')?;
/// desk.key(Desk::CLOSE)?;
/// assert_eq!((desk.closed(), desk.open_field()), (1, Some(1)));
///
/// desk.key(Desk::CLOSE)?;
/// assert!(desk.all_closed());
/// assert_eq!((desk.text(0), desk.text(1)), (Some(&b"4A"[..]), Some(&b""[..])));
/// assert_eq!(desk.key(b'a'), Err(KeyRefusal::Closed));
/// # Ok::<(), Box<dyn std::error::Error>>(())
/// ```
#[derive(Clone, PartialEq, Eq, Hash)]
pub struct Desk {
    rooms: Box<[u8]>,
    form: Box<[u8; limits::ENTRY]>,
}

/// Why no form was opened.
#[derive(Clone, Copy, PartialEq, Eq, Hash, Debug)]
#[non_exhaustive]
pub enum OpenRefusal {
    /// So many machines are none, or over [`limits::FIELDS`].
    Fields(usize),
}

/// Why a key was refused.
#[derive(Clone, Copy, PartialEq, Eq, Hash, Debug)]
#[non_exhaustive]
pub enum KeyRefusal {
    /// The open field's machine accepts no text that begins with the field's text and this byte.
    DeadByte,
    /// The open field's machine does not accept the field's text, so it is not closed.
    Unfinished,
    /// The open field has [`limits::TEXT`] bytes already.
    Length,
    /// All fields are closed.
    Closed,
}

impl Desk {
    /// The key that takes back the last byte of the open field. On an empty field it does nothing: it never opens a
    /// closed one again.
    pub const TAKE_BACK: u8 = 0x08;

    /// The key that closes the open field.
    pub const CLOSE: u8 = 0x0D;

    /// A form with a field for each machine, all of them empty, the first one open. FIELDS, if there are too few or too
    /// many.
    ///
    /// ```
    /// use palgondur::{Desk, Machine, OpenRefusal};
    ///
    /// let machine = Machine::compile("a*")?;
    /// assert_eq!(Desk::open(&[]), Err(OpenRefusal::Fields(0)));
    /// assert!(Desk::open(&vec![machine.clone(); 16]).is_ok());
    /// assert_eq!(Desk::open(&vec![machine; 17]), Err(OpenRefusal::Fields(17)));
    /// # Ok::<(), palgondur::Refusal>(())
    /// ```
    pub fn open(machines: &[Machine]) -> Result<Desk, OpenRefusal> {
        let count = machines.len();
        let mut rooms = Vec::new();
        // The number is judged before the rooms are, so no more of them are copied than there may be.
        for machine in machines.iter().take(limits::FIELDS) {
            rooms.extend_from_slice(machine.room());
        }
        let mut form = Box::new([0; limits::ENTRY]);
        match raw::desk_open(count, &rooms, &mut form[..]) {
            0 => Ok(Desk {
                rooms: rooms.into_boxed_slice(),
                form,
            }),
            21 => Err(OpenRefusal::Fields(count)),
            number => unreachable!("{number} of sound rooms"),
        }
    }

    /// Gives the open field a key: [`Desk::TAKE_BACK`], [`Desk::CLOSE`], or any other byte, to be added to its text. A
    /// refused key changes nothing.
    ///
    /// ```
    /// use palgondur::{Desk, KeyRefusal, Machine};
    ///
    /// let mut desk = Desk::open(&[Machine::compile("(ab*|a)b")?])?;
    /// assert_eq!(desk.key(b'b'), Err(KeyRefusal::DeadByte));
    /// assert_eq!(desk.key(b'a'), Ok(()));
    /// assert_eq!(desk.key(Desk::CLOSE), Err(KeyRefusal::Unfinished));
    /// assert_eq!(desk.key(b'b'), Ok(()));
    /// assert_eq!(desk.key(Desk::CLOSE), Ok(()));
    /// assert_eq!(desk.key(Desk::TAKE_BACK), Err(KeyRefusal::Closed));
    /// # Ok::<(), Box<dyn std::error::Error>>(())
    /// ```
    pub fn key(&mut self, key: u8) -> Result<(), KeyRefusal> {
        let number = raw::desk_key(&self.rooms, &mut self.form[..], key);
        match (number, KeyRefusal::of(number)) {
            (0, _) => Ok(()),
            (_, Some(refusal)) => Err(refusal),
            _ => unreachable!("{number} of sound rooms and a form that only keys have changed"),
        }
    }

    /// The number of fields.
    pub fn fields(&self) -> usize {
        usize::from(self.form[0])
    }

    /// The number of fields that are closed.
    pub fn closed(&self) -> usize {
        usize::from(self.form[1])
    }

    /// Whether all fields are closed.
    pub fn all_closed(&self) -> bool {
        self.closed() == self.fields()
    }

    /// The field that is open, counted from 0; none, if all are closed.
    pub fn open_field(&self) -> Option<usize> {
        (!self.all_closed()).then_some(self.closed())
    }

    /// The text of a field, counted from 0; none, if the form has no such field.
    pub fn text(&self, field: usize) -> Option<&[u8]> {
        (field < self.fields()).then(|| {
            let begin = 2 + limits::FIELDS + field * limits::TEXT;
            &self.form[begin..begin + usize::from(self.form[2 + field])]
        })
    }

    /// The fewest bytes that make the text of a field, counted from 0, one that its machine accepts, 0 where it is one.
    /// None, if there is no way, or no such field. Whether the field has room for so many is not asked.
    ///
    /// ```
    /// use palgondur::{Desk, Machine};
    ///
    /// let mut desk = Desk::open(&[Machine::compile("abcd|b")?, Machine::compile("a*")?])?;
    /// assert_eq!((desk.fewest_more(0), desk.fewest_more(1)), (Some(1), Some(0)));
    /// desk.key(b'a')?;
    /// assert_eq!((desk.fewest_more(0), desk.fewest_more(2)), (Some(3), None));
    /// # Ok::<(), Box<dyn std::error::Error>>(())
    /// ```
    pub fn fewest_more(&self, field: usize) -> Option<usize> {
        let text = self.text(field)?;
        let room = &self.rooms[field * limits::ROOM..];
        room::fewest_more(room, room::state_after(room, text))
    }

    /// The form: the two numbers, the length of each text, the texts.
    pub fn form(&self) -> &[u8; limits::ENTRY] {
        &self.form
    }
}

/// The numbers alone: what was typed may be secret.
impl fmt::Debug for Desk {
    fn fmt(&self, to: &mut fmt::Formatter<'_>) -> fmt::Result {
        let (fields, closed) = (self.fields(), self.closed());
        write!(to, "Desk {{ fields: {fields}, closed: {closed} }}")
    }
}

impl OpenRefusal {
    /// The refusal's number.
    pub fn number(self) -> u8 {
        match self {
            OpenRefusal::Fields(_) => 21,
        }
    }
}

/// The reason, in one sentence.
impl fmt::Display for OpenRefusal {
    fn fmt(&self, to: &mut fmt::Formatter<'_>) -> fmt::Result {
        let OpenRefusal::Fields(count) = self;
        write!(to, "a form has 1 to {} fields, not {count}", limits::FIELDS)
    }
}

impl std::error::Error for OpenRefusal {}

impl KeyRefusal {
    /// The refusal of a number as [`raw::desk_key`] gives it, if it is one that a [`Desk`] can give.
    ///
    /// ```
    /// use palgondur::KeyRefusal;
    ///
    /// assert_eq!(KeyRefusal::of(13), Some(KeyRefusal::Closed));
    /// assert_eq!(KeyRefusal::of(0), None);
    /// ```
    pub fn of(number: u8) -> Option<KeyRefusal> {
        Some(match number {
            10 => KeyRefusal::DeadByte,
            11 => KeyRefusal::Unfinished,
            12 => KeyRefusal::Length,
            13 => KeyRefusal::Closed,
            _ => return None,
        })
    }

    /// The refusal's number.
    pub fn number(self) -> u8 {
        match self {
            KeyRefusal::DeadByte => 10,
            KeyRefusal::Unfinished => 11,
            KeyRefusal::Length => 12,
            KeyRefusal::Closed => 13,
        }
    }
}

/// The reason, in one sentence.
impl fmt::Display for KeyRefusal {
    fn fmt(&self, to: &mut fmt::Formatter<'_>) -> fmt::Result {
        match self {
            KeyRefusal::DeadByte => to.write_str("no text of this field goes on this way"),
            KeyRefusal::Unfinished => to.write_str("the text of this field is not finished"),
            KeyRefusal::Length => write!(to, "a field has at most {} bytes", limits::TEXT),
            KeyRefusal::Closed => to.write_str("all fields are closed"),
        }
    }
}

impl std::error::Error for KeyRefusal {}
