//! Machines and what they answer.

use crate::refusal::done;
use crate::{limits, raw, room, Form, Refusal, Scratch};
use std::fmt;

/// A machine: a sound room of its own.
///
/// Those that are compiled, minimised or unpacked are canonical: two of them are equal exactly if they accept the same
/// strings.
#[derive(Clone, PartialEq, Eq, Hash)]
pub struct Machine {
    room: Box<[u8; limits::ROOM]>,
}

/// What a match answers.
#[derive(Clone, Copy, PartialEq, Eq, Hash, Debug)]
#[non_exhaustive]
pub enum Match {
    /// The text is accepted.
    Accepted,
    /// Nothing that begins as the text does is accepted.
    #[non_exhaustive]
    Dead {
        /// The length of the shortest prefix that no continuation would make accepted; 0 if the machine accepts nothing.
        place: usize,
    },
    /// The text is not accepted, but some continuation of it is.
    #[non_exhaustive]
    Unfinished {
        /// The fewest bytes that follow the text in a continuation that is accepted; at least 1.
        fewest_more: usize,
    },
}

/// What a comparison answers. Rounds are how often states could be split by what they accept and where bytes send them,
/// until nothing split.
#[derive(Clone, PartialEq, Eq, Hash, Debug)]
pub enum Comparison {
    /// Both accept the same strings.
    Same {
        /// The rounds.
        rounds: usize,
    },
    /// One accepts the word, the other does not.
    Separated {
        /// The shortest string that separates the two, and of those the first in byte order.
        word: Vec<u8>,
        /// The rounds.
        rounds: usize,
    },
}

impl Machine {
    /// The smallest machine of a pattern's strings, or the refusal from LONG to STATES. A dot is any byte but the line end,
    /// which a class or `\x0A` can name. After a factor `*` is any number of times, `+` once or more, `?` once or not at all.
    ///
    /// ```
    /// use palgondur::{Machine, Match, Refusal};
    ///
    /// let machine = Machine::compile("(ab*|a)b")?;
    /// assert_eq!((machine.states(), machine.classes()), (4, 3));
    /// assert_eq!(Machine::compile("[b-a]"), Err(Refusal::Range(2)));
    ///
    /// let remark = Machine::compile(".*")?;
    /// assert_eq!(remark.matches("one line"), Match::Accepted);
    /// assert!(matches!(remark.matches("two\nlines"), Match::Dead { place: 4, .. }));
    ///
    /// let serial = Machine::compile("[A-Z]+-?[0-9]+")?;
    /// assert_eq!(serial.matches("PK-004711"), Match::Accepted);
    /// assert!(matches!(serial.matches("PK-"), Match::Unfinished { .. }));
    /// # Ok::<(), Refusal>(())
    /// ```
    pub fn compile(pattern: impl AsRef<[u8]>) -> Result<Machine, Refusal> {
        Machine::compile_with(pattern, &mut Scratch::new())
    }

    /// [`Machine::compile`] with a lent scratch.
    pub fn compile_with(
        pattern: impl AsRef<[u8]>,
        scratch: &mut Scratch,
    ) -> Result<Machine, Refusal> {
        let mut machine = Machine::zero();
        let room = machine.room_mut();
        let (number, place) = raw::compile(
            pattern.as_ref(),
            room,
            &mut scratch.bytes,
            &mut scratch.words,
        );
        done(number, place).map(|()| machine)
    }

    /// The machine of a room from outside, as it is: it need not be canonical. ROOM, if the room is too short; FORM, if
    /// it is not sound. What follows the room is not read.
    ///
    /// ```
    /// use palgondur::{Machine, Refusal};
    ///
    /// let machine = Machine::compile("a*")?;
    /// let mut room = machine.room().to_vec();
    /// assert_eq!(Machine::from_room(&room), Ok(machine));
    /// room[0] = 0;
    /// assert_eq!(Machine::from_room(&room), Err(Refusal::Form));
    /// assert_eq!(Machine::from_room(&room[1..]), Err(Refusal::Room));
    /// # Ok::<(), Refusal>(())
    /// ```
    pub fn from_room(room: impl AsRef<[u8]>) -> Result<Machine, Refusal> {
        let room = room.as_ref();
        let (number, _) = raw::match_text(room, b"");
        if let Some(refusal) = Refusal::of(number, 0) {
            return Err(refusal);
        }
        let mut machine = Machine::zero();
        machine.room.copy_from_slice(&room[..limits::ROOM]);
        Ok(machine)
    }

    /// The smallest machine of the same strings, numbered in the one canonical way.
    ///
    /// ```
    /// use palgondur::{limits, Machine};
    ///
    /// // Two states that both accept everything: the ways are 0.
    /// let mut room = [0; limits::ROOM];
    /// (room[0], room[1]) = (2, 1);
    /// (room[258], room[259]) = (1, 1);
    /// (room[386], room[387]) = (1, 0);
    /// let machine = Machine::from_room(room)?;
    /// assert_eq!(machine.minimised(), Machine::compile("[\\x00-\\xFF]*")?);
    /// # Ok::<(), palgondur::Refusal>(())
    /// ```
    pub fn minimised(&self) -> Machine {
        self.minimised_with(&mut Scratch::new())
    }

    /// [`Machine::minimised`] with a lent scratch.
    pub fn minimised_with(&self, scratch: &mut Scratch) -> Machine {
        let mut machine = Machine::zero();
        let to = machine.room_mut();
        let number = raw::minimise(self.room(), to, &mut scratch.bytes, &mut scratch.words);
        assert_eq!(number, 0, "a machine's room is sound");
        machine
    }

    /// Whether the text is accepted, whole; if not, whether it could still be and by how few bytes, or where it died.
    ///
    /// ```
    /// use palgondur::{Machine, Match};
    ///
    /// let machine = Machine::compile("(ab*|a)b")?;
    /// assert_eq!(machine.matches("ab"), Match::Accepted);
    /// assert!(matches!(machine.matches("a"), Match::Unfinished { fewest_more: 1, .. }));
    /// assert!(matches!(machine.matches("ac"), Match::Dead { place: 2, .. }));
    ///
    /// let serial = Machine::compile("[A-Z][A-Z]-[0-9][0-9][0-9]")?;
    /// match serial.matches("PK") {
    ///     Match::Unfinished { fewest_more, .. } => assert_eq!(fewest_more, 4),
    ///     other => panic!("{other:?}"),
    /// }
    /// # Ok::<(), palgondur::Refusal>(())
    /// ```
    pub fn matches(&self, text: impl AsRef<[u8]>) -> Match {
        let text = text.as_ref();
        match raw::match_text(self.room(), text) {
            (0, _) => Match::Accepted,
            (raw::DEAD, place) => Match::Dead { place },
            (raw::UNFINISHED, _) => {
                let more = self.fewest_more(self.state_after(text));
                let fewest_more = more.expect("a way from where the text is unfinished");
                Match::Unfinished { fewest_more }
            }
            (number, _) => unreachable!("{number} of a sound room"),
        }
    }

    /// Whether both accept the same strings; if not, the first of the shortest strings that separate them.
    ///
    /// ```
    /// use palgondur::{Comparison, Machine};
    ///
    /// let (left, right) = (Machine::compile("a*b*")?, Machine::compile("(a|b)*")?);
    /// let separated = Comparison::Separated { word: b"ba".to_vec(), rounds: 2 };
    /// assert_eq!(left.compare(&right), separated);
    ///
    /// let like = Machine::compile("(a*|b*)*")?;
    /// assert_eq!(right.compare(&like), Comparison::Same { rounds: 0 });
    /// # Ok::<(), palgondur::Refusal>(())
    /// ```
    pub fn compare(&self, other: &Machine) -> Comparison {
        self.compare_with(other, &mut Scratch::new())
    }

    /// [`Machine::compare`] with a lent scratch.
    pub fn compare_with(&self, other: &Machine, scratch: &mut Scratch) -> Comparison {
        let mut word = [0; limits::WORD];
        let (left, right) = (self.room(), other.room());
        let (bytes, words) = (&mut scratch.bytes, &mut scratch.words);
        match raw::compare(left, right, &mut word, bytes, words) {
            (0, _, rounds) => Comparison::Same { rounds },
            (raw::SEPARATED, length, rounds) => Comparison::Separated {
                word: word[..length].to_vec(),
                rounds,
            },
            (number, ..) => unreachable!("{number} of sound rooms"),
        }
    }

    /// The packed form. FORM, if the machine is not canonical: then [`Machine::minimised`] can be packed.
    ///
    /// ```
    /// use palgondur::Machine;
    ///
    /// let form = Machine::compile("\\e")?.pack()?;
    /// assert_eq!(form.bytes().len(), 197);
    /// assert_eq!(form.bytes()[0] >> 4, 1);
    /// # Ok::<(), palgondur::Refusal>(())
    /// ```
    pub fn pack(&self) -> Result<Form, Refusal> {
        self.pack_with(&mut Scratch::new())
    }

    /// [`Machine::pack`] with a lent scratch.
    pub fn pack_with(&self, scratch: &mut Scratch) -> Result<Form, Refusal> {
        let mut form = vec![0; limits::FORM];
        let (bytes, words) = (&mut scratch.bytes, &mut scratch.words);
        let (number, length) = raw::pack(self.room(), &mut form, bytes, words);
        form.truncate(length);
        done(number, 0).map(|()| Form::from(form))
    }

    /// The number of states.
    pub fn states(&self) -> usize {
        usize::from(self.room[0])
    }

    /// The number of classes of bytes.
    pub fn classes(&self) -> usize {
        usize::from(self.room[1])
    }

    /// The state, counted from 0, that a text leads to from the start, which is state 0.
    pub fn state_after(&self, text: impl AsRef<[u8]>) -> usize {
        room::state_after(self.room(), text.as_ref())
    }

    /// The fewest bytes that lead from a state to acceptance, 0 where the state accepts. None, if there is no way, or no
    /// such state.
    ///
    /// ```
    /// use palgondur::Machine;
    ///
    /// let machine = Machine::compile("abcd|b")?;
    /// let more = |text: &str| machine.fewest_more(machine.state_after(text));
    /// assert_eq!((more(""), more("a"), more("b"), more("c")), (Some(1), Some(3), Some(0), None));
    /// assert_eq!(machine.fewest_more(machine.states()), None);
    /// # Ok::<(), palgondur::Refusal>(())
    /// ```
    pub fn fewest_more(&self, state: usize) -> Option<usize> {
        room::fewest_more(self.room(), state)
    }

    /// The room: the two numbers, the class of each byte value, the accept marks, the cells, the ways.
    pub fn room(&self) -> &[u8; limits::ROOM] {
        &self.room
    }

    /// A room of zeros, which is not sound yet: for an operation to write.
    pub(crate) fn zero() -> Machine {
        let room = vec![0; limits::ROOM].into_boxed_slice();
        Machine {
            room: room.try_into().expect("as many bytes as were made"),
        }
    }

    /// The room, for an operation to write.
    pub(crate) fn room_mut(&mut self) -> &mut [u8] {
        &mut self.room[..]
    }
}

impl fmt::Debug for Machine {
    fn fmt(&self, to: &mut fmt::Formatter<'_>) -> fmt::Result {
        let (states, classes) = (self.states(), self.classes());
        write!(to, "Machine {{ states: {states}, classes: {classes} }}")
    }
}
