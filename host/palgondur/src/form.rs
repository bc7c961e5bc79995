//! Packed machines.

use crate::refusal::done;
use crate::{raw, Machine, Refusal, Scratch};

/// The bytes of a packed machine, or bytes from outside that claim to be some: unpacking judges them.
///
/// ```
/// use palgondur::{Form, Machine, Refusal};
///
/// let form = Machine::compile("a*")?.pack()?;
/// assert_eq!(form.bytes().len(), 198);
///
/// let mut sent = form.bytes().to_vec();
/// assert_eq!(Form::from(sent.clone()), form);
/// sent.push(0);
/// assert_eq!(Form::from(sent).unpack(), Err(Refusal::Form));
/// # Ok::<(), Refusal>(())
/// ```
#[derive(Clone, PartialEq, Eq, Hash, Debug)]
pub struct Form {
    bytes: Vec<u8>,
}

impl Form {
    /// The bytes.
    pub fn bytes(&self) -> &[u8] {
        &self.bytes
    }

    /// The machine whose form this is, which is canonical. FORM, if it is the form of none.
    ///
    /// ```
    /// use palgondur::Machine;
    ///
    /// let machine = Machine::compile("(ab*|a)b")?;
    /// assert_eq!(machine.pack()?.unpack()?, machine);
    /// # Ok::<(), palgondur::Refusal>(())
    /// ```
    pub fn unpack(&self) -> Result<Machine, Refusal> {
        self.unpack_with(&mut Scratch::new())
    }

    /// [`Form::unpack`] with a lent scratch.
    pub fn unpack_with(&self, scratch: &mut Scratch) -> Result<Machine, Refusal> {
        let mut machine = Machine::zero();
        let room = machine.room_mut();
        let number = raw::unpack(&self.bytes, room, &mut scratch.bytes, &mut scratch.words);
        done(number, 0).map(|()| machine)
    }
}

impl From<Vec<u8>> for Form {
    fn from(bytes: Vec<u8>) -> Form {
        Form { bytes }
    }
}

impl From<&[u8]> for Form {
    fn from(bytes: &[u8]) -> Form {
        Form::from(bytes.to_vec())
    }
}
