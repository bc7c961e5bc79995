//! A case: an operation with all that is lent to it.

use std::fmt;

use second::limits;

use crate::written::written;

/// The operations.
#[derive(Clone, Copy, PartialEq, Eq, PartialOrd, Ord, Debug)]
pub enum Operation {
    Compile,
    Minimise,
    Match,
    Compare,
    Pack,
    Unpack,
    DeskOpen,
    DeskKey,
}

/// All operations.
pub const OPERATIONS: [Operation; 8] = [
    Operation::Compile,
    Operation::Minimise,
    Operation::Match,
    Operation::Compare,
    Operation::Pack,
    Operation::Unpack,
    Operation::DeskOpen,
    Operation::DeskKey,
];

impl Operation {
    /// The operation's name.
    pub fn name(self) -> &'static str {
        match self {
            Operation::Compile => "compile",
            Operation::Minimise => "minimise",
            Operation::Match => "match",
            Operation::Compare => "compare",
            Operation::Pack => "pack",
            Operation::Unpack => "unpack",
            Operation::DeskOpen => "desk_open",
            Operation::DeskKey => "desk_key",
        }
    }

    /// The operation of a name.
    pub fn named(name: &str) -> Option<Operation> {
        OPERATIONS
            .into_iter()
            .find(|operation| operation.name() == name)
    }

    /// The numbers that the operation's answers have.
    pub fn numbers(self) -> &'static [u8] {
        match self {
            Operation::Compile => &[0, 1, 2, 3, 4, 5, 6, 7, 8],
            Operation::Match => &[0, 1, 9, 64, 65],
            Operation::Compare => &[0, 1, 9, 66],
            Operation::Minimise | Operation::Pack | Operation::Unpack => &[0, 1, 9],
            Operation::DeskOpen => &[0, 1, 9, 21],
            Operation::DeskKey => &[0, 1, 9, 10, 11, 12, 13],
        }
    }

    /// Whether it is one of the entry desk's.
    pub fn is_desk(self) -> bool {
        matches!(self, Operation::DeskOpen | Operation::DeskKey)
    }

    /// How long what the operation writes must be, scratch aside; a form may be as long as it likes.
    pub fn output(self) -> usize {
        match self {
            Operation::Compile | Operation::Minimise | Operation::Unpack => limits::ROOM,
            Operation::Match => 0,
            Operation::Compare => limits::WORD,
            Operation::Pack => form_length(limits::STATES, limits::CLASSES),
            Operation::DeskOpen | Operation::DeskKey => limits::ENTRY_FORM,
        }
    }
}

/// The number of bytes of the form of a machine with so many states and classes.
pub fn form_length(states: usize, classes: usize) -> usize {
    (1553 + states + 7 * states * classes + 7) / 8
}

/// An operation with its inputs and its buffers.
#[derive(Clone, PartialEq, Eq, Debug)]
pub struct Case {
    pub operation: Operation,
    /// What is read: a pattern; a room; a room and a text; two rooms; a room; a form; the rooms of a desk, end to end.
    pub reads: Vec<Vec<u8>>,
    /// The count of fields, or the key; 0 in all but the desk's operations.
    pub number: usize,
    /// What is written: a room, a string room or a form; none in matching. A key reads it too.
    pub output: Vec<u8>,
    /// The bytes of scratch; none in matching and at the desk.
    pub bytes: Vec<u8>,
    /// The words of scratch; none in matching and at the desk.
    pub words: Vec<u64>,
}

impl Case {
    /// The case with buffers of the exact lengths, none of it zero.
    pub fn new(operation: Operation, reads: &[&[u8]]) -> Case {
        let lent = usize::from(operation != Operation::Match && !operation.is_desk());
        Case {
            operation,
            reads: reads.iter().map(|read| read.to_vec()).collect(),
            number: 0,
            output: vec![0xa5; operation.output()],
            bytes: vec![0x5a; lent * limits::SCRATCH_BYTES],
            words: vec![u64::MAX; lent * limits::SCRATCH_WORDS],
        }
    }

    /// The opening of a form with so many fields.
    pub fn opening(count: usize, rooms: &[u8], form: &[u8]) -> Case {
        Case {
            number: count,
            output: form.to_vec(),
            ..Case::new(Operation::DeskOpen, &[rooms])
        }
    }

    /// A key pressed on a form.
    pub fn pressing(rooms: &[u8], form: &[u8], key: u8) -> Case {
        Case {
            number: usize::from(key),
            output: form.to_vec(),
            ..Case::new(Operation::DeskKey, &[rooms])
        }
    }

    /// The case of the next key, on the form that this case left.
    pub fn next(self, form: Vec<u8>, key: u8) -> Case {
        Case {
            operation: Operation::DeskKey,
            number: usize::from(key),
            output: form,
            ..self
        }
    }
}

/// The operation and what it reads, as a row has it, and then the lengths of the buffers.
impl fmt::Display for Case {
    fn fmt(&self, out: &mut fmt::Formatter) -> fmt::Result {
        write!(out, "{}", self.operation.name())?;
        for read in &self.reads {
            write!(out, " {}", written(read))?;
        }
        if self.operation.is_desk() {
            return write!(out, " {}\n  form {}", self.number, written(&self.output));
        }
        let (output, bytes, words) = (self.output.len(), self.bytes.len(), self.words.len());
        write!(out, "\n  output {output}, scratch {bytes} and {words}")?;
        match self.output.iter().chain(&self.bytes).all(|&byte| byte == 0) {
            true => write!(out, ", zero"),
            false => write!(out, ", dirty"),
        }
    }
}
