//! The one runner: a case on both sides, on equal copies.

use std::fmt;

use crate::case::{Case, Operation};

/// The answer's number, and its place or length, and its rounds; 0 where it has none.
pub type Answer = (u8, usize, usize);

/// What both sides make of a case: the answer, and what was written, as it is afterwards.
#[derive(Clone, PartialEq, Eq, Debug)]
pub struct Outcome {
    pub answer: Answer,
    pub output: Vec<u8>,
}

/// The two sides make different things of a case: the answers, the library's first, and in words where buffers differ.
#[derive(Debug)]
pub struct Difference {
    pub case: Case,
    pub answers: (Answer, Answer),
    pub places: Vec<String>,
}

type Compile = fn(&[u8], &mut [u8], &mut [u8], &mut [u64]) -> (u8, usize);
type Write = fn(&[u8], &mut [u8], &mut [u8], &mut [u64]) -> u8;
type Compare = fn(&[u8], &[u8], &mut [u8], &mut [u8], &mut [u64]) -> Answer;

/// The operations of one side.
struct Side {
    compile: Compile,
    minimise: Write,
    match_text: fn(&[u8], &[u8]) -> (u8, usize),
    compare: Compare,
    pack: Compile,
    unpack: Write,
    desk_open: fn(usize, &[u8], &mut [u8]) -> u8,
    desk_key: fn(&[u8], &mut [u8], u8) -> u8,
}

const LIBRARY: Side = Side {
    compile: palgondur::raw::compile,
    minimise: palgondur::raw::minimise,
    match_text: palgondur::raw::match_text,
    compare: palgondur::raw::compare,
    pack: palgondur::raw::pack,
    unpack: palgondur::raw::unpack,
    desk_open: palgondur::raw::desk_open,
    desk_key: palgondur::raw::desk_key,
};

const SECOND: Side = Side {
    compile: second::compile,
    minimise: second::minimise,
    match_text: second::match_text,
    compare: second::compare,
    pack: second::pack,
    unpack: second::unpack,
    desk_open: second::desk_open,
    desk_key: second::desk_key,
};

/// How many bytes, or words, stand on either side of what is lent.
const GUARD: usize = 32;

/// A copy of what is lent, with a guard on either side that nothing may touch.
#[derive(PartialEq)]
struct Guarded<T> {
    whole: Vec<T>,
}

impl<T: Copy + PartialEq + fmt::Debug> Guarded<T> {
    fn new(content: &[T], guard: T) -> Guarded<T> {
        let mut whole = Vec::with_capacity(content.len() + 2 * GUARD);
        whole.resize(GUARD, guard);
        whole.extend_from_slice(content);
        whole.resize(content.len() + 2 * GUARD, guard);
        Guarded { whole }
    }

    fn lent(&mut self) -> &mut [T] {
        let end = self.whole.len() - GUARD;
        &mut self.whole[GUARD..end]
    }

    /// In words, the first place where the library's copy differs from the second program's; one below 0 or past the end is in a guard.
    fn differs(&self, second: &Guarded<T>, name: &str) -> Option<String> {
        let mut pairs = self.whole.iter().zip(&second.whole);
        let at = pairs.position(|(one, other)| one != other)?;
        let (one, other) = (self.whole[at], second.whole[at]);
        let place = at as isize - GUARD as isize;
        Some(format!(
            "{name} at {place}: library {one:?}, second program {other:?}"
        ))
    }
}

/// All that a case lends, as a copy for one side.
#[derive(PartialEq)]
struct Lent {
    reads: Vec<Guarded<u8>>,
    output: Guarded<u8>,
    bytes: Guarded<u8>,
    words: Guarded<u64>,
}

impl Lent {
    fn new(case: &Case) -> Lent {
        let reads = case.reads.iter();
        Lent {
            reads: reads.map(|read| Guarded::new(read, 0xc3)).collect(),
            output: Guarded::new(&case.output, 0x3c),
            bytes: Guarded::new(&case.bytes, 0x99),
            words: Guarded::new(&case.words, 0x6666),
        }
    }

    /// Runs the case's operation of one side on what is lent.
    fn run(&mut self, case: &Case, side: &Side) -> Answer {
        let mut reads = self.reads.iter_mut().map(|read| &*read.lent());
        let (read, other) = (reads.next().unwrap_or(&[]), reads.next().unwrap_or(&[]));
        let (output, bytes) = (self.output.lent(), self.bytes.lent());
        let words = self.words.lent();
        let placed = |(number, place)| (number, place, 0);
        match case.operation {
            Operation::Compile => placed((side.compile)(read, output, bytes, words)),
            Operation::Minimise => ((side.minimise)(read, output, bytes, words), 0, 0),
            Operation::Match => placed((side.match_text)(read, other)),
            Operation::Compare => (side.compare)(read, other, output, bytes, words),
            Operation::Pack => placed((side.pack)(read, output, bytes, words)),
            Operation::Unpack => ((side.unpack)(read, output, bytes, words), 0, 0),
            Operation::DeskOpen => ((side.desk_open)(case.number, read, output), 0, 0),
            Operation::DeskKey => ((side.desk_key)(read, output, case.number as u8), 0, 0),
        }
    }

    /// In words, where the library's copies differ from the second program's.
    fn differs(&self, second: &Lent) -> Vec<String> {
        let reads = self.reads.iter().zip(&second.reads);
        let reads = reads.map(|(one, other)| one.differs(other, "input"));
        let places = [
            self.output.differs(&second.output, "output"),
            self.bytes.differs(&second.bytes, "scratch byte"),
            self.words.differs(&second.words, "scratch word"),
        ];
        reads.chain(places).flatten().collect()
    }
}

/// Runs a case on both sides: the outcome that they share, or their difference.
pub fn both(case: &Case) -> Result<Outcome, Box<Difference>> {
    let (mut library, mut second) = (Lent::new(case), Lent::new(case));
    let answers = (library.run(case, &LIBRARY), second.run(case, &SECOND));
    if answers.0 == answers.1 && library == second {
        let (answer, output) = (answers.0, second.output.lent().to_vec());
        return Ok(Outcome { answer, output });
    }
    Err(Box::new(Difference {
        case: case.clone(),
        answers,
        places: library.differs(&second),
    }))
}

impl fmt::Display for Difference {
    fn fmt(&self, out: &mut fmt::Formatter) -> fmt::Result {
        let (library, second) = self.answers;
        writeln!(out, "{}", self.case)?;
        writeln!(
            out,
            "  answer: library {library:?}, second program {second:?}"
        )?;
        self.places
            .iter()
            .try_for_each(|place| writeln!(out, "  {place}"))
    }
}
