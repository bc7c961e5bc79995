//! The recogniser of pattern texts.
//!
//! A text is first cut into tokens, each of them read from the bytes at its beginning; then every parenthesis is paired with its
//! partner, and the stretches between partners are split at `|` into branches and the branches into factors. Stretches wait in a
//! list, so that deep nesting costs no stack. In the tree a part always has a greater number than the whole that holds it.

use crate::limits::BYTES;

/// The twelve bytes that are literals only when escaped.
pub const TWELVE: &[u8; 12] = b"()|*[]{}\\.+?";

/// A set of byte values.
#[derive(Clone, Copy, PartialEq, Eq, Debug, Hash, PartialOrd, Ord)]
pub struct ByteSet([u64; 4]);

impl ByteSet {
    /// The set with no byte.
    pub fn empty() -> ByteSet {
        ByteSet([0; 4])
    }

    /// The set of the dot: all bytes but the line end.
    pub fn dot() -> ByteSet {
        ByteSet([!(1 << b'\n'), u64::MAX, u64::MAX, u64::MAX])
    }

    /// The set of one byte.
    pub fn one(byte: u8) -> ByteSet {
        let mut set = ByteSet::empty();
        set.add(byte);
        set
    }

    /// Puts a byte into the set.
    pub fn add(&mut self, byte: u8) {
        self.0[usize::from(byte) / 64] |= 1 << (byte % 64);
    }

    /// Whether the set has the byte.
    pub fn has(&self, byte: u8) -> bool {
        self.0[usize::from(byte) / 64] >> (byte % 64) & 1 == 1
    }

    /// The bytes of the set, ascending.
    pub fn bytes(&self) -> Vec<u8> {
        (0..BYTES)
            .map(|byte| byte as u8)
            .filter(|&byte| self.has(byte))
            .collect()
    }
}

/// One position: the place of its first byte in the text, and the bytes it holds.
#[derive(Clone, Copy, PartialEq, Eq, Debug)]
pub struct Position {
    /// Place of its first byte.
    pub place: usize,
    /// The bytes it holds.
    pub holds: ByteSet,
}

/// A range of a class, with the place of its dash.
#[derive(Clone, Copy, PartialEq, Eq, Debug)]
pub struct Range {
    /// Place of the dash.
    pub dash: usize,
    /// Its first byte.
    pub low: u8,
    /// Its last byte.
    pub high: u8,
}

/// A mark, which may stand after a factor.
#[derive(Clone, Copy, PartialEq, Eq, Debug)]
pub enum Mark {
    /// `*`, any number of times.
    Star,
    /// `+`, once or more.
    Plus,
    /// `?`, once or not at all.
    Option,
}

/// A node of the tree; parts are numbers of nodes.
#[derive(Clone, PartialEq, Eq, Debug)]
pub enum Node {
    /// No word at all, `\0`.
    Nothing,
    /// The empty word, `\e`.
    Empty,
    /// A position, counted from 1.
    Position(usize),
    /// An expression: the union of its branches.
    Union(Vec<usize>),
    /// A branch: the product of its factors.
    Product(Vec<usize>),
    /// An atom or factor with a mark after it.
    Marked(Mark, usize),
}

/// The tree of a legal text; node 0 is the whole expression.
#[derive(Clone, PartialEq, Eq, Debug)]
pub struct Tree {
    /// The nodes, a whole before its parts.
    pub nodes: Vec<Node>,
    /// The positions, left to right.
    pub positions: Vec<Position>,
    /// The ranges, left to right.
    pub ranges: Vec<Range>,
    /// Each opening parenthesis: its place and how many are open with it.
    pub opens: Vec<(usize, usize)>,
}

#[derive(Clone, Copy, PartialEq, Eq, Debug)]
enum Token {
    Open,
    Close,
    Bar,
    Mark(Mark),
    Nothing,
    Empty,
    Position(ByteSet),
}

/// A text cut into tokens, each with its place.
pub struct Tokens {
    tokens: Vec<(usize, Token)>,
    ranges: Vec<Range>,
}

impl Tokens {
    /// How many parentheses open more than close; none if more close.
    pub fn open(&self) -> Option<usize> {
        let count = |wanted: Token| {
            self.tokens
                .iter()
                .filter(|(_, token)| *token == wanted)
                .count()
        };
        count(Token::Open).checked_sub(count(Token::Close))
    }
}

fn hex(digit: u8) -> Option<u8> {
    (digit as char).to_digit(16).map(|value| value as u8)
}

/// The escape for one byte at the beginning of the text, and its length.
fn byte_escape(text: &[u8]) -> Option<(u8, usize)> {
    match *text {
        [b'\\', b'x', high, low, ..] => Some((hex(high)? * 16 + hex(low)?, 4)),
        [b'\\', byte, ..] if TWELVE.contains(&byte) || b"^-".contains(&byte) => Some((byte, 2)),
        _ => None,
    }
}

/// The byte of a class at the beginning of the text, and its length.
fn class_byte(text: &[u8]) -> Option<(u8, usize)> {
    match *text.first()? {
        b'\\' => byte_escape(text),
        byte if (0x20..=0x7e).contains(&byte) && !b"[]\\-^".contains(&byte) => Some((byte, 1)),
        _ => None,
    }
}

/// The class at the beginning of the text: its bytes, its ranges (dashes counted from there), its length.
fn class(text: &[u8]) -> Option<(ByteSet, Vec<Range>, usize)> {
    let (mut holds, mut ranges, mut at) = (ByteSet::empty(), Vec::new(), 1);
    while at == 1 || text.get(at) != Some(&b']') {
        let (low, length) = class_byte(text.get(at..)?)?;
        at += length;
        let mut high = low;
        if text.get(at) == Some(&b'-') {
            let (end, length) = class_byte(&text[at + 1..])?;
            ranges.push(Range {
                dash: at,
                low,
                high: end,
            });
            high = end;
            at += 1 + length;
        }
        (low..=high).for_each(|byte| holds.add(byte));
    }
    Some((holds, ranges, at + 1))
}

/// The text cut into tokens, if it can be cut.
pub fn tokens(text: &[u8]) -> Option<Tokens> {
    let (mut tokens, mut all, mut at) = (Vec::new(), Vec::new(), 0);
    while at < text.len() {
        let rest = &text[at..];
        let (token, length) = match *rest {
            [b'(', ..] => (Token::Open, 1),
            [b')', ..] => (Token::Close, 1),
            [b'|', ..] => (Token::Bar, 1),
            [b'*', ..] => (Token::Mark(Mark::Star), 1),
            [b'+', ..] => (Token::Mark(Mark::Plus), 1),
            [b'?', ..] => (Token::Mark(Mark::Option), 1),
            [b'.', ..] => (Token::Position(ByteSet::dot()), 1),
            [b'\\', b'e', ..] => (Token::Empty, 2),
            [b'\\', b'0', ..] => (Token::Nothing, 2),
            [b'\\', ..] => {
                let (byte, length) = byte_escape(rest)?;
                (Token::Position(ByteSet::one(byte)), length)
            }
            [b'[', ..] => {
                let (holds, ranges, length) = class(rest)?;
                all.extend(ranges.into_iter().map(|range| Range {
                    dash: range.dash + at,
                    ..range
                }));
                (Token::Position(holds), length)
            }
            [byte, ..] if (0x20..=0x7e).contains(&byte) && !TWELVE.contains(&byte) => {
                (Token::Position(ByteSet::one(byte)), 1)
            }
            _ => return None,
        };
        tokens.push((at, token));
        at += length;
    }
    Some(Tokens {
        tokens,
        ranges: all,
    })
}

/// The partner of each parenthesis among the tokens, if each has one.
fn partners(tokens: &[(usize, Token)]) -> Option<Vec<usize>> {
    let (mut partner, mut open) = (vec![0; tokens.len()], Vec::new());
    for (at, (_, token)) in tokens.iter().enumerate() {
        match token {
            Token::Open => open.push(at),
            Token::Close => {
                let other: usize = open.pop()?;
                partner[other] = at;
            }
            _ => {}
        }
    }
    if open.is_empty() {
        Some(partner)
    } else {
        None
    }
}

/// The tree of the text, if the text is legal, limits and the order of a range's ends aside.
///
/// ```
/// use second::text::{tree, Mark, Node};
///
/// // It is (a+)?, in the one branch of the whole.
/// let nodes = tree(b"a+?").unwrap().nodes;
/// assert_eq!(nodes[2], Node::Marked(Mark::Option, 3));
/// assert_eq!(nodes[3], Node::Marked(Mark::Plus, 4));
/// assert_eq!(nodes[4], Node::Position(1));
/// ```
pub fn tree(text: &[u8]) -> Option<Tree> {
    let Tokens { tokens, ranges } = tokens(text)?;
    let partner = partners(&tokens)?;
    let mut nodes = vec![Node::Nothing];
    let (mut positions, mut opens) = (Vec::new(), Vec::new());
    let mut number = vec![0; tokens.len()];
    for (at, &(place, token)) in tokens.iter().enumerate() {
        if let Token::Position(holds) = token {
            positions.push(Position { place, holds });
            number[at] = positions.len();
        }
    }
    // A stretch of tokens that must be an expression: its node, its bounds, the parentheses around it.
    let mut stretches = vec![(0, 0, tokens.len(), 0)];
    while let Some((whole, from, to, depth)) = stretches.pop() {
        let mut branches = Vec::new();
        let mut at = from;
        loop {
            let branch = nodes.len();
            nodes.push(Node::Nothing);
            let mut factors = Vec::new();
            while at < to && tokens[at].1 != Token::Bar {
                let (first, atom) = (at, tokens[at].1);
                at = if atom == Token::Open {
                    partner[at] + 1
                } else {
                    at + 1
                };
                factors.push(nodes.len());
                let mut marks = Vec::new();
                while let Some((_, Token::Mark(mark))) = tokens.get(at) {
                    marks.push(*mark);
                    at += 1;
                }
                // The last mark holds those before it.
                for mark in marks.into_iter().rev() {
                    nodes.push(Node::Marked(mark, nodes.len() + 1));
                }
                let node = nodes.len();
                nodes.push(match atom {
                    Token::Nothing => Node::Nothing,
                    Token::Empty => Node::Empty,
                    Token::Position(_) => Node::Position(number[first]),
                    Token::Open => {
                        opens.push((tokens[first].0, depth + 1));
                        stretches.push((node, first + 1, partner[first], depth + 1));
                        Node::Nothing
                    }
                    Token::Mark(_) | Token::Bar | Token::Close => return None,
                });
            }
            if factors.is_empty() {
                return None;
            }
            nodes[branch] = Node::Product(factors);
            branches.push(branch);
            if at == to {
                break;
            }
            at += 1;
        }
        nodes[whole] = Node::Union(branches);
    }
    opens.sort_unstable();
    Some(Tree {
        nodes,
        positions,
        ranges,
        opens,
    })
}
