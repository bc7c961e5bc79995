//! The language of a pattern by Brzozowski's derivatives.
//!
//! Expressions are kept once each, in a form that makes similar ones the same: unions are flat, sorted and without repetition,
//! products lean to the right, and no word, the empty word and a star of a star are taken away where they can be. `F+` is kept as
//! the product of F and its star, `F?` as the union of F and the empty word.

use std::collections::HashMap;

use crate::answer;
use crate::text::{ByteSet, Mark, Node, Tree};

#[derive(Clone, PartialEq, Eq, Hash, Debug)]
enum Form {
    Nothing,
    Empty,
    Bytes(ByteSet),
    Union(Vec<usize>),
    Product(usize, usize),
    Star(usize),
}

const NOTHING: usize = 0;
const EMPTY: usize = 1;

/// A pattern's language, with the derivatives met so far.
pub struct Language {
    forms: Vec<Form>,
    nullable: Vec<bool>,
    known: HashMap<Form, usize>,
    derived: HashMap<(usize, u8), usize>,
    whole: usize,
}

impl Language {
    /// The language of a tree.
    pub fn new(tree: &Tree) -> Language {
        let mut language = Language {
            forms: Vec::new(),
            nullable: Vec::new(),
            known: HashMap::new(),
            derived: HashMap::new(),
            whole: NOTHING,
        };
        language.keep(Form::Nothing);
        language.keep(Form::Empty);
        let mut made = vec![NOTHING; tree.nodes.len()];
        for (at, node) in tree.nodes.iter().enumerate().rev() {
            made[at] = match node {
                Node::Nothing => NOTHING,
                Node::Empty => EMPTY,
                Node::Position(position) => {
                    language.keep(Form::Bytes(tree.positions[position - 1].holds))
                }
                Node::Union(parts) => {
                    let parts = parts.iter().map(|&part| made[part]).collect();
                    language.union(parts)
                }
                Node::Product(parts) => parts
                    .iter()
                    .rev()
                    .fold(EMPTY, |rest, &part| language.product(made[part], rest)),
                Node::Marked(Mark::Star, part) => language.star(made[*part]),
                Node::Marked(Mark::Plus, part) => {
                    let more = language.star(made[*part]);
                    language.product(made[*part], more)
                }
                Node::Marked(Mark::Option, part) => language.union(vec![made[*part], EMPTY]),
            };
        }
        language.whole = made[0];
        language
    }

    fn keep(&mut self, form: Form) -> usize {
        if let Some(&number) = self.known.get(&form) {
            return number;
        }
        let nullable = match &form {
            Form::Nothing | Form::Bytes(_) => false,
            Form::Empty | Form::Star(_) => true,
            Form::Union(parts) => parts.iter().any(|&part| self.nullable[part]),
            Form::Product(left, right) => self.nullable[*left] && self.nullable[*right],
        };
        self.forms.push(form.clone());
        self.nullable.push(nullable);
        self.known.insert(form, self.forms.len() - 1);
        self.forms.len() - 1
    }

    fn union(&mut self, parts: Vec<usize>) -> usize {
        let mut flat = Vec::new();
        for part in parts {
            match &self.forms[part] {
                Form::Nothing => {}
                Form::Union(inner) => flat.extend_from_slice(inner),
                _ => flat.push(part),
            }
        }
        flat.sort_unstable();
        flat.dedup();
        match flat[..] {
            [] => NOTHING,
            [only] => only,
            _ => self.keep(Form::Union(flat)),
        }
    }

    fn product(&mut self, left: usize, right: usize) -> usize {
        match self.forms[left] {
            Form::Nothing => NOTHING,
            Form::Empty => right,
            _ if right == NOTHING => NOTHING,
            _ if right == EMPTY => left,
            Form::Product(first, rest) => {
                let rest = self.product(rest, right);
                self.product(first, rest)
            }
            _ => self.keep(Form::Product(left, right)),
        }
    }

    fn star(&mut self, part: usize) -> usize {
        match self.forms[part] {
            Form::Nothing | Form::Empty => EMPTY,
            Form::Star(_) => part,
            _ => self.keep(Form::Star(part)),
        }
    }

    fn derivative(&mut self, whole: usize, byte: u8) -> usize {
        if let Some(&number) = self.derived.get(&(whole, byte)) {
            return number;
        }
        let number = match self.forms[whole].clone() {
            Form::Nothing | Form::Empty => NOTHING,
            Form::Bytes(holds) => {
                if holds.has(byte) {
                    EMPTY
                } else {
                    NOTHING
                }
            }
            Form::Union(parts) => {
                let parts = parts
                    .iter()
                    .map(|&part| self.derivative(part, byte))
                    .collect();
                self.union(parts)
            }
            Form::Product(left, right) => {
                let begun = self.derivative(left, byte);
                let begun = self.product(begun, right);
                if self.nullable[left] {
                    let skipped = self.derivative(right, byte);
                    self.union(vec![begun, skipped])
                } else {
                    begun
                }
            }
            Form::Star(part) => {
                let begun = self.derivative(part, byte);
                self.product(begun, whole)
            }
        };
        self.derived.insert((whole, byte), number);
        number
    }

    /// Whether the language has the text.
    pub fn has(&mut self, text: &[u8]) -> bool {
        let last = text
            .iter()
            .fold(self.whole, |whole, &byte| self.derivative(whole, byte));
        self.nullable[last]
    }

    /// The answer and place of matching the text: the shortest prefix whose derivative has no word makes it Dead.
    pub fn answer(&mut self, text: &[u8]) -> (u8, usize) {
        let mut whole = self.whole;
        for (place, &byte) in text.iter().enumerate() {
            if self.is_empty(whole) {
                return (answer::DEAD, place);
            }
            whole = self.derivative(whole, byte);
        }
        if self.is_empty(whole) {
            (answer::DEAD, text.len())
        } else if self.nullable[whole] {
            (answer::ACCEPTED, 0)
        } else {
            (answer::UNFINISHED, 0)
        }
    }

    /// Whether an expression has no word at all.
    fn is_empty(&self, whole: usize) -> bool {
        match &self.forms[whole] {
            Form::Nothing => true,
            Form::Empty | Form::Star(_) => false,
            Form::Bytes(holds) => *holds == ByteSet::empty(),
            Form::Union(parts) => parts.iter().all(|&part| self.is_empty(part)),
            Form::Product(left, right) => self.is_empty(*left) || self.is_empty(*right),
        }
    }
}
