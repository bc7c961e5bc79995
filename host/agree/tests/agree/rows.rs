//! Samples and rows, each with what document 01 says.

use agree::rows::{run, FILES};
use agree::written::{read, written};
use agree::{both, Case, Operation};
use cases::samples;

use crate::say;

#[test]
fn samples_hold() {
    let run = |operation: &str, reads: &[&[u8]]| {
        let operation = Operation::named(operation).expect("an operation");
        let outcome = both(&Case::new(operation, reads));
        let outcome = outcome.unwrap_or_else(|difference| panic!("{difference}"));
        (outcome.answer, outcome.output)
    };
    samples::hold(|question| samples::answer(question, run));
}

#[test]
fn rows_hold() {
    let mut failed = String::new();
    for file in &FILES {
        match run(file) {
            Ok(count) => say(format!("agree: {count} rows of {}", file.0)),
            Err(fault) => failed += &fault,
        }
    }
    assert!(failed.is_empty(), "{failed}");
}

#[test]
fn fields_are_read_back() {
    let mut draw = cases::draw::Draw::new(5);
    for _ in 0..2000 {
        let length = draw.below(60);
        let alphabet = draw.pick(&[&b"a%^}{ \\"[..], b"\x00a", b"%", b"}^\xff"]);
        let bytes = draw.text(length, alphabet);
        assert_eq!(read(&written(&bytes)), Some(bytes));
    }
}
