//! The samples of document 01, and what is counted at the limits.

use cases::samples::{answer, hold, Outcome};
use second::answer::DONE;
use second::limits;
use second::sets::Automaton;

/// Runs an operation on what it reads, with buffers none of which is zero. A compiled room is canonical, and a refusal leaves it as it was.
fn run(operation: &str, reads: &[&[u8]]) -> Outcome {
    let mut output = vec![7; limits::ROOM];
    let mut bytes = vec![7; limits::SCRATCH_BYTES];
    let mut words = vec![7; limits::SCRATCH_WORDS];
    let (to, b, w) = (&mut output[..], &mut bytes[..], &mut words[..]);
    let placed = |(number, place)| (number, place, 0);
    let answer = match operation {
        "compile" => placed(second::compile(reads[0], to, b, w)),
        "minimise" => (second::minimise(reads[0], to, b, w), 0, 0),
        "match" => placed(second::match_text(reads[0], reads[1])),
        "compare" => second::compare(reads[0], reads[1], to, b, w),
        "pack" => placed(second::pack(reads[0], to, b, w)),
        "unpack" => (second::unpack(reads[0], to, b, w), 0, 0),
        _ => unreachable!("{operation} is no operation"),
    };
    if operation == "compile" {
        let done = second::canonical(&output);
        assert_eq!(done, answer.0 == DONE);
        assert!(done || output.iter().all(|&byte| byte == 7));
    }
    (answer, output)
}

#[test]
fn samples_hold() {
    hold(|question| answer(question, run));
}

/// The pattern of `E|cG|` and so many letters d.
fn many_sets(letters: usize) -> Vec<u8> {
    let counted = |times: usize| [&b"(a|b)*a"[..], &b"(a|b)".repeat(times)].concat();
    [
        &counted(5)[..],
        b"|c",
        &counted(4),
        b"|",
        &b"d".repeat(letters),
    ]
    .concat()
}

/// So many different literals, none of them x, y, z, and then `[x-y][y-z]`.
fn many_classes(literals: usize) -> Vec<u8> {
    let all = b"ABCDEFGHIJKLMNOPQRSTUVWXYZabcdefghijklmnopqrstuvw0123456789!#$";
    [&all[..literals], b"[x-y][y-z]"].concat()
}

#[test]
fn counts_at_the_limits() {
    let automaton = |pattern: &[u8]| Automaton::new(&second::text::tree(pattern).expect("legal"));
    for (letters, sets) in [(28, 127), (29, 128), (30, 129)] {
        let reached = automaton(&many_sets(letters)).reached(1000);
        assert_eq!(reached.map(|(all, _)| all.len()), Some(sets));
    }
    for (literals, classes) in [(59, 63), (60, 64), (61, 65)] {
        let pattern = many_classes(literals);
        assert_eq!(automaton(&pattern).pattern_classes().1, classes);
    }
    assert_eq!(automaton(b"\\e").pattern_classes().1, 1);
}
