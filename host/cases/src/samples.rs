//! The samples: the questions and answers that the program `samples` prints. Each layer asks the questions again, by its own means.

use second::answer::{ACCEPTED, DEAD, DONE, FORM, ROOM, SAME, SEPARATED, UNFINISHED};
use second::limits::{CLASS_AT, MARK_AT};
use second::machine::{head, Machine};
use second::ways;

/// What the program prints: on each line a question, an arrow and the answer.
const PRINTED: &str = include_str!("../../../crates/samples/stdout");

/// The operation and what it is given: a pattern, a room, a room and a text, or two rooms. What is missing is empty.
pub struct Question {
    pub operation: &'static str,
    pub given: &'static str,
    pub other: &'static str,
}

/// What an operation answers on bare buffers: its number, its place or length, its rounds, and what it wrote.
pub type Outcome = ((u8, usize, usize), Vec<u8>);

/// Asks every question, and fails on those that are answered otherwise, all of them named.
pub fn hold(ask: impl Fn(&Question) -> String) {
    let wrong: Vec<String> = PRINTED
        .lines()
        .filter_map(|line| {
            let (question, answer) = line.split_once(" -> ").expect("an arrow");
            let mut words = question.split(' ');
            let mut word = || words.next().unwrap_or("");
            let found = ask(&Question {
                operation: word(),
                given: word(),
                other: word(),
            });
            (found != answer).then(|| format!("{line}\n  found: {found}"))
        })
        .collect();
    assert!(wrong.is_empty(), "\n{}", wrong.join("\n"));
}

/// The answer of what runs an operation on what it reads. A form is unpacked again.
pub fn answer(question: &Question, run: impl Fn(&str, &[&[u8]]) -> Outcome) -> String {
    let room = |given: &str| room(given, |pattern| run("compile", &[pattern.as_bytes()]).1);
    let (operation, given, other) = (question.operation, question.given, question.other);
    let (answer, output) = match operation {
        "compile" => run(operation, &[given.as_bytes()]),
        "table" => return table(&room(given)),
        "match" => run(operation, &[&room(given), text(other).as_bytes()]),
        "compare" => run(operation, &[&room(given), &room(other)]),
        _ => run(operation, &[&room(given)]),
    };
    match (operation, answer) {
        ("compile", (number @ ROOM..=FORM, place, _)) => format!("refused {number} at {place}"),
        (_, (number @ ROOM..=FORM, ..)) => format!("refused {number}"),
        ("match", (ACCEPTED, ..)) => "accepted".to_string(),
        ("match", (DEAD, place, _)) => format!("dead {place}"),
        ("match", (UNFINISHED, ..)) => "unfinished".to_string(),
        ("compare", (SAME, _, rounds)) => format!("same rounds {rounds}"),
        ("compare", (SEPARATED, length, rounds)) => separated(&output[..length], rounds),
        ("pack", (DONE, length, _)) if run("unpack", &[&output[..length]]).1 == room(given) => {
            format!("bytes {length}")
        }
        ("compile" | "minimise", (DONE, ..)) => sizes(head(&output)),
        _ => format!("{answer:?}"),
    }
}

/// How many states and classes, in words.
pub fn sizes((states, classes): (usize, usize)) -> String {
    format!("states {states} classes {classes}")
}

/// The string that separates two machines, and the rounds, in words.
pub fn separated(word: &[u8], rounds: usize) -> String {
    format!("separated {} rounds {rounds}", hex(word))
}

/// Bytes as lower-case hex, `-` if there are none.
pub fn hex(bytes: &[u8]) -> String {
    match bytes {
        [] => "-".to_string(),
        _ => bytes.iter().map(|byte| format!("{byte:02x}")).collect(),
    }
}

/// Numbers between commas, `-` if there are none.
pub fn listed(numbers: &[usize]) -> String {
    let names: Vec<String> = numbers.iter().map(|number| number.to_string()).collect();
    match &names[..] {
        [] => "-".to_string(),
        _ => names.join(","),
    }
}

/// The rows of a room's table, between `/`, and the accepting states.
pub fn table(room: &[u8]) -> String {
    let machine = Machine::read(room).expect("a sound room");
    let rows: Vec<String> = machine.cells.chunks(machine.classes).map(listed).collect();
    let states = (0..machine.states).filter(|&state| machine.marks[state]);
    let accepting: Vec<usize> = states.collect();
    format!("{} {}", rows.join("/"), listed(&accepting))
}

/// A text as it is given, or the one that has a name in the program `samples`.
pub fn text(given: &str) -> &str {
    match given {
        "{lines}" => "a\nb",
        _ => given,
    }
}

/// The room of a pattern, as it is compiled, or one that has a name in the program `samples`. A changed one has the ways of what it became.
pub fn room(given: &str, compiled: impl Fn(&str) -> Vec<u8>) -> Vec<u8> {
    let changed = |pattern, at: usize, byte| {
        let mut room = compiled(pattern);
        room[at] = byte;
        ways::mend(&mut room);
        room
    };
    let sample = "(ab*|a)b";
    match given {
        "{empty}" => compiled("\\0"),
        "{padded}" => changed("[\\x00-\\xFF]*c|(ab*|a)b", CLASS_AT + usize::from(b'c'), 0),
        "{unsound}" => changed(sample, MARK_AT + 9, 1),
        "{short}" => {
            let mut room = compiled(sample);
            room.pop();
            room
        }
        _ => compiled(given),
    }
}
