//! Comparing two texts, and two machines that are ready, beside libfa.

use crate::clock::{black_box, keeper, race, runner, Runner, SHORT};
use crate::fa::Automaton;
use crate::ours::{room_of, Lent};
use crate::subjects::Subject;
use crate::table::{self, Row, Target};
use palgondur::limits;

/// What libfa does with two texts: both compiled and compared; or also made smallest before.
const COMPILED: &str = ", beside libfa";
const SMALLEST: &str = ", beside libfa with `fa_minimize`";

pub fn measure(subjects: &[Subject]) -> Vec<Target> {
    let of_texts: Vec<Row> = subjects.iter().flat_map(texts).collect();
    let about = "Ours: both texts compiled, then compared. Other: libfa, `fa_compile` of both, then `fa_equals`; and the same with `fa_minimize` of both in between. Ours also gives the rounds and the first shortest separating string; `fa_equals` says yes or no. The target goes by the first.";
    table::print("Comparing two texts", about, &of_texts);
    let of_ready: Vec<Row> = subjects.iter().map(ready).collect();
    let about = "Ours: two canonical rooms, judged again each time. Other: `fa_equals` of two different automata, minimised and compared once before, so that it has nothing left to change in them.";
    table::print("Comparing two machines that are ready", about, &of_ready);
    let plainly = of_texts.iter().filter(|row| row.what.ends_with(COMPILED));
    vec![
        Target::new(
            "comparing two texts is at least 6 times as fast as libfa",
            6.0,
            plainly,
        ),
        Target::new(
            "comparing ready machines is no slower than `fa_equals`",
            1.0,
            &of_ready,
        ),
    ]
}

/// Compiling and comparing two texts.
fn texts(subject: &Subject) -> Vec<Row> {
    let (left, right) = (&subject.pattern.text[..], &subject.other.text[..]);
    let (mut one, mut two, mut word) = (Lent::new(), Lent::new(), vec![0; limits::WORD]);
    let ours: Runner = runner(move || {
        one.compile(black_box(left));
        two.compile(black_box(right));
        let answer = two_rooms(&mut one, &two, &mut word);
        black_box(&mut word);
        answer
    });
    let others = [
        libfa(left, right, Automaton::compiled),
        libfa(left, right, Automaton::smallest),
    ];
    let mut runners = vec![ours];
    runners.extend(others);
    let times = race(&SHORT, runners);
    vec![
        row(subject, COMPILED, times[0], times[1]),
        row(subject, SMALLEST, times[0], times[2]),
    ]
}

/// libfa's comparison of two texts, of which automata are made in one of its ways.
fn libfa<'a>(left: &'a str, right: &'a str, make: fn(&str) -> Automaton) -> Runner<'a> {
    keeper(move || {
        let (mut one, mut two) = (make(black_box(left)), make(black_box(right)));
        (one.equals(&mut two), one, two)
    })
}

/// Compares the rooms of both with the scratch of the first.
fn two_rooms(one: &mut Lent, two: &Lent, word: &mut [u8]) -> (u8, usize, usize) {
    let Lent { room, bytes, words } = one;
    palgondur::raw::compare(room, &two.room, word, bytes, words)
}

/// Comparing two machines that are ready.
fn ready(subject: &Subject) -> Row {
    let (left, right) = (&subject.pattern.text, &subject.other.text);
    let (one, two) = (room_of(left), room_of(right));
    let (mut lent, mut word) = (Lent::new(), vec![0; limits::WORD]);
    let (mut three, mut four) = (Automaton::smallest(left), Automaton::smallest(right));
    let same = lent.compare(&one, &two, &mut word).0 == 0;
    assert_eq!(three.equals(&mut four), same);
    let ours = runner(|| {
        let answer = lent.compare(black_box(&one), black_box(&two), &mut word);
        black_box(&mut word);
        answer
    });
    let other = runner(|| black_box(&mut three).equals(black_box(&mut four)));
    let times = race(&SHORT, vec![ours, other]);
    row(subject, "", times[0], times[1])
}

fn row(subject: &Subject, beside: &str, ours: f64, other: f64) -> Row {
    Row {
        what: format!("compare, {}{beside}", answer(subject)),
        pattern: format!("{} and {}", subject.pattern.shown, subject.other.shown),
        ours,
        other,
    }
}

/// The answer of the comparison, in words.
fn answer(subject: &Subject) -> String {
    let mut lent = Lent::new();
    let (one, two) = (room_of(&subject.pattern.text), room_of(&subject.other.text));
    let mut word = [0; limits::WORD];
    match lent.compare(&one, &two, &mut word) {
        (0, _, rounds) => format!("same, rounds {rounds}"),
        (_, length, rounds) => format!("separated, length {length}, rounds {rounds}"),
    }
}
