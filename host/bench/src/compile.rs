//! Compiling, beside libfa; and the clearing of the scratch by itself.

use crate::clock::{black_box, keeper, race, runner, Runner, SHORT};
use crate::fa::Automaton;
use crate::ours::Lent;
use crate::subjects::{Pattern, Subject};
use crate::table::{self, Row, Target};

pub fn measure(subjects: &[Subject]) -> Target {
    let rows: Vec<Row> = subjects.iter().map(|s| row(&s.pattern)).collect();
    let about = "Ours: a text to its canonical room, with the scratch made zero. Other: libfa, `fa_compile` and `fa_minimize` to a smallest machine.";
    table::print("Compiling", about, &rows);
    clearing();
    Target::new("compiling is at least 5 times as fast as libfa", 5.0, &rows)
}

fn row(pattern: &Pattern) -> Row {
    let text = &pattern.text;
    let mut lent = Lent::new();
    let ours: Runner = runner(move || {
        lent.compile(black_box(text));
        black_box(&mut lent.room);
    });
    let other = keeper(|| Automaton::smallest(black_box(text)));
    let times = race(&SHORT, vec![ours, other]);
    Row {
        what: "compile".into(),
        pattern: pattern.shown.clone(),
        ours: times[0],
        other: times[1],
    }
}

/// Prints what clearing the scratch takes by itself.
fn clearing() {
    let mut lent = Lent::new();
    let clear = runner(move || {
        black_box(&mut lent.bytes).fill(0);
        black_box(&mut lent.words).fill(0);
    });
    let times = race(&SHORT, vec![clear]);
    let time = table::time(times[0]);
    println!("\nClearing 32,768 bytes and 256 words (2,048 bytes) by itself, in Rust: {time}. It is in each time of compiling, comparing, packing and unpacking.");
}
