//! Judging a room, beside the time that it may take.

use crate::clock::{black_box, race, runner, SHORT};
use crate::ours::room_of;
use crate::subjects::drawn;
use crate::table::{self, Row, Target};
use palgondur::limits::{CLASSES, STATES};
use palgondur::raw;

/// The nanoseconds that judging the largest room may take.
const MOST: f64 = 3_000.0;

pub fn measure() -> Target {
    let rows = [
        row("drawn cells, every class held", &largest()),
        row("32 `[0-9A-F]`", &room_of(&"[0-9A-F]".repeat(32))),
        row("`a`", &room_of("a")),
    ];
    let about = "Ours: matching the empty text, which is little else than judging the room. Other: the 3 µs that judging the largest room may take.";
    table::print("Judging a room", about, &rows);
    Target::new(
        "judging 128 states and 64 classes takes at most 3 µs",
        1.0,
        &rows[..1],
    )
}

fn row(pattern: &str, room: &[u8]) -> Row {
    assert_ne!(raw::match_text(room, b"").0, 9, "{pattern} is not sound");
    let times = race(
        &SHORT,
        vec![runner(|| raw::match_text(black_box(room), b""))],
    );
    Row {
        what: format!("judge, {} states, {} classes", room[0], room[1]),
        pattern: pattern.into(),
        ours: times[0],
        other: MOST,
    }
}

/// A room of the most states and classes with drawn cells; every fourth state accepts.
fn largest() -> Vec<u8> {
    let states: Vec<u8> = (0..STATES as u8).collect();
    let cells = drawn(STATES * CLASSES, &states);
    let machine = second::Machine {
        states: STATES,
        classes: CLASSES,
        class: (0..256).map(|byte| byte % CLASSES).collect(),
        marks: (0..STATES).map(|state| state % 4 == 3).collect(),
        cells: cells.into_iter().map(usize::from).collect(),
    };
    machine.room()
}
