//! The ways: those of small machines as they are worked out by hand, and what a room may say of them.

use second::limits::{BYTES, ROOM, STATES};
use second::ways::ways;
use second::{match_text, sound, Machine};

/// The machine with these rows of cells between `/`, these accepting states, and every byte in class 0 but a, which has the class given.
fn machine(rows: &str, accepting: &[usize], class: usize) -> Machine {
    let number = |cell: &str| cell.parse().expect("a number");
    let rows: Vec<Vec<usize>> = rows
        .split('/')
        .map(|row| row.split(',').map(number).collect())
        .collect();
    let mut classes = vec![0; BYTES];
    classes[usize::from(b'a')] = class;
    Machine {
        states: rows.len(),
        classes: rows[0].len(),
        class: classes,
        marks: (0..rows.len())
            .map(|state| accepting.contains(&state))
            .collect(),
        cells: rows.concat(),
    }
}

/// The ways between blanks, `-` where there is none.
fn shown(machine: &Machine) -> String {
    let way = |way: Option<usize>| way.map_or("-".to_string(), |way| way.to_string());
    let ways: Vec<String> = ways(machine).into_iter().map(way).collect();
    ways.join(" ")
}

#[test]
fn the_fewest_bytes_are_found() {
    // The rows, the accepting states, the class of a; the ways.
    let rows: [(&str, &[usize], usize, &str); 15] = [
        ("0", &[], 0, "-"),
        ("0", &[0], 0, "0"),
        ("1/0", &[0], 0, "0 1"),
        // The shorter of two ways, whichever class comes first.
        ("1,3/2,2/3,3/3,3", &[3], 1, "1 2 1 0"),
        ("3,1/2,2/3,3/3,3", &[3], 1, "1 2 1 0"),
        ("1,2/4,4/3,3/4,4/4,4", &[4], 1, "2 1 2 1 0"),
        ("3,2/4,4/1,1/4,4/4,4", &[4], 1, "2 1 2 1 0"),
        // A class that no byte has leads nowhere.
        ("0,1/1,1", &[1], 0, "- 0"),
        ("1,2/2,2/2,2", &[2], 0, "2 1 0"),
        // States that nothing reaches.
        ("0/2/0", &[0], 0, "0 2 1"),
        ("0/1/1", &[0], 0, "0 - -"),
        ("0/0/1", &[1], 0, "- 0 1"),
        // Dead states, by themselves and in a ring; a live state beside them.
        ("1,2/1,1/2,2", &[2], 1, "1 - 0"),
        ("1,3/2,2/1,1/0,4/4,4", &[4], 1, "2 - - 1 0"),
        // States that accept and have farther ones behind them.
        ("1/2/0", &[0, 1], 0, "0 0 1"),
    ];
    for (rows, accepting, class, wanted) in rows {
        let machine = machine(rows, accepting, class);
        assert_eq!(shown(&machine), wanted, "{rows}");
    }
}

#[test]
fn patterns_have_their_ways() {
    // States are numbered as bytes reach them, the smallest byte first.
    let rows: [(&[u8], &str); 7] = [
        (b"\\0", "-"),
        (b"\\e", "0 -"),
        (b"a*", "0 -"),
        (b"(ab*|a)b", "2 - 1 0"),
        (b"abcd|b", "1 - 3 0 2 1"),
        (b"[\\x00-\\xFF]*", "0"),
        (b"a\\0|b", "1 - 0"),
    ];
    for (pattern, wanted) in rows {
        let machine = second::machine(pattern).expect("a taken pattern");
        assert_eq!(shown(&machine), wanted, "{}", pattern.escape_ascii());
    }
}

/// Every byte leads on by one state, up to the last, which accepts.
fn chain() -> Machine {
    let cells: Vec<String> = (0..STATES)
        .map(|state| (state + 1).min(STATES - 1).to_string())
        .collect();
    machine(&cells.join("/"), &[STATES - 1], 0)
}

#[test]
fn a_room_has_the_high_byte_first() {
    let room = chain().room();
    assert_eq!((room.len(), ROOM), (8834, 8834));
    for state in 0..STATES {
        let at = 8578 + 2 * state;
        assert_eq!(room[at..at + 2], [0, 127 - state as u8]);
    }
    // Of two states, one without a way; zeros follow.
    let room = machine("1/1", &[0], 0).room();
    assert_eq!(room[8578..8582], [0, 0, 255, 255]);
    assert_eq!(room[8582..], [0; 252]);
}

#[test]
fn wrong_ways_are_not_sound() {
    // The way of the first state through a class that no byte has would be 1. State 3 is dead, and nothing reaches state 4.
    let room = machine("1,2/2,2/2,2/3,3/1,1", &[2], 0).room();
    assert!(sound(&room));
    // A state, what is said of its way, and whether that is right.
    let rows: [(usize, u16, bool); 22] = [
        (0, 2, true),
        (0, 1, false),
        (0, 3, false),
        (0, 512, false),
        (0, 65535, false),
        (1, 1, true),
        (1, 0, false),
        (1, 256, false),
        (2, 0, true),
        (2, 1, false),
        (2, 65535, false),
        (3, 65535, true),
        (3, 65534, false),
        (3, 0, false),
        (3, 3, false),
        (4, 2, true),
        (4, 1, false),
        (4, 65535, false),
        (5, 0, true),
        (5, 1, false),
        (5, 65535, false),
        (127, 1, false),
    ];
    for (state, way, right) in rows {
        let mut room = room.clone();
        room[8578 + 2 * state..][..2].copy_from_slice(&way.to_be_bytes());
        assert_eq!(sound(&room), right, "{way} of {state}");
        assert_eq!(match_text(&room, b"").0 == 9, !right);
    }
    let mut zeros = room.clone();
    zeros[8578..].fill(0);
    assert!(!sound(&zeros));
    // A room as it was before there were ways is too short.
    assert_eq!(match_text(&room[..8578], b""), (1, 0));
}
