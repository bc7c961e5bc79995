//! Keys at the entry desk, beside one reading of all its rooms and one match of the open field.

use crate::clock::{black_box, race, runner, Runner, SHORT};
use crate::ours::room_of;
use crate::plain;
use crate::table::time;
use palgondur::{limits, raw, Desk};

/// Numbers of fields to measure. The first is a component of 32 hex digits, of which 16 are typed; the others have the same machine.
const FIELDS: [usize; 3] = [1, 3, limits::FIELDS];
const TYPED: &[u8] = b"0123456789ABCDEF";

/// Prints the times of keys.
pub fn measure() {
    println!("\n## Keys at the entry desk\n\nEach key judges all rooms and the form, and matches the open field once: 16 of 32 hex digits. A byte that is taken is followed by 0x08: the time is that of one of the two.\n");
    println!("| fields | byte taken, or taken back | byte refused as dead | 0x0D refused | all rooms read once | one match of the field |\n|---:|---:|---:|---:|---:|---:|");
    for fields in FIELDS {
        let rooms = room_of(&"[0-9A-F]".repeat(32)).repeat(fields);
        let room = &rooms[..limits::ROOM];
        let runners = vec![
            keys(&rooms, fields, &[b'0', Desk::TAKE_BACK], 0),
            keys(&rooms, fields, b"G", 10),
            keys(&rooms, fields, &[Desk::CLOSE], 11),
            runner(|| black_box(&rooms).chunks(limits::ROOM).map(plain::read).max()),
            runner(|| raw::match_text(black_box(room), black_box(TYPED))),
        ];
        let mut times = race(&SHORT, runners);
        times[0] /= 2.0;
        let cells: Vec<String> = times.into_iter().map(time).collect();
        println!("| {fields} | {} |", cells.join(" | "));
    }
}

/// A runner of keys that leave the form as it was, each with this answer.
fn keys<'a>(rooms: &'a [u8], fields: usize, keys: &'a [u8], answer: u8) -> Runner<'a> {
    let mut form = [0; limits::ENTRY];
    assert_eq!(raw::desk_open(fields, rooms, &mut form), 0);
    for &digit in TYPED {
        assert_eq!(raw::desk_key(rooms, &mut form, digit), 0);
    }
    runner(move || {
        for &key in keys {
            assert_eq!(raw::desk_key(black_box(rooms), &mut form, key), answer);
        }
    })
}
