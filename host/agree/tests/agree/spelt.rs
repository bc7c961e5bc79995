//! Rooms that bytes spell.

use agree::{both, spelt, Operation};

#[test]
fn a_spelt_room_has_the_right_ways_unless_others_are_spelt() {
    // The kind of a room of a*, whose ways are 0 and none; what follows the pattern; the number of matching the empty text by it.
    let rows: [(u8, &[u8], u8); 10] = [
        (0x00, b"", 0),
        // The second state accepts: with its way, and with that from before.
        (0x04, &[1, 3, 1], 0),
        (0x84, &[1, 3, 1], 9),
        (0x80, b"", 0),
        // Bits of a way changed: none, one of the first state, all of the second, one of the last, which is not used.
        (0xc0, &[0, 0, 0], 0),
        (0xc0, &[0, 0, 1], 9),
        (0xc0, &[1, 255, 255], 9),
        (0xc0, &[127, 1, 0], 9),
        // Both.
        (0xc4, &[1, 3, 1, 1, 0, 0], 0),
        (0xc4, &[1, 3, 1, 1, 255, 255], 9),
    ];
    for (kind, rest, number) in rows {
        let bytes = [&[0, kind, 2, b'a', b'*'], rest].concat();
        let case = spelt::case(Operation::Match, &bytes);
        let outcome = both(&case).unwrap_or_else(|difference| panic!("{difference}"));
        assert_eq!(outcome.answer.0, number, "{bytes:02x?}");
    }
}
