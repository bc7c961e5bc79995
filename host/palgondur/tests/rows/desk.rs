//! The desk through its type and on bare slices.
//!
//! What a form's fields hold is spelled as one string: the texts in their order, with a 0x0D where a field was closed.
//! So `ab\rc` has one field closed, with `ab`, and the next one open, with `c`.

use crate::{agree, machine};
use palgondur::{raw, Desk, KeyRefusal, Machine, OpenRefusal};
use std::fmt;

/// The bytes of a room, and of an entry form.
const ROOM: usize = 8_834;
const ENTRY: usize = 2_066;

/// The bytes of a form, and of what is lent behind it. They are shown without the zeros at their end.
#[derive(Clone, PartialEq)]
struct Bytes(Vec<u8>);

impl fmt::Debug for Bytes {
    fn fmt(&self, to: &mut fmt::Formatter<'_>) -> fmt::Result {
        let end = self.0.iter().rposition(|byte| *byte != 0);
        write!(
            to,
            "{}",
            self.0[..end.map_or(0, |end| end + 1)].escape_ascii()
        )
    }
}

/// The bytes of a form of so many fields that hold what is spelled.
fn entry(count: usize, spelled: &[u8]) -> Vec<u8> {
    let mut form = vec![0; ENTRY];
    form[0] = count as u8;
    form[1] = spelled.iter().filter(|byte| **byte == 0x0D).count() as u8;
    let texts = spelled.split(|byte| *byte == 0x0D);
    for (field, text) in texts.take(count).enumerate() {
        form[2 + field] = text.len() as u8;
        form[18 + 128 * field..][..text.len()].copy_from_slice(text);
    }
    form
}

/// What the fields hold after a key that was Done.
fn after(spelled: &[u8], key: u8) -> Vec<u8> {
    match (key, spelled) {
        (0x08, [] | [.., 0x0D]) => spelled.to_vec(),
        (0x08, [before @ .., _]) => before.to_vec(),
        _ => [spelled, &[key]].concat(),
    }
}

/// The machines of patterns.
fn machines(patterns: &[&str]) -> Vec<Machine> {
    patterns.iter().map(|pattern| machine(pattern)).collect()
}

/// The rooms of patterns, end to end.
fn rooms(patterns: &[&str]) -> Vec<u8> {
    let machines = machines(patterns);
    let rooms: Vec<&[u8]> = machines.iter().map(|machine| &machine.room()[..]).collect();
    rooms.concat()
}

/// Bytes with others behind them.
fn longer(bytes: &[u8]) -> Vec<u8> {
    [bytes, &[0xEE; 300]].concat()
}

/// The bytes that are neither 0x08 nor 0x0D nor among these.
fn others(bytes: &[u8]) -> Vec<u8> {
    (0..=255)
        .filter(|byte| ![0x08, 0x0D].contains(byte) && !bytes.contains(byte))
        .collect()
}

/// All bytes.
fn all() -> Vec<u8> {
    (0..=255).collect()
}

/// The fields' patterns; and keys, with the number that each of them is to be answered.
type Play = (Vec<&'static str>, Vec<(Bytes, u8)>);

/// The place of a key among the keys, its answer, and what was wanted: a number, and the form after it.
type Odd = (usize, (u8, Bytes), (u8, Bytes));

/// The first key that is answered otherwise, if there is one.
fn odd((patterns, steps): &Play, mut press: impl FnMut(u8) -> (u8, Vec<u8>)) -> Option<Odd> {
    let keys = steps
        .iter()
        .flat_map(|(keys, number)| keys.0.iter().map(|key| (*key, *number)));
    let mut spelled = Vec::new();
    for (place, (key, number)) in keys.enumerate() {
        if number == 0 {
            spelled = after(&spelled, key);
        }
        let wanted = (number, Bytes(entry(patterns.len(), &spelled)));
        let (number, form) = press(key);
        let given = (number, Bytes(form));
        if given != wanted {
            return Some((place, given, wanted));
        }
    }
    None
}

/// The rows of keys.
fn plays() -> Vec<(Play, Option<Odd>)> {
    let play = |patterns: &[&'static str], steps: &[(&[u8], u8)]| {
        let step = |(keys, number): &(&[u8], u8)| (Bytes(keys.to_vec()), *number);
        ((patterns.to_vec(), steps.iter().map(step).collect()), None)
    };
    let (most, more) = ([b'a'; 128], [b'a'; 127]);
    let sixteen: Vec<(&[u8], u8)> = vec![(b"a\x08\x08ba\r", 0); 16];
    vec![
        // Dead bytes leave no trace, a text that is not finished is not closed, and a closed form takes no key.
        play(
            &["(ab*|a)b"],
            &[
                (&others(b"a"), 10),
                (b"\r", 11),
                (b"\x08a", 0),
                (&others(b"b"), 10),
                (b"\r", 11),
                (b"bbb\x08\x08\x08", 0),
                (b"\r", 11),
                (b"b\r", 0),
                (&all(), 13),
            ],
        ),
        // Taking back on an empty field does nothing, and opens no closed one.
        play(
            &["a*", "b", "a*"],
            &[
                (b"\x08a\x08\x08\x08aa\r\x08\x08", 0),
                (&others(b"b"), 10),
                (b"\r", 11),
                (b"b\x08\x08\x08b\r\x08\r", 0),
                (&all(), 13),
            ],
        ),
        // A 129th byte is refused, whether or not it is dead, and room is made again.
        play(
            &["a*"],
            &[
                (&most, 0),
                (&others(b""), 12),
                (b"\x08", 0),
                (&others(b"a"), 10),
                (b"a", 0),
                (b"a", 12),
                (b"\r", 0),
                (&all(), 13),
            ],
        ),
        // With 128 bytes the text is not finished, and cannot be.
        play(
            &["(aa)*a", "a"],
            &[
                (&most, 0),
                (b"\r", 11),
                (b"a", 12),
                (b"\x08\r\x08a\r", 0),
                (&all(), 13),
            ],
        ),
        // All bytes are taken but the two keys, and of a dot but the line end.
        play(
            &["(.|\\x0A)*"],
            &[
                (&others(b"")[..127], 0),
                (&[0x08; 127], 0),
                (&others(b"")[127..], 0),
                (b"\xFF", 0),
                (b"\0", 12),
                (b"\r", 0),
            ],
        ),
        play(
            &[".*"],
            &[
                (&others(b"\n")[..126], 0),
                (b"\n", 10),
                (&[0x08; 126], 0),
                (b"\n", 10),
                (&others(b"\n")[126..], 0),
                (b"\n", 10),
                (b"\xFF", 0),
                (b"\n", 12),
                (b"\r", 0),
            ],
        ),
        // The two keys are no text, also where the machine would take them.
        play(
            &["\\x08\\x0D*", "(\\x08|\\x0D|a)*"],
            &[(&others(b""), 10), (b"\r", 11), (b"\x08", 0)],
        ),
        play(
            &["(\\x08|\\x0D|a)*", "a"],
            &[(b"\x08a\x08\r", 0), (b"\r", 11), (b"\x08a\r", 0)],
        ),
        // Zero is a byte of a text as any other.
        play(
            &["\\x00*", "\\x00"],
            &[(b"\0\0\x08\0\r\0", 0), (b"\0", 10), (b"\r", 0)],
        ),
        // A field of no text at all is open for ever; one of the empty text alone can only be closed.
        play(
            &["\\0", "a"],
            &[(&others(b""), 10), (b"\r", 11), (b"\x08", 0), (b"\r", 11)],
        ),
        play(
            &["\\e", "a\\0|b"],
            &[
                (&others(b""), 10),
                (b"\x08\r", 0),
                (&others(b"b"), 10),
                (b"b\r", 0),
                (&all(), 13),
            ],
        ),
        // The most fields; and two texts, one a byte shorter than the most.
        play(&["(a|b)*"; 16], &[sixteen, vec![(&all(), 13)]].concat()),
        play(
            &["a*", "a*"],
            &[(&more, 0), (b"\r", 0), (&most, 0), (b"a", 12), (b"\r", 0)],
        ),
    ]
}

#[test]
fn keys_are_answered_through_the_type() {
    agree(&plays(), |play| {
        let mut desk = Desk::open(&machines(&play.0)).unwrap();
        odd(play, |key| {
            let number = desk.key(key).map_or_else(KeyRefusal::number, |()| 0);
            (number, desk.form().to_vec())
        })
    });
}

#[test]
fn keys_are_answered_on_bare_slices() {
    agree(&plays(), |play| {
        let (rooms, mut form) = (rooms(&play.0), vec![0xEE; ENTRY]);
        assert_eq!(raw::desk_open(play.0.len(), &rooms, &mut form), 0);
        odd(play, |key| (pressed(&rooms, &mut form, key), form.clone()))
    });
}

/// Gives a key on bare slices: the number of its answer. It must be the same on longer slices, of which the rest is
/// left as it was; and a refusal must leave the form as it was.
fn pressed(rooms: &[u8], form: &mut [u8], key: u8) -> u8 {
    let (before, mut more) = (form.to_vec(), longer(form));
    let number = raw::desk_key(rooms, form, key);
    assert_eq!(raw::desk_key(&longer(rooms), &mut more, key), number);
    assert_eq!(Bytes(more), Bytes(longer(form)));
    if number != 0 {
        assert_eq!(Bytes(form.to_vec()), Bytes(before));
    }
    number
}

/// The keys that every form from outside is given, each on its own.
const KEYS: [u8; 4] = [0x08, 0x0D, b'a', 0xFF];

/// A byte that is put into a form, or into the rooms.
#[derive(Debug)]
enum Put {
    Form(usize, u8),
    Rooms(usize, u8),
}

#[test]
fn forms_from_outside_are_judged() {
    use Put::{Form, Rooms};
    let last = ENTRY - 1;
    // The patterns, what the fields hold, and what is put there; the number of the answer to each key.
    let rows: Vec<((&[&str], &[u8], Vec<Put>), [u8; 4])> = vec![
        ((&["a*b", "a"], b"aa", vec![]), [0, 11, 0, 10]),
        ((&["a*b", "a"], b"ab\ra\r", vec![]), [13; 4]),
        // The number of fields. Where it asks for more rooms than are lent, that is ROOM.
        ((&["a*b", "a"], b"aa", vec![Form(0, 0)]), [9; 4]),
        ((&["a*b", "a"], b"aa", vec![Form(0, 1)]), [0, 11, 0, 10]),
        ((&["a*b", "a"], b"aa", vec![Form(0, 3)]), [1; 4]),
        ((&["a*b", "a"], b"aa", vec![Form(0, 255)]), [1; 4]),
        ((&["a"; 17], b"a", vec![Form(0, 16)]), [0, 0, 10, 10]),
        ((&["a"; 17], b"a", vec![Form(0, 17)]), [9; 4]),
        // The number of closed fields.
        ((&["a*", "a*"], b"a", vec![Form(1, 1)]), [0, 0, 0, 10]),
        ((&["a*", "a*"], b"a", vec![Form(1, 2)]), [13; 4]),
        ((&["a*", "a*"], b"a", vec![Form(1, 3)]), [9; 4]),
        ((&["a*", "a*"], b"a", vec![Form(1, 255)]), [9; 4]),
        ((&["a*", "a*"], b"a\ra", vec![Form(1, 0)]), [9; 4]),
        // Closed texts are accepted ones.
        ((&["a*b", "a"], b"aa\r", vec![]), [9; 4]),
        ((&["a*b", "a"], b"ac\r", vec![]), [9; 4]),
        ((&["a*b", "a"], b"\r", vec![]), [9; 4]),
        ((&["a*b", "a"], b"b\r\r", vec![]), [9; 4]),
        ((&["\\0", "a"], b"\r", vec![]), [9; 4]),
        // An open text is empty or not dead.
        ((&["a*b", "a"], b"ac", vec![]), [9; 4]),
        ((&["a*b", "a"], b"b\rab", vec![]), [9; 4]),
        ((&["\\0", "a"], b"a", vec![]), [9; 4]),
        ((&["\\0", "a"], b"", vec![]), [0, 11, 10, 10]),
        ((&["a", "\\0"], b"a\r", vec![]), [0, 11, 10, 10]),
        // Later fields are empty.
        (
            (&["a*", "a*"], b"a", vec![Form(3, 1), Form(146, b'a')]),
            [9; 4],
        ),
        ((&["a*", "a*"], b"a", vec![Form(3, 1)]), [9; 4]),
        ((&["a*", "a*"], b"a\ra\r", vec![Form(4, 1)]), [9; 4]),
        ((&["a*", "a*"], b"a\ra\r", vec![Form(17, 1)]), [9; 4]),
        // Zero where no text is.
        ((&["a*", "a*"], b"a", vec![Form(19, b'a')]), [9; 4]),
        ((&["a*", "a*"], b"a", vec![Form(145, 1)]), [9; 4]),
        ((&["a*", "a*"], b"a", vec![Form(146, b'a')]), [9; 4]),
        ((&["a*", "a*"], b"a\ra\r", vec![Form(19, 1)]), [9; 4]),
        ((&["a*", "a*"], b"a\ra\r", vec![Form(274, 1)]), [9; 4]),
        ((&["a*", "a*"], b"a\ra\r", vec![Form(last, 1)]), [9; 4]),
        // Lengths. What is longer by zeros is a text too where the byte 0 is taken.
        ((&["a*", "a*"], b"a", vec![Form(2, 0)]), [9; 4]),
        ((&["a*", "a*"], b"a", vec![Form(2, 2)]), [9; 4]),
        ((&[".*"], b"a", vec![Form(2, 128)]), [0, 0, 12, 12]),
        ((&[".*"], b"a", vec![Form(2, 129)]), [9; 4]),
        ((&[".*"], b"a", vec![Form(2, 255)]), [9; 4]),
        ((&[".*"], b"a\r", vec![Form(2, 129)]), [9; 4]),
        // The two keys are in no text.
        ((&[".*", "a*"], b"a\x07b", vec![]), [0; 4]),
        ((&[".*", "a*"], b"a\x08b", vec![]), [9; 4]),
        ((&[".*", "a*"], b"a.b", vec![Form(19, 0x0D)]), [9; 4]),
        ((&[".*", "a*"], b"\x08\ra", vec![]), [9; 4]),
        ((&[".*", "a*"], b"a.\ra\r", vec![Form(19, 0x0D)]), [9; 4]),
        // Nor is the line end in one, where the field has only dots.
        ((&[".*", "a*"], b"a.b", vec![Form(19, 0x0A)]), [9; 4]),
        ((&["(.|\\x0A)*"], b"a.b", vec![Form(19, 0x0A)]), [0; 4]),
        // A machine that is not sound, of whichever field; behind the last field nothing is read.
        ((&["a*", "a*"], b"a", vec![Rooms(0, 0)]), [9; 4]),
        ((&["a*", "a*"], b"a", vec![Rooms(ROOM, 0)]), [9; 4]),
        ((&["a*", "a*"], b"a", vec![Rooms(2 * ROOM - 1, 1)]), [9; 4]),
        ((&["a*", "a*"], b"a\ra\r", vec![Rooms(ROOM, 0)]), [9; 4]),
        // Nor is one whose ways are wrong: that of the first state, of the dead one, of one that is not used.
        ((&["a*", "a*"], b"a", vec![Rooms(8_579, 1)]), [9; 4]),
        ((&["a*", "a*"], b"a", vec![Rooms(8_581, 0)]), [9; 4]),
        ((&["a*", "a*"], b"a", vec![Rooms(8_582, 1)]), [9; 4]),
        ((&["a*", "a*"], b"a", vec![Rooms(ROOM + 8_579, 1)]), [9; 4]),
        (
            (&["a*", "a*"], b"a\ra\r", vec![Rooms(ROOM + 8_581, 0)]),
            [9; 4],
        ),
        (
            (&["a*", "a*"], b"a", vec![Form(0, 1), Rooms(ROOM, 0)]),
            [0, 0, 0, 10],
        ),
    ];
    agree(&rows, |(patterns, spelled, puts)| {
        let (mut rooms, mut form) = (rooms(patterns), entry(patterns.len().min(16), spelled));
        for put in puts {
            match *put {
                Form(place, byte) => form[place] = byte,
                Rooms(place, byte) => rooms[place] = byte,
            }
        }
        KEYS.map(|key| pressed(&rooms, &mut form.clone(), key))
    });
}

#[test]
fn short_slices_are_refused() {
    // The lengths of the rooms and of the form, and the form's first byte; the number of the answer to each key.
    let rows = [
        ((2 * ROOM, ENTRY, 2), [0, 11, 0, 10]),
        ((2 * ROOM - 1, ENTRY, 2), [1; 4]),
        ((ROOM, ENTRY, 2), [1; 4]),
        ((0, ENTRY, 2), [1; 4]),
        ((2 * ROOM, ENTRY - 1, 2), [1; 4]),
        ((2 * ROOM, 1, 2), [1; 4]),
        ((2 * ROOM, 0, 2), [1; 4]),
        ((0, 0, 2), [1; 4]),
        // The count asks for rooms whatever it is.
        ((ROOM, ENTRY, 1), [0, 11, 0, 10]),
        ((ROOM - 1, ENTRY, 1), [1; 4]),
        ((8_578, ENTRY, 1), [1; 4]),
        ((0, ENTRY, 1), [1; 4]),
        ((0, ENTRY, 0), [9; 4]),
        ((0, ENTRY - 1, 0), [1; 4]),
        ((255 * ROOM - 1, ENTRY, 255), [1; 4]),
        ((255 * ROOM, ENTRY, 255), [9; 4]),
    ];
    agree(&rows, |&(rooms_length, form_length, count)| {
        let mut rooms = rooms(&["a*b", "a*b"]);
        rooms.resize(rooms_length, 0);
        let mut before = entry(count, b"a");
        before.truncate(form_length);
        KEYS.map(|key| {
            let mut form = before.clone();
            let number = raw::desk_key(&rooms, &mut form, key);
            assert!(number == 0 || form == before);
            number
        })
    });
}

#[test]
fn forms_are_opened_on_bare_slices() {
    // The count, the lengths of the rooms and of the form, and a room that is made unsound; the number of the answer.
    let rows = [
        ((1, ROOM, ENTRY, None), 0),
        ((1, ROOM + 1, ENTRY + 1, None), 0),
        ((1, 3 * ROOM, ENTRY, Some(1)), 0),
        ((3, 3 * ROOM, ENTRY + 300, None), 0),
        ((16, 16 * ROOM, ENTRY, None), 0),
        // The count is judged first.
        ((0, ROOM, ENTRY, None), 21),
        ((0, 0, 0, None), 21),
        ((17, 17 * ROOM, ENTRY, None), 21),
        ((17, 0, 0, Some(0)), 21),
        ((256, 16 * ROOM, ENTRY, None), 21),
        ((257, 16 * ROOM, ENTRY, None), 21),
        ((usize::MAX, 16 * ROOM, ENTRY, None), 21),
        ((usize::MAX / ROOM + 1, 16 * ROOM, ENTRY, None), 21),
        ((1 << 63, 16 * ROOM, ENTRY, None), 21),
        // Then what is lent.
        ((1, ROOM - 1, ENTRY, None), 1),
        ((1, 8_578, ENTRY, None), 1),
        ((1, 0, ENTRY, None), 1),
        ((1, ROOM, ENTRY - 1, None), 1),
        ((1, ROOM, 0, None), 1),
        ((2, 2 * ROOM - 1, ENTRY, Some(0)), 1),
        ((3, 3 * ROOM, ENTRY - 1, Some(0)), 1),
        ((16, 16 * ROOM - 1, ENTRY, None), 1),
        // Then the machines.
        ((1, ROOM, ENTRY, Some(0)), 9),
        ((3, 3 * ROOM, ENTRY, Some(0)), 9),
        ((3, 3 * ROOM, ENTRY, Some(1)), 9),
        ((3, 3 * ROOM, ENTRY, Some(2)), 9),
        ((16, 16 * ROOM + 1, ENTRY, Some(15)), 9),
    ];
    let rooms = rooms(&["a*b"; 17]);
    agree(&rows, |&(count, rooms_length, form_length, unsound)| {
        let mut rooms = rooms[..rooms_length].to_vec();
        if let Some(byte) = unsound.and_then(|room: usize| rooms.get_mut(room * ROOM)) {
            *byte = 0;
        }
        // What the form held before does not matter, and is left where none is opened.
        let before = vec![0xEE; form_length];
        let mut form = before.clone();
        let number = raw::desk_open(count, &rooms, &mut form);
        let mut wanted = before;
        if number == 0 {
            wanted[..ENTRY].copy_from_slice(&entry(count, b""));
        }
        assert_eq!(Bytes(form), Bytes(wanted));
        number
    });
}

#[test]
fn forms_are_opened_through_the_type() {
    let rows: Vec<(usize, Result<Bytes, OpenRefusal>)> = (0..=40)
        .map(|count| match count {
            1..=16 => (count, Ok(Bytes(entry(count, b"")))),
            _ => (count, Err(OpenRefusal::Fields(count))),
        })
        .collect();
    agree(&rows, |&count| {
        let desk = Desk::open(&machines(&vec!["\\0"; count]));
        desk.map(|desk| Bytes(desk.form().to_vec()))
    });
}

#[test]
fn the_type_tells_what_the_fields_hold() {
    let told = |closed: usize, open: Option<usize>, texts: [&str; 2]| {
        let [first, second] = texts.map(|text| Some(text.as_bytes().to_vec()));
        (closed, open, open.is_none(), [first, second, None])
    };
    // The keys that two fields are given; how many are closed, the open one, and what they hold. There is no third.
    let rows = [
        ("", told(0, Some(0), ["", ""])),
        ("a", told(0, Some(0), ["a", ""])),
        ("ab\r", told(1, Some(1), ["ab", ""])),
        ("\ra", told(1, Some(1), ["", "a"])),
        ("ab\ra\r", told(2, None, ["ab", "a"])),
        ("\r\r", told(2, None, ["", ""])),
    ];
    agree(&rows, |keys| {
        let mut desk = Desk::open(&machines(&["(a|b)*"; 2])).unwrap();
        assert!(keys.bytes().all(|key| desk.key(key).is_ok()));
        assert_eq!((desk.fields(), desk.text(usize::MAX)), (2, None));
        let texts = [0, 1, 2].map(|field| desk.text(field).map(|text| text.to_vec()));
        (desk.closed(), desk.open_field(), desk.all_closed(), texts)
    });
}

#[test]
fn the_type_tells_how_many_bytes_more_a_field_wants() {
    let patterns = ["[0-9][0-9]", "abcd|b", "\\0"];
    // The keys; what each field wants at least, the third has no text at all, and there is no fourth.
    let rows = [
        ("", [Some(2), Some(1), None, None]),
        ("4", [Some(1), Some(1), None, None]),
        ("42", [Some(0), Some(1), None, None]),
        ("42\ra", [Some(0), Some(3), None, None]),
        ("42\ra\x08", [Some(0), Some(1), None, None]),
        ("42\rabcd\r", [Some(0), Some(0), None, None]),
    ];
    agree(&rows, |keys| {
        let mut desk = Desk::open(&machines(&patterns)).unwrap();
        assert!(keys.bytes().all(|key| desk.key(key).is_ok()));
        assert_eq!(desk.fewest_more(usize::MAX), None);
        [0, 1, 2, 3].map(|field| desk.fewest_more(field))
    });
}

#[test]
fn the_desk_does_not_show_what_was_typed() {
    let mut desk = Desk::open(&machines(&["5*", "a"])).unwrap();
    assert!(b"55\r".iter().all(|key| desk.key(*key).is_ok()));
    assert_eq!(format!("{desk:?}"), "Desk { fields: 2, closed: 1 }");
}

#[test]
fn the_desks_refusals_have_their_number_and_sentence() {
    let rows = [
        (
            KeyRefusal::DeadByte,
            (10, "no text of this field goes on this way"),
        ),
        (
            KeyRefusal::Unfinished,
            (11, "the text of this field is not finished"),
        ),
        (KeyRefusal::Length, (12, "a field has at most 128 bytes")),
        (KeyRefusal::Closed, (13, "all fields are closed")),
    ];
    let rows = rows.map(|(refusal, (number, sentence))| (refusal, (number, sentence.to_string())));
    agree(&rows, |refusal| (refusal.number(), refusal.to_string()));
    for (refusal, (number, _)) in &rows {
        assert_eq!(KeyRefusal::of(*number), Some(*refusal));
    }
    for number in (0..=u8::MAX).filter(|number| !(10..=13).contains(number)) {
        assert_eq!(KeyRefusal::of(number), None);
    }
    let fields = OpenRefusal::Fields(17);
    assert_eq!(fields.number(), 21);
    assert_eq!(fields.to_string(), "a form has 1 to 16 fields, not 17");
}
