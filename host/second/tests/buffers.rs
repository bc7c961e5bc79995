//! What each operation leaves in every buffer, and the order of its judgements.

use second::answer::*;
use second::limits::{
    ENTRY_FORM, ROOM as ROOM_SIZE, SCRATCH_BYTES, SCRATCH_WORDS, TEXT, WAY_AT, WORD,
};

/// Scratch of given lengths, none of it zero.
fn scratch(bytes: usize, words: usize) -> (Vec<u8>, Vec<u64>) {
    (vec![7; bytes], vec![7; words])
}

/// Whether the named scratch is zero and its tail as it was.
fn is_clear(bytes: &[u8], words: &[u64]) -> bool {
    bytes[..SCRATCH_BYTES].iter().all(|&byte| byte == 0)
        && bytes[SCRATCH_BYTES..].iter().all(|&byte| byte == 7)
        && words[..SCRATCH_WORDS].iter().all(|&word| word == 0)
        && words[SCRATCH_WORDS..].iter().all(|&word| word == 7)
}

/// Whether scratch is as it was.
fn is_untouched(bytes: &[u8], words: &[u64]) -> bool {
    bytes.iter().all(|&byte| byte == 7) && words.iter().all(|&word| word == 7)
}

fn room(pattern: &[u8]) -> Vec<u8> {
    second::machine(pattern).expect("a taken pattern").room()
}

#[test]
fn short_buffers_are_judged_first() {
    let good = room(b"a*b");
    let bad = vec![255; ROOM_SIZE];
    for (bytes, words) in [
        (SCRATCH_BYTES - 1, SCRATCH_WORDS),
        (SCRATCH_BYTES, SCRATCH_WORDS - 1),
        (0, 0),
    ] {
        let (mut bytes, mut words) = scratch(bytes, words);
        let (mut to, mut word) = (vec![7; ROOM_SIZE], vec![7; WORD]);
        assert_eq!(
            second::compile(b"(", &mut to, &mut bytes, &mut words),
            (ROOM, 0)
        );
        assert_eq!(
            second::minimise(&bad, &mut to, &mut bytes, &mut words),
            ROOM
        );
        let answer = second::compare(&bad, &good, &mut word, &mut bytes, &mut words);
        assert_eq!(answer, (ROOM, 0, 0));
        assert_eq!(
            second::pack(&bad, &mut to, &mut bytes, &mut words),
            (ROOM, 0)
        );
        assert_eq!(second::unpack(b"", &mut to, &mut bytes, &mut words), ROOM);
        assert!(is_untouched(&bytes, &words));
        assert!(to.iter().chain(&word).all(|&byte| byte == 7));
    }
    let (mut bytes, mut words) = scratch(SCRATCH_BYTES, SCRATCH_WORDS);
    let (mut short, mut to, mut word) = (vec![7; ROOM_SIZE - 1], vec![7; ROOM_SIZE], vec![7; WORD]);
    assert_eq!(
        second::compile(b"a", &mut short, &mut bytes, &mut words),
        (ROOM, 0)
    );
    assert_eq!(
        second::minimise(&good, &mut short, &mut bytes, &mut words),
        ROOM
    );
    assert_eq!(
        second::minimise(&short, &mut to, &mut bytes, &mut words),
        ROOM
    );
    assert_eq!(second::match_text(&short, b"a"), (ROOM, 0));
    assert_eq!(
        second::compare(&good, &short, &mut word, &mut bytes, &mut words),
        (ROOM, 0, 0)
    );
    let short_word = &mut word[..WORD - 1];
    assert_eq!(
        second::compare(&good, &good, short_word, &mut bytes, &mut words),
        (ROOM, 0, 0)
    );
    assert_eq!(
        second::pack(&short, &mut to, &mut bytes, &mut words),
        (ROOM, 0)
    );
    assert_eq!(
        second::unpack(b"", &mut short, &mut bytes, &mut words),
        ROOM
    );
    assert!(is_untouched(&bytes, &words));
    assert!(to.iter().chain(&word).chain(&short).all(|&byte| byte == 7));
}

#[test]
fn refusals_clear_scratch_alone() {
    let bad = vec![255; ROOM_SIZE + 4];
    let good = room(b"a*b");
    // A fourth state, which leads to the first, and so needs one byte more than that.
    let mut doubled = good.clone();
    doubled[0] += 1;
    doubled[WAY_AT + 7] = 2;
    assert!(second::sound(&doubled));
    let mut to = vec![7; ROOM_SIZE + 4];
    let mut word = vec![7; WORD + 4];
    for turn in 0..8 {
        let (mut bytes, mut words) = scratch(SCRATCH_BYTES + 5, SCRATCH_WORDS + 5);
        let (b, w) = (&mut bytes[..], &mut words[..]);
        match turn {
            0 => assert_eq!(second::compile(b"a[b-a]", &mut to, b, w), (RANGE, 3)),
            1 => assert_eq!(second::minimise(&bad, &mut to, b, w), FORM),
            2 => assert_eq!(second::compare(&good, &bad, &mut word, b, w), (FORM, 0, 0)),
            3 => assert_eq!(second::compare(&bad, &good, &mut word, b, w), (FORM, 0, 0)),
            4 => assert_eq!(second::pack(&doubled, &mut to, b, w), (FORM, 0)),
            5 => assert_eq!(second::pack(&doubled, &mut [], b, w), (FORM, 0)),
            6 => assert_eq!(second::pack(&good, &mut to[..100], b, w), (ROOM, 0)),
            _ => assert_eq!(second::unpack(&good, &mut to, b, w), FORM),
        }
        assert!(is_clear(&bytes, &words));
        assert!(to.iter().chain(&word).all(|&byte| byte == 7));
    }
    assert_eq!(second::match_text(&bad, b"a"), (FORM, 0));
}

#[test]
fn answers_keep_tails() {
    let good = [room(b"a*b"), vec![200; 9]].concat();
    for turn in 0..5 {
        let (mut bytes, mut words) = scratch(SCRATCH_BYTES + 5, SCRATCH_WORDS + 5);
        let mut to = vec![7; ROOM_SIZE + 4];
        let (b, w) = (&mut bytes[..], &mut words[..]);
        let written = match turn {
            0 => {
                assert_eq!(second::compile(b"a*b", &mut to, b, w), (DONE, 0));
                good[..ROOM_SIZE].to_vec()
            }
            1 => {
                assert_eq!(second::minimise(&good, &mut to, b, w), DONE);
                good[..ROOM_SIZE].to_vec()
            }
            2 => {
                let other = room(b"a*bb");
                let answer = second::compare(&good, &other, &mut to, b, w);
                assert_eq!(answer, (SEPARATED, 1, 2));
                b"b".to_vec()
            }
            3 => {
                assert_eq!(second::compare(&good, &good, &mut to, b, w), (SAME, 0, 1));
                Vec::new()
            }
            _ => {
                let machine = second::machine(b"a*b").expect("a taken pattern");
                let form = second::form::packed(&machine);
                assert_eq!(second::pack(&good, &mut to, b, w), (DONE, form.len()));
                form
            }
        };
        assert_eq!(to[..written.len()], written);
        assert!(to[written.len()..].iter().all(|&byte| byte == 7));
        assert!(is_clear(&bytes, &words));
    }
    assert_eq!(second::match_text(&good, b"aab"), (ACCEPTED, 0));
}

#[test]
fn the_desk_changes_nothing_that_it_refuses() {
    let (short, unsound) = (ENTRY_FORM - 1, vec![255; ROOM_SIZE]);
    let rooms = [room(b"a*b"), room(b"\\0")].concat();
    let mut form = vec![7; ENTRY_FORM + 4];
    // The order of the judgements of opening, on a form that stays as it was.
    let rows: [(usize, &[u8], usize, u8); 8] = [
        (0, &[], 0, FIELDS),
        (17, &unsound, short, FIELDS),
        (usize::MAX, &rooms, ENTRY_FORM, FIELDS),
        (1, &unsound, short, ROOM),
        (2, &rooms[1..], ENTRY_FORM, ROOM),
        (3, &rooms, ENTRY_FORM, ROOM),
        (1, &unsound, ENTRY_FORM, FORM),
        (1, &rooms[1..], ENTRY_FORM, FORM),
    ];
    for (count, rooms, length, number) in rows {
        assert_eq!(second::desk_open(count, rooms, &mut form[..length]), number);
        assert!(form.iter().all(|&byte| byte == 7));
    }
    assert_eq!(second::desk_key(&rooms, &mut form, b'a'), ROOM);
    assert_eq!(second::desk_open(2, &rooms, &mut form), DONE);
    let mut press = |keys: &[u8], number: u8| {
        for &key in keys {
            let before = form.clone();
            assert_eq!(second::desk_key(&rooms, &mut form, key), number);
            assert!(number == DONE || form == before);
            assert_eq!(form[ENTRY_FORM..], [7; 4]);
        }
        form.clone()
    };
    press(b"c\0\xff", DEAD_BYTE);
    press(b"\r", UNFINISHED_FIELD);
    press(&[b'a'; TEXT], DONE);
    press(b"abc\0", LENGTH);
    let full = press(b"\r", UNFINISHED_FIELD);
    press(b"\x08b\r", DONE);
    press(b"ab", DEAD_BYTE);
    let last = press(b"\r", UNFINISHED_FIELD);
    for key in 0..=255 {
        let judged = |form: &[u8], rooms: &[u8]| {
            let mut after = form.to_vec();
            let number = second::desk_key(rooms, &mut after, key);
            assert!(number == DONE || after == form);
            number
        };
        assert_eq!(judged(&last[..ENTRY_FORM - 1], &rooms), ROOM);
        assert_eq!(judged(&last, &rooms[1..]), ROOM);
        assert_eq!(
            judged(&full, &[&rooms[..ROOM_SIZE], &unsound].concat()),
            FORM
        );
        let closed = [&[1, 1], &last[2..]].concat();
        assert_eq!(judged(&closed, &rooms), CLOSED);
        assert_eq!(judged(&closed, &unsound), FORM);
        assert_eq!(judged(&[&[0, 0], &full[2..]].concat(), &[]), FORM);
    }
}
