//! How much stack the operations take, on the inputs that ask most of them.
//!
//! A proof does not speak of the stack, so it is measured. Each operation runs in a thread whose stack is a buffer of
//! ours, painted before; what is no longer painted after, below the frame that asked, was used. Our side of the call is
//! counted in.
//!
//! `cargo test --test stack -- --nocapture` shows the figures.

use palgondur::{limits, raw};
use std::os::raw::{c_int, c_void};

/// For each operation the bytes that it was seen to use, and the most that it may ever use. It may use an eighth more than
/// it was seen to, and never more than that.
const SEEN: [(&str, usize, usize); 8] = [
    ("compile", 8_952, 9_369),
    ("minimise", 7_464, 8_000),
    ("match", 544, 594),
    ("compare", 5_432, 8_000),
    ("pack", 7_416, 8_000),
    ("unpack", 7_432, 8_000),
    ("desk_open", 528, 1_024),
    ("desk_key", 768, 1_024),
];

/// The part of a stack that is painted at once.
#[repr(C, align(4096))]
#[derive(Clone)]
struct Page([u8; 4_096]);

/// The pages of a thread's stack.
const PAGES: usize = 64;

/// Attributes of a thread, as large as any machine has them.
#[repr(C, align(16))]
struct Attributes([u8; 256]);

extern "C" {
    fn pthread_attr_init(attributes: *mut Attributes) -> c_int;
    fn pthread_attr_setstack(attributes: *mut Attributes, stack: *mut c_void, size: usize)
        -> c_int;
    fn pthread_attr_destroy(attributes: *mut Attributes) -> c_int;
    fn pthread_create(
        thread: *mut usize,
        attributes: *const Attributes,
        start: extern "C" fn(*mut c_void) -> *mut c_void,
        task: *mut c_void,
    ) -> c_int;
    fn pthread_join(thread: usize, result: *mut *mut c_void) -> c_int;
}

/// What a thread has to do, and what it answers.
struct Task<'a> {
    work: &'a mut dyn FnMut(),
    bottom: *const u8,
    paint: u8,
    used: usize,
}

/// Where a thread starts: does the work, then looks for the lowest byte of the stack that has lost its paint.
extern "C" fn start(task: *mut c_void) -> *mut c_void {
    // Sound: `painted` passes a pointer to its task, and waits for the thread.
    let task = unsafe { &mut *task.cast::<Task>() };
    let frame: *const c_void = std::ptr::addr_of!(task).cast();
    (task.work)();
    let mut lowest = task.bottom;
    // Sound: from the bottom up to our own frame all bytes are of the buffer that this thread has as its stack.
    while lowest < frame.cast() && unsafe { lowest.read_volatile() } == task.paint {
        lowest = lowest.wrapping_add(1);
    }
    task.used = frame as usize - lowest as usize;
    std::ptr::null_mut()
}

/// The bytes of stack that work overwrote in one paint.
fn painted(work: &mut dyn FnMut(), paint: u8) -> usize {
    let mut stack = vec![Page([paint; 4_096]); PAGES];
    let bottom = stack.as_mut_ptr();
    let mut task = Task {
        work,
        bottom: bottom.cast(),
        paint,
        used: 0,
    };
    let mut attributes = Attributes([0; 256]);
    let (mut thread, given) = (0, std::ptr::addr_of_mut!(task).cast());
    let size = PAGES * std::mem::size_of::<Page>();
    // Sound: the stack, the attributes and the task outlive the thread, and are left alone until it has ended.
    unsafe {
        assert_eq!(pthread_attr_init(&mut attributes), 0);
        let set = pthread_attr_setstack(&mut attributes, bottom.cast(), size);
        assert_eq!(set, 0);
        let created = pthread_create(&mut thread, &attributes, start, given);
        assert_eq!(created, 0);
        assert_eq!(pthread_join(thread, std::ptr::null_mut()), 0);
        pthread_attr_destroy(&mut attributes);
    }
    task.used
}

/// The bytes of stack that work uses, in the worse of two paints: one could be what the work itself writes.
fn used(work: &mut dyn FnMut()) -> usize {
    painted(work, 0xA5).max(painted(work, 0x5A))
}

/// What is lent to the operations.
struct Lent {
    room: Vec<u8>,
    form: Vec<u8>,
    word: Vec<u8>,
    entry: Vec<u8>,
    bytes: Vec<u8>,
    words: Vec<u64>,
}

impl Lent {
    fn new() -> Lent {
        Lent {
            room: vec![0; limits::ROOM],
            form: vec![0; limits::FORM],
            word: vec![0; limits::WORD],
            entry: vec![0; limits::ENTRY],
            bytes: vec![0; limits::SCRATCH_BYTES],
            words: vec![0; limits::SCRATCH_WORDS],
        }
    }
}

/// A question to an operation, with the number of the answer.
enum Question {
    Compile(Vec<u8>),
    Minimise(Vec<u8>),
    Match(Vec<u8>, Vec<u8>),
    Compare(Vec<u8>, Vec<u8>),
    Pack(Vec<u8>, usize),
    Unpack(Vec<u8>),
    Open(usize, Vec<u8>),
    Key(Vec<u8>, Vec<u8>, u8),
}

impl Question {
    fn operation(&self) -> &'static str {
        match self {
            Question::Compile(_) => "compile",
            Question::Minimise(_) => "minimise",
            Question::Match(..) => "match",
            Question::Compare(..) => "compare",
            Question::Pack(..) => "pack",
            Question::Unpack(_) => "unpack",
            Question::Open(..) => "desk_open",
            Question::Key(..) => "desk_key",
        }
    }

    /// Asks the operation: the number of its answer.
    fn ask(&self, lent: &mut Lent) -> u8 {
        let Lent {
            room,
            form,
            word,
            entry,
            bytes,
            words,
        } = lent;
        match self {
            Question::Compile(pattern) => raw::compile(pattern, room, bytes, words).0,
            Question::Minimise(from) => raw::minimise(from, room, bytes, words),
            Question::Match(room, text) => raw::match_text(room, text).0,
            Question::Compare(left, right) => raw::compare(left, right, word, bytes, words).0,
            Question::Pack(from, length) => raw::pack(from, &mut form[..*length], bytes, words).0,
            Question::Unpack(form) => raw::unpack(form, room, bytes, words),
            Question::Open(count, rooms) => raw::desk_open(*count, rooms, entry),
            Question::Key(rooms, form, key) => pressed(rooms, form, *key, entry),
        }
    }
}

/// Gives a key to a copy of a form. A function of its own, so that its frame counts for no other operation.
#[inline(never)]
fn pressed(rooms: &[u8], form: &[u8], key: u8, entry: &mut [u8]) -> u8 {
    let entry = &mut entry[..form.len()];
    entry.copy_from_slice(form);
    raw::desk_key(rooms, entry, key)
}

/// A row: what the input is, the question, the number of the answer.
type Row = (String, Question, u8);

/// `inner` with `open` and `close` around it, so many times.
fn nested(times: usize, open: &str, inner: &str, close: &str) -> String {
    open.repeat(times) + inner + &close.repeat(times)
}

fn patterns() -> Vec<Row> {
    let literals = |count: usize| -> String {
        let free = |byte: &char| !"()|*[]{}\\.+?xyz".contains(*byte);
        (' '..='~').filter(free).take(count).collect()
    };
    let sets = |letters: usize| {
        let (five, four) = ("(a|b)".repeat(5), "(a|b)".repeat(4));
        format!("(a|b)*a{five}|c(a|b)*a{four}|{}", "d".repeat(letters))
    };
    let rows = [
        ("no byte", String::new(), 3),
        ("1,025 bytes", "a".repeat(1_025), 2),
        ("1,024 times (", "(".repeat(1_024), 3),
        ("1,023 times ( and a", "(".repeat(1_023) + "a", 3),
        ("511 nested parentheses", nested(511, "(", "a", ")"), 5),
        ("33 nested parentheses", nested(33, "(", "a", ")"), 5),
        ("32 nested parentheses", nested(32, "(", "a", ")"), 0),
        ("32 nested stars", nested(32, "(", "a", ")*"), 0),
        ("32 nested +", nested(32, "(", "a", ")+"), 0),
        ("32 nested ?", nested(32, "(", "a", ")?"), 0),
        (
            "32 nested groups with all marks",
            nested(32, "(", "a*+?", ")*+?"),
            0,
        ),
        (
            "31 nested groups of marked letters",
            nested(31, "(a*", "b+", "c?)+"),
            0,
        ),
        (
            "32 nested empty words",
            nested(32, "(\\e|", "\\e", "|\\e)*"),
            0,
        ),
        ("32 branches, left", nested(32, "(", "a", "|b)"), 0),
        ("32 branches, right", nested(32, "(a|", "b", ")"), 0),
        ("31 branches, both", nested(31, "(a|", "b", "|c)*"), 0),
        ("31 factors, both", nested(31, "(a", "b", "c)"), 0),
        (
            "31 branches of factors",
            nested(31, "(\\e|a", "b", "c|\\e)*"),
            0,
        ),
        ("31 classes and dots", nested(31, "([a-z]|", ".", "*.)*"), 0),
        ("63 letters", "a".repeat(63), 0),
        ("63 branches", nested(62, "a|", "a", ""), 0),
        ("63 starred letters", "a*".repeat(63), 0),
        ("63 classes of all bytes", "[\\x00-\\xFF]".repeat(63), 0),
        ("64 letters", "a".repeat(64), 6),
        ("340 empty words", nested(340, "\\e|", "\\e", ""), 0),
        ("1,023 stars", "a".to_string() + &"*".repeat(1_023), 0),
        ("1,023 marks", "a".to_string() + &"*+?".repeat(341), 0),
        ("1,022 items", nested(1, "[", &"a".repeat(1_022), "]"), 0),
        (
            "1,018 stars, a bad range",
            "a".to_string() + &"*".repeat(1_018) + "[b-a]",
            4,
        ),
        ("64 pattern classes", literals(60) + "[x-y][y-z]", 0),
        ("65 pattern classes", literals(61) + "[x-y][y-z]", 7),
        (
            "65 pattern classes in 32 nested parentheses",
            nested(32, "(", &(literals(61) + "[x-y][y-z]"), ")"),
            7,
        ),
        ("128 sets", sets(29), 0),
        ("129 sets", sets(30), 8),
    ];
    let row = |(input, pattern, number): (&str, String, u8)| {
        let pattern = pattern.into_bytes();
        (input.to_string(), Question::Compile(pattern), number)
    };
    rows.map(row).into_iter().collect()
}

/// A room of 128 states, a class for each of the first bytes, and the others in the last class.
fn room(
    classes: usize,
    mark: impl Fn(usize) -> bool,
    cell: impl Fn(usize, usize) -> usize,
) -> Vec<u8> {
    let cells = (0..limits::STATES * classes).map(|at| cell(at / classes, at % classes));
    let machine = second::Machine {
        states: limits::STATES,
        classes,
        class: (0..256).map(|byte| byte.min(classes - 1)).collect(),
        marks: (0..limits::STATES).map(mark).collect(),
        cells: cells.collect(),
    };
    machine.room()
}

/// Some number below a bound, the same for the same seed.
fn mixed(seed: usize, bound: usize) -> usize {
    let seed = (seed as u64 + 1).wrapping_mul(0x9E37_79B9_7F4A_7C15);
    let seed = (seed ^ seed >> 29).wrapping_mul(0xBF58_476D_1CE4_E5B9);
    (seed ^ seed >> 32) as usize % bound
}

/// The rooms that ask most.
struct Rooms {
    /// 128 states of which no two are alike, 64 classes, canonical.
    largest: Vec<u8>,
    /// The same strings, numbered otherwise.
    renumbered: Vec<u8>,
    /// 128 states, all alike.
    alike: Vec<u8>,
    /// 128 states, none accepting.
    none: Vec<u8>,
    /// A ring of 128 states.
    ring: Vec<u8>,
    /// A ring of 127 states after one more: told from the other by a string of 254 bytes.
    tailed: Vec<u8>,
    /// The largest, its last cell 128.
    unsound: Vec<u8>,
    /// The largest, the way of its last state wrong.
    astray: Vec<u8>,
}

impl Rooms {
    fn new() -> Rooms {
        let anywhere = |state: usize, class: usize| mixed(state * 64 + class, 128);
        let renumbered = room(64, |state| mixed(state, 2) == 1, anywhere);
        let mut lent = Lent::new();
        let question = Question::Minimise(renumbered.clone());
        assert_eq!(question.ask(&mut lent), 0);
        let largest = lent.room;
        assert_eq!(largest[..2], [128, 64]);
        let mut unsound = largest.clone();
        unsound[limits::WAYS_AT - 1] = 128;
        let mut astray = largest.clone();
        astray[limits::ROOM - 1] ^= 1;
        let last = |state| state == 127;
        Rooms {
            largest,
            renumbered,
            alike: room(64, |_| true, anywhere),
            none: room(64, |_| false, anywhere),
            ring: room(1, last, |state, _| (state + 1) % 128),
            tailed: room(1, last, |state, _| state % 127 + 1),
            unsound,
            astray,
        }
    }

    /// Each with its name, and whether it is sound.
    fn named(&self) -> [(&'static str, &Vec<u8>, bool); 8] {
        [
            ("the largest room", &self.largest, true),
            ("the largest, renumbered", &self.renumbered, true),
            ("128 like states", &self.alike, true),
            ("128 states, none accepting", &self.none, true),
            ("a ring of 128", &self.ring, true),
            ("a ring of 127 after one", &self.tailed, true),
            ("an unsound room", &self.unsound, false),
            ("a room with a wrong way", &self.astray, false),
        ]
    }
}

/// Each room to each operation that reads one, and each pair of rooms to compare.
fn rooms() -> Vec<Row> {
    let rooms = Rooms::new();
    let mut rows: Vec<Row> = Vec::new();
    let short = rooms.largest[1..].to_vec();
    let texts = [
        ("no text", vec![]),
        ("many a", vec![b'a'; 100_000]),
        ("all bytes", (0..=255).collect()),
    ];
    for (name, room, sound) in rooms.named() {
        let number = if sound { 0 } else { 9 };
        rows.push((name.to_string(), Question::Minimise(room.clone()), number));
        for (text_name, text) in &texts {
            let input = format!("{text_name}, {name}");
            let question = Question::Match(room.clone(), text.clone());
            let number = question.ask(&mut Lent::new());
            assert_eq!(number == 9, !sound);
            rows.push((input, question, number));
        }
        for (other_name, other, other_sound) in rooms.named() {
            let input = format!("{name} and {other_name}");
            let number = match (sound && other_sound, same(room, other)) {
                (false, _) => 9,
                (_, true) => 0,
                (_, false) => raw::SEPARATED,
            };
            let question = Question::Compare(room.clone(), other.clone());
            rows.push((input, question, number));
        }
        let canonical = [&rooms.largest, &rooms.ring, &rooms.tailed].contains(&room);
        let number = if canonical { 0 } else { 9 };
        let question = Question::Pack(room.clone(), limits::FORM);
        rows.push((name.to_string(), question, number));
    }
    let name = "a short room".to_string();
    rows.extend([
        (name.clone(), Question::Minimise(short.clone()), 1),
        (name.clone(), Question::Match(short.clone(), vec![]), 1),
        (
            name.clone(),
            Question::Compare(rooms.largest.clone(), short.clone()),
            1,
        ),
        (name, Question::Pack(short, limits::FORM), 1),
        (
            "a short output".to_string(),
            Question::Pack(rooms.largest, limits::FORM - 1),
            1,
        ),
    ]);
    rows
}

/// Whether two sound rooms are minimised to the same.
fn same(left: &[u8], right: &[u8]) -> bool {
    let smallest = |room: &[u8]| {
        let mut lent = Lent::new();
        Question::Minimise(room.to_vec()).ask(&mut lent);
        lent.room
    };
    smallest(left) == smallest(right)
}

/// The form of the largest machine, whole and damaged.
fn forms() -> Vec<Row> {
    let mut lent = Lent::new();
    let question = Question::Pack(Rooms::new().largest, limits::FORM);
    assert_eq!(question.ask(&mut lent), 0);
    let form = lent.form.clone();
    let mut rows = vec![
        (
            "the largest form".to_string(),
            Question::Unpack(form.clone()),
            0,
        ),
        ("no form".to_string(), Question::Unpack(vec![]), 9),
        (
            "a form of zeros".to_string(),
            Question::Unpack(vec![0; limits::FORM]),
            9,
        ),
        (
            "a form of ones".to_string(),
            Question::Unpack(vec![255; limits::FORM]),
            9,
        ),
    ];
    for length in [1, 196, limits::FORM - 1, limits::FORM + 1, 100_000] {
        let mut other = form.clone();
        other.resize(length, 0);
        rows.push((
            format!("{length} bytes of the largest form"),
            Question::Unpack(other),
            9,
        ));
    }
    // A changed cell may be that of another canonical machine: then the answer is Done.
    for seed in 0..64 {
        let bit = mixed(seed, limits::FORM * 8);
        let mut other = form.clone();
        other[bit / 8] ^= 128 >> (bit % 8);
        let question = Question::Unpack(other);
        let number = question.ask(&mut lent);
        rows.push((
            format!("the largest form, bit {bit} flipped"),
            question,
            number,
        ));
    }
    rows
}

/// The bytes of an entry form of sixteen fields with these texts, of which so many are closed.
fn entry(closed: usize, texts: &[&[u8]]) -> Vec<u8> {
    let mut form = vec![0; limits::ENTRY];
    (form[0], form[1]) = (16, closed as u8);
    for (field, text) in texts.iter().enumerate() {
        form[2 + field] = text.len() as u8;
        form[18 + 128 * field..][..text.len()].copy_from_slice(text);
    }
    form
}

/// What a key is answered that is given to an open field with this room and text, by what matching says of it.
fn answered(room: &[u8], text: &[u8], key: u8) -> u8 {
    let (number, _) = raw::match_text(room, text);
    let (more, _) = raw::match_text(room, &[text, &[key]].concat());
    match key {
        _ if number == 9 || number == raw::DEAD && !text.is_empty() => 9,
        0x08 => 0,
        0x0D if number == 0 => 0,
        0x0D => 11,
        _ if text.len() == limits::TEXT => 12,
        _ if more == raw::DEAD => 10,
        _ => 0,
    }
}

/// Each room sixteen times, and each after fifteen of the largest, whose fields are closed with the longest texts.
fn desks() -> Vec<Row> {
    let rooms = Rooms::new();
    let byte = |place| 32 + mixed(place, 32) as u8;
    let some: Vec<u8> = (0..limits::TEXT).map(byte).collect();
    let full = (32..64)
        .map(|last| [&some[1..], &[last]].concat())
        .find(|text| raw::match_text(&rooms.largest, text).0 == 0)
        .expect("a text that the largest accepts");
    let mut rows: Vec<Row> = Vec::new();
    for (name, room, sound) in rooms.named() {
        let like = room.repeat(16);
        let last = [&rooms.largest.repeat(15), &room[..]].concat();
        let opened = if sound { 0 } else { 9 };
        for (rooms_name, rooms) in [("sixteen of", &like), ("at the end,", &last)] {
            let input = format!("{rooms_name} {name}");
            rows.push((input, Question::Open(16, rooms.clone()), opened));
        }
        for key in [0x08, 0x0D, b' '] {
            let input = format!("key {key:#04X} to sixteen of {name}");
            let question = Question::Key(like.clone(), entry(0, &[]), key);
            rows.push((input, question, answered(room, b"", key)));
            for length in [0, 1, 127, 128] {
                let (text, mut texts) = (&some[..length], vec![&full[..]; 15]);
                texts.push(text);
                let input = format!("key {key:#04X} to {length} bytes at the end, {name}");
                let question = Question::Key(last.clone(), entry(15, &texts), key);
                rows.push((input, question, answered(room, text, key)));
            }
        }
    }
    let (sixteen, closed) = (rooms.largest.repeat(16), entry(16, &[&full[..]; 16]));
    let mut damaged = closed.clone();
    damaged[17] = 127;
    let short = sixteen[1..].to_vec();
    let open = |count, rooms: &Vec<u8>| Question::Open(count, rooms.clone());
    let key = |rooms: &Vec<u8>, form: &[u8]| Question::Key(rooms.clone(), form.to_vec(), b' ');
    let others = [
        ("no field", open(0, &sixteen), 21),
        ("17 fields", open(17, &sixteen), 21),
        ("short rooms", open(16, &short), 1),
        ("a closed form", key(&sixteen, &closed), 13),
        ("a damaged form", key(&sixteen, &damaged), 9),
        ("short rooms", key(&short, &closed), 1),
        ("a short form", key(&sixteen, &closed[1..]), 1),
    ];
    rows.extend(others.map(|(input, question, number)| (input.to_string(), question, number)));
    rows
}

#[test]
fn no_operation_uses_more_than_it_may() {
    let mut lent = Lent::new();
    let mut most: Vec<(&str, usize, String)> = Vec::new();
    let rows = [patterns(), rooms(), forms(), desks()];
    for (input, question, wanted) in rows.into_iter().flatten() {
        let mut number = 255;
        let stack = used(&mut || number = question.ask(&mut lent));
        let operation = question.operation();
        assert_eq!(number, wanted, "{operation} of {input}");
        match most.iter_mut().find(|(name, ..)| *name == operation) {
            None => most.push((operation, stack, input)),
            Some(row) if row.1 < stack => *row = (operation, stack, input),
            Some(_) => (),
        }
    }
    for (operation, stack, input) in &most {
        println!("{operation}: {stack} bytes of stack, on {input}");
    }
    for (operation, seen, limit) in SEEN {
        let bound = (seen + seen / 8).min(limit);
        let row = most.iter().find(|(name, ..)| *name == operation);
        let (_, stack, input) = row.expect("a row of each operation");
        assert!(
            (1..=bound).contains(stack),
            "{operation} uses {stack} bytes on {input}, and may use {bound}"
        );
    }
    assert_eq!(most.len(), SEEN.len());
}

#[test]
fn the_longest_word_is_among_the_questions() {
    let (rooms, mut lent) = (Rooms::new(), Lent::new());
    let answer = raw::compare(
        &rooms.ring,
        &rooms.tailed,
        &mut lent.word,
        &mut lent.bytes,
        &mut lent.words,
    );
    assert_eq!(answer, (raw::SEPARATED, limits::WORD, limits::WORD));
}

/// Uses so many bytes of stack, and a little more.
#[inline(never)]
fn spend<const BYTES: usize>() {
    let mut bytes = [0_u8; BYTES];
    for byte in &mut bytes {
        // Sound: the byte is ours. A volatile write is not left out.
        unsafe { std::ptr::write_volatile(byte, 1) };
    }
}

#[test]
fn what_is_used_is_seen() {
    for (stack, least) in [
        (used(&mut || ()), 0),
        (used(&mut spend::<1_000>), 1_000),
        (used(&mut spend::<32_769>), 32_769),
        (used(&mut spend::<100_000>), 100_000),
    ] {
        assert!(
            (least..least + 1_024).contains(&stack),
            "{stack} for {least}"
        );
    }
}
