//! What is drawn: damage is seen, limits are met from both sides, keys get somewhere; and strings come in order.

use std::collections::HashMap;

use cases::draw::{
    Draw, EntryDamage, Limit, RoomDamage, Typing, WayDamage, ENTRY_DAMAGES, LIMITS, ROOM_DAMAGES,
    WAY_DAMAGES,
};
use cases::exhaustive::{patterns, strings};
use second::answer::*;
use second::desk::{Desk, BACK};
use second::sets::Automaton;
use second::{limits, sound, Machine};

#[test]
fn drawn_damage_makes_rooms_unsound() {
    use RoomDamage::{Byte, Classes, States, UnusedCell, UnusedMark};
    let mut draw = Draw::new(7);
    let mut stay = HashMap::new();
    for _ in 0..200 {
        let room = draw.room();
        assert!(sound(&room));
        for damage in ROOM_DAMAGES {
            let other = draw.damaged_room(&room, damage);
            let may_stay = [Byte, States, Classes, UnusedCell, UnusedMark].contains(&damage);
            assert!(may_stay || !sound(&other));
            *stay.entry(format!("{damage:?}")).or_insert(0) += usize::from(sound(&other));
        }
    }
    // What became another machine has its ways, and is sound.
    for damage in ["Byte", "States", "Classes"] {
        assert!(stay[damage] > 20, "{stay:?}");
    }
}

#[test]
fn drawn_damage_to_ways_makes_rooms_unsound() {
    use WayDamage::{Class, Old, Zero};
    let mut draw = Draw::new(11);
    let mut seen = HashMap::new();
    for _ in 0..400 {
        let room = draw.room();
        for damage in WAY_DAMAGES {
            let other = draw.damaged_ways(&room, damage);
            assert!(Machine::table(&other).is_some(), "{damage:?}");
            let may_stay = [Zero, Class, Old].contains(&damage);
            assert!(may_stay || !sound(&other), "{damage:?}");
            *seen.entry(format!("{damage:?}")).or_insert(0) += usize::from(!sound(&other));
        }
    }
    for (damage, times) in &seen {
        assert!(*times > 80, "{damage}: {seen:?}");
    }
}

#[test]
fn limits_are_met_from_both_sides() {
    let mut draw = Draw::new(8);
    let mut met = HashMap::new();
    for limit in LIMITS {
        for _ in 0..60 {
            let pattern = draw.near(limit);
            let tree = second::text::tree(&pattern).expect("a legal text");
            let (size, most) = match limit {
                Limit::Length => (pattern.len(), limits::PATTERN),
                Limit::Depth => {
                    let depths = tree.opens.iter().map(|open| open.1);
                    (depths.max().unwrap_or(0), limits::DEPTH)
                }
                Limit::Positions => (tree.positions.len(), limits::POSITIONS),
                Limit::Classes => {
                    let classes = Automaton::new(&tree).pattern_classes().1;
                    (classes, limits::CLASSES)
                }
                Limit::Sets => {
                    let reached = Automaton::new(&tree).reached(200);
                    (reached.map_or(0, |(sets, _)| sets.len()), limits::STATES)
                }
            };
            let near = (most - 1..=most + 2).contains(&size);
            assert!(near, "{}", pattern.escape_ascii());
            let number = second::machine(&pattern).map_or_else(|refusal| refusal.0, |_| DONE);
            *met.entry((format!("{limit:?}"), number)).or_insert(0) += 1;
        }
    }
    let rows = [
        ("Length", LONG),
        ("Depth", DEPTH),
        ("Positions", POSITIONS),
        ("Classes", CLASSES),
        ("Sets", STATES),
    ];
    for (limit, refusal) in rows {
        for number in [DONE, refusal] {
            assert!(met.get(&(limit.to_string(), number)) > Some(&10), "{met:?}");
        }
    }
}

#[test]
fn strings_come_in_order() {
    let all: Vec<Vec<u8>> = strings(b"ab", 2).collect();
    let wanted: [&[u8]; 7] = [b"", b"a", b"b", b"aa", b"ab", b"ba", b"bb"];
    assert_eq!(all, wanted);
    assert_eq!(patterns(3).count(), 1 + 15 + 15 * 15 + 15 * 15 * 15);
    assert_eq!(strings(b"", 3).count(), 1);
}

/// Whether a form is taken as one that keys lead to.
fn taken(rooms: &[u8], form: &[u8]) -> bool {
    second::desk_key(rooms, &mut form.to_vec(), BACK) != FORM
}

#[test]
fn drawn_damage_is_seen() {
    let mut draw = Draw::new(9);
    let mut met = HashMap::new();
    for _ in 0..400 {
        let machines: Vec<_> = (0..draw.between(1, 4)).map(|_| draw.machine()).collect();
        let rooms: Vec<u8> = machines.iter().flat_map(|machine| machine.room()).collect();
        let mut desk = Desk::open(machines.len(), &rooms).expect("sound rooms");
        let count = draw.below(40);
        let keys = draw.keys(&mut desk, Typing::Along, count);
        assert!(keys.len() <= count && taken(&rooms, &desk.form()));
        // Rooms for as many fields as a form may have, so that no form is refused for its rooms' length.
        let long = rooms.repeat(limits::FIELDS);
        for damage in ENTRY_DAMAGES {
            let form = draw.damaged_entry(&desk.form(), damage);
            if usize::from(form[0]) <= limits::FIELDS {
                let stays = taken(&long, &form);
                *met.entry((format!("{damage:?}"), stays)).or_insert(0) += 1;
            }
        }
    }
    for damage in ENTRY_DAMAGES {
        let seen = |stays| {
            met.get(&(format!("{damage:?}"), stays))
                .copied()
                .unwrap_or(0)
        };
        assert!(seen(false) > 40, "{met:?}");
        let always = [EntryDamage::Past, EntryDamage::Later].contains(&damage);
        assert!(!always || seen(true) == 0, "{met:?}");
    }
    for damage in ["Count", "Closed", "Length", "Text", "Exchanged"] {
        assert!(met.get(&(damage.to_string(), true)) > Some(&10), "{met:?}");
    }
}

#[test]
fn drawn_keys_get_somewhere() {
    let mut draw = Draw::new(10);
    let room = |pattern: &[u8]| second::machine(pattern).expect("a taken pattern").room();
    let rooms = [room(b"(ab*|a)b"), room(b"a*b*")].concat();
    for (typing, number) in [
        (Typing::Along, CLOSED),
        (Typing::Long, LENGTH),
        (Typing::Wild, DEAD_BYTE),
    ] {
        let met = (0..100).filter(|_| {
            let mut desk = Desk::open(2, &rooms).expect("sound rooms");
            let keys = draw.keys(&mut desk.clone(), typing, 150);
            keys.into_iter().any(|key| desk.key(key) == number)
        });
        assert!(met.count() > 50, "{typing:?}");
    }
}
