//! Packing and unpacking, by themselves.

use crate::clock::{black_box, race, runner, Runner, SHORT};
use crate::ours::{room_of, Lent};
use crate::subjects::Subject;
use crate::table::time;
use palgondur::{limits, raw};

/// Prints the times of packing and unpacking, and how much of the form they write or read in that time.
pub fn measure(subjects: &[Subject]) {
    println!("\n## Packing and unpacking\n\nBoth test that the machine is canonical, and make the scratch zero. MB/s: bytes of the form by the time.\n");
    println!("| pattern | form | pack | MB/s | unpack | MB/s |\n|---|---:|---:|---:|---:|---:|");
    for subject in subjects {
        let room = room_of(&subject.pattern.text);
        let form = form_of(&room);
        let times = race(&SHORT, vec![packer(&room), unpacker(&form)]);
        let speed = |i: usize| form.len() as f64 * 1e3 / times[i];
        println!(
            "| {} | {} bytes | {} | {:.1} | {} | {:.1} |",
            subject.pattern.shown,
            form.len(),
            time(times[0]),
            speed(0),
            time(times[1]),
            speed(1)
        );
    }
}

/// The form of a canonical room.
fn form_of(room: &[u8]) -> Vec<u8> {
    let (mut lent, mut form) = (Lent::new(), vec![0; limits::FORM]);
    let (number, length) = raw::pack(room, &mut form, &mut lent.bytes, &mut lent.words);
    assert_eq!(number, 0);
    form.truncate(length);
    form
}

fn packer(room: &[u8]) -> Runner<'_> {
    let (mut lent, mut form) = (Lent::new(), vec![0; limits::FORM]);
    runner(move || {
        let answer = raw::pack(black_box(room), &mut form, &mut lent.bytes, &mut lent.words);
        black_box(&mut form);
        answer
    })
}

fn unpacker(form: &[u8]) -> Runner<'_> {
    let mut lent = Lent::new();
    runner(move || {
        let answer = raw::unpack(
            black_box(form),
            &mut lent.room,
            &mut lent.bytes,
            &mut lent.words,
        );
        black_box(&mut lent.room);
        answer
    })
}
