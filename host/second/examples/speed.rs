//! How long a call takes, in microseconds: `cargo run --release --example speed`.

use std::time::Instant;

use cases::draw::{Alphabet, Draw, Limit, LIMITS};
use second::limits;

/// Prints the mean and the greatest time of a call over the inputs.
fn time<T>(name: &str, inputs: &[T], mut call: impl FnMut(&T)) {
    let (mut total, mut most) = (0.0, 0.0f64);
    for input in inputs {
        let start = Instant::now();
        call(input);
        let taken = start.elapsed().as_secs_f64() * 1e6;
        total += taken;
        most = most.max(taken);
    }
    let mean = total / inputs.len() as f64;
    println!(
        "{name}: {} calls, mean {mean:.1}, most {most:.1}",
        inputs.len()
    );
}

fn main() {
    let mut draw = Draw::new(0);
    let mut room = vec![0; limits::ROOM];
    let mut word = vec![0; limits::WORD];
    let mut form = vec![0; limits::ROOM];
    let mut bytes = vec![0; limits::SCRATCH_BYTES];
    let mut words = vec![0; limits::SCRATCH_WORDS];

    let mut short = Vec::new();
    while short.len() < 20000 {
        let atoms = draw.between(4, 10);
        let pattern = draw.legal(atoms, Alphabet::Small);
        if (10..=20).contains(&pattern.len()) {
            short.push(pattern);
        }
    }
    time("compile, legal, 10 to 20 bytes", &short, |pattern| {
        second::compile(pattern, &mut room, &mut bytes, &mut words);
    });
    let mutated: Vec<Vec<u8>> = short.iter().map(|pattern| draw.mutated(pattern)).collect();
    time("compile, mutated, 10 to 20 bytes", &mutated, |pattern| {
        second::compile(pattern, &mut room, &mut bytes, &mut words);
    });
    for limit in LIMITS {
        let near: Vec<Vec<u8>> = (0..300).map(|_| draw.near(limit)).collect();
        time(
            &format!("compile, near the limit {limit:?}"),
            &near,
            |pattern| {
                second::compile(pattern, &mut room, &mut bytes, &mut words);
            },
        );
    }
    let long: Vec<Vec<u8>> = (0..300)
        .map(|_| {
            let pattern = draw.near(Limit::Length);
            draw.mutated(&pattern)
        })
        .collect();
    time("compile, mutated, near 1,024 bytes", &long, |pattern| {
        second::compile(pattern, &mut room, &mut bytes, &mut words);
    });
    let rooms: Vec<Vec<u8>> = short
        .iter()
        .filter_map(|pattern| second::machine(pattern).ok())
        .map(|machine| machine.room())
        .collect();
    let pairs: Vec<&[Vec<u8>]> = rooms.chunks_exact(2).collect();
    time("compare, compiled rooms", &pairs, |pair| {
        second::compare(&pair[0], &pair[1], &mut word, &mut bytes, &mut words);
    });
    time("pack, compiled rooms", &rooms, |room| {
        second::pack(room, &mut form, &mut bytes, &mut words);
    });
    time("match, compiled rooms", &rooms, |room| {
        second::match_text(room, b"abcabcab");
    });
    let drawn: Vec<Vec<u8>> = (0..2000).map(|_| draw.room()).collect();
    time("minimise, drawn rooms", &drawn, |from| {
        second::minimise(from, &mut room, &mut bytes, &mut words);
    });
    let pairs: Vec<&[Vec<u8>]> = drawn.chunks_exact(2).collect();
    time("compare, drawn rooms", &pairs, |pair| {
        second::compare(&pair[0], &pair[1], &mut word, &mut bytes, &mut words);
    });
}
