//! A longer run: `long SEED COUNT` runs so many drawn cases of a seed, `long SEED COUNT FROM` those from a number on, `long desk` with these numbers so many
//! drawn desks. Exit status 1 if a case differs.

use std::time::Instant;

use agree::{drawn, many};

fn main() {
    let mut words = std::env::args().skip(1).peekable();
    let desks = words.next_if(|word| word == "desk").is_some();
    let numbers: Option<Vec<u64>> = words.map(|word| word.parse().ok()).collect();
    let (seed, count, from) = match numbers.as_deref() {
        Some([seed, count]) => (*seed, *count, 0),
        Some([seed, count, from]) => (*seed, *count, *from),
        _ => {
            eprintln!("usage: long [desk] SEED COUNT [FROM]");
            std::process::exit(2);
        }
    };
    let start = Instant::now();
    let name = format!("seed {seed}, from {from}");
    let tally = if desks {
        many::each(count, |tally, number| {
            drawn::desk::run(tally, seed, from + number)
        })
    } else {
        many::run(count, &name, |number| drawn::case(seed, from + number))
    };
    for difference in &tally.differences {
        println!("{difference}");
    }
    let seconds = start.elapsed().as_secs();
    println!(
        "agree: {} cases, seed {seed}, from {from}, {seconds} s, {} differences\n{tally}",
        tally.cases,
        tally.differences.len()
    );
    std::process::exit(i32::from(!tally.differences.is_empty()));
}
