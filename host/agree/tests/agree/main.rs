//! The library against the independent second program: rows, drawn cases, all small cases, the entry desk, and what the fuzzer kept.
//!
//! AGREE_SEED names another seed, AGREE_CASES another number of drawn cases, AGREE_DESKS another number of drawn desks.

mod desk;
mod drawn;
mod kept;
mod rows;
mod small;
mod spelt;

use std::io::Write;

/// Prints a line even where the output of a test that passes is not shown.
fn say(line: String) {
    writeln!(std::io::stdout(), "{line}").expect("an output that can be written");
}

/// A number from the environment.
fn number(name: &str) -> Option<u64> {
    std::env::var(name)
        .ok()
        .map(|value| value.parse().expect("a number"))
}
