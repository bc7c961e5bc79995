//! Drawn cases.

use agree::{drawn, many};

use crate::{number, say};

/// The seed and the number of cases of a run that names none.
const SEED: u64 = 20_260;
const CASES: u64 = 20_000;

#[test]
fn drawn_cases() {
    let seed = number("AGREE_SEED").unwrap_or(SEED);
    let count = number("AGREE_CASES").unwrap_or(CASES);
    let name = format!("seed {seed}");
    let tally = many::run(count, &name, |number| drawn::case(seed, number));
    say(format!(
        "agree: {} cases, seed {seed}\n{tally}",
        tally.cases
    ));
    tally.check();
    // A run of this length gives every answer of every operation but the desk's.
    if count >= CASES {
        assert_eq!(tally.missing(|operation| !operation.is_desk()), []);
    }
}
