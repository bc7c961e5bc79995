//! What the fuzzer kept, run again: every file is run by every operation.

use std::fs;
use std::path::Path;

use agree::many::Tally;
use agree::{spelt, OPERATIONS};

use crate::say;

#[test]
fn kept_inputs() {
    let corpus = Path::new(env!("CARGO_MANIFEST_DIR")).join("../fuzz/corpus");
    let mut tally = Tally::default();
    for folder in fs::read_dir(corpus).expect("a corpus") {
        let folder = folder.expect("a folder").path();
        for file in fs::read_dir(folder).expect("a folder of files") {
            let path = file.expect("a file").path();
            let bytes = fs::read(&path).expect("a file that can be read");
            for operation in OPERATIONS {
                tally.run(&path.display(), &spelt::case(operation, &bytes));
            }
        }
    }
    say(format!(
        "agree: {} cases, kept by the fuzzer\n{tally}",
        tally.cases
    ));
    tally.check();
}
