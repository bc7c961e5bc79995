//! The times of the library's operations, beside libfa, RE2 and plain loops, as tables in Markdown. `host/bench/run` builds and runs it.
//!
//! - `subjects`: the patterns and texts.  `ours`, `fa`, `re2`, `plain`: what is measured.  `agree`: that they accept the same strings.
//! - `clock`: the medians of batches.  `compile`, `compare`, `matching`, `judging`, `packing`, `desk`: a section each.  `about`, `table`: what is printed.
#![deny(unsafe_op_in_unsafe_fn)]

mod about;
mod agree;
mod clock;
mod compare;
mod compile;
mod desk;
mod fa;
mod judging;
mod matching;
mod ours;
mod packing;
mod plain;
mod re2;
mod subjects;
mod table;

fn main() {
    let subjects = subjects::subjects();
    about::print(agree::check(&subjects));
    let mut targets = vec![compile::measure(&subjects)];
    targets.extend(compare::measure(&subjects));
    targets.extend(matching::measure(&subjects));
    targets.push(judging::measure());
    packing::measure(&subjects);
    desk::measure();
    table::print_targets(&targets);
}
