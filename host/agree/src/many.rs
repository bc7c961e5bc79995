//! Many cases, over all processors, with a count of their answers.

use std::collections::BTreeMap;
use std::fmt;
use std::sync::atomic::{AtomicU64, Ordering};
use std::thread;

use crate::case::{Case, Operation, OPERATIONS};
use crate::run::{both, Outcome};

/// So many cases are taken at a time.
const BATCH: u64 = 64;
/// So many differences are kept.
const KEPT: usize = 5;

/// How often each answer was given, and the first differences.
#[derive(Default)]
pub struct Tally {
    pub cases: u64,
    pub answers: BTreeMap<(Operation, u8), u64>,
    pub differences: Vec<String>,
}

impl Tally {
    /// Runs one case and counts its answer: the outcome, if both sides share it.
    pub fn run(&mut self, name: &dyn fmt::Display, case: &Case) -> Option<Outcome> {
        self.cases += 1;
        match both(case) {
            Ok(outcome) => {
                let answer = (case.operation, outcome.answer.0);
                *self.answers.entry(answer).or_insert(0) += 1;
                Some(outcome)
            }
            Err(difference) => {
                if self.differences.len() < KEPT {
                    self.differences.push(format!("{name}: {difference}"));
                }
                None
            }
        }
    }

    /// Runs the opening of a form, and then each of the keys on the form as it was left, up to the first difference.
    pub fn type_keys(&mut self, name: &dyn fmt::Display, opening: Case, keys: &[u8]) {
        let mut case = opening;
        let mut outcome = self.run(name, &case);
        for (&key, number) in keys.iter().zip(1..) {
            match outcome {
                Some(before) => case = case.next(before.output, key),
                None => return,
            }
            outcome = self.run(&format_args!("{name}, key {number}"), &case);
        }
    }

    /// Adds another tally.
    fn join(&mut self, other: Tally) {
        self.cases += other.cases;
        self.differences.extend(other.differences);
        for (answer, count) in other.answers {
            *self.answers.entry(answer).or_insert(0) += count;
        }
    }

    /// Fails if there was a difference.
    pub fn check(&self) {
        assert!(
            self.differences.is_empty(),
            "\n{}",
            self.differences.join("\n")
        );
    }

    /// The answers that were never given, of the operations that are chosen.
    pub fn missing(&self, chosen: impl Fn(Operation) -> bool) -> Vec<(Operation, u8)> {
        OPERATIONS
            .into_iter()
            .filter(|&operation| chosen(operation))
            .flat_map(|operation| {
                operation
                    .numbers()
                    .iter()
                    .map(move |&number| (operation, number))
            })
            .filter(|answer| !self.answers.contains_key(answer))
            .collect()
    }
}

/// One line for each operation that was run: its answers, each with its count.
impl fmt::Display for Tally {
    fn fmt(&self, out: &mut fmt::Formatter) -> fmt::Result {
        for operation in OPERATIONS {
            let mut answers = self
                .answers
                .iter()
                .filter(|entry| entry.0 .0 == operation)
                .peekable();
            if answers.peek().is_some() {
                write!(out, "  {}:", operation.name())?;
                answers.try_for_each(|((_, number), count)| write!(out, " {number} x {count}"))?;
                writeln!(out)?;
            }
        }
        Ok(())
    }
}

/// Runs the cases of the numbers below a count.
pub fn run(count: u64, name: &str, case: impl Fn(u64) -> Case + Sync) -> Tally {
    each(count, |tally, number| {
        tally.run(&format_args!("{name}, case {number}"), &case(number));
    })
}

/// Does something with a tally for each of the numbers below a count.
pub fn each(count: u64, task: impl Fn(&mut Tally, u64) + Sync) -> Tally {
    let next = AtomicU64::new(0);
    let threads = thread::available_parallelism().map_or(1, usize::from);
    let worker = || {
        let mut tally = Tally::default();
        loop {
            let from = next.fetch_add(BATCH, Ordering::Relaxed);
            if from >= count {
                return tally;
            }
            for number in from..count.min(from + BATCH) {
                task(&mut tally, number);
            }
        }
    };
    let mut whole = Tally::default();
    thread::scope(|scope| {
        let workers: Vec<_> = (0..threads).map(|_| scope.spawn(&worker)).collect();
        for worker in workers {
            whole.join(worker.join().expect("a worker that ends well"));
        }
    });
    whole
}
