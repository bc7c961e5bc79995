//! Times: runners that are given a number of calls, and a race between several, in turns, of which the medians count.
//!
//! The clock is that of the thread's processor time, so that others who use the machine are not counted. Runners take turns batch by batch, so that what
//! changes the processor's speed changes it for all of them.

use std::{mem, ptr};

#[repr(C)]
struct Timespec {
    seconds: i64,
    nanoseconds: i64,
}

/// The number of Linux's clock of the calling thread's processor time.
const THREAD_TIME: i32 = 3;

extern "C" {
    fn clock_gettime(clock: i32, time: *mut Timespec) -> i32;
}

/// Nanoseconds of processor time that the thread has had.
fn now() -> u64 {
    let mut time = Timespec {
        seconds: 0,
        nanoseconds: 0,
    };
    assert_eq!(unsafe { clock_gettime(THREAD_TIME, &mut time) }, 0);
    time.seconds as u64 * 1_000_000_000 + time.nanoseconds as u64
}

/// The value itself, by a way that the compiler cannot see through.
pub fn black_box<T>(value: T) -> T {
    // Sound: the value is read once and its first copy forgotten.
    unsafe {
        let read = ptr::read_volatile(&value);
        mem::forget(value);
        read
    }
}

/// Makes a number of calls and answers the nanoseconds they took.
pub type Runner<'a> = Box<dyn FnMut(usize) -> u64 + 'a>;

/// A runner of an operation whose answer is thrown away within the time.
pub fn runner<'a, T>(mut operation: impl FnMut() -> T + 'a) -> Runner<'a> {
    Box::new(move |calls| {
        let start = now();
        for _ in 0..calls {
            black_box(operation());
        }
        now() - start
    })
}

/// A runner of an operation whose answers are kept until the clock has stopped: freeing them is not timed.
pub fn keeper<'a, T>(mut operation: impl FnMut() -> T + 'a) -> Runner<'a> {
    Box::new(move |calls| {
        let mut kept = Vec::with_capacity(calls);
        let start = now();
        for _ in 0..calls {
            kept.push(operation());
        }
        let time = now() - start;
        drop(black_box(kept));
        time
    })
}

/// How long to measure: the least nanoseconds of a batch, and the number of batches.
pub struct Effort {
    pub batch: u64,
    pub batches: usize,
}

/// For operations of micro- and nanoseconds.
pub const SHORT: Effort = Effort {
    batch: 200_000,
    batches: 201,
};
/// For operations of many milliseconds: a batch is one call.
pub const LONG: Effort = Effort {
    batch: 0,
    batches: 9,
};

/// The nanoseconds of one call of each runner: the medians of their batches, run in turns.
pub fn race(effort: &Effort, mut runners: Vec<Runner<'_>>) -> Vec<f64> {
    let calls: Vec<usize> = runners.iter_mut().map(|r| calls_for(effort, r)).collect();
    let mut times = vec![Vec::with_capacity(effort.batches); runners.len()];
    for _ in 0..effort.batches {
        for (i, runner) in runners.iter_mut().enumerate() {
            times[i].push(runner(calls[i]) as f64 / calls[i] as f64);
        }
    }
    times.into_iter().map(median).collect()
}

/// The calls that fill a batch. Finding them warms the runner up.
fn calls_for(effort: &Effort, runner: &mut Runner) -> usize {
    let mut calls = 1;
    while runner(calls) < effort.batch {
        calls *= 2;
    }
    calls
}

fn median(mut times: Vec<f64>) -> f64 {
    times.sort_by(f64::total_cmp);
    times[times.len() / 2]
}
