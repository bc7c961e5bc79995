//! The header: the machine, the compilers, the archive, and what is timed.

use crate::clock::{LONG, SHORT};
use crate::table::time;
use std::process::Command;
use std::{env, fs};

/// Prints the header. `tried` strings were found to be matched alike.
pub fn print(tried: usize) {
    println!("# Times\n");
    println!(
        "- Machine: {}, {}; load {}.",
        processor(),
        env::consts::ARCH,
        load()
    );
    println!("- Archive: {}. Repository at {}.", archive(), commit());
    println!(
        "- Compilers: {}; {}.",
        env!("BENCH_RUSTC"),
        env!("BENCH_CXX")
    );
    println!(
        "- Beside: libfa {}, RE2 {} (Debian's packages).",
        env!("BENCH_FA"),
        env!("BENCH_RE2")
    );
    let (batches, batch, calls) = (SHORT.batches, time(SHORT.batch as f64), LONG.batches);
    println!("- Time: the thread's processor time. A figure is the median of {batches} batches of at least {batch} (of {calls} single calls for long texts); ours and the others run batch by batch in turns.");
    println!("- Ratio: other divided by ours, so above 1 ours is faster.");
    println!("- Buffers: lent by the caller and used again. Each operation but matching leaves all of the scratch (32,768 bytes and 256 words) zero, as its contract says, and clearing it is in the times; nothing else is cleared between calls.");
    println!("- libfa takes its memory from the heap; the automata that it made are freed after the clock has stopped.");
    println!("- Before measuring, ours, libfa, RE2 and the plain loops answered alike on {tried} strings.");
}

/// The processor's name: from /proc/cpuinfo, or else from lscpu.
fn processor() -> String {
    let info = fs::read_to_string("/proc/cpuinfo").unwrap_or_default();
    field(&info, "model name")
        .or_else(|| field(&printed("lscpu", &[]), "Model name"))
        .unwrap_or_else(|| "unknown processor".into())
}

/// The value of the first line `name: value`.
fn field(text: &str, name: &str) -> Option<String> {
    let line = text.lines().find(|line| line.starts_with(name))?;
    Some(line.split_once(':')?.1.trim().to_string())
}

fn load() -> String {
    let load = fs::read_to_string("/proc/loadavg").unwrap_or_default();
    load.split(' ').next().unwrap_or("unknown").to_string()
}

/// Which archive is linked: what `host/bench/run` says of how it came about.
fn archive() -> String {
    env::var("BENCH_ARCHIVE").unwrap_or_else(|_| "of unknown making".into())
}

/// The commit of the repository, marked if files were changed since.
fn commit() -> String {
    let folder = env!("CARGO_MANIFEST_DIR");
    let printed = printed("git", &["-C", folder, "describe", "--always", "--dirty"]);
    match printed.trim() {
        "" => "unknown".into(),
        commit => commit.into(),
    }
}

/// What a command prints, nothing if it cannot be run.
fn printed(command: &str, words: &[&str]) -> String {
    let output = Command::new(command).args(words).output();
    output.map_or(String::new(), |o| {
        String::from_utf8_lossy(&o.stdout).into_owned()
    })
}
