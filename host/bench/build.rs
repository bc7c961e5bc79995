//! Compiles the C++ shim over RE2; links it, RE2 and libfa; and hands the versions of compilers and libraries on to the program.

use std::env;
use std::path::PathBuf;
use std::process::Command;

fn main() {
    println!("cargo:rerun-if-changed=build.rs");
    println!("cargo:rerun-if-changed=shim/re2.cc");
    shim();
    println!("cargo:rustc-link-lib=dylib=re2");
    println!("cargo:rustc-link-lib=dylib=stdc++");
    println!("cargo:rustc-link-lib=dylib=fa");
    hand("BENCH_RUSTC", &env::var("RUSTC").unwrap(), &["--version"]);
    hand("BENCH_CXX", "g++", &["--version"]);
    let wanted = ["-W", "-f", "${Version}"];
    hand(
        "BENCH_RE2",
        "dpkg-query",
        &[&wanted[..], &["libre2-dev"]].concat(),
    );
    hand(
        "BENCH_FA",
        "dpkg-query",
        &[&wanted[..], &["libaugeas-dev"]].concat(),
    );
}

/// Compiles the shim to an archive and links it.
fn shim() {
    let out = PathBuf::from(env::var_os("OUT_DIR").unwrap());
    let (object, archive) = (out.join("re2.o"), out.join("libre2_shim.a"));
    let flags = [
        "-std=c++17",
        "-O2",
        "-Wall",
        "-Wextra",
        "-c",
        "shim/re2.cc",
        "-o",
    ];
    answer(Command::new("g++").args(flags).arg(&object));
    answer(Command::new("ar").arg("rcs").arg(&archive).arg(&object));
    println!("cargo:rustc-link-search=native={}", out.display());
    println!("cargo:rustc-link-lib=static=re2_shim");
}

/// Hands the first line that a command prints on to the program, under a name.
fn hand(name: &str, command: &str, words: &[&str]) {
    let printed = answer(Command::new(command).args(words));
    println!(
        "cargo:rustc-env={name}={}",
        printed.lines().next().unwrap_or("unknown")
    );
}

/// What a command prints. A command that fails ends the build.
fn answer(command: &mut Command) -> String {
    let output = command
        .output()
        .unwrap_or_else(|e| panic!("{command:?}: {e}"));
    let complaint = String::from_utf8_lossy(&output.stderr);
    assert!(output.status.success(), "{command:?} failed: {complaint}");
    String::from_utf8_lossy(&output.stdout).into_owned()
}
