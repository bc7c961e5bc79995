//! Links `libpalgondur.a`: from the folder that PALGONDUR_ARCHIVE names, or else from the repository's
//! `crates/palgondur/out`. There it is made by `rt` if it is missing.

use std::env;
use std::path::{Path, PathBuf};
use std::process::{exit, Command};

const ARCHIVE: &str = "libpalgondur.a";

fn main() {
    let folder = folder().canonicalize().expect("a folder that is there");
    println!("cargo:rerun-if-env-changed=PALGONDUR_ARCHIVE");
    println!("cargo:rerun-if-changed=build.rs");
    println!("cargo:rerun-if-changed={}", folder.join(ARCHIVE).display());
    println!("cargo:rustc-link-search=native={}", folder.display());
    println!("cargo:rustc-link-lib=static=palgondur");
}

/// The folder that holds the archive.
fn folder() -> PathBuf {
    if let Some(named) = env::var_os("PALGONDUR_ARCHIVE") {
        let folder = PathBuf::from(named);
        if !folder.join(ARCHIVE).is_file() {
            stop("the folder that PALGONDUR_ARCHIVE names holds no libpalgondur.a");
        }
        return folder;
    }
    let package = env::var_os("CARGO_MANIFEST_DIR").expect("cargo names the package's folder");
    let repository = Path::new(&package).join("../..");
    let library = repository.join("crates/palgondur");
    let folder = library.join("out");
    if !folder.join(ARCHIVE).is_file() && !made(&library) {
        stop("libpalgondur.a is missing: `rt lib`, in crates/palgondur, makes it");
    }
    if env::var("CARGO_CFG_TARGET_ARCH").as_deref() != Ok("x86_64") {
        println!("cargo:warning=libpalgondur.a has x86-64 code: link it with --target x86_64-unknown-linux-gnu");
    }
    folder
}

/// Whether `rt` is at hand and makes the archive, in the library's folder.
fn made(library: &Path) -> bool {
    Command::new("rt")
        .arg("lib")
        .current_dir(library)
        .status()
        .map_or(false, |status| status.success())
}

fn stop(sentence: &str) -> ! {
    eprintln!("{sentence}");
    exit(1)
}
