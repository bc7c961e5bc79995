//! A target for each operation: the case that the bytes spell, on both sides; a difference ends the process.
#![deny(unsafe_op_in_unsafe_fn)]

use std::slice;

use agree::{both, spelt, Operation};

/// Runs the case of an operation that the bytes at an address spell.
///
/// # Safety
/// So many bytes at the address may be read.
unsafe fn run(operation: Operation, bytes: *const u8, count: usize) -> i32 {
    let bytes = if count == 0 {
        &[][..]
    } else {
        unsafe { slice::from_raw_parts(bytes, count) }
    };
    if let Err(difference) = both(&spelt::case(operation, bytes)) {
        eprintln!("{difference}");
        std::process::abort();
    }
    0
}

macro_rules! target {
    ($name:ident, $operation:ident) => {
        /// The target of one operation.
        ///
        /// # Safety
        /// So many bytes at the address may be read.
        #[no_mangle]
        pub unsafe extern "C" fn $name(bytes: *const u8, count: usize) -> i32 {
            unsafe { run(Operation::$operation, bytes, count) }
        }
    };
}

target!(fuzz_compile, Compile);
target!(fuzz_minimise, Minimise);
target!(fuzz_match, Match);
target!(fuzz_compare, Compare);
target!(fuzz_pack, Pack);
target!(fuzz_unpack, Unpack);
target!(fuzz_desk_open, DeskOpen);
target!(fuzz_desk_key, DeskKey);
