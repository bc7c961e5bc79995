//! What the operations work in.

use crate::limits::{SCRATCH_BYTES, SCRATCH_WORDS};

/// The bytes and words that an operation works in, to be lent again and again by those who compile or compare much.
///
/// It holds nothing between two operations: each leaves it zero.
///
/// ```
/// use palgondur::{Machine, Scratch};
///
/// let mut scratch = Scratch::new();
/// for (pattern, states) in [("a*", 2), ("(ab*|a)b", 4), ("\\0", 1)] {
///     assert_eq!(Machine::compile_with(pattern, &mut scratch)?.states(), states);
/// }
/// # Ok::<(), palgondur::Refusal>(())
/// ```
pub struct Scratch {
    pub(crate) bytes: Box<[u8]>,
    pub(crate) words: Box<[u64]>,
}

impl Scratch {
    /// A scratch of its own, on the heap.
    pub fn new() -> Scratch {
        Scratch {
            bytes: vec![0; SCRATCH_BYTES].into_boxed_slice(),
            words: vec![0; SCRATCH_WORDS].into_boxed_slice(),
        }
    }
}

impl Default for Scratch {
    fn default() -> Scratch {
        Scratch::new()
    }
}
