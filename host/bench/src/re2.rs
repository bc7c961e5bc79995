//! RE2, through the shim: a pattern over bytes, matched whole.

#[repr(C)]
struct Re2 {
    _opaque: [u8; 0],
}

extern "C" {
    fn bench_re2_new(pattern: *const u8, length: usize) -> *mut Re2;
    fn bench_re2_full(machine: *const Re2, text: *const u8, length: usize) -> bool;
    fn bench_re2_free(machine: *mut Re2);
}

/// A machine of RE2.
pub struct Matcher(*mut Re2);

impl Matcher {
    /// The machine of a pattern that RE2 takes.
    pub fn new(pattern: &str) -> Matcher {
        let made = unsafe { bench_re2_new(pattern.as_ptr(), pattern.len()) };
        assert!(!made.is_null(), "RE2 does not take {pattern}");
        Matcher(made)
    }

    /// Whether the whole text is accepted: `RE2::FullMatch`.
    pub fn accepts(&self, text: &[u8]) -> bool {
        unsafe { bench_re2_full(self.0, text.as_ptr(), text.len()) }
    }
}

impl Drop for Matcher {
    fn drop(&mut self) {
        unsafe { bench_re2_free(self.0) }
    }
}
