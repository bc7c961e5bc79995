//! libfa, as its header fa.h has it.
//!
//! What `fa_equals` does to its arguments, from its source: two pointers that are equal are answered at once, so the two automata must be different ones; an
//! automaton that is not deterministic is made so, in place; transitions are sorted in place; nothing else is kept. So automata that are minimised and were compared
//! once are ready, and each further comparison does the same work.

#[repr(C)]
struct Fa {
    _opaque: [u8; 0],
}

#[repr(C)]
struct State {
    _opaque: [u8; 0],
}

extern "C" {
    fn fa_compile(pattern: *const u8, length: usize, made: *mut *mut Fa) -> i32;
    fn fa_minimize(fa: *mut Fa) -> i32;
    fn fa_equals(left: *mut Fa, right: *mut Fa) -> i32;
    fn fa_free(fa: *mut Fa);
    fn fa_is_deterministic(fa: *mut Fa) -> bool;
    fn fa_state_initial(fa: *mut Fa) -> *mut State;
    fn fa_state_is_accepting(state: *mut State) -> bool;
    fn fa_state_num_trans(state: *mut State) -> usize;
    fn fa_state_trans(
        state: *mut State,
        i: usize,
        to: *mut *mut State,
        low: *mut u8,
        high: *mut u8,
    ) -> i32;
}

/// An automaton of libfa.
pub struct Automaton(*mut Fa);

impl Automaton {
    /// The automaton of a pattern that libfa takes, as `fa_compile` makes it.
    pub fn compiled(pattern: &str) -> Automaton {
        let mut made = std::ptr::null_mut();
        let error = unsafe { fa_compile(pattern.as_ptr(), pattern.len(), &mut made) };
        assert!(
            error == 0 && !made.is_null(),
            "libfa does not take {pattern}"
        );
        Automaton(made)
    }

    /// The smallest automaton of a pattern: `fa_compile`, then `fa_minimize`.
    pub fn smallest(pattern: &str) -> Automaton {
        let made = Automaton::compiled(pattern);
        assert_eq!(unsafe { fa_minimize(made.0) }, 0);
        made
    }

    /// Whether both accept the same strings: `fa_equals`. It works in its arguments.
    pub fn equals(&mut self, other: &mut Automaton) -> bool {
        let answer = unsafe { fa_equals(self.0, other.0) };
        assert!(answer >= 0);
        answer == 1
    }

    /// Whether a smallest automaton accepts the text. libfa has no such function; this walks its states, for checking alone.
    pub fn accepts(&self, text: &[u8]) -> bool {
        assert!(unsafe { fa_is_deterministic(self.0) });
        let mut state = unsafe { fa_state_initial(self.0) };
        for &byte in text {
            match next(state, byte) {
                Some(to) => state = to,
                None => return false,
            }
        }
        unsafe { fa_state_is_accepting(state) }
    }
}

/// The state to which a byte leads, if there is one.
fn next(state: *mut State, byte: u8) -> Option<*mut State> {
    let (mut to, mut low, mut high) = (std::ptr::null_mut(), 0, 0);
    for i in 0..unsafe { fa_state_num_trans(state) } {
        let error = unsafe { fa_state_trans(state, i, &mut to, &mut low, &mut high) };
        if error == 0 && (low..=high).contains(&byte) {
            return Some(to);
        }
    }
    None
}

impl Drop for Automaton {
    fn drop(&mut self) {
        unsafe { fa_free(self.0) }
    }
}
