//! Proved regular expressions over bytes: a pattern is compiled to a small table, and strings are matched against it
//! whole.
//!
//! Each answer is that of an operation that is proved to meet its contract, for every input; `docs/CONTRACTS.md` has
//! the contracts. This crate calls those operations, takes their numbers apart and owns their buffers. Nothing is
//! repaired, everything is judged, and the place of a fault is named.
//!
//! ```
//! use palgondur::{Comparison, Machine, Match};
//!
//! let field = Machine::compile("[0-9A-F]+")?;
//! assert_eq!(field.matches("4A"), Match::Accepted);
//! assert!(matches!(field.matches(""), Match::Unfinished { fewest_more: 1, .. }));
//! assert!(matches!(field.matches("4G7"), Match::Dead { place: 2, .. }));
//!
//! let rewritten = Machine::compile("[0-9A-F]*[0-9A-F]")?;
//! assert_eq!(field.compare(&rewritten), Comparison::Same { rounds: 1 });
//!
//! let refusal = Machine::compile("[0-9A-F").unwrap_err();
//! assert_eq!(
//!     refusal.shown("[0-9A-F"),
//!     "[0-9A-F\n       ^ the pattern ends before its expression does",
//! );
//! # Ok::<(), palgondur::Refusal>(())
//! ```
//!
//! | Operation | Here |
//! |---|---|
//! | compile | [`Machine::compile`] |
//! | minimise | [`Machine::minimised`] |
//! | match | [`Machine::matches`] |
//! | compare | [`Machine::compare`] |
//! | pack | [`Machine::pack`] |
//! | unpack | [`Form::unpack`] |
//! | open an entry form | [`Desk::open`] |
//! | a key to an entry form | [`Desk::key`] |
//!
//! An entry form whose fields are filled in key by key is a [`Desk`].
//!
//! All but matching and the desk's two work in a [`Scratch`]. They make one, or are lent one where their name ends in
//! `_with`. Module [`raw`] has the same operations on bare slices.
#![deny(missing_docs)]
#![deny(unsafe_op_in_unsafe_fn)]

mod desk;
mod form;
pub mod limits;
mod machine;
pub mod raw;
mod refusal;
mod room;
mod scratch;

pub use desk::{Desk, KeyRefusal, OpenRefusal};
pub use form::Form;
pub use machine::{Comparison, Machine, Match};
pub use refusal::Refusal;
pub use scratch::Scratch;
