//! The library and the independent second program side by side.
//!
//! A [`Case`] is an operation with all that is lent to it. [`both`] runs it on each side, on equal copies, and compares the answer and every byte of every
//! buffer afterwards: tails, inputs, and the bytes around what was lent. At the entry desk a case may follow from the one before it, key by key.
//!
//! | Cases | From |
//! |---|---|
//! | [`rows`] | files of rows, each with what document 01 says |
//! | [`drawn`] | a seed and a number |
//! | [`small`] | all small ones of a kind |
//! | [`spelt`] | bytes that a fuzzer makes |
//!
//! ```
//! use agree::{both, Case, Operation};
//!
//! let case = Case::new(Operation::Compile, &[b"a|"]);
//! assert_eq!(both(&case).unwrap().answer, (3, 2, 0));
//! ```

pub mod case;
pub mod drawn;
pub mod many;
pub mod rows;
pub mod run;
pub mod small;
pub mod spelt;
pub mod written;

pub use case::{Case, Operation, OPERATIONS};
pub use run::{both, Answer, Difference, Outcome};
