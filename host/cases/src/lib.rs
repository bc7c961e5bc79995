//! What the tests ask: it links no archive, so that the second program is tested with it alone.
//!
//! | Cases | From |
//! |---|---|
//! | [`samples`] | the questions and answers that the program `samples` prints |
//! | [`draw`] | a seed |
//! | [`exhaustive`] | all strings up to a length |

pub mod draw;
pub mod exhaustive;
pub mod samples;
