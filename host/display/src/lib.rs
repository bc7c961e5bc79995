//! The display in front of the entry desk: a form from a file, filled in key by key on a terminal.
//!
//! The desk judges the bytes. The display sees to it that it is given those alone that were typed, and that every
//! refusal is seen. From a byte on the line to a line on the screen:
//!
//! | Module | Holds |
//! |---|---|
//! | [`terminal`] | the terminal: bytes, resizing and signals come in, drawings go out |
//! | [`keys`] | the bytes, taken apart into presses |
//! | [`names`] | what a press is called |
//! | [`entry`] | what a press does to the form |
//! | [`form`] | the form's file |
//! | [`table`] | a machine, walked byte by byte |
//! | [`screen`] | the form, laid out for any size |
#![deny(missing_docs)]
#![deny(unsafe_op_in_unsafe_fn)]

pub mod entry;
pub mod form;
pub mod keys;
pub mod names;
pub mod screen;
pub mod table;
pub mod terminal;
