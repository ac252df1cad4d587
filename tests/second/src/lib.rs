//! A second program for .cube tables, written from the papers alone.
//!
//! Document 000 is the Cube LUT Specification 1.0; document 01 decides where
//! 000 is silent, can be read in two ways, or we are narrower; document 02
//! changes document 01. This program shares nothing with the proved one but
//! those papers and the C boundary over which the two are compared.
//!
//! | module | what document 01 calls it |
//! |---|---|
//! | `paper` | "Answers by number", "Units and places" |
//! | `decimal` | "A number is an optional sign, then digits, ..." |
//! | `reading` | "Lines", "Answers by number" |
//! | `look` | "Interpolation" |
//! | `picture` | "a run of pixels to corrected codes" |
//! | `halves` | document 02's "Two halves of a look" |
//! | `inverse` | document 02's "Which raw code gives this corrected code?" |
//! | `writing` | document 02's "Write our own tables" |
//! | `report` | "The report program" |
//! | `cases` | "Checked by hand", the cases not marked P |
//!
//! `gen` makes inputs from a seed, `side` puts them to one of the two programs,
//! `run` goes through a whole stream and counts, `met` says what its cases came to,
//! `small` makes a case that differs small, and `ffi` (feature `ours`) calls the proved
//! program.

pub mod cases;
pub mod decimal;
pub mod gen;
pub mod halves;
pub mod inverse;
pub mod look;
pub mod met;
pub mod paper;
pub mod picture;
pub mod reading;
pub mod report;
pub mod run;
pub mod show;
pub mod side;
pub mod small;
pub mod writing;

#[cfg(feature = "ours")]
pub mod ffi;

#[cfg(test)]
mod by_hand;
