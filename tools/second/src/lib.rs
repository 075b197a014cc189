//! A second program for the terminal port of document 01.
//!
//! It was written from document 01 and READINGS alone, in the plainest way that could be
//! thought of, so that its result lines can be compared with those of the first program.
//! Nothing here is meant to be fast or small.
//!
//! Comments quote document 01 in double quotes. Places where the document stays open are
//! marked `OPEN:` with the words and the choice taken.

#![forbid(unsafe_code)]

pub mod class;
pub mod input;
pub mod output;
pub mod port;
pub mod settings;
pub mod sizes;
pub mod trace;
pub mod verdict;
