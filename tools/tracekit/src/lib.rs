//! Tools for traces of the terminal line discipline that document 01 describes.

pub mod asm;
pub mod compare;
pub mod dump;
pub mod explain;
mod known;
pub mod names;
pub mod random;
pub mod record;
mod rng;
mod runner;
mod scenes;
pub mod shrink;
pub mod text;
mod typist;
mod words;
