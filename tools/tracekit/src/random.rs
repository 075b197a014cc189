//! Random traces: the same bytes for the same seed on every machine.
//!
//! A trace is a row of scenes, each of which leans to one corner of document 01:
//! - a line typed and edited, words erased by WERASE with and without ALTWERASE, reprints;
//! - noncanonical reads with small MIN and TIME, also 0, with ticks, flushes and polls between;
//! - a line of 254 bytes, 1,024 places and 2,048 bytes of output filled up to a few bytes, singly
//!   and together, then units, echo, bells and writes at the edge;
//! - job control with and without NOFLSH and orphaned groups;
//! - bytes 255, parity errors, framing errors and breaks under PARMRK, IGNPAR, INPCK and ISTRIP;
//! - literal next before every sort of byte;
//! - settings switched in mid-line, ICANON above all, and settings that are refused;
//! - flow control, and line ends under ECHONL without ECHO;
//! - output processing in every mix of flags, columns that outlive a change of settings, columns
//!   about 65,535;
//! - end-of-file marks read with lengths around those of their lines;
//! - two flags in any state with a bit of everything, and uniformly random records;
//! - damaged records of every kind.
//!
//! Scenes show what they did by transmits and reads. Every sixth trace ends with a hangup, every
//! third with a cut record; hangups before the end come under CLOCAL only.

use crate::rng::Rng;
use crate::scenes::{hang_up, play_one};
use crate::typist::Typist;

/// How many moves a trace has unless told.
pub const DEFAULT_COUNT: usize = 200;

/// The trace of a seed with about `count` moves. A move is a record, or a run of one byte, which
/// makes many records; so a trace has at least `count` records.
pub fn random_trace(seed: u64, count: usize) -> Vec<u8> {
    let mut typist = Typist::new(seed, count);
    while !typist.is_done() {
        play_one(&mut typist);
    }
    if typist.rng.chance(1, 6) {
        hang_up(&mut typist);
    }
    if typist.rng.chance(1, 3) {
        let cut = cut_record(&mut typist.rng);
        typist.put_cut(&cut);
    }
    typist.into_trace()
}

/// A record that ends too early: within its header or within its body.
fn cut_record(rng: &mut Rng) -> Vec<u8> {
    let whole: &[u8] = match rng.below(5) {
        0 => &[1, 0, 2, 0, b'a'],
        1 => &[3, 0, 8, 0, 10, 0, 0],
        2 => &[5, 0, 9, 0, b'h', b'e', b'l', b'l', b'o'],
        3 => &[2, 0, 10, 0, 16, 0],
        _ => &[255, 255, 77, 0, 0],
    };
    let length = rng.between(1, whole.len() as u64 - 1) as usize;
    whole[..length].to_vec()
}
