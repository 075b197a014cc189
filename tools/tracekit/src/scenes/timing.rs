//! Scenes of noncanonical reads with a timer.

use super::plain_byte;
use crate::known::*;
use crate::record::{Flush, Record};
use crate::typist::Typist;

/// Noncanonical reads with MIN and TIME: bytes, ticks, flushes and polls while the read waits.
pub fn timed_read(t: &mut Typist) {
    if t.rng.chance(1, 2) {
        t.clear();
    }
    t.settle(0, ICANON);
    choose_timer(t);
    start_timed_read(t);
    let time = u64::from(t.special(TIME));
    for _ in 0..t.turns(4, 24) {
        match t.rng.below(18) {
            0..=4 => plain_byte(t),
            5..=7 => t.ticks(1),
            8 => t.ticks(time),
            9 | 10 => t.poll(),
            11 => t.put(Record::Flush(Flush::Input)),
            12 => start_timed_read(t),
            13 => t.event(),
            14..=16 if t.special(MIN) == 0 => lost_byte(t),
            14..=16 => late_byte(t),
            _ => disturb(t),
        }
    }
    t.ticks(time);
    t.poll();
    t.look();
}

/// Mostly sets MIN and TIME so that there is a timer, and a read that needs it.
fn choose_timer(t: &mut Typist) {
    if t.rng.chance(1, 4) {
        return;
    }
    let mut settings = t.settings();
    settings.values[MIN] = t.rng.pick([0, 0, 2, 3, 5, 10, 255]);
    settings.values[TIME] = t.rng.pick([1, 2, 2, 3]);
    t.send(settings);
}

fn start_timed_read(t: &mut Typist) {
    if t.rng.chance(7, 8) {
        t.put(Record::Cancel);
    }
    let count = match t.rng.below(4) {
        0 => t.length(),
        _ => t.rng.between(1, 20) as u16,
    };
    let nonblocking = t.rng.chance(1, 16);
    t.put(Record::Read { count, nonblocking });
}

/// A byte, ticks until the timer is about to run out or has run out, and what may disturb it then.
fn late_byte(t: &mut Typist) {
    plain_byte(t);
    let time = u64::from(t.special(TIME));
    let ticks = (time + 1).saturating_sub(t.rng.below(3));
    t.ticks(ticks);
    match t.rng.below(4) {
        0 => t.poll(),
        1 => t.put(Record::Flush(Flush::Input)),
        _ => plain_byte(t),
    }
    let ticks = t.rng.below(2);
    t.ticks(ticks);
    t.poll();
}

/// A byte that comes and is flushed while the timer of a read with MIN 0 runs.
fn lost_byte(t: &mut Typist) {
    start_timed_read(t);
    let time = u64::from(t.special(TIME));
    let before = t.rng.below(time + 1);
    t.ticks(before);
    plain_byte(t);
    t.put(Record::Flush(Flush::Input));
    t.ticks(time.saturating_sub(before));
    t.poll();
}

/// What a waiting read refuses or what flushes around it.
fn disturb(t: &mut Typist) {
    match t.rng.below(5) {
        0 => {
            let same = t.settings();
            t.put(Record::Settings(same));
        }
        1 => {
            let count = t.length();
            t.put(Record::Read {
                count,
                nonblocking: false,
            });
        }
        2 => t.press(INTR),
        3 => t.put(Record::Break),
        _ => t.flush(),
    }
}
