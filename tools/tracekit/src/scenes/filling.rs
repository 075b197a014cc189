//! Scenes in which lines, stored input and the output queue get full.

use super::plain_byte;
use crate::known::*;
use crate::record::{Flush, Record, TRANSMIT_MAX};
use crate::typist::Typist;

/// A line of nearly 254 bytes, then units of one to three bytes and a delimiter.
pub fn fill_the_line(t: &mut Typist) {
    t.clear();
    let marks = t.rng.pick([0, PARMRK]);
    let off = t.rng.pick([0, IMAXBEL]);
    t.settle(ICANON | marks, off | BREAK_EATERS);
    let short = t.rng.below(5);
    t.run(b'a', 254 - short);
    edge_units(t);
    t.end_line();
    t.look();
    let count = t.rng.pick([253, 254, 255, 256, 300]);
    t.put(Record::Cancel);
    t.ask(count);
    t.poll();
}

/// A few units at the edge of a full line or a full store.
fn edge_units(t: &mut Typist) {
    for _ in 0..t.turns(1, 8) {
        match t.rng.below(11) {
            0..=2 => plain_byte(t),
            3 => t.good(255),
            4 | 5 => t.broken(),
            6 => t.press(ERASE),
            7 => t.end_line(),
            8 => t.look(),
            9 => t.press(EOF),
            _ => t.event(),
        }
    }
}

/// All 1,024 places, by plain bytes, by lines or by lines and marks.
pub fn fill_the_places(t: &mut Typist) {
    t.clear();
    let echo = t.rng.pick([0, ECHO]);
    let marks = t.rng.pick([0, PARMRK]);
    let off = t.rng.pick([0, IMAXBEL]);
    let short = t.rng.below(6);
    if t.rng.chance(1, 2) {
        t.settle(marks, ICANON | echo | off | BREAK_EATERS);
        t.run(b'b', 1024 - short);
        edge_units(t);
        if t.rng.chance(1, 2) {
            t.settle(ICANON | marks, BREAK_EATERS);
        }
    } else {
        t.settle(ICANON | marks, echo | off | BREAK_EATERS);
        fill_with_lines(t, 1024 - short);
    }
    edge_units(t);
    read_some(t);
    edge_units(t);
    t.look();
    read_some(t);
}

/// Lines of many lengths that take this many places together.
fn fill_with_lines(t: &mut Typist, mut left: u64) {
    while left > 1 {
        let length = match t.rng.below(4) {
            0 => t.rng.between(100, 254),
            _ => 254,
        };
        let length = length.min(left - 1);
        t.run(b'c', length);
        if t.rng.chance(1, 4) {
            t.press(EOF);
        } else {
            t.good(10);
        }
        left -= length + 1;
    }
}

fn read_some(t: &mut Typist) {
    t.put(Record::Cancel);
    for _ in 0..t.rng.between(1, 5) {
        match t.rng.below(3) {
            0 => t.ask(1024),
            1 => t.ask(255),
            _ => t.take(),
        }
    }
}

/// An output queue that is nearly full, then echo, bells and writes.
pub fn fill_the_output(t: &mut Typist) {
    t.settle(ICANON, 0);
    t.clear();
    let free = t.rng.below(12);
    t.fill_output(free);
    for _ in 0..t.turns(2, 12) {
        match t.rng.below(8) {
            0 => {
                let few = t.rng.between(1, 9) as u16;
                t.put(Record::Transmit(few));
            }
            1 | 2 => {
                let body = t.body();
                t.put(Record::Write(body));
            }
            3 => {
                let few = t.rng.between(1, 4);
                t.put(Record::Write(vec![b'w'; few as usize]));
            }
            4 => t.press(REPRINT),
            5 => {
                let body = t.rng.pick([9, 10, 13, 4]);
                t.put(Record::Write(vec![body]));
            }
            _ => t.event(),
        }
    }
    t.look();
    t.end_line();
    t.look();
    t.take();
}

/// A full line and a full output queue at once, then a byte for which there is no bell.
pub fn fill_line_and_output(t: &mut Typist) {
    t.clear();
    t.settle(ICANON | IMAXBEL, 0);
    t.run(b'd', 254);
    t.put(Record::Flush(Flush::Output));
    let free = t.rng.pick([0, 0, 1, 2]);
    t.fill_output(free);
    edge_units(t);
    plain_byte(t);
    t.end_line();
    t.take_all();
    t.look();
    t.put(Record::Transmit(TRANSMIT_MAX));
}
