//! Scenes of typing: lines, editing, marks and literal bytes.

use super::{plain_byte, show_line, word};
use crate::known::*;
use crate::record::Record;
use crate::typist::Typist;

/// Typing and editing of a line, with looks at the echo on the way.
pub fn edit_a_line(t: &mut Typist) {
    t.settle(ICANON, 0);
    for _ in 0..t.turns(3, 20) {
        match t.rng.below(16) {
            0..=4 => word(t),
            5 => t.good(b' '),
            6 | 7 => t.press(ERASE),
            8 => t.press(WERASE),
            9 => t.press(KILL),
            10 => t.press(REPRINT),
            11 => t.look(),
            12 => t.broken(),
            _ => {
                let byte = t.byte();
                t.good(byte);
            }
        }
    }
    show_line(t);
}

/// WERASE over words, blanks, figures and units of several bytes.
pub fn erase_words(t: &mut Typist) {
    let alt = t.rng.pick([0, ALTWERASE]);
    let marks = t.rng.pick([0, PARMRK]);
    t.settle(ICANON | alt | marks, IGNPAR);
    for _ in 0..t.turns(2, 12) {
        match t.rng.below(9) {
            0 | 1 => word(t),
            2 => {
                let other = t.rng.pick(*b"1.;-@[`{");
                t.good(other);
            }
            3 => {
                let blank = t.rng.pick([b' ', b' ', 9]);
                t.good(blank);
            }
            4 => {
                let byte = t.rng.pick([255, 1, 128, 160]);
                t.good(byte);
            }
            5 => t.broken(),
            6 => {
                let byte = t.rng.pick([b' ', 9, b'a', 10]);
                t.put(Record::Framing(byte));
            }
            _ => t.press(WERASE),
        }
    }
    t.press(WERASE);
    show_line(t);
}

/// Bytes 255, parity and framing errors and breaks under the flags that mark or change them.
pub fn marked_bytes(t: &mut Typist) {
    let marks = t.rng.pick([PARMRK, PARMRK, 0]);
    let check = t.rng.pick([0, INPCK, INPCK | ISTRIP]);
    let (on, off) = t
        .rng
        .pick([(0, BREAK_EATERS), (0, BREAK_EATERS), (0, 0), (IGNPAR, 0)]);
    let canonical = t.rng.pick([ICANON, ICANON, 0]);
    t.settle(marks | check | canonical | on, off | (ICANON & !canonical));
    for _ in 0..t.turns(2, 12) {
        match t.rng.below(9) {
            0 | 1 => t.good(255),
            2..=4 => t.broken(),
            5 => t.press(ERASE),
            6 => t.press(REPRINT),
            7 => t.press(LNEXT),
            _ => t.event(),
        }
    }
    show_line(t);
}

/// LNEXT before every sort of byte, also before broken ones, flushes and settings.
pub fn literal_next(t: &mut Typist) {
    let canonical = t.rng.pick([ICANON, ICANON, 0]);
    t.settle(IEXTEN | canonical, ICANON & !canonical);
    for _ in 0..t.turns(2, 8) {
        t.press(LNEXT);
        match t.rng.below(8) {
            0 => t.broken(),
            1 => t.flush(),
            2 => t.press(LNEXT),
            3 => {
                let byte = t.rng.pick([10, 13, 255]);
                t.good(byte);
            }
            4 => t.settle(ICANON & !canonical, canonical),
            _ => {
                let byte = t.byte();
                t.good(byte);
            }
        }
        if t.rng.chance(1, 3) {
            t.event();
        }
    }
    t.press(REPRINT);
    show_line(t);
}

/// Lines that end in a mark, read with lengths around theirs.
pub fn end_of_file_marks(t: &mut Typist) {
    t.settle(ICANON, 0);
    for _ in 0..t.turns(1, 6) {
        let length = t.rng.below(4);
        for _ in 0..length {
            plain_byte(t);
        }
        t.press(EOF);
        if t.rng.chance(1, 3) {
            continue;
        }
        t.put(Record::Cancel);
        let around = (length + 1).saturating_sub(t.rng.below(3)) as u16;
        t.ask(around);
        t.poll();
    }
    t.take();
    t.poll();
}

/// Line ends without ECHO, with ECHONL, literal or not, in and out of ICANON.
pub fn quiet_lines(t: &mut Typist) {
    let canonical = t.rng.pick([ICANON, 0]);
    t.settle(ECHONL | canonical, ECHO | (ICANON & !canonical));
    for _ in 0..t.turns(2, 8) {
        match t.rng.below(5) {
            0 => word(t),
            1 => t.good(10),
            2 => t.good(13),
            3 => {
                t.press(LNEXT);
                t.good(10);
            }
            _ => t.event(),
        }
    }
    show_line(t);
}

/// Settings that change while a line, marks and a waiting read are there.
pub fn switch_in_mid_line(t: &mut Typist) {
    for _ in 0..t.turns(2, 6) {
        let canonical = t.rng.pick([ICANON, 0]);
        t.settle(canonical, ICANON & !canonical);
        for _ in 0..t.rng.below(5) {
            match t.rng.below(6) {
                0 => t.end_line(),
                1 => t.press(EOF),
                2 => t.press(ERASE),
                3 => t.take(),
                4 => t.press(REPRINT),
                _ => t.event(),
            }
        }
        t.look();
    }
    t.take_all();
}
