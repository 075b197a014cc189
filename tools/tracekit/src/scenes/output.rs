//! Scenes of output: flow control, output processing and the column.

use crate::known::*;
use crate::record::{Flush, Record, Settings, TRANSMIT_MAX};
use crate::typist::Typist;

/// STOP, START, IXANY and IXON going off, with bytes in the output queue.
pub fn flow_control(t: &mut Typist) {
    let any = t.rng.pick([0, IXANY]);
    t.settle(IXON | any, 0);
    for _ in 0..t.turns(3, 10) {
        match t.rng.below(9) {
            0 | 1 => t.press(STOP),
            2 => t.press(START),
            3 => {
                let body = t.body();
                t.put(Record::Write(body));
            }
            4 => t.event(),
            5 => {
                t.press(STOP);
                t.put(Record::Write(b"stopped".to_vec()));
                t.broken();
                t.look();
            }
            6 if t.rng.chance(1, 2) => t.settle(0, IXON),
            _ => t.look(),
        }
    }
    t.press(START);
    t.look();
}

/// Writes and echo under every mix of the output flags, with the column in between.
pub fn output_processing(t: &mut Typist) {
    choose_output(t);
    for _ in 0..t.turns(2, 10) {
        match t.rng.below(6) {
            0 => t.event(),
            1 => t.look(),
            _ => {
                let body = t.body();
                t.put(Record::Write(body));
            }
        }
    }
    t.put(Record::Transmit(TRANSMIT_MAX));
}

/// Sends settings with any mix of the output flags.
fn choose_output(t: &mut Typist) {
    let (mut on, mut off) = t.rng.pick([(OPOST, 0), (OPOST, 0), (0, OPOST)]);
    for flag in [ONLCR, OCRNL, TAB3, ONOEOT, ONOCR, ONLRET] {
        match t.rng.below(3) {
            0 => on |= flag,
            1 => off |= flag,
            _ => {}
        }
    }
    t.settle(on, off);
}

/// A column made under some output flags and shown by a tab or a CR under others.
pub fn column_across_settings(t: &mut Typist) {
    choose_output(t);
    t.press(START);
    let body = t.body();
    t.put(Record::Write(body));
    let last = t
        .rng
        .pick([*b"xy\n", *b"x\tx", *b"xx\x08", *b"x\r\x08", *b"x\x7fx"]);
    t.put(Record::Write(last.to_vec()));
    if t.rng.chance(1, 2) {
        t.event();
    }
    let shown = t.rng.pick([TAB3, TAB3, ONOCR]);
    t.settle(OPOST | shown, OCRNL);
    let body: &[u8] = t.rng.pick([b"\t", b"\t", b"\r\t", b"\n\t"]);
    t.put(Record::Write(body.to_vec()));
    t.put(Record::Transmit(TRANSMIT_MAX));
}

pub fn wide_column(t: &mut Typist) {
    t.clear();
    t.send(Settings {
        flags: Settings::default().flags & !OPOST,
        ..Settings::default()
    });
    t.put(Record::Write(vec![13]));
    for turn in 0..16 {
        let length = if turn == 15 { 511 } else { 512 };
        t.put(Record::Write(vec![9; length]));
        if turn % 4 == 3 {
            t.put(Record::Flush(Flush::Output));
        }
    }
    let more = t.rng.between(0, 9);
    t.put(Record::Write(vec![b'x'; more as usize]));
    t.settle(OPOST | TAB3, 0);
    let body = t.rng.pick([*b"\tx\t", *b"xx\t", *b"xxx", *b"\x08\x08\t"]);
    t.put(Record::Write(body.to_vec()));
    t.put(Record::Write(vec![9]));
    t.put(Record::Transmit(TRANSMIT_MAX));
}
