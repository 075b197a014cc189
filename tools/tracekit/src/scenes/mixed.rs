//! Scenes of everything else: signals, flags in pairs, records of any kind, damage and hangups.

use super::{show_line, word};
use crate::known::*;
use crate::names::{OFF, SPECIALS};
use crate::record::{Record, Settings, GROUP_MAX};
use crate::typist::Typist;

/// Foreground groups and the characters and breaks that signal them.
pub fn job_control(t: &mut Typist) {
    let quiet = t.rng.pick([0, NOFLSH]);
    t.settle(ISIG | quiet, 0);
    for _ in 0..t.turns(3, 12) {
        match t.rng.below(10) {
            0 | 1 => foreground(t),
            2 => t.press(INTR),
            3 => t.press(QUIT),
            4 => t.press(SUSP),
            5 => t.put(Record::Break),
            6 => t.look(),
            7 => {
                let body = t.body();
                t.put(Record::Write(body));
            }
            _ => word(t),
        }
    }
    show_line(t);
}

fn foreground(t: &mut Typist) {
    let group = match t.rng.below(6) {
        0 => 0,
        1 => GROUP_MAX,
        2 => t.rng.between(1, u64::from(GROUP_MAX)) as u32,
        _ => t.rng.between(1, 9) as u32,
    };
    let orphaned = t.rng.chance(1, 4);
    t.put(Record::Foreground { group, orphaned });
}

/// Two flags in any state, the rest as by default, and a bit of everything.
pub fn pair_of_flags(t: &mut Typist) {
    let mut settings = Settings::default();
    for _ in 0..2 {
        let flag = 1 << t.rng.below(32);
        settings.flags = t.rng.pick([settings.flags | flag, settings.flags & !flag]);
    }
    t.send(settings);
    for _ in 0..t.turns(5, 20) {
        match t.rng.below(10) {
            0 => t.look(),
            1 => t.end_line(),
            2 => t.poll(),
            3 => {
                let body = t.body();
                t.put(Record::Write(body));
            }
            _ => t.event(),
        }
    }
    show_line(t);
}

/// Special characters that are equal, or 10 or 13; equal ones that are off are fine.
pub fn refused_settings(t: &mut Typist) {
    let mut settings = t.settings();
    let one = t.rng.below(SPECIALS as u64) as usize;
    let other = t.rng.below(SPECIALS as u64) as usize;
    settings.values[one] = match t.rng.below(5) {
        0 => 10,
        1 => 13,
        2 => OFF,
        _ => settings.values[other],
    };
    settings.flags ^= 1 << t.rng.below(32);
    t.send(settings);
    t.event();
    t.look();
    t.send(Settings::default());
}

/// A few malformed records of any kind.
pub fn damaged_records(t: &mut Typist) {
    for _ in 0..t.turns(1, 4) {
        damaged_record(t);
    }
}

/// A wrong length, a wrong value or an unknown kind.
fn damaged_record(t: &mut Typist) {
    match t.rng.below(10) {
        0..=3 => wrong_length(t),
        4 => {
            let count = t
                .rng
                .pick([1025u16, 1026, 2048, 0x8001, 0xffff])
                .to_le_bytes();
            t.put_raw(8, &[count[0], count[1], 0]);
        }
        5 => {
            let bad = t.rng.between(2, 255) as u8;
            let kind = t.rng.pick([8, 13]);
            let body = [1, 0, 0, 0, bad];
            t.put_raw(kind, if kind == 8 { &body[2..] } else { &body });
        }
        6 => {
            let count = t.rng.pick([2049u16, 4096, 0x8000, 0xffff]).to_le_bytes();
            t.put_raw(10, &count);
        }
        7 => {
            let choice = t.rng.pick([0, 4, 5, 128, 255]);
            t.put_raw(11, &[choice]);
        }
        8 => {
            let group = t
                .rng
                .pick([0x8000_0000u32, 0x8000_0001, u32::MAX])
                .to_le_bytes();
            t.put_raw(13, &[group[0], group[1], group[2], group[3], 0]);
        }
        _ => {
            let kind = t.rng.pick([0u16, 14, 15, 255, 256, 258, 0x0d00, 0xffff]);
            let length = t.rng.below(24) as usize;
            t.put_raw(kind, &vec![2; length]);
        }
    }
}

/// A known kind with a body that is too short or too long.
fn wrong_length(t: &mut Typist) {
    let kind = t.rng.between(1, 13) as u16;
    let right = match kind {
        1 => 19,
        2..=4 | 11 => 1,
        8 => 3,
        9 => 513,
        10 => 2,
        13 => 5,
        _ => 0,
    };
    let length = match t.rng.below(4) {
        _ if kind == 9 => right + t.rng.below(3),
        0 if right > 0 => right - 1,
        1 if right > 0 => 0,
        2 => right + t.rng.between(2, 20),
        _ => right + 1,
    };
    t.put_raw(kind, &vec![1; length as usize]);
}

/// A record of any kind with any values; a hangup only where CLOCAL is likely set.
pub fn any_record(t: &mut Typist) {
    for _ in 0..t.turns(1, 12) {
        match t.rng.below(20) {
            0 => any_settings(t),
            1 if t.is_local() => t.put(Record::Hangup),
            1 | 2 => t.ticks(1),
            3 | 4 => t.take(),
            5 => t.poll(),
            6 | 7 => {
                let body = t.body();
                t.put(Record::Write(body));
            }
            8..=10 => t.look(),
            11 => t.flush(),
            12 => t.put(Record::Cancel),
            13 => foreground(t),
            _ => t.event(),
        }
    }
}

/// Settings with any flags at all.
fn any_settings(t: &mut Typist) {
    let mut settings = Settings {
        flags: t.rng.next() as u32,
        ..Settings::default()
    };
    t.choose_values(&mut settings);
    settings.values[MIN] = t.rng.pick([settings.values[MIN], 0, 1]);
    t.send(settings);
}

/// The settings are taken for certain: nothing waits and the characters are the default ones.
pub fn local_hangup(t: &mut Typist) {
    t.put(Record::Cancel);
    t.put(Record::Settings(Settings {
        flags: Settings::default().flags | CLOCAL,
        ..Settings::default()
    }));
    word(t);
    t.put(Record::Hangup);
    show_line(t);
}

/// The end of some traces: a hangup, perhaps under CLOCAL, and every call after it.
pub fn hang_up(t: &mut Typist) {
    let local = t.rng.chance(1, 4);
    t.settle(if local { CLOCAL } else { 0 }, 0);
    word(t);
    let body = t.body();
    t.put(Record::Write(body));
    if t.rng.chance(1, 2) {
        t.take();
    }
    t.put(Record::Hangup);
    for _ in 0..t.rng.between(4, 16) {
        match t.rng.below(10) {
            0 => t.poll(),
            1 => t.take(),
            2 => {
                let body = t.body();
                t.put(Record::Write(body));
            }
            3 => t.put(Record::Write(Vec::new())),
            4 => t.look(),
            5 => t.put(Record::Hangup),
            6 => t.settle(0, 0),
            7 => t.put(Record::Settings(Settings::default())),
            8 => t.ticks(1),
            _ => t.event(),
        }
    }
    t.poll();
    t.look();
}
