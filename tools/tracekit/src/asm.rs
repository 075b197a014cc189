//! From a script to a trace. One line is one record, but for `good` and `tick`.
//!
//! | line | meaning |
//! |---|---|
//! | `settings +PARMRK -ECHO MIN=3 INTR='x' EOL=off` | settings, told as differences from the defaults |
//! | `good "ab" ERASE NL 0x16 254*"a"` | a good byte each; a name means the default value |
//! | `parity 0x41`, `framing 0x41` | a broken byte |
//! | `break`, `hangup`, `cancel` | |
//! | `tick`, `tick 3` | one tick or more |
//! | `read 10`, `read 10 nonblocking` | |
//! | `write "hi\n" 7` | one write; no item at all is a write of no bytes |
//! | `transmit 16` | |
//! | `flush input`, `flush output`, `flush both` | |
//! | `foreground 7`, `foreground 7 orphaned`, `foreground none` | |
//! | `raw 03000800 01 04 00` | these bytes as they are, for damaged records |
//!
//! `#` outside quotes starts a comment. Group 0 is spelt `none`; `foreground none orphaned` is the
//! record with group 0 and orphaned 1. EOL and EOL2 are off by default, so their names mean 255.

use crate::names::{flag_place, value_place, OFF, SPECIALS};
use crate::record::{Flush, Record, Settings, GROUP_MAX, READ_MAX, TRANSMIT_MAX, WRITE_MAX};
use crate::text::{byte, hex, item, number, shown, ITEM_MAX};
use crate::words::words;

/// A line that is no good, and what was expected there.
#[derive(Clone, Debug, PartialEq, Eq)]
pub struct Fault {
    /// Counted from 1.
    pub line: usize,
    pub what: String,
}

/// The trace of a script, or all its faults.
pub fn assemble(script: &[u8]) -> Result<Vec<u8>, Vec<Fault>> {
    let mut trace = Vec::new();
    let mut faults = Vec::new();
    for (place, line) in script.split(|&byte| byte == b'\n').enumerate() {
        if let Err(what) = assemble_line(line, &mut trace) {
            faults.push(Fault {
                line: place + 1,
                what,
            });
        }
    }
    if faults.is_empty() {
        Ok(trace)
    } else {
        Err(faults)
    }
}

fn assemble_line(line: &[u8], trace: &mut Vec<u8>) -> Result<(), String> {
    let words = words(line)?;
    let Some((&verb, rest)) = words.split_first() else {
        return Ok(());
    };
    match verb {
        b"good" => good(rest, trace),
        b"tick" => ticks(rest, trace),
        b"raw" => raw(rest, trace),
        _ => {
            record(verb, rest)?.put(trace);
            Ok(())
        }
    }
}

fn record(verb: &[u8], rest: &[&[u8]]) -> Result<Record, String> {
    match verb {
        b"settings" => settings(rest),
        b"parity" => broken("parity", rest).map(Record::Parity),
        b"framing" => broken("framing", rest).map(Record::Framing),
        b"break" => bare("break", rest, Record::Break),
        b"hangup" => bare("hangup", rest, Record::Hangup),
        b"cancel" => bare("cancel", rest, Record::Cancel),
        b"read" => read(rest),
        b"write" => write(rest),
        b"transmit" => transmit(rest),
        b"flush" => flush(rest),
        b"foreground" => foreground(rest),
        _ => Err(format!(
            "expected settings, good, parity, framing, break, tick, hangup, read, write, transmit, \
             flush, cancel, foreground or raw, found {}",
            shown(verb)
        )),
    }
}

/// A message of what a line expects and what stands there.
fn expected(verb: &str, what: &str, rest: &[&[u8]]) -> String {
    let found = if rest.is_empty() {
        "nothing".to_string()
    } else {
        shown(&rest.join(&b' '))
    };
    format!("{verb}: expected {what}, found {found}")
}

/// The same, for values that only a damaged record can hold.
fn expected_or_raw(verb: &str, what: &str, rest: &[&[u8]]) -> String {
    format!(
        "{} (raw can hold a damaged record)",
        expected(verb, what, rest)
    )
}

fn bare(verb: &str, rest: &[&[u8]], record: Record) -> Result<Record, String> {
    match rest {
        [] => Ok(record),
        _ => Err(expected(verb, "nothing more", rest)),
    }
}

/// All items of a line, together.
fn bytes(verb: &str, rest: &[&[u8]]) -> Result<Vec<u8>, String> {
    let mut all = Vec::new();
    for word in rest {
        all.extend(item(word).map_err(|fault| format!("{verb}: {fault}"))?);
    }
    Ok(all)
}

fn good(rest: &[&[u8]], trace: &mut Vec<u8>) -> Result<(), String> {
    if rest.is_empty() {
        return Err(expected("good", "one byte or more", rest));
    }
    for byte in bytes("good", rest)? {
        Record::Good(byte).put(trace);
    }
    Ok(())
}

fn ticks(rest: &[&[u8]], trace: &mut Vec<u8>) -> Result<(), String> {
    let times = match rest {
        [] => Some(1),
        [word] => number(word).filter(|&times| (1..=ITEM_MAX as u64).contains(&times)),
        _ => None,
    };
    let Some(times) = times else {
        return Err(expected(
            "tick",
            "a number from 1 to 65535, or nothing",
            rest,
        ));
    };
    for _ in 0..times {
        Record::Tick.put(trace);
    }
    Ok(())
}

fn raw(rest: &[&[u8]], trace: &mut Vec<u8>) -> Result<(), String> {
    let digits = rest.concat();
    let whole = rest.iter().all(|word| word.len() % 2 == 0);
    match hex(&digits) {
        Some(bytes) if whole && !rest.is_empty() => {
            trace.extend(bytes);
            Ok(())
        }
        _ => Err(expected("raw", "hex digits, two for each byte", rest)),
    }
}

fn broken(verb: &str, rest: &[&[u8]]) -> Result<u8, String> {
    match rest {
        [word] => byte(word).map_err(|fault| format!("{verb}: {fault}")),
        _ => Err(expected(verb, "one byte", rest)),
    }
}

fn settings(rest: &[&[u8]]) -> Result<Record, String> {
    let mut settings = Settings::default();
    for word in rest {
        change(&mut settings, word).map_err(|fault| format!("settings: {fault}"))?;
    }
    Ok(Record::Settings(settings))
}

/// Makes one change that a settings line names.
fn change(settings: &mut Settings, word: &[u8]) -> Result<(), String> {
    let flag =
        |name| flag_place(name).ok_or_else(|| format!("expected a flag, found {}", shown(word)));
    match word {
        [b'+', name @ ..] => settings.flags |= 1 << flag(name)?,
        [b'-', name @ ..] => settings.flags &= !(1 << flag(name)?),
        _ => {
            let (place, value) = value(word)?;
            settings.values[place] = value;
        }
    }
    Ok(())
}

/// The place and the value of `NAME=VALUE`.
fn value(word: &[u8]) -> Result<(usize, u8), String> {
    let fault = || format!("expected +FLAG, -FLAG or NAME=VALUE, found {}", shown(word));
    let equals = word
        .iter()
        .position(|&byte| byte == b'=')
        .ok_or_else(fault)?;
    let place = value_place(&word[..equals]).ok_or_else(fault)?;
    let value = match &word[equals + 1..] {
        b"off" if place < SPECIALS => OFF,
        b"off" => {
            return Err(format!(
                "expected a number from 0 to 255, found {}",
                shown(word)
            ))
        }
        value => byte(value)?,
    };
    Ok((place, value))
}

/// A count up to a bound.
fn count(word: &[u8], most: u16) -> Option<u16> {
    let count = u16::try_from(number(word)?).ok()?;
    (count <= most).then_some(count)
}

fn read(rest: &[&[u8]]) -> Result<Record, String> {
    let (counted, nonblocking) = match rest {
        [word] => (count(word, READ_MAX), false),
        [word, b"nonblocking"] => (count(word, READ_MAX), true),
        _ => (None, false),
    };
    match counted {
        Some(count) => Ok(Record::Read { count, nonblocking }),
        None => Err(expected_or_raw(
            "read",
            "a count from 0 to 1024 and perhaps nonblocking",
            rest,
        )),
    }
}

fn write(rest: &[&[u8]]) -> Result<Record, String> {
    let body = bytes("write", rest)?;
    if body.len() > WRITE_MAX {
        let found = body.len();
        return Err(format!(
            "write: expected at most 512 bytes, found {found} (raw can hold a damaged record)"
        ));
    }
    Ok(Record::Write(body))
}

fn transmit(rest: &[&[u8]]) -> Result<Record, String> {
    let counted = match rest {
        [word] => count(word, TRANSMIT_MAX),
        _ => None,
    };
    match counted {
        Some(count) => Ok(Record::Transmit(count)),
        None => Err(expected_or_raw("transmit", "a count from 0 to 2048", rest)),
    }
}

fn flush(rest: &[&[u8]]) -> Result<Record, String> {
    match rest {
        [b"input"] => Ok(Record::Flush(Flush::Input)),
        [b"output"] => Ok(Record::Flush(Flush::Output)),
        [b"both"] => Ok(Record::Flush(Flush::Both)),
        _ => Err(expected_or_raw("flush", "input, output or both", rest)),
    }
}

fn foreground(rest: &[&[u8]]) -> Result<Record, String> {
    let (name, orphaned) = match rest {
        [name] => (*name, false),
        [name, b"orphaned"] => (*name, true),
        _ => (&b""[..], false),
    };
    let number = number(name).and_then(|number| u32::try_from(number).ok());
    let group = match number {
        None if name == b"none" => Some(0),
        _ => number.filter(|number| (1..=GROUP_MAX).contains(number)),
    };
    match group {
        Some(group) => Ok(Record::Foreground { group, orphaned }),
        None => Err(expected_or_raw(
            "foreground",
            "none or a group from 1 to 2147483647, and perhaps orphaned",
            rest,
        )),
    }
}
