//! From a trace to a script. Assembling the script gives the trace again, whatever its bytes are.

use crate::names::{FLAGS, OFF, SPECIALS, VALUES};
use crate::record::{split, Flush, Piece, Record, Settings, What};
use crate::text::{typed_items, written_items, ITEM_MAX};

/// A `good` line takes no further item beyond this width.
const WIDTH: usize = 76;
/// How many bytes stand in one `raw` line.
const RAW_BYTES: usize = 32;

/// The script of a trace.
pub fn dump(trace: &[u8]) -> String {
    let pieces = split(trace);
    let mut script = String::new();
    let mut rest = pieces.as_slice();
    while let Some(first) = rest.first() {
        let (lines, used) = match &first.what {
            What::Record(Record::Good(_)) => good_run(rest),
            What::Record(Record::Tick) => tick_run(rest),
            What::Record(record) => (vec![line(record)], 1),
            damaged => (raw_lines(first.bytes, damaged), 1),
        };
        for line in lines {
            script.push_str(&line);
            script.push('\n');
        }
        rest = &rest[used..];
    }
    script
}

/// One piece on one line; long damaged records are shown by their start.
pub fn one_line(piece: &Piece) -> String {
    match &piece.what {
        What::Record(record) => line(record),
        damaged => {
            let start = &piece.bytes[..piece.bytes.len().min(RAW_BYTES)];
            let more = if start.len() < piece.bytes.len() {
                format!(" ... {} bytes", piece.bytes.len())
            } else {
                String::new()
            };
            format!("raw{}{more}{}", spaced(start), why(damaged))
        }
    }
}

/// The line of a record.
fn line(record: &Record) -> String {
    match record {
        Record::Settings(settings) => settings_line(settings),
        Record::Good(byte) => joined("good", &typed_items(&[*byte])),
        Record::Parity(byte) => joined("parity", &[byte_word(*byte)]),
        Record::Framing(byte) => joined("framing", &[byte_word(*byte)]),
        Record::Break => "break".to_string(),
        Record::Tick => "tick".to_string(),
        Record::Hangup => "hangup".to_string(),
        Record::Read { count, nonblocking } => {
            format!("read {count}{}", word_if(*nonblocking, " nonblocking"))
        }
        Record::Write(body) if body.is_empty() => "write \"\"".to_string(),
        Record::Write(body) => joined("write", &written_items(body)),
        Record::Transmit(count) => format!("transmit {count}"),
        Record::Flush(Flush::Input) => "flush input".to_string(),
        Record::Flush(Flush::Output) => "flush output".to_string(),
        Record::Flush(Flush::Both) => "flush both".to_string(),
        Record::Cancel => "cancel".to_string(),
        Record::Foreground { group, orphaned } => foreground_line(*group, *orphaned),
    }
}

fn joined(verb: &str, items: &[String]) -> String {
    format!("{verb} {}", items.join(" "))
}

fn word_if(said: bool, word: &str) -> &str {
    if said {
        word
    } else {
        ""
    }
}

fn foreground_line(group: u32, orphaned: bool) -> String {
    let orphaned = word_if(orphaned, " orphaned");
    match group {
        0 => format!("foreground none{orphaned}"),
        _ => format!("foreground {group}{orphaned}"),
    }
}

/// A byte as a quoted character where it is printable, else as a number.
fn byte_word(byte: u8) -> String {
    match byte {
        b'\'' | b'\\' => format!("'\\{}'", char::from(byte)),
        32..=126 => format!("'{}'", char::from(byte)),
        _ => format!("0x{byte:02x}"),
    }
}

/// The differences of settings from the defaults.
fn settings_line(settings: &Settings) -> String {
    let mut line = String::from("settings");
    for (place, (name, default)) in FLAGS.iter().enumerate() {
        let on = settings.flags >> place & 1 == 1;
        if on != *default {
            line.push_str(if on { " +" } else { " -" });
            line.push_str(name);
        }
    }
    for (place, (name, default)) in VALUES.iter().enumerate() {
        let value = settings.values[place];
        if value != *default {
            line.push_str(&format!(" {name}={}", value_word(place, value)));
        }
    }
    line
}

fn value_word(place: usize, value: u8) -> String {
    match value {
        _ if place >= SPECIALS => value.to_string(),
        OFF => "off".to_string(),
        33..=126 => byte_word(value),
        _ => value.to_string(),
    }
}

/// The lines of the good bytes at the start, and their number.
fn good_run(pieces: &[Piece]) -> (Vec<String>, usize) {
    let bytes: Vec<u8> = pieces.iter().map_while(good_byte).collect();
    let mut lines = Vec::new();
    let mut line = String::from("good");
    for item in typed_items(&bytes) {
        if line.len() > 4 && line.len() + 1 + item.len() > WIDTH {
            lines.push(std::mem::replace(&mut line, String::from("good")));
        }
        line.push(' ');
        line.push_str(&item);
    }
    lines.push(line);
    (lines, bytes.len())
}

fn good_byte(piece: &Piece) -> Option<u8> {
    match piece.what {
        What::Record(Record::Good(byte)) => Some(byte),
        _ => None,
    }
}

/// The line of the ticks at the start, and their number.
fn tick_run(pieces: &[Piece]) -> (Vec<String>, usize) {
    let is_tick = |piece: &&Piece| piece.what == What::Record(Record::Tick);
    let ticks = pieces.iter().take(ITEM_MAX).take_while(is_tick).count();
    let line = match ticks {
        1 => "tick".to_string(),
        _ => format!("tick {ticks}"),
    };
    (vec![line], ticks)
}

fn raw_lines(bytes: &[u8], damaged: &What) -> Vec<String> {
    let chunks = bytes.chunks(RAW_BYTES);
    let mut lines: Vec<String> = chunks
        .map(|chunk| format!("raw{}", spaced(chunk)))
        .collect();
    if let Some(first) = lines.first_mut() {
        first.push_str(&why(damaged));
    }
    lines
}

fn spaced(bytes: &[u8]) -> String {
    bytes.iter().map(|byte| format!(" {byte:02x}")).collect()
}

/// A comment that tells what is wrong with a damaged record.
fn why(damaged: &What) -> String {
    match damaged {
        What::Record(_) => String::new(),
        What::Malformed { kind, why } => format!("  # kind {kind}, {why}"),
        What::Cut => "  # cut".to_string(),
    }
}
