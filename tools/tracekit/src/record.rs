//! The record format of document 01: length of the body, kind, body, all little-endian.

use crate::names::{DEFAULT_FLAGS, DEFAULT_VALUES};

/// The greatest count of a read.
pub const READ_MAX: u16 = 1024;
/// The greatest body of a write.
pub const WRITE_MAX: usize = 512;
/// The greatest count of a transmit.
pub const TRANSMIT_MAX: u16 = 2048;
/// The greatest foreground group.
pub const GROUP_MAX: u32 = 2_147_483_647;
/// How many records the trace program reads.
pub const RECORDS_MAX: usize = 65_535;

/// The body of a settings record.
#[derive(Clone, Copy, Debug, PartialEq, Eq)]
pub struct Settings {
    /// The flags, each at its place in `names::FLAGS`.
    pub flags: u32,
    /// The values, each at its place in `names::VALUES`.
    pub values: [u8; 15],
}

impl Default for Settings {
    fn default() -> Self {
        Settings {
            flags: DEFAULT_FLAGS,
            values: DEFAULT_VALUES,
        }
    }
}

/// What a flush empties.
#[derive(Clone, Copy, Debug, PartialEq, Eq)]
pub enum Flush {
    Input,
    Output,
    Both,
}

/// A well-formed record.
#[derive(Clone, Debug, PartialEq, Eq)]
pub enum Record {
    Settings(Settings),
    Good(u8),
    Parity(u8),
    Framing(u8),
    Break,
    Tick,
    Hangup,
    Read { count: u16, nonblocking: bool },
    Write(Vec<u8>),
    Transmit(u16),
    Flush(Flush),
    Cancel,
    Foreground { group: u32, orphaned: bool },
}

impl Record {
    /// The number of the record's kind.
    pub fn kind(&self) -> u16 {
        match self {
            Record::Settings(_) => 1,
            Record::Good(_) => 2,
            Record::Parity(_) => 3,
            Record::Framing(_) => 4,
            Record::Break => 5,
            Record::Tick => 6,
            Record::Hangup => 7,
            Record::Read { .. } => 8,
            Record::Write(_) => 9,
            Record::Transmit(_) => 10,
            Record::Flush(_) => 11,
            Record::Cancel => 12,
            Record::Foreground { .. } => 13,
        }
    }

    /// Adds the record's bytes to a trace.
    pub fn put(&self, trace: &mut Vec<u8>) {
        put_raw(self.kind(), &self.body(), trace);
    }

    fn body(&self) -> Vec<u8> {
        match self {
            Record::Settings(settings) => {
                let mut body = settings.flags.to_le_bytes().to_vec();
                body.extend_from_slice(&settings.values);
                body
            }
            Record::Good(byte) | Record::Parity(byte) | Record::Framing(byte) => vec![*byte],
            Record::Break | Record::Tick | Record::Hangup | Record::Cancel => Vec::new(),
            Record::Read { count, nonblocking } => {
                let [low, high] = count.to_le_bytes();
                vec![low, high, u8::from(*nonblocking)]
            }
            Record::Write(body) => body.clone(),
            Record::Transmit(count) => count.to_le_bytes().to_vec(),
            Record::Flush(Flush::Input) => vec![1],
            Record::Flush(Flush::Output) => vec![2],
            Record::Flush(Flush::Both) => vec![3],
            Record::Foreground { group, orphaned } => {
                let mut body = group.to_le_bytes().to_vec();
                body.push(u8::from(*orphaned));
                body
            }
        }
    }

    /// The record of a kind and a body, or what is malformed in it.
    pub fn decode(kind: u16, body: &[u8]) -> Result<Record, &'static str> {
        match kind {
            1 => settings(body),
            2 => byte(body).map(Record::Good),
            3 => byte(body).map(Record::Parity),
            4 => byte(body).map(Record::Framing),
            5 => bare(Record::Break, body),
            6 => bare(Record::Tick, body),
            7 => bare(Record::Hangup, body),
            8 => read(body),
            9 if body.len() <= WRITE_MAX => Ok(Record::Write(body.to_vec())),
            9 => Err("more than 512 bytes to write"),
            10 => transmit(body),
            11 => flush(body),
            12 => bare(Record::Cancel, body),
            13 => foreground(body),
            _ => Err("unknown kind"),
        }
    }
}

const WRONG_LENGTH: &str = "wrong length";

fn bare(record: Record, body: &[u8]) -> Result<Record, &'static str> {
    match body {
        [] => Ok(record),
        _ => Err(WRONG_LENGTH),
    }
}

fn byte(body: &[u8]) -> Result<u8, &'static str> {
    match body {
        [byte] => Ok(*byte),
        _ => Err(WRONG_LENGTH),
    }
}

fn settings(body: &[u8]) -> Result<Record, &'static str> {
    let Some((flags, values)) = body.split_first_chunk::<4>() else {
        return Err(WRONG_LENGTH);
    };
    let Ok(values) = <[u8; 15]>::try_from(values) else {
        return Err(WRONG_LENGTH);
    };
    let flags = u32::from_le_bytes(*flags);
    Ok(Record::Settings(Settings { flags, values }))
}

fn yes_or_no(value: u8) -> Option<bool> {
    match value {
        0 => Some(false),
        1 => Some(true),
        _ => None,
    }
}

fn read(body: &[u8]) -> Result<Record, &'static str> {
    let [low, high, nonblocking] = body else {
        return Err(WRONG_LENGTH);
    };
    let count = u16::from_le_bytes([*low, *high]);
    if count > READ_MAX {
        return Err("read count above 1024");
    }
    let nonblocking = yes_or_no(*nonblocking).ok_or("non-blocking neither 0 nor 1")?;
    Ok(Record::Read { count, nonblocking })
}

fn transmit(body: &[u8]) -> Result<Record, &'static str> {
    let [low, high] = body else {
        return Err(WRONG_LENGTH);
    };
    match u16::from_le_bytes([*low, *high]) {
        count if count <= TRANSMIT_MAX => Ok(Record::Transmit(count)),
        _ => Err("transmit count above 2048"),
    }
}

fn flush(body: &[u8]) -> Result<Record, &'static str> {
    match body {
        [1] => Ok(Record::Flush(Flush::Input)),
        [2] => Ok(Record::Flush(Flush::Output)),
        [3] => Ok(Record::Flush(Flush::Both)),
        [_] => Err("flush choice not 1, 2 or 3"),
        _ => Err(WRONG_LENGTH),
    }
}

fn foreground(body: &[u8]) -> Result<Record, &'static str> {
    let [a, b, c, d, orphaned] = body else {
        return Err(WRONG_LENGTH);
    };
    let group = u32::from_le_bytes([*a, *b, *c, *d]);
    if group > GROUP_MAX {
        return Err("group above 2147483647");
    }
    let orphaned = yes_or_no(*orphaned).ok_or("orphaned neither 0 nor 1")?;
    Ok(Record::Foreground { group, orphaned })
}

/// Adds a record of any kind and body, malformed or not; a body above 65,535 bytes is shortened.
pub fn put_raw(kind: u16, body: &[u8], trace: &mut Vec<u8>) {
    let length = u16::try_from(body.len()).unwrap_or(u16::MAX);
    trace.extend_from_slice(&length.to_le_bytes());
    trace.extend_from_slice(&kind.to_le_bytes());
    trace.extend_from_slice(&body[..usize::from(length)]);
}

/// What stands in one stretch of a trace.
#[derive(Clone, Debug, PartialEq, Eq)]
pub enum What {
    /// A well-formed record.
    Record(Record),
    /// A whole record that is malformed, and why.
    Malformed { kind: u16, why: &'static str },
    /// A last record that ends too early.
    Cut,
}

/// One stretch of a trace: a record, whole or cut, with its bytes.
#[derive(Clone, Debug, PartialEq, Eq)]
pub struct Piece<'a> {
    pub bytes: &'a [u8],
    pub what: What,
}

impl<'a> Piece<'a> {
    /// The first piece of a trace that is not empty, and the bytes after it.
    fn first(trace: &'a [u8]) -> (Piece<'a>, &'a [u8]) {
        let cut = Piece {
            bytes: trace,
            what: What::Cut,
        };
        let [a, b, c, d, rest @ ..] = trace else {
            return (cut, &[]);
        };
        let length = usize::from(u16::from_le_bytes([*a, *b]));
        let kind = u16::from_le_bytes([*c, *d]);
        if rest.len() < length {
            return (cut, &[]);
        }
        let (bytes, after) = trace.split_at(4 + length);
        let what = match Record::decode(kind, &rest[..length]) {
            Ok(record) => What::Record(record),
            Err(why) => What::Malformed { kind, why },
        };
        (Piece { bytes, what }, after)
    }
}

/// The pieces of a trace, in order; their bytes together are the trace.
pub fn split(mut trace: &[u8]) -> Vec<Piece<'_>> {
    let mut pieces = Vec::new();
    while !trace.is_empty() {
        let (piece, after) = Piece::first(trace);
        pieces.push(piece);
        trace = after;
    }
    pieces
}

#[cfg(test)]
mod tests {
    use super::*;

    fn whole(bytes: &[u8]) -> What {
        split(bytes).remove(0).what
    }

    #[test]
    fn document_01s_read_record_is_read() {
        let expected = Record::Read {
            count: 8,
            nonblocking: false,
        };
        assert_eq!(whole(&[3, 0, 8, 0, 8, 0, 0]), What::Record(expected));
    }

    #[test]
    fn pieces_keep_every_byte() {
        let trace = [1, 0, 2, 0, 65, 1, 0, 77, 0, 9, 2, 0, 10, 0, 1];
        let pieces = split(&trace);
        assert_eq!(pieces.len(), 3);
        assert_eq!(pieces[0].what, What::Record(Record::Good(65)));
        assert!(matches!(pieces[1].what, What::Malformed { kind: 77, .. }));
        assert_eq!(pieces[2].what, What::Cut);
        let joined: Vec<u8> = pieces
            .iter()
            .flat_map(|piece| piece.bytes.to_vec())
            .collect();
        assert_eq!(joined, trace);
    }

    #[test]
    fn values_beyond_the_bounds_are_malformed() {
        let malformed = |kind, body: &[u8]| Record::decode(kind, body).is_err();
        assert!(malformed(8, &[1, 4, 0]));
        assert!(malformed(8, &[1, 0, 2]));
        assert!(malformed(9, &[0; 513]));
        assert!(malformed(10, &[1, 8]));
        assert!(malformed(11, &[0]) && malformed(11, &[4]));
        assert!(malformed(13, &[0, 0, 0, 128, 0]));
        assert!(malformed(13, &[1, 0, 0, 0, 2]));
        assert!(malformed(0, &[]) && malformed(14, &[]));
        assert!(!malformed(9, &[0; 512]) && !malformed(10, &[0, 8]) && !malformed(8, &[0, 4, 1]));
    }
}
