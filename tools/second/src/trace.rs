//! The trace program: it reads records and prints a line for each.

use std::fmt::Write as _;
use std::io::{self, Read, Write};

use crate::port::{Port, ReadAnswer, Refusal, Signal};
use crate::settings::{Settings, VALUES};
use crate::sizes::{LARGEST_GROUP, LARGEST_READ, LARGEST_TRANSMIT, LARGEST_WRITE, RECORDS};

/// A well-formed record.
#[derive(Clone, Debug, PartialEq, Eq)]
pub enum Record {
    Settings(Settings),
    GoodByte(u8),
    ParityError(u8),
    FramingError(u8),
    Break,
    Tick,
    Hangup,
    Read { length: usize, non_blocking: bool },
    Write(Vec<u8>),
    Transmit(usize),
    Flush(u8),
    Cancel,
    Foreground { group: u32, orphaned: bool },
}

/// The record of this kind and body. None if it is malformed: "Unknown kinds, wrong lengths
/// and other values are malformed".
pub fn decode(kind: u16, body: &[u8]) -> Option<Record> {
    match (kind, body) {
        (1, [a, b, c, d, values @ ..]) => Some(Record::Settings(Settings {
            flags: u32::from_le_bytes([*a, *b, *c, *d]),
            values: <[u8; VALUES]>::try_from(values).ok()?,
        })),
        (2, [byte]) => Some(Record::GoodByte(*byte)),
        (3, [byte]) => Some(Record::ParityError(*byte)),
        (4, [byte]) => Some(Record::FramingError(*byte)),
        (5, []) => Some(Record::Break),
        (6, []) => Some(Record::Tick),
        (7, []) => Some(Record::Hangup),
        (8, [low, high, non_blocking]) => Some(Record::Read {
            length: count_to(LARGEST_READ, *low, *high)?,
            non_blocking: zero_or_one(*non_blocking)?,
        }),
        (9, bytes) if bytes.len() <= LARGEST_WRITE => Some(Record::Write(bytes.to_vec())),
        (10, [low, high]) => Some(Record::Transmit(count_to(LARGEST_TRANSMIT, *low, *high)?)),
        (11, [choice @ 1..=3]) => Some(Record::Flush(*choice)),
        (12, []) => Some(Record::Cancel),
        (13, [a, b, c, d, orphaned]) => {
            let group = u32::from_le_bytes([*a, *b, *c, *d]);
            if group > LARGEST_GROUP {
                return None;
            }
            Some(Record::Foreground {
                group,
                orphaned: zero_or_one(*orphaned)?,
            })
        }
        _ => None,
    }
}

/// A two-byte count, if it is at most `largest`.
fn count_to(largest: usize, low: u8, high: u8) -> Option<usize> {
    let count = usize::from(u16::from_le_bytes([low, high]));
    (count <= largest).then_some(count)
}

fn zero_or_one(byte: u8) -> Option<bool> {
    match byte {
        0 => Some(false),
        1 => Some(true),
        _ => None,
    }
}

/// What is printed after index and kind.
#[derive(Clone, Debug, PartialEq, Eq)]
struct Answer {
    outcome: String,
    count: usize,
    given: Vec<u8>,
}

impl Answer {
    /// `ok` with bytes taken: a count, but no bytes to print.
    fn taken(count: usize) -> Answer {
        Answer {
            outcome: "ok".to_string(),
            count,
            given: vec![],
        }
    }

    /// `ok` with bytes given.
    fn given(bytes: Vec<u8>) -> Answer {
        Answer {
            outcome: "ok".to_string(),
            count: bytes.len(),
            given: bytes,
        }
    }

    fn wait() -> Answer {
        Answer {
            outcome: "wait".to_string(),
            count: 0,
            given: vec![],
        }
    }

    /// "A refusal returns its number and count 0".
    fn refused(refusal: Refusal) -> Answer {
        Answer {
            outcome: format!("r{}", refusal.number()),
            count: 0,
            given: vec![],
        }
    }

    /// The outcome of an event: its signal or `ok`. The count is 1 for kinds 2 to 4.
    fn event(signal: Option<Signal>, count: usize) -> Answer {
        let outcome = match signal {
            None => "ok",
            Some(Signal::Int) => "int",
            Some(Signal::Quit) => "quit",
            Some(Signal::Tstp) => "tstp",
            Some(Signal::Hup) => "hup",
        };
        Answer {
            outcome: outcome.to_string(),
            count,
            given: vec![],
        }
    }

    /// A call that gives nothing back: `ok` with 0, or its refusal.
    fn done(result: Result<(), Refusal>) -> Answer {
        match result {
            Ok(()) => Answer::taken(0),
            Err(refusal) => Answer::refused(refusal),
        }
    }
}

/// Hands one record to the port.
fn perform(port: &mut Port, record: &Record) -> Answer {
    match record {
        Record::Settings(settings) => Answer::done(port.change_settings(settings)),
        Record::GoodByte(byte) => Answer::event(port.good_byte(*byte), 1),
        Record::ParityError(byte) => Answer::event(port.parity_error(*byte), 1),
        Record::FramingError(byte) => {
            port.framing_error(*byte);
            Answer::event(None, 1)
        }
        Record::Break => Answer::event(port.break_condition(), 0),
        Record::Tick => {
            port.tick();
            Answer::event(None, 0)
        }
        Record::Hangup => Answer::event(port.hangup(), 0),
        Record::Read {
            length,
            non_blocking,
        } => match port.read(*length, *non_blocking) {
            Ok(ReadAnswer::Given(bytes)) => Answer::given(bytes),
            Ok(ReadAnswer::Wait) => Answer::wait(),
            Err(refusal) => Answer::refused(refusal),
        },
        Record::Write(bytes) => match port.write(bytes) {
            Ok(count) => Answer::taken(count),
            Err(refusal) => Answer::refused(refusal),
        },
        Record::Transmit(count) => Answer::given(port.transmit(*count)),
        Record::Flush(choice) => Answer::done(port.flush(*choice)),
        Record::Cancel => {
            port.cancel();
            Answer::taken(0)
        }
        Record::Foreground { group, orphaned } => {
            Answer::done(port.set_foreground(*group, *orphaned))
        }
    }
}

/// The printed line of one complete record. A malformed one does not reach the port.
fn line_of(port: &mut Port, index: usize, kind: u16, body: &[u8]) -> String {
    let answer = match decode(kind, body) {
        Some(record) => perform(port, &record),
        None => Answer::refused(Refusal::BadArgument),
    };
    let outcome = answer.outcome;
    let count = answer.count;
    let given = hex_or_dash(&answer.given);
    format!("{index} {kind} {outcome} {count} {given}\n")
}

/// "bytes given in lower hex or `-`"
fn hex_or_dash(bytes: &[u8]) -> String {
    if bytes.is_empty() {
        return "-".to_string();
    }
    let mut hex = String::new();
    for byte in bytes {
        // Writing to a String does not fail.
        let _ = write!(hex, "{byte:02x}");
    }
    hex
}

/// What comes next on the input.
enum Next {
    Nothing,
    Cut,
    Record { kind: u16, body: Vec<u8> },
}

/// Reads one record: "two-byte length of the body, two-byte kind, body, little-endian".
fn next_record(input: &mut impl Read) -> io::Result<Next> {
    let header = read_at_most(input, 4)?;
    let (length, kind) = match header[..] {
        [] => return Ok(Next::Nothing),
        [a, b, c, d] => (u16::from_le_bytes([a, b]), u16::from_le_bytes([c, d])),
        _ => return Ok(Next::Cut),
    };
    let body = read_at_most(input, length)?;
    if body.len() < usize::from(length) {
        return Ok(Next::Cut);
    }
    Ok(Next::Record { kind, body })
}

/// Reads so many bytes, or fewer if the input ends before.
fn read_at_most(input: &mut impl Read, count: u16) -> io::Result<Vec<u8>> {
    let mut bytes = Vec::new();
    input.take(u64::from(count)).read_to_end(&mut bytes)?;
    Ok(bytes)
}

/// Writes one line out at once.
fn print(output: &mut impl Write, line: &str) -> io::Result<()> {
    output.write_all(line.as_bytes())?;
    output.flush()
}

/// The trace program. Each line is written as soon as its record is complete.
pub fn run(input: &mut impl Read, output: &mut impl Write) -> io::Result<()> {
    let mut port = Port::fresh();
    for index in 0..RECORDS {
        match next_record(input)? {
            Next::Nothing => return Ok(()),
            Next::Cut => return print(output, &format!("{index} cut\n")),
            Next::Record { kind, body } => {
                print(output, &line_of(&mut port, index, kind, &body))?;
            }
        }
    }
    // "one more, even cut, prints its index and `full` and ends"
    // OPEN: when this is printed. As a cut record is enough, its first byte is.
    if read_at_most(input, 1)?.is_empty() {
        return Ok(());
    }
    print(output, &format!("{RECORDS} full\n"))
}
