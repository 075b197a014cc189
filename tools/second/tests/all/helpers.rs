//! What the tests share.

use second::port::{Port, ReadAnswer, Refusal};
use second::settings::{flag, value, Settings};
use second::trace;

// Special characters by default.
pub const EOF: u8 = 4;
pub const ERASE: u8 = 127;
pub const WERASE: u8 = 23;
pub const KILL: u8 = 21;
pub const REPRINT: u8 = 18;
pub const INTR: u8 = 3;
pub const QUIT: u8 = 28;
pub const SUSP: u8 = 26;
pub const START: u8 = 17;
pub const STOP: u8 = 19;
pub const LNEXT: u8 = 22;
pub const NL: u8 = 10;
pub const CR: u8 = 13;

pub const WAIT: Result<ReadAnswer, Refusal> = Ok(ReadAnswer::Wait);

/// The answer of a read that gives these bytes.
pub fn given(bytes: &[u8]) -> Result<ReadAnswer, Refusal> {
    Ok(ReadAnswer::Given(bytes.to_vec()))
}

/// Default settings with some flags set and some cleared.
pub fn settings(set: u32, clear: u32) -> Settings {
    let mut settings = Settings::default();
    settings.flags |= set;
    settings.flags &= !clear;
    settings
}

/// Settings without ICANON and ECHO, with this MIN and TIME.
pub fn raw_settings(min: u8, time: u8) -> Settings {
    let mut settings = settings(0, flag::ICANON | flag::ECHO);
    settings.values[value::MIN] = min;
    settings.values[value::TIME] = time;
    settings
}

/// A port with these settings.
pub fn port_with(settings: &Settings) -> Port {
    let mut port = Port::fresh();
    change(&mut port, settings);
    port
}

/// A port with default settings but for some flags set and some cleared.
pub fn port(set: u32, clear: u32) -> Port {
    port_with(&settings(set, clear))
}

/// A port without ICANON and ECHO, with this MIN and TIME.
pub fn raw_port(min: u8, time: u8) -> Port {
    port_with(&raw_settings(min, time))
}

/// Changes settings, which must not be refused.
pub fn change(port: &mut Port, settings: &Settings) {
    assert_eq!(port.change_settings(settings), Ok(()));
}

/// Good bytes, none of which reports a signal.
pub fn receive(port: &mut Port, bytes: &[u8]) {
    for &byte in bytes {
        assert_eq!(port.good_byte(byte), None);
    }
}

/// So many ticks.
pub fn ticks(port: &mut Port, count: usize) {
    for _ in 0..count {
        port.tick();
    }
}

/// Everything queued for output, taken from the queue.
pub fn shown(port: &mut Port) -> Vec<u8> {
    port.transmit(2_048)
}

/// Everything a canonical port holds in finished lines, line by line.
pub fn lines(port: &mut Port) -> Vec<Vec<u8>> {
    let mut lines = Vec::new();
    while let Ok(ReadAnswer::Given(bytes)) = port.read(1_024, true) {
        lines.push(bytes);
    }
    lines
}

/// A port whose output queue is full, with column 2,048, with these settings.
pub fn full_port(settings: &Settings) -> Port {
    let mut port = port_with(settings);
    assert_eq!(port.write(&[b'x'; 2_048]), Ok(2_048));
    port
}

// Traces.

/// One record.
pub fn record(kind: u16, body: &[u8]) -> Vec<u8> {
    let length = u16::try_from(body.len()).expect("a body of a test is short");
    let mut bytes = length.to_le_bytes().to_vec();
    bytes.extend(kind.to_le_bytes());
    bytes.extend(body);
    bytes
}

pub fn settings_record(settings: &Settings) -> Vec<u8> {
    let mut body = settings.flags.to_le_bytes().to_vec();
    body.extend(settings.values);
    record(1, &body)
}

pub fn good(byte: u8) -> Vec<u8> {
    record(2, &[byte])
}

pub fn read(count: u16, non_blocking: u8) -> Vec<u8> {
    let [low, high] = count.to_le_bytes();
    record(8, &[low, high, non_blocking])
}

pub fn transmit(count: u16) -> Vec<u8> {
    record(10, &count.to_le_bytes())
}

pub fn foreground(group: u32, orphaned: u8) -> Vec<u8> {
    let mut body = group.to_le_bytes().to_vec();
    body.push(orphaned);
    record(13, &body)
}

/// What the trace program prints for these bytes.
pub fn run_bytes(bytes: &[u8]) -> String {
    let mut printed = Vec::new();
    trace::run(&mut &bytes[..], &mut printed).expect("memory can be read and written");
    String::from_utf8(printed).expect("the lines are plain text")
}

/// What the trace program prints for these records, line by line.
pub fn run(records: &[Vec<u8>]) -> Vec<String> {
    run_bytes(&records.concat())
        .lines()
        .map(str::to_string)
        .collect()
}

/// Bytes from lower hex, blanks left out.
pub fn from_hex(hex: &str) -> Vec<u8> {
    let digits: Vec<u8> = hex
        .chars()
        .filter_map(|digit| digit.to_digit(16))
        .map(|digit| u8::try_from(digit).expect("a digit is small"))
        .collect();
    digits
        .chunks(2)
        .map(|pair| pair[0] * 16 + pair[1])
        .collect()
}
