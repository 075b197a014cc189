//! The hand that writes a random trace: it puts records, counts its moves and keeps in mind what
//! it sent last, so that it can type the special characters in force and poll a waiting read.

use crate::known::*;
use crate::names::{OFF, SPECIALS};
use crate::record::{put_raw, Flush, Record, Settings, READ_MAX, TRANSMIT_MAX, WRITE_MAX};
use crate::rng::Rng;

/// A random trace in the making.
pub struct Typist {
    pub rng: Rng,
    trace: Vec<u8>,
    moves: usize,
    goal: usize,
    settings: Settings,
    asked: u16,
}

impl Typist {
    /// An empty trace that ends after about `goal` moves.
    pub fn new(seed: u64, goal: usize) -> Self {
        Typist {
            rng: Rng::new(seed),
            trace: Vec::new(),
            moves: 0,
            goal,
            settings: Settings::default(),
            asked: 1,
        }
    }

    /// Whether the trace is long enough.
    pub fn is_done(&self) -> bool {
        self.moves >= self.goal
    }

    /// The bytes written.
    pub fn into_trace(self) -> Vec<u8> {
        self.trace
    }

    /// The settings sent last, whether or not the port takes them.
    pub fn settings(&self) -> Settings {
        self.settings
    }

    /// A number of turns for a loop, at least one and less when the trace is done.
    pub fn turns(&mut self, low: u64, high: u64) -> u64 {
        let turns = self.rng.between(low, high);
        let left = self.goal.saturating_sub(self.moves) as u64;
        turns.min(left.max(1))
    }

    /// Puts a record: one move.
    pub fn put(&mut self, record: Record) {
        match record {
            Record::Settings(settings) => self.settings = settings,
            Record::Read { count, .. } => self.asked = count,
            _ => {}
        }
        record.put(&mut self.trace);
        self.moves += 1;
    }

    /// Puts a record that may be malformed: one move.
    pub fn put_raw(&mut self, kind: u16, body: &[u8]) {
        put_raw(kind, body, &mut self.trace);
        self.moves += 1;
    }

    /// Puts bytes that are no whole record, at the end.
    pub fn put_cut(&mut self, bytes: &[u8]) {
        self.trace.extend_from_slice(bytes);
    }

    /// Types one good byte.
    pub fn good(&mut self, byte: u8) {
        self.put(Record::Good(byte));
    }

    /// Types one byte many times: a single move, however many records there are.
    pub fn run(&mut self, byte: u8, times: u64) {
        for _ in 0..times {
            Record::Good(byte).put(&mut self.trace);
        }
        self.moves += 1;
    }

    /// The special character at a place in the table, as sent last.
    pub fn special(&self, place: usize) -> u8 {
        self.settings.values[place]
    }

    /// Types the special character of that name.
    pub fn press(&mut self, place: usize) {
        self.good(self.special(place));
    }

    /// Types what ends a line: NL mostly, else EOF, EOL, EOL2 or CR.
    pub fn end_line(&mut self) {
        let end = match self.rng.below(10) {
            0 | 1 => self.special(EOF),
            2 => self.special(EOL),
            3 => self.special(EOL2),
            4 => 13,
            _ => 10,
        };
        self.good(end);
    }

    /// A byte of interest: letters, blanks, special characters, line ends, the edges of classes.
    pub fn byte(&mut self) -> u8 {
        match self.rng.below(20) {
            0..=5 => self.rng.pick(*b"abcZ_y"),
            6 | 7 => self.rng.pick([32, 9]),
            8..=12 => {
                let place = self.rng.below(SPECIALS as u64) as usize;
                self.special(place)
            }
            13 | 14 => self.rng.pick([10, 13]),
            15 => self.rng.pick([255, 255, 0, 254]),
            16 | 17 => self.rng.pick([
                0, 1, 4, 7, 8, 27, 31, 33, 64, 65, 90, 91, 94, 95, 96, 97, 122, 123, 126, 127, 128,
                129, 132, 137, 138, 141, 160, 191, 225,
            ]),
            18 => self.rng.pick(*b"09.;-"),
            _ => self.rng.byte(),
        }
    }

    /// Lets one event happen: mostly a good byte, else a broken one or a break.
    pub fn event(&mut self) {
        let byte = self.byte();
        match self.rng.below(16) {
            0 => self.put(Record::Parity(byte)),
            1 => self.put(Record::Framing(byte)),
            2 => self.put(Record::Break),
            _ => self.good(byte),
        }
    }

    /// Lets a unit without echo come: parity error, framing error or break.
    pub fn broken(&mut self) {
        let byte = self.byte();
        match self.rng.below(3) {
            0 => self.put(Record::Parity(byte)),
            1 => self.put(Record::Framing(byte)),
            _ => self.put(Record::Break),
        }
    }

    /// Shows the output queue: mostly all of it.
    pub fn look(&mut self) {
        let count = match self.rng.below(8) {
            0 => self.rng.between(0, 3) as u16,
            1 => self.rng.between(4, 40) as u16,
            2 => self.rng.pick([TRANSMIT_MAX - 1, 512, 1024]),
            _ => TRANSMIT_MAX,
        };
        self.put(Record::Transmit(count));
    }

    /// A length for a read: small ones, the sizes of a line and of the stored input.
    pub fn length(&mut self) -> u16 {
        match self.rng.below(8) {
            0 => self.rng.pick([0, READ_MAX, READ_MAX - 1]),
            1 => self.rng.pick([253, 254, 255, 256, 300]),
            2..=4 => self.rng.between(1, 4) as u16,
            5 => self.rng.between(0, u64::from(READ_MAX)) as u16,
            _ => self.rng.between(5, 20) as u16,
        }
    }

    /// A read of a length, rarely non-blocking.
    pub fn ask(&mut self, count: u16) {
        let nonblocking = self.rng.chance(1, 8);
        self.put(Record::Read { count, nonblocking });
    }

    /// Asks again with the length asked last.
    pub fn poll(&mut self) {
        self.ask(self.asked);
    }

    /// Ends what may wait and reads with a new length.
    pub fn take(&mut self) {
        if self.rng.chance(3, 4) {
            self.put(Record::Cancel);
        }
        let count = self.length();
        self.ask(count);
    }

    /// Reads all there is to give, so that it is seen.
    pub fn take_all(&mut self) {
        self.put(Record::Cancel);
        for _ in 0..self.rng.between(1, 3) {
            self.ask(READ_MAX);
        }
    }

    /// One tick or a few.
    pub fn ticks(&mut self, times: u64) {
        for _ in 0..times {
            self.put(Record::Tick);
        }
    }

    /// A flush of input, output or both.
    pub fn flush(&mut self) {
        let what = self.rng.pick([Flush::Input, Flush::Output, Flush::Both]);
        self.put(Record::Flush(what));
    }

    /// Starts from empty queues with output running.
    pub fn clear(&mut self) {
        self.put(Record::Cancel);
        self.put(Record::Flush(Flush::Both));
        if self.rng.chance(1, 2) {
            self.press(START);
        }
    }

    /// Sends settings near the defaults: up to three flags turned, some flags forced on or off,
    /// sometimes other characters, MIN and TIME small.
    pub fn settle(&mut self, on: u32, off: u32) {
        let mut settings = Settings::default();
        for _ in 0..self.rng.below(4) {
            settings.flags ^= 1 << self.rng.below(32);
        }
        settings.flags = (settings.flags | on) & !off;
        self.choose_values(&mut settings);
        self.send(settings);
    }

    /// Sends settings, mostly after a cancel so that they are not refused.
    pub fn send(&mut self, settings: Settings) {
        if self.rng.chance(7, 8) {
            self.put(Record::Cancel);
        }
        self.put(Record::Settings(settings));
    }

    /// Chooses MIN and TIME, and sometimes a few special characters.
    pub fn choose_values(&mut self, settings: &mut Settings) {
        settings.values[MIN] = self.rng.pick([0, 1, 1, 2, 3, 4, 5, 255]);
        settings.values[TIME] = self.rng.pick([0, 0, 1, 1, 2, 3]);
        if self.rng.chance(1, 4) {
            settings.values[EOL] = self.rng.pick([b';', 0, 254, 27, 141]);
        }
        if self.rng.chance(1, 6) {
            settings.values[EOL2] = self.rng.pick(*b".-_");
        }
        if self.rng.chance(1, 8) {
            let place = self.rng.below(SPECIALS as u64) as usize;
            settings.values[place] = self
                .rng
                .pick([OFF, 0, 1, 7, 8, 9, 32, b'b', b'~', 128, 200, 254]);
        }
    }

    /// A body for a write: plain text, or bytes that output processing changes.
    pub fn body(&mut self) -> Vec<u8> {
        let length = match self.rng.below(6) {
            0 => 0,
            1 => self.rng.between(20, 80),
            2 if self.rng.chance(1, 4) => self.rng.between(500, WRITE_MAX as u64),
            _ => self.rng.between(1, 12),
        };
        (0..length).map(|_| self.written()).collect()
    }

    /// A byte for a write.
    pub fn written(&mut self) -> u8 {
        match self.rng.below(12) {
            0..=4 => self.rng.pick(*b"xyz "),
            5 | 6 => 9,
            7 => 10,
            8 => 13,
            9 => self.rng.pick([8, 8, 4, 4, 7, 127]),
            10 => self.rng.pick([0, 27, 31, 128, 160, 254, 255]),
            _ => self.byte(),
        }
    }

    /// Fills the empty output queue up to `free` bytes, with bytes that stand for themselves.
    pub fn fill_output(&mut self, free: u64) {
        let mut left = u64::from(TRANSMIT_MAX).saturating_sub(free);
        while left > 0 {
            let length = left.min(WRITE_MAX as u64);
            self.put(Record::Write(vec![b'x'; length as usize]));
            left -= length;
        }
    }

    /// Whether a hangup is harmless by the settings sent last.
    pub fn is_local(&self) -> bool {
        self.settings.flags & CLOCAL != 0
    }
}
