//! Pseudo-random traces: the program ends, does not panic, and keeps its sizes.

use crate::helpers::*;
use second::port::{Port, ReadAnswer};
use second::settings::{value, Settings};
use second::trace;

/// A small deterministic generator (xorshift).
struct Random(u64);

impl Random {
    /// A generator for this seed; `spread` is odd, so that its state is not zero.
    fn new(seed: u64, spread: u64) -> Random {
        Random(seed.wrapping_mul(spread))
    }

    fn next(&mut self) -> u64 {
        self.0 ^= self.0 << 13;
        self.0 ^= self.0 >> 7;
        self.0 ^= self.0 << 17;
        self.0
    }

    fn byte(&mut self) -> u8 {
        self.next().to_le_bytes()[3]
    }

    /// A number below `limit`.
    fn below(&mut self, limit: u16) -> u16 {
        let [a, b, ..] = (self.next() >> 11).to_le_bytes();
        u16::from_le_bytes([a, b]) % limit
    }

    /// A byte that often means something to a port.
    fn typed(&mut self) -> u8 {
        const TELLING: [u8; 20] = [
            EOF, ERASE, WERASE, KILL, REPRINT, INTR, QUIT, SUSP, START, STOP, LNEXT, NL, CR, 0, 9,
            32, 255, 254, b'a', b';',
        ];
        if self.below(2) == 0 {
            TELLING[usize::from(self.below(20))]
        } else {
            self.byte()
        }
    }

    /// Settings with any flags, default special characters now and then disabled.
    fn settings(&mut self) -> Settings {
        let mut settings = Settings::default();
        let [a, b, c, d, ..] = self.next().to_le_bytes();
        settings.flags = u32::from_le_bytes([a, b, c, d]);
        if self.below(4) == 0 {
            settings.values[usize::from(self.below(13))] = self.byte();
        }
        settings.values[value::MIN] = self.byte() % 4;
        settings.values[value::TIME] = self.byte() % 4;
        settings
    }

    /// A record that is well-formed more often than not.
    fn record(&mut self) -> Vec<u8> {
        match self.below(40) {
            0 => settings_record(&self.settings()),
            1 => record(5, &[]),
            2 | 3 => record(6, &[]),
            4 => record(12, &[]),
            5..=8 => {
                let count = self.below(12);
                let non_blocking = u8::from(self.below(2) == 0);
                read(count, non_blocking)
            }
            9 => read(self.below(1_100), 0),
            10..=12 => {
                let length = self.below(520);
                let bytes: Vec<u8> = (0..length).map(|_| self.typed()).collect();
                record(9, &bytes)
            }
            13..=15 => transmit(self.below(1_000)),
            16 => record(11, &[self.byte() % 5]),
            17 => foreground(u32::from(self.below(3)), self.byte() % 3),
            18 => record(3, &[self.typed()]),
            19 => record(4, &[self.typed()]),
            20 => record(self.below(16), &[self.byte()]),
            _ => good(self.typed()),
        }
    }
}

#[test]
fn random_bytes_do_not_panic() {
    for seed in 1..=8 {
        let mut random = Random::new(seed, 0x9E37_79B9_7F4A_7C15);
        let bytes: Vec<u8> = (0..65_536).map(|_| random.byte()).collect();
        let printed = run_bytes(&bytes);
        assert!(printed.ends_with(" cut\n") || printed.ends_with(" -\n"));
    }
}

#[test]
fn random_short_records_do_not_panic() {
    // Bodies of 0 to 7 bytes and kinds 0 to 15, so that many records are well-formed.
    let mut random = Random(0x1234_5678_9ABC_DEF1);
    let mut bytes = Vec::new();
    while bytes.len() < 65_536 {
        let length = random.below(8);
        let body: Vec<u8> = (0..length).map(|_| random.byte()).collect();
        bytes.extend(record(random.below(16), &body));
    }
    assert!(run_bytes(&bytes).ends_with("-\n"));
}

#[test]
fn random_records_print_a_line_each() {
    for seed in 1..=40 {
        let mut random = Random::new(seed, 0x9E37_79B9_7F4A_7C15);
        let mut records: Vec<Vec<u8>> = (0..3_000).map(|_| random.record()).collect();
        // The hangup comes last: a hung-up port has little to say.
        records.push(record(7, &[]));
        records.extend((0..50).map(|_| random.record()));
        let printed = run(&records);
        assert_eq!(printed.len(), records.len());
        for (index, line) in printed.iter().enumerate() {
            check_line(index, &records[index], line);
        }
    }
}

/// Checks the form of a line against its record.
fn check_line(index: usize, record: &[u8], line: &str) {
    let kind = u16::from_le_bytes([record[2], record[3]]);
    let words: Vec<&str> = line.split(' ').collect();
    assert_eq!(words.len(), 5);
    assert_eq!(words[0], index.to_string());
    assert_eq!(words[1], kind.to_string());
    let count: usize = words[3].parse().expect("the count is a number");
    let given = if words[4] == "-" {
        0
    } else {
        words[4].len() / 2
    };
    match (words[2], kind) {
        ("r1", 1) | ("r3", 8 | 9) | ("r4", 1 | 8) | ("r5", 9) => assert_eq!(count, 0),
        ("r2", _) => {
            assert_eq!(count, 0);
            assert_eq!(trace::decode(kind, &record[4..]), None);
        }
        ("wait", 8) | ("hup", 7) | ("int", 5) => assert_eq!(count, 0),
        ("ok" | "int" | "quit" | "tstp", 2 | 3) | ("ok", 4) => assert_eq!(count, 1),
        ("ok", 8 | 10) => assert_eq!(count, given),
        ("ok", 9) => assert!(count <= 512),
        ("ok", _) => assert_eq!(count, 0),
        _ => panic!("{line} is no line of a record of kind {kind}"),
    }
    assert!(given == 0 || kind == 8 || kind == 10);
}

#[test]
fn the_sizes_hold() {
    for seed in 1..=40 {
        let mut random = Random::new(seed, 0xD134_2543_DE82_EF95);
        let mut port = Port::fresh();
        let mut most_places = 0;
        for _ in 0..3_000 {
            match random.below(60) {
                0 => {
                    port.cancel();
                    let settings = random.settings();
                    let _ = port.change_settings(&settings);
                }
                1 => {
                    port.break_condition();
                }
                2 => port.framing_error(random.byte()),
                3 => {
                    let length = usize::from(random.below(20));
                    let places = port.places_used();
                    if let Ok(ReadAnswer::Given(bytes)) = port.read(length, false) {
                        assert!(bytes.len() <= length);
                        // A mark may have gone with them.
                        let freed = places - port.places_used();
                        assert!(freed == bytes.len() || freed == bytes.len() + 1);
                    }
                }
                4 => {
                    port.transmit(usize::from(random.below(300)));
                }
                5 => port.tick(),
                _ => {
                    port.good_byte(random.typed());
                }
            }
            assert!(port.places_used() <= 1_024);
            assert!(port.queued() <= 2_048);
            assert!(port.column() <= 65_535);
            most_places = most_places.max(port.places_used());
        }
        assert!(most_places > 0);
    }
}
