//! The output queue, output processing and the column.

use crate::settings::{flag, Settings};
use crate::sizes::{COLUMN_INSTEAD, LARGEST_COLUMN, OUTPUT_BYTES};

/// The byte queued when input does not fit.
const BELL: u8 = 7;

/// What is to be sent, and where the cursor will then be.
#[derive(Clone, Debug, Default, PartialEq, Eq)]
pub struct Output {
    /// The queued bytes, the oldest first.
    pub queue: Vec<u8>,
    /// The column after all queued bytes.
    pub column: u32,
    /// Whether STOP has stopped output.
    pub stopped: bool,
}

/// What output processing makes of one byte, with the column just before it.
pub fn process(byte: u8, column: u32, settings: &Settings) -> Vec<u8> {
    if !settings.has(flag::OPOST) {
        return vec![byte];
    }
    match byte {
        // "ONOEOT drops 4"
        4 if settings.has(flag::ONOEOT) => vec![],
        // "TAB3 turns 9 into 8 - (column mod 8) spaces"
        9 if settings.has(flag::TAB3) => (column % 8..8).map(|_| 32).collect(),
        // "OCRNL turns 13 into 10, not expanded again"
        13 if settings.has(flag::OCRNL) => vec![10],
        // "ONOCR drops a 13 still to be sent at column 0"
        13 if settings.has(flag::ONOCR) && column == 0 => vec![],
        // "ONLCR turns a written 10 into 13,10, or 10 alone under ONOCR at column 0"
        10 if settings.has(flag::ONLCR) => {
            if settings.has(flag::ONOCR) && column == 0 {
                vec![10]
            } else {
                vec![13, 10]
            }
        }
        _ => vec![byte],
    }
}

/// The column after one queued byte.
pub fn column_after(column: u32, byte: u8, settings: &Settings) -> u32 {
    let returns = settings.has(flag::OPOST) && settings.has(flag::ONLRET);
    let result = match byte {
        13 => 0,
        // "8 steps back, not below 0"
        8 => column.saturating_sub(1),
        // "9 goes to the next multiple of 8"
        9 => column - column % 8 + 8,
        // "10 gives 0 under OPOST and ONLRET"
        10 if returns => 0,
        // "other bytes below 32 and 127 leave it"
        0..=31 | 127 => column,
        // "the rest add one"
        _ => column + 1,
    };
    if result > LARGEST_COLUMN {
        COLUMN_INSTEAD
    } else {
        result
    }
}

impl Output {
    /// Puts bytes in the queue as they are, if there is room for all of them.
    fn queue_bytes(&mut self, bytes: &[u8], settings: &Settings) -> bool {
        if self.queue.len() + bytes.len() > OUTPUT_BYTES {
            return false;
        }
        for &byte in bytes {
            self.queue.push(byte);
            self.column = column_after(self.column, byte, settings);
        }
        true
    }

    /// Puts the processed form of all these bytes in the queue, or nothing of it: then the
    /// column stays too.
    pub fn queue_processed(&mut self, bytes: &[u8], settings: &Settings) -> bool {
        let mut processed = Vec::new();
        let mut column = self.column;
        for &byte in bytes {
            let expansion = process(byte, column, settings);
            for &sent in &expansion {
                column = column_after(column, sent, settings);
            }
            processed.extend(expansion);
        }
        self.queue_bytes(&processed, settings)
    }

    /// "IMAXBEL queues byte 7 unprocessed, if there is room".
    pub fn ring_bell(&mut self, settings: &Settings) {
        self.queue_bytes(&[BELL], settings);
    }

    /// "A write takes bytes until one's whole expansion does not fit, then stops there".
    /// Returns how many were taken.
    pub fn write(&mut self, bytes: &[u8], settings: &Settings) -> usize {
        let mut taken = 0;
        for &byte in bytes {
            if !self.queue_processed(&[byte], settings) {
                break;
            }
            taken += 1;
        }
        taken
    }

    /// "Transmit hands out the oldest queued bytes, none while stopped."
    pub fn transmit(&mut self, count: usize) -> Vec<u8> {
        if self.stopped {
            return vec![];
        }
        let count = count.min(self.queue.len());
        self.queue.drain(..count).collect()
    }

    /// "Flushing output empties its queue; column and "stopped" stay."
    pub fn flush(&mut self) {
        self.queue.clear();
    }
}

#[cfg(test)]
mod tests {
    use super::*;

    fn settings(flags: u32) -> Settings {
        Settings {
            flags,
            ..Settings::default()
        }
    }

    #[test]
    fn without_opost_nothing_is_processed() {
        let all_but_opost = settings(!flag::OPOST);
        for byte in 0..=255 {
            assert_eq!(process(byte, 0, &all_but_opost), vec![byte]);
            assert_eq!(process(byte, 5, &all_but_opost), vec![byte]);
        }
    }

    #[test]
    fn opost_alone_changes_nothing() {
        for byte in 0..=255 {
            assert_eq!(process(byte, 0, &settings(flag::OPOST)), vec![byte]);
        }
    }

    #[test]
    fn tabs_become_spaces() {
        let tabs = settings(flag::OPOST | flag::TAB3);
        for column in 0..20 {
            let spaces = process(9, column, &tabs);
            assert_eq!(spaces.len(), 8 - (column % 8) as usize);
            assert!(spaces.iter().all(|&byte| byte == 32));
        }
    }

    #[test]
    fn returns_and_newlines() {
        let ocrnl = settings(flag::OPOST | flag::OCRNL | flag::ONLCR | flag::ONOCR);
        assert_eq!(process(13, 0, &ocrnl), vec![10]);
        assert_eq!(process(13, 4, &ocrnl), vec![10]);
        assert_eq!(process(10, 0, &ocrnl), vec![10]);
        assert_eq!(process(10, 4, &ocrnl), vec![13, 10]);
        let onocr = settings(flag::OPOST | flag::ONOCR);
        assert_eq!(process(13, 0, &onocr), Vec::<u8>::new());
        assert_eq!(process(13, 1, &onocr), vec![13]);
        assert_eq!(process(10, 0, &onocr), vec![10]);
        assert_eq!(process(10, 1, &onocr), vec![10]);
        let onlcr = settings(flag::OPOST | flag::ONLCR);
        assert_eq!(process(10, 0, &onlcr), vec![13, 10]);
    }

    #[test]
    fn the_column_rules() {
        let plain = settings(flag::OPOST);
        let onlret = settings(flag::OPOST | flag::ONLRET);
        assert_eq!(column_after(7, 13, &plain), 0);
        assert_eq!(column_after(7, 8, &plain), 6);
        assert_eq!(column_after(0, 8, &plain), 0);
        assert_eq!(column_after(0, 9, &plain), 8);
        assert_eq!(column_after(7, 9, &plain), 8);
        assert_eq!(column_after(8, 9, &plain), 16);
        assert_eq!(column_after(7, 10, &plain), 7);
        assert_eq!(column_after(7, 10, &onlret), 0);
        assert_eq!(column_after(7, 10, &settings(flag::ONLRET)), 7);
        assert_eq!(column_after(7, 7, &plain), 7);
        assert_eq!(column_after(7, 31, &plain), 7);
        assert_eq!(column_after(7, 127, &plain), 7);
        assert_eq!(column_after(7, 32, &plain), 8);
        assert_eq!(column_after(7, 128, &plain), 8);
        assert_eq!(column_after(7, 255, &plain), 8);
    }

    #[test]
    fn the_column_has_a_ceiling() {
        let plain = settings(flag::OPOST);
        assert_eq!(column_after(65_534, 65, &plain), 65_535);
        assert_eq!(column_after(65_535, 65, &plain), 65_528);
        assert_eq!(column_after(65_527, 9, &plain), 65_528);
        assert_eq!(column_after(65_528, 9, &plain), 65_528);
        assert_eq!(column_after(65_535, 9, &plain), 65_528);
        let tabs = settings(flag::OPOST | flag::TAB3);
        let mut output = Output {
            column: 65_530,
            ..Output::default()
        };
        assert_eq!(output.write(&[9], &tabs), 1);
        assert_eq!((output.queue.len(), output.column), (6, 65_528));
    }

    #[test]
    fn a_write_stops_at_the_first_byte_that_does_not_fit() {
        let onlcr = settings(flag::OPOST | flag::ONLCR);
        let mut output = Output::default();
        assert_eq!(output.write(&[65; 2_047], &onlcr), 2_047);
        // The 10 needs two places, and the byte after it is not taken in its stead.
        assert_eq!(output.write(&[10, 66], &onlcr), 0);
        assert_eq!(output.column, 2_047);
        assert_eq!(output.write(&[66, 10], &onlcr), 1);
        assert_eq!(output.queue.len(), 2_048);
    }
}
