//! Stored input: the current line, the finished lines, and the bytes of noncanonical mode.

use crate::class::{class_of, Class};
use crate::sizes::{INPUT_PLACES, LINE_BYTES};

/// "A unit is the 1, 2 or 3 bytes stored by one event."
#[derive(Clone, Debug, PartialEq, Eq)]
pub struct Unit {
    pub bytes: Vec<u8>,
    /// Stored by a break or a broken byte: it "had no echo", so REPRINT shows nothing for it.
    pub silent: bool,
}

impl Unit {
    fn is_blank(&self) -> bool {
        // "A unit of several bytes is a non-blank".
        self.bytes.len() == 1 && class_of(self.bytes[0]) == Class::Blank
    }

    fn is_letter_or_underscore(&self) -> bool {
        // A unit of several bytes is "of the second class".
        self.bytes.len() == 1 && class_of(self.bytes[0]) == Class::LetterOrUnderscore
    }
}

/// A finished line: its bytes not yet read, its NL, EOL or EOL2 included.
#[derive(Clone, Debug, PartialEq, Eq)]
pub struct Line {
    pub bytes: Vec<u8>,
    /// Whether an end-of-file mark ends it.
    pub mark: bool,
}

impl Line {
    /// "An end-of-file mark takes one place."
    fn places(&self) -> usize {
        self.bytes.len() + usize::from(self.mark)
    }
}

/// All stored input. Under ICANON `raw` is empty; without it, `finished` and `current` are.
#[derive(Clone, Debug, Default, PartialEq, Eq)]
pub struct Input {
    /// The finished lines, the first to be read first.
    pub finished: Vec<Line>,
    /// The units of the current line.
    pub current: Vec<Unit>,
    /// The bytes stored without ICANON.
    pub raw: Vec<u8>,
    /// "Literal next".
    pub literal_next: bool,
}

impl Input {
    fn current_bytes(&self) -> usize {
        self.current.iter().map(|unit| unit.bytes.len()).sum()
    }

    /// The places used: every stored byte and every mark.
    pub fn places_used(&self) -> usize {
        let finished: usize = self.finished.iter().map(Line::places).sum();
        finished + self.current_bytes() + self.raw.len()
    }

    /// "a delimiter or mark fits if at most 1,023 places are used"
    pub fn delimiter_fits(&self) -> bool {
        self.places_used() < INPUT_PLACES
    }

    /// "another unit of u bytes if the current line has at most 254 - u and the places used
    /// are at most 1,023 - u"
    pub fn canonical_unit_fits(&self, u: usize) -> bool {
        self.current_bytes() + u <= LINE_BYTES && self.places_used() + u < INPUT_PLACES
    }

    /// "without ICANON, used places plus u must be at most 1,024"
    pub fn raw_unit_fits(&self, u: usize) -> bool {
        self.places_used() + u <= INPUT_PLACES
    }

    /// Ends the current line with a stored byte (a delimiter) or with a mark.
    pub fn finish_line(&mut self, delimiter: Option<u8>) {
        let mut bytes = bytes_of(&self.current);
        bytes.extend(delimiter);
        let mark = delimiter.is_none();
        self.finished.push(Line { bytes, mark });
        self.current.clear();
    }

    /// "Flushing input drops finished lines, the current line and "literal next"."
    // OPEN: the bytes stored without ICANON, which are in no line. A flush leaves no input, as
    // in "all input is flushed", so they go as well.
    pub fn flush(&mut self) {
        *self = Input::default();
    }

    /// "if ICANON goes off, all stored bytes become readable and end-of-file marks vanish"
    pub fn icanon_goes_off(&mut self) {
        for line in &self.finished {
            self.raw.extend(&line.bytes);
        }
        self.raw.extend(bytes_of(&self.current));
        self.finished.clear();
        self.current.clear();
    }

    /// "If it goes on, the stored bytes, if any, become one finished line with no delimiter."
    // OPEN: the length of that line and what comes after it. It is "finished", so it may be
    // longer than 254 bytes, and bytes received later begin a new current line.
    pub fn icanon_goes_on(&mut self) {
        if !self.raw.is_empty() {
            self.finished.push(Line {
                bytes: self.raw.clone(),
                mark: false,
            });
            self.raw.clear();
        }
    }

    /// "at most the requested bytes of the first finished line [...] Taking the last byte
    /// before a mark takes the mark. A mark alone answers 0." None if no line is finished.
    pub fn take_from_first_line(&mut self, length: usize) -> Option<Vec<u8>> {
        let line = self.finished.first_mut()?;
        let count = length.min(line.bytes.len());
        let given = line.bytes.drain(..count).collect();
        if line.bytes.is_empty() {
            self.finished.remove(0);
        }
        Some(given)
    }

    /// Takes min(length, stored) of the bytes stored without ICANON.
    pub fn take_raw(&mut self, length: usize) -> Vec<u8> {
        let count = length.min(self.raw.len());
        self.raw.drain(..count).collect()
    }

    /// ERASE "removes the last unit of the current line". Returns how many units went.
    pub fn erase(&mut self) -> usize {
        self.remove_while_last(1, |_| true)
    }

    /// KILL removes "all of it". Returns how many units went.
    pub fn kill(&mut self) -> usize {
        self.remove_while_last(usize::MAX, |_| true)
    }

    /// "WERASE removes trailing blanks (32, 9), then the run of non-blanks." Returns how many
    /// units went.
    pub fn word_erase(&mut self) -> usize {
        let blanks = self.remove_while_last(usize::MAX, Unit::is_blank);
        let word = self.remove_while_last(usize::MAX, |unit| !unit.is_blank());
        blanks + word
    }

    /// "With ALTWERASE: trailing blanks, one further unit, then the longest run of non-blanks
    /// of one class, letters and underscore or all others, the class being that of its last
    /// unit." Returns how many units went.
    pub fn alternative_word_erase(&mut self) -> usize {
        let blanks = self.remove_while_last(usize::MAX, Unit::is_blank);
        let further = self.remove_while_last(1, |_| true);
        let letters = match self.current.last() {
            Some(last) => last.is_letter_or_underscore(),
            None => return blanks + further,
        };
        let run = self.remove_while_last(usize::MAX, |unit| {
            !unit.is_blank() && unit.is_letter_or_underscore() == letters
        });
        blanks + further + run
    }

    /// Removes units from the end of the current line, at most `most`, as long as the last
    /// one is wanted. Returns how many went.
    fn remove_while_last(&mut self, most: usize, wanted: impl Fn(&Unit) -> bool) -> usize {
        let mut removed = 0;
        while removed < most && self.current.last().is_some_and(&wanted) {
            self.current.pop();
            removed += 1;
        }
        removed
    }
}

/// The bytes of these units, one after the other.
fn bytes_of(units: &[Unit]) -> Vec<u8> {
    let mut bytes = Vec::new();
    for unit in units {
        bytes.extend(&unit.bytes);
    }
    bytes
}
