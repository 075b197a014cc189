//! The port: received events, settings, reads, writes and flushes.

use crate::class::{class_of, Class};
use crate::input::{Input, Unit};
use crate::output::Output;
use crate::settings::{flag, value, Settings};
use crate::sizes::LARGEST_GROUP;

/// What one removed unit shows under ECHOE or ECHOKE.
const RUBOUT: [u8; 3] = [8, 32, 8];

/// A refusal. The port keeps every byte.
#[derive(Clone, Copy, Debug, PartialEq, Eq)]
pub enum Refusal {
    /// 1: equal special characters, or one that is 10 or 13.
    BadSettings,
    /// 2: a group, a flush choice or a trace record that is none.
    BadArgument,
    /// 3: nothing to give, or nothing could be taken.
    NothingMoved,
    /// 4: a read waits.
    ReadWaits,
    /// 5: a write on a hung-up port.
    HungUp,
}

impl Refusal {
    /// The number in the document's table.
    pub fn number(self) -> u8 {
        match self {
            Refusal::BadSettings => 1,
            Refusal::BadArgument => 2,
            Refusal::NothingMoved => 3,
            Refusal::ReadWaits => 4,
            Refusal::HungUp => 5,
        }
    }
}

/// A signal that an event reports.
#[derive(Clone, Copy, Debug, PartialEq, Eq)]
pub enum Signal {
    Int,
    Quit,
    Tstp,
    Hup,
}

/// The answer to a read that is not refused.
#[derive(Clone, Debug, PartialEq, Eq)]
pub enum ReadAnswer {
    Given(Vec<u8>),
    Wait,
}

/// The foreground group, "a number 1..2,147,483,647 with an orphaned mark".
#[derive(Clone, Copy, Debug, PartialEq, Eq)]
pub struct Foreground {
    pub group: u32,
    pub orphaned: bool,
}

/// The timer of a waiting read.
#[derive(Clone, Copy, Debug, PartialEq, Eq)]
enum Timer {
    Off,
    /// So many tenths of a second are left; never zero.
    Running(u8),
    /// It came to zero.
    Expired,
}

/// A read that waits.
#[derive(Clone, Copy, Debug, PartialEq, Eq)]
struct Waiting {
    length: usize,
    timer: Timer,
}

/// A port.
#[derive(Clone, Debug, PartialEq, Eq)]
pub struct Port {
    settings: Settings,
    input: Input,
    output: Output,
    foreground: Option<Foreground>,
    waiting: Option<Waiting>,
    hung_up: bool,
}

impl Port {
    /// "A fresh port holds no byte, column 0, no foreground group, default settings."
    pub fn fresh() -> Port {
        Port {
            settings: Settings::default(),
            input: Input::default(),
            output: Output::default(),
            foreground: None,
            waiting: None,
            hung_up: false,
        }
    }

    /// The settings of now.
    pub fn settings(&self) -> &Settings {
        &self.settings
    }

    /// The foreground group of now.
    pub fn foreground(&self) -> Option<Foreground> {
        self.foreground
    }

    /// How many of the places of stored input are used.
    pub fn places_used(&self) -> usize {
        self.input.places_used()
    }

    /// How many bytes are queued for output.
    pub fn queued(&self) -> usize {
        self.output.queue.len()
    }

    /// The column after all queued bytes.
    pub fn column(&self) -> u32 {
        self.output.column
    }

    fn has(&self, flag: u32) -> bool {
        self.settings.has(flag)
    }

    // Calls.

    /// New settings. "Settings test 4, then 1."
    // OPEN: "A read on a hung-up port [...] ends any waiting read". Nothing says that the
    // hangup itself ends it, so after a hangup settings are refused (4) until a read or a
    // cancel has ended the wait. Nothing refuses settings on a hung-up port otherwise.
    pub fn change_settings(&mut self, new: &Settings) -> Result<(), Refusal> {
        if self.waiting.is_some() {
            return Err(Refusal::ReadWaits);
        }
        if new.are_refused() {
            return Err(Refusal::BadSettings);
        }
        if self.has(flag::ICANON) && !new.has(flag::ICANON) {
            self.input.icanon_goes_off();
        }
        if !self.has(flag::ICANON) && new.has(flag::ICANON) {
            self.input.icanon_goes_on();
        }
        if self.has(flag::IXON) && !new.has(flag::IXON) {
            self.output.stopped = false;
        }
        self.settings = *new;
        Ok(())
    }

    /// Sets the foreground group; 0 sets none, and then there is no orphaned mark either.
    pub fn set_foreground(&mut self, group: u32, orphaned: bool) -> Result<(), Refusal> {
        if group > LARGEST_GROUP {
            return Err(Refusal::BadArgument);
        }
        self.foreground = if group == 0 {
            None
        } else {
            Some(Foreground { group, orphaned })
        };
        Ok(())
    }

    /// Flushes input (1), output (2) or both (3).
    pub fn flush(&mut self, choice: u8) -> Result<(), Refusal> {
        match choice {
            1 => self.flush_input(),
            2 => self.output.flush(),
            3 => self.flush_both(),
            _ => return Err(Refusal::BadArgument),
        }
        Ok(())
    }

    /// A write. It "tests 5, then 3". Returns how many bytes were taken.
    pub fn write(&mut self, bytes: &[u8]) -> Result<usize, Refusal> {
        if self.hung_up {
            return Err(Refusal::HungUp);
        }
        let taken = self.output.write(bytes, &self.settings);
        if taken == 0 && !bytes.is_empty() {
            return Err(Refusal::NothingMoved);
        }
        Ok(taken)
    }

    /// Hands out at most `count` queued bytes.
    pub fn transmit(&mut self, count: usize) -> Vec<u8> {
        self.output.transmit(count)
    }

    /// "Cancel ends a waiting read and moves nothing."
    // OPEN: a cancel when no read waits. There is no refusal for it, so it does nothing.
    pub fn cancel(&mut self) {
        self.waiting = None;
    }

    /// A read: "on a hung-up port answers 0 bytes and ends any waiting read; otherwise 4, then
    /// length 0 (answers 0, takes nothing), then the rules below".
    pub fn read(&mut self, length: usize, non_blocking: bool) -> Result<ReadAnswer, Refusal> {
        if self.hung_up {
            self.waiting = None;
            return Ok(ReadAnswer::Given(vec![]));
        }
        if let Some(waiting) = self.waiting {
            if non_blocking || waiting.length != length {
                return Err(Refusal::ReadWaits);
            }
        }
        if length == 0 {
            return Ok(ReadAnswer::Given(vec![]));
        }
        let given = if self.has(flag::ICANON) {
            self.input.take_from_first_line(length)
        } else {
            self.take_noncanonical(length, non_blocking)
        };
        match given {
            Some(bytes) => {
                self.waiting = None;
                Ok(ReadAnswer::Given(bytes))
            }
            None if non_blocking => Err(Refusal::NothingMoved),
            None => {
                self.wait(length);
                Ok(ReadAnswer::Wait)
            }
        }
    }

    /// What a noncanonical read takes: min(length, stored), if it may take it now.
    fn take_noncanonical(&mut self, length: usize, non_blocking: bool) -> Option<Vec<u8>> {
        let may_take = if non_blocking {
            // "Non-blocking takes that at once, whatever MIN and TIME are, or gives refusal 3
            // if no byte is stored"
            !self.input.raw.is_empty()
        } else {
            self.is_done(length)
        };
        if !may_take {
            return None;
        }
        Some(self.input.take_raw(length))
    }

    /// Whether a blocking noncanonical read of this length is done.
    fn is_done(&self, length: usize) -> bool {
        let min = self.settings.min();
        let stored = self.input.raw.len();
        let expired = match self.waiting {
            Some(waiting) => waiting.timer == Timer::Expired,
            None => false,
        };
        if min == 0 {
            // "for MIN 0, when one is"; "MIN and TIME both 0: at once, 0 if empty"
            stored >= 1 || self.settings.time() == 0 || expired
        } else {
            // "done when min(MIN, n) bytes are stored"
            stored >= min.min(length) || expired
        }
    }

    /// Lets a read wait. One that waits already goes on as it is: its timer is not restarted.
    fn wait(&mut self, length: usize) {
        if self.waiting.is_some() {
            return;
        }
        let timer = if self.timer_starts_with_read() {
            Timer::Running(self.settings.time())
        } else {
            Timer::Off
        };
        self.waiting = Some(Waiting { length, timer });
    }

    /// MIN and TIME above 0: "the timer starts at TIME with the read if any byte is stored
    /// then". "MIN 0, TIME above 0: it starts with the read".
    fn timer_starts_with_read(&self) -> bool {
        let timed = !self.has(flag::ICANON) && self.settings.time() > 0;
        timed && (self.settings.min() == 0 || !self.input.raw.is_empty())
    }

    /// MIN and TIME above 0: the timer starts "with the first unit stored; it starts again
    /// with each further unit". At zero, "new bytes no longer restart it".
    fn timer_sees_unit(&mut self) {
        let between_units =
            !self.has(flag::ICANON) && self.settings.min() > 0 && self.settings.time() > 0;
        if !between_units {
            return;
        }
        if let Some(waiting) = &mut self.waiting {
            if waiting.timer != Timer::Expired {
                waiting.timer = Timer::Running(self.settings.time());
            }
        }
    }

    /// Of MIN above 0: "An input flush turns this timer off, expired or not, until the next
    /// unit." Of MIN 0: "no flush touches it".
    fn timer_sees_input_flush(&mut self) {
        if self.settings.min() == 0 {
            return;
        }
        if let Some(waiting) = &mut self.waiting {
            waiting.timer = Timer::Off;
        }
    }

    // Flushing.

    fn flush_input(&mut self) {
        self.input.flush();
        self.timer_sees_input_flush();
    }

    fn flush_both(&mut self) {
        self.flush_input();
        self.output.flush();
    }

    // Received events. "A hung-up port ignores them, ticks too."

    /// "While a read waits, each tenth of a second lowers it by one".
    pub fn tick(&mut self) {
        if self.hung_up {
            return;
        }
        if let Some(waiting) = &mut self.waiting {
            waiting.timer = match waiting.timer {
                Timer::Off => Timer::Off,
                Timer::Running(0 | 1) => Timer::Expired,
                Timer::Running(left) => Timer::Running(left - 1),
                Timer::Expired => Timer::Expired,
            };
        }
    }

    /// "Hangup: ignored under CLOCAL; else both queues are flushed, the port is hung up, HUP
    /// goes to the controlling process."
    pub fn hangup(&mut self) -> Option<Signal> {
        if self.hung_up || self.has(flag::CLOCAL) {
            return None;
        }
        self.flush_both();
        self.hung_up = true;
        Some(Signal::Hup)
    }

    /// "Break: IGNBRK, nothing. Else BRKINT, flush both and INT. Else PARMRK, store 255,0,0;
    /// else store 0."
    pub fn break_condition(&mut self) -> Option<Signal> {
        if self.hung_up || self.has(flag::IGNBRK) {
            return None;
        }
        if self.has(flag::BRKINT) {
            self.flush_both();
            return self.reported(Signal::Int);
        }
        if self.has(flag::PARMRK) {
            self.store_silent(vec![255, 0, 0]);
        } else {
            self.store_silent(vec![0]);
        }
        None
    }

    /// "Parity error with INPCK clear: a good byte."
    pub fn parity_error(&mut self, byte: u8) -> Option<Signal> {
        if !self.has(flag::INPCK) {
            return self.good_byte(byte);
        }
        self.broken_byte(byte);
        None
    }

    /// A byte with a framing error.
    pub fn framing_error(&mut self, byte: u8) {
        self.broken_byte(byte);
    }

    /// "Other parity errors and all framing errors: IGNPAR drops; else PARMRK stores 255,0,X;
    /// else 0." X is the byte as received.
    fn broken_byte(&mut self, byte: u8) {
        if self.hung_up || self.has(flag::IGNPAR) {
            return;
        }
        if self.has(flag::PARMRK) {
            self.store_silent(vec![255, 0, byte]);
        } else {
            self.store_silent(vec![0]);
        }
    }

    /// "These stored units are literal, have no echo and leave "literal next" as it is."
    fn store_silent(&mut self, bytes: Vec<u8>) {
        self.store_unit(Unit {
            bytes,
            silent: true,
        });
    }

    /// A good byte. The numbers are those of the document's steps.
    pub fn good_byte(&mut self, received: u8) -> Option<Signal> {
        if self.hung_up {
            return None;
        }
        // 1. "ISTRIP keeps the low seven bits."
        let byte = if self.has(flag::ISTRIP) {
            received & 127
        } else {
            received
        };
        // 2. "IXON and IXANY: output resumes."
        if self.has(flag::IXON) && self.has(flag::IXANY) {
            self.output.stopped = false;
        }
        // 3. ""Literal next", if set, is cleared; the byte goes to step 9 as literal."
        if self.input.literal_next {
            self.input.literal_next = false;
            self.store_ordinary(byte);
            return None;
        }
        // 4. "IEXTEN and LNEXT: set "literal next". No echo."
        if self.has(flag::IEXTEN) && self.settings.is(value::LNEXT, byte) {
            self.input.literal_next = true;
            return None;
        }
        // 5. "ISIG: INTR, QUIT, SUSP signal INT, QUIT, TSTP."
        if let Some(signal) = self.signal_of(byte) {
            return self.signal_byte(byte, signal);
        }
        // 6. "IXON: STOP stops output, START resumes it. Consumed, no echo."
        if self.has(flag::IXON) && self.settings.is(value::STOP, byte) {
            self.output.stopped = true;
            return None;
        }
        if self.has(flag::IXON) && self.settings.is(value::START, byte) {
            self.output.stopped = false;
            return None;
        }
        // 7.
        let byte = self.mapped(byte)?;
        // 8. "ICANON: ERASE, WERASE, KILL, REPRINT edit and are consumed."
        if self.has(flag::ICANON) && self.edit(byte) {
            return None;
        }
        // 9.
        self.store_non_literal(byte);
        None
    }

    // Step 5.

    fn signal_of(&self, byte: u8) -> Option<Signal> {
        if !self.has(flag::ISIG) {
            None
        } else if self.settings.is(value::INTR, byte) {
            Some(Signal::Int)
        } else if self.settings.is(value::QUIT, byte) {
            Some(Signal::Quit)
        } else if self.settings.is(value::SUSP, byte) {
            Some(Signal::Tstp)
        } else {
            None
        }
    }

    /// "Both queues are flushed unless NOFLSH; then the byte is echoed."
    fn signal_byte(&mut self, byte: u8, signal: Signal) -> Option<Signal> {
        if !self.has(flag::NOFLSH) {
            self.flush_both();
        }
        self.show(&self.echo_of(byte));
        self.reported(signal)
    }

    /// "INT, QUIT and TSTP go to the foreground group; with none, no signal is reported, nor
    /// TSTP for an orphaned group".
    fn reported(&self, signal: Signal) -> Option<Signal> {
        let foreground = self.foreground?;
        if signal == Signal::Tstp && foreground.orphaned {
            return None;
        }
        Some(signal)
    }

    // Step 7.

    /// "13: IGNCR drops, else ICRNL makes it 10. A received 10 becomes 13 under INLCR. One
    /// mapping only." None if the byte is dropped.
    fn mapped(&self, byte: u8) -> Option<u8> {
        match byte {
            13 if self.has(flag::IGNCR) => None,
            13 if self.has(flag::ICRNL) => Some(10),
            10 if self.has(flag::INLCR) => Some(13),
            _ => Some(byte),
        }
    }

    // Step 8.

    /// Edits the current line if this byte does. Returns whether it was consumed.
    fn edit(&mut self, byte: u8) -> bool {
        if self.settings.is(value::ERASE, byte) {
            let removed = self.input.erase();
            self.show_erased(byte, removed);
        } else if self.settings.is(value::WERASE, byte) {
            let removed = if self.has(flag::ALTWERASE) {
                self.input.alternative_word_erase()
            } else {
                self.input.word_erase()
            };
            self.show_erased(byte, removed);
        } else if self.settings.is(value::KILL, byte) {
            let removed = self.input.kill();
            self.show_killed(byte, removed);
        } else if self.settings.is(value::REPRINT, byte) {
            self.reprint(byte);
        } else {
            return false;
        }
        true
    }

    /// "ERASE and WERASE under ECHOE show 8,32,8 for each unit removed, else their own echo."
    // OPEN: a removed unit that was never shown (silent, or stored under ECHO clear) and one
    // that was shown as two bytes. The words are "for each unit removed", so each gets one
    // 8,32,8.
    fn show_erased(&mut self, byte: u8, removed: usize) {
        // "On an empty line ERASE, WERASE and KILL do and show nothing."
        if removed == 0 {
            return;
        }
        if self.has(flag::ECHOE) {
            self.show(&RUBOUT.repeat(removed));
        } else {
            self.show(&self.echo_of(byte));
        }
    }

    /// "KILL: ECHOKE 8,32,8 for each unit; else its echo, and 10 if ECHOK."
    fn show_killed(&mut self, byte: u8, removed: usize) {
        if removed == 0 {
            return;
        }
        if self.has(flag::ECHOKE) {
            self.show(&RUBOUT.repeat(removed));
            return;
        }
        let mut shown = self.echo_of(byte);
        if self.has(flag::ECHOK) {
            shown.push(10);
        }
        self.show(&shown);
    }

    /// "REPRINT: its echo, 10, then each unit's echo again." A silent unit has none, and a
    /// doubled 255 is echoed once.
    fn reprint(&mut self, byte: u8) {
        let mut shown = self.echo_of(byte);
        shown.push(10);
        for unit in self.input.current.iter().filter(|unit| !unit.silent) {
            if let Some(&first) = unit.bytes.first() {
                shown.extend(self.echo_of(first));
            }
        }
        self.show(&shown);
    }

    // Step 9.

    /// "Under ICANON a non-literal 10, EOL or EOL2 is stored and ends the line; a non-literal
    /// EOF stores a mark that ends it, without echo."
    fn store_non_literal(&mut self, byte: u8) {
        if !self.has(flag::ICANON) {
            self.store_ordinary(byte);
        } else if self.settings.is(value::EOF, byte) {
            if self.input.delimiter_fits() {
                self.input.finish_line(None);
            } else {
                self.does_not_fit();
            }
        } else if byte == 10
            || self.settings.is(value::EOL, byte)
            || self.settings.is(value::EOL2, byte)
        {
            if self.input.delimiter_fits() {
                self.input.finish_line(Some(byte));
                self.show_stored(byte);
            } else {
                self.does_not_fit();
            }
        } else {
            self.store_ordinary(byte);
        }
    }

    /// Stores a byte that ends no line. "A 255 with PARMRK set, IGNPAR and ISTRIP clear is
    /// stored twice, echoed once."
    fn store_ordinary(&mut self, byte: u8) {
        let doubled = byte == 255
            && self.has(flag::PARMRK)
            && !self.has(flag::IGNPAR)
            && !self.has(flag::ISTRIP);
        let bytes = if doubled { vec![255, 255] } else { vec![byte] };
        let stored = self.store_unit(Unit {
            bytes,
            silent: false,
        });
        if stored {
            self.show_stored(byte);
        }
    }

    /// Stores a unit that ends no line. Returns whether it was stored.
    fn store_unit(&mut self, unit: Unit) -> bool {
        let u = unit.bytes.len();
        let fits = if self.has(flag::ICANON) {
            self.input.canonical_unit_fits(u)
        } else {
            self.input.raw_unit_fits(u)
        };
        if !fits {
            self.does_not_fit();
            return false;
        }
        if self.has(flag::ICANON) {
            self.input.current.push(unit);
        } else {
            self.input.raw.extend(unit.bytes);
        }
        self.timer_sees_unit();
        true
    }

    /// "What does not fit is dropped without echo: IMAXBEL queues byte 7 unprocessed, if there
    /// is room; else all input is flushed." The "else" is that of IMAXBEL.
    fn does_not_fit(&mut self) {
        if self.has(flag::IMAXBEL) {
            self.output.ring_bell(&self.settings);
        } else {
            self.flush_input();
        }
    }

    // Echo.

    /// The echo of one byte: "a byte shows as itself; under ECHOCTL controls but 10 show as 94
    /// and the byte plus 64 (63 for 127)".
    fn echo_of(&self, byte: u8) -> Vec<u8> {
        let as_control = self.has(flag::ECHOCTL) && class_of(byte) == Class::Control && byte != 10;
        match byte {
            127 if as_control => vec![94, 63],
            _ if as_control => vec![94, byte.saturating_add(64)],
            _ => vec![byte],
        }
    }

    /// Shows the echo of one event, if ECHO is set. "Echo passes through output processing. If
    /// one event's echo does not fit whole, none is queued."
    fn show(&mut self, echo: &[u8]) {
        if self.has(flag::ECHO) {
            self.output.queue_processed(echo, &self.settings);
        }
    }

    /// Shows a byte that step 9 has stored. "ECHO clear: nothing is shown, except 10 when it is
    /// stored by step 9 under ECHONL and ICANON."
    fn show_stored(&mut self, byte: u8) {
        if self.has(flag::ECHO) {
            self.show(&self.echo_of(byte));
        } else if byte == 10 && self.has(flag::ECHONL) && self.has(flag::ICANON) {
            self.output.queue_processed(&[10], &self.settings);
        }
    }
}
