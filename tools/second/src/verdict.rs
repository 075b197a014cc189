//! The job control verdicts. They are no trace records.

use crate::port::{Port, Refusal};
use crate::settings::flag;
use crate::sizes::LARGEST_GROUP;

/// What is known of the process that asks.
#[derive(Clone, Copy, Debug, PartialEq, Eq)]
pub struct Process {
    /// Whether the port is its controlling terminal.
    pub controlling_terminal: bool,
    /// Its process group.
    pub group: u32,
    /// Whether that group is orphaned.
    pub orphaned: bool,
    /// Whether it ignores or blocks the signal in question: TTIN for a read, TTOU for a write
    /// and for changing settings.
    pub ignored_or_blocked: bool,
}

/// The answer to one that asks.
#[derive(Clone, Copy, Debug, PartialEq, Eq)]
pub enum Verdict {
    Allowed,
    Eio,
    /// TTIN goes to the process group.
    Ttin,
    /// TTOU goes to the process group.
    Ttou,
}

impl Port {
    /// May this process read?
    pub fn read_verdict(&self, process: &Process) -> Result<Verdict, Refusal> {
        refuse_group(process)?;
        if self.lets_through(process) {
            return Ok(Verdict::Allowed);
        }
        // "EIO if TTIN is ignored or blocked or the group is orphaned; else TTIN to the group"
        if process.ignored_or_blocked || process.orphaned {
            return Ok(Verdict::Eio);
        }
        Ok(Verdict::Ttin)
    }

    /// May this process write?
    pub fn write_verdict(&self, process: &Process) -> Result<Verdict, Refusal> {
        self.write_verdict_with(process, self.settings().has(flag::TOSTOP))
    }

    /// May this process change settings? "as a write with TOSTOP set"
    pub fn settings_verdict(&self, process: &Process) -> Result<Verdict, Refusal> {
        self.write_verdict_with(process, true)
    }

    fn write_verdict_with(&self, process: &Process, tostop: bool) -> Result<Verdict, Refusal> {
        refuse_group(process)?;
        if self.lets_through(process) {
            return Ok(Verdict::Allowed);
        }
        // "allowed if TOSTOP is clear or TTOU ignored or blocked; else EIO if orphaned; else
        // TTOU"
        if !tostop || process.ignored_or_blocked {
            return Ok(Verdict::Allowed);
        }
        if process.orphaned {
            return Ok(Verdict::Eio);
        }
        Ok(Verdict::Ttou)
    }

    /// "Not the controlling terminal, or in the foreground group: allowed."
    fn lets_through(&self, process: &Process) -> bool {
        // OPEN: "in the foreground group" when the port has none. No process is in a group
        // that is not there, so every process is then in the background.
        let in_foreground = match self.foreground() {
            Some(foreground) => foreground.group == process.group,
            None => false,
        };
        !process.controlling_terminal || in_foreground
    }
}

/// "a group above 2,147,483,647, or a process group of 0 in a verdict"
fn refuse_group(process: &Process) -> Result<(), Refusal> {
    if process.group == 0 || process.group > LARGEST_GROUP {
        return Err(Refusal::BadArgument);
    }
    Ok(())
}

#[cfg(test)]
mod tests {
    use super::*;
    use crate::settings::Settings;

    const FOREGROUND: u32 = 7;
    const BACKGROUND: u32 = 8;

    fn port(tostop: bool) -> Port {
        let mut port = Port::fresh();
        let mut settings = Settings::default();
        if tostop {
            settings.flags |= flag::TOSTOP;
        }
        assert_eq!(port.change_settings(&settings), Ok(()));
        assert_eq!(port.set_foreground(FOREGROUND, false), Ok(()));
        port
    }

    fn process(group: u32, orphaned: bool, ignored_or_blocked: bool) -> Process {
        Process {
            controlling_terminal: true,
            group,
            orphaned,
            ignored_or_blocked,
        }
    }

    #[test]
    fn the_foreground_group_is_allowed_everything() {
        for orphaned in [false, true] {
            for ignored in [false, true] {
                let asks = process(FOREGROUND, orphaned, ignored);
                assert_eq!(port(true).read_verdict(&asks), Ok(Verdict::Allowed));
                assert_eq!(port(true).write_verdict(&asks), Ok(Verdict::Allowed));
                assert_eq!(port(true).settings_verdict(&asks), Ok(Verdict::Allowed));
            }
        }
    }

    #[test]
    fn another_terminal_is_allowed_everything() {
        for orphaned in [false, true] {
            for ignored in [false, true] {
                let mut asks = process(BACKGROUND, orphaned, ignored);
                asks.controlling_terminal = false;
                assert_eq!(port(true).read_verdict(&asks), Ok(Verdict::Allowed));
                assert_eq!(port(true).write_verdict(&asks), Ok(Verdict::Allowed));
                assert_eq!(port(true).settings_verdict(&asks), Ok(Verdict::Allowed));
            }
        }
    }

    #[test]
    fn a_background_read() {
        for (orphaned, ignored, verdict) in [
            (false, false, Verdict::Ttin),
            (false, true, Verdict::Eio),
            (true, false, Verdict::Eio),
            (true, true, Verdict::Eio),
        ] {
            let asks = process(BACKGROUND, orphaned, ignored);
            assert_eq!(port(false).read_verdict(&asks), Ok(verdict));
            assert_eq!(port(true).read_verdict(&asks), Ok(verdict));
        }
    }

    #[test]
    fn a_background_write_and_change_of_settings() {
        for (orphaned, ignored, verdict) in [
            (false, false, Verdict::Ttou),
            (false, true, Verdict::Allowed),
            (true, false, Verdict::Eio),
            (true, true, Verdict::Allowed),
        ] {
            let asks = process(BACKGROUND, orphaned, ignored);
            assert_eq!(port(true).write_verdict(&asks), Ok(verdict));
            assert_eq!(port(false).write_verdict(&asks), Ok(Verdict::Allowed));
            assert_eq!(port(true).settings_verdict(&asks), Ok(verdict));
            assert_eq!(port(false).settings_verdict(&asks), Ok(verdict));
        }
    }

    #[test]
    fn with_no_foreground_group_all_are_in_the_background() {
        let mut port = port(true);
        assert_eq!(port.set_foreground(0, false), Ok(()));
        let asks = process(FOREGROUND, false, false);
        assert_eq!(port.read_verdict(&asks), Ok(Verdict::Ttin));
        assert_eq!(port.write_verdict(&asks), Ok(Verdict::Ttou));
        assert_eq!(port.settings_verdict(&asks), Ok(Verdict::Ttou));
    }

    #[test]
    fn reading_23_refusal_2_comes_before_the_controlling_terminal() {
        for group in [0, 2_147_483_648, u32::MAX] {
            for controlling_terminal in [false, true] {
                let mut asks = process(group, false, false);
                asks.controlling_terminal = controlling_terminal;
                let port = port(true);
                assert_eq!(port.read_verdict(&asks), Err(Refusal::BadArgument));
                assert_eq!(port.write_verdict(&asks), Err(Refusal::BadArgument));
                assert_eq!(port.settings_verdict(&asks), Err(Refusal::BadArgument));
            }
        }
        let largest = process(2_147_483_647, false, false);
        assert_eq!(port(true).read_verdict(&largest), Ok(Verdict::Ttin));
    }
}
