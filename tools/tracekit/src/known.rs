//! Flags by their bits and values by their places, looked up in the table when the program is built.

use crate::names::{bit, place};

pub const IGNBRK: u32 = bit("IGNBRK");
pub const BRKINT: u32 = bit("BRKINT");
pub const IGNPAR: u32 = bit("IGNPAR");
pub const PARMRK: u32 = bit("PARMRK");
pub const INPCK: u32 = bit("INPCK");
pub const ISTRIP: u32 = bit("ISTRIP");
pub const IXON: u32 = bit("IXON");
pub const IXANY: u32 = bit("IXANY");
pub const IMAXBEL: u32 = bit("IMAXBEL");
pub const OPOST: u32 = bit("OPOST");
pub const ONLCR: u32 = bit("ONLCR");
pub const OCRNL: u32 = bit("OCRNL");
pub const TAB3: u32 = bit("TAB3");
pub const ONOEOT: u32 = bit("ONOEOT");
pub const ONOCR: u32 = bit("ONOCR");
pub const ONLRET: u32 = bit("ONLRET");
pub const CLOCAL: u32 = bit("CLOCAL");
pub const ECHO: u32 = bit("ECHO");
pub const ECHONL: u32 = bit("ECHONL");
pub const ISIG: u32 = bit("ISIG");
pub const ICANON: u32 = bit("ICANON");
pub const ALTWERASE: u32 = bit("ALTWERASE");
pub const IEXTEN: u32 = bit("IEXTEN");
pub const NOFLSH: u32 = bit("NOFLSH");

pub const EOF: usize = place("EOF");
pub const EOL: usize = place("EOL");
pub const EOL2: usize = place("EOL2");
pub const ERASE: usize = place("ERASE");
pub const WERASE: usize = place("WERASE");
pub const KILL: usize = place("KILL");
pub const REPRINT: usize = place("REPRINT");
pub const INTR: usize = place("INTR");
pub const QUIT: usize = place("QUIT");
pub const SUSP: usize = place("SUSP");
pub const START: usize = place("START");
pub const STOP: usize = place("STOP");
pub const LNEXT: usize = place("LNEXT");
pub const MIN: usize = place("MIN");
pub const TIME: usize = place("TIME");

/// The flags that turn a break or a broken byte into something other than a stored unit.
pub const BREAK_EATERS: u32 = IGNBRK | BRKINT | IGNPAR;
