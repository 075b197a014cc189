//! The flags, the special characters, MIN and TIME.

/// "Flags by bit, 0 to 31".
pub mod flag {
    pub const IGNBRK: u32 = 1 << 0;
    pub const BRKINT: u32 = 1 << 1;
    pub const IGNPAR: u32 = 1 << 2;
    pub const PARMRK: u32 = 1 << 3;
    pub const INPCK: u32 = 1 << 4;
    pub const ISTRIP: u32 = 1 << 5;
    pub const INLCR: u32 = 1 << 6;
    pub const IGNCR: u32 = 1 << 7;
    pub const ICRNL: u32 = 1 << 8;
    pub const IXON: u32 = 1 << 9;
    pub const IXANY: u32 = 1 << 10;
    pub const IMAXBEL: u32 = 1 << 11;
    pub const OPOST: u32 = 1 << 12;
    pub const ONLCR: u32 = 1 << 13;
    pub const OCRNL: u32 = 1 << 14;
    pub const TAB3: u32 = 1 << 15;
    pub const ONOEOT: u32 = 1 << 16;
    pub const ONOCR: u32 = 1 << 17;
    pub const ONLRET: u32 = 1 << 18;
    pub const CLOCAL: u32 = 1 << 19;
    pub const ECHO: u32 = 1 << 20;
    pub const ECHOE: u32 = 1 << 21;
    pub const ECHOK: u32 = 1 << 22;
    pub const ECHOKE: u32 = 1 << 23;
    pub const ECHONL: u32 = 1 << 24;
    pub const ECHOCTL: u32 = 1 << 25;
    pub const ISIG: u32 = 1 << 26;
    pub const ICANON: u32 = 1 << 27;
    pub const ALTWERASE: u32 = 1 << 28;
    pub const IEXTEN: u32 = 1 << 29;
    pub const TOSTOP: u32 = 1 << 30;
    pub const NOFLSH: u32 = 1 << 31;
}

/// The places of the fifteen values: the special characters, then MIN and TIME.
pub mod value {
    pub const EOF: usize = 0;
    pub const EOL: usize = 1;
    pub const EOL2: usize = 2;
    pub const ERASE: usize = 3;
    pub const WERASE: usize = 4;
    pub const KILL: usize = 5;
    pub const REPRINT: usize = 6;
    pub const INTR: usize = 7;
    pub const QUIT: usize = 8;
    pub const SUSP: usize = 9;
    pub const START: usize = 10;
    pub const STOP: usize = 11;
    pub const LNEXT: usize = 12;
    pub const MIN: usize = 13;
    pub const TIME: usize = 14;
}

/// How many of the values are special characters.
pub const SPECIAL_CHARACTERS: usize = 13;

/// How many values there are in all.
pub const VALUES: usize = 15;

/// "The value 255 disables a special character".
pub const DISABLED: u8 = 255;

/// "Flags set by default".
pub const DEFAULT_FLAGS: u32 = flag::BRKINT
    | flag::ICRNL
    | flag::IXON
    | flag::IMAXBEL
    | flag::OPOST
    | flag::ONLCR
    | flag::ECHO
    | flag::ECHOE
    | flag::ECHOKE
    | flag::ECHOCTL
    | flag::ISIG
    | flag::ICANON
    | flag::IEXTEN;

/// The special characters' defaults in the order of the document, then MIN and TIME.
pub const DEFAULT_VALUES: [u8; VALUES] =
    [4, 255, 255, 127, 23, 21, 18, 3, 28, 26, 17, 19, 22, 1, 0];

/// The settings of a port.
#[derive(Clone, Copy, Debug, PartialEq, Eq)]
pub struct Settings {
    pub flags: u32,
    pub values: [u8; VALUES],
}

impl Default for Settings {
    fn default() -> Settings {
        Settings {
            flags: DEFAULT_FLAGS,
            values: DEFAULT_VALUES,
        }
    }
}

impl Settings {
    /// Whether this flag is set.
    pub fn has(&self, flag: u32) -> bool {
        self.flags & flag != 0
    }

    /// Whether `byte` is this special character. A disabled one is no byte at all.
    pub fn is(&self, special: usize, byte: u8) -> bool {
        self.values[special] != DISABLED && self.values[special] == byte
    }

    /// MIN, a plain number.
    pub fn min(&self) -> usize {
        usize::from(self.values[value::MIN])
    }

    /// TIME, a plain number of tenths of a second.
    pub fn time(&self) -> u8 {
        self.values[value::TIME]
    }

    /// Whether refusal 1 is due: "settings where two enabled special characters are equal,
    /// or one is 10 or 13".
    pub fn are_refused(&self) -> bool {
        let enabled: Vec<u8> = self.values[..SPECIAL_CHARACTERS]
            .iter()
            .copied()
            .filter(|&character| character != DISABLED)
            .collect();
        for (place, character) in enabled.iter().enumerate() {
            if *character == 10 || *character == 13 || enabled[..place].contains(character) {
                return true;
            }
        }
        false
    }
}

#[cfg(test)]
mod tests {
    use super::*;

    #[test]
    fn the_default_flags_as_a_number() {
        // Bits 1, 8, 9, 11; 12, 13; 20, 21, 23, 25; 26, 27, 29.
        assert_eq!(DEFAULT_FLAGS, 0x2EB0_3B02);
    }

    #[test]
    fn every_bit_is_a_flag() {
        assert_eq!(flag::IGNBRK, 1);
        assert_eq!(flag::IMAXBEL, 1 << 11);
        assert_eq!(flag::ONLRET, 1 << 18);
        assert_eq!(flag::CLOCAL, 1 << 19);
        assert_eq!(flag::ECHOCTL, 1 << 25);
        assert_eq!(flag::NOFLSH, 1 << 31);
    }

    #[test]
    fn the_defaults_are_not_refused() {
        assert!(!Settings::default().are_refused());
    }

    #[test]
    fn equal_enabled_characters_are_refused() {
        for first in 0..SPECIAL_CHARACTERS {
            for second in 0..SPECIAL_CHARACTERS {
                let mut settings = Settings::default();
                settings.values[first] = 200;
                settings.values[second] = 200;
                assert_eq!(settings.are_refused(), first != second);
                settings.values[first] = DISABLED;
                settings.values[second] = DISABLED;
                assert!(!settings.are_refused());
            }
        }
    }

    #[test]
    fn ten_and_thirteen_are_refused() {
        for special in 0..SPECIAL_CHARACTERS {
            for (byte, refused) in [(10, true), (13, true), (9, false), (0, false)] {
                let mut settings = Settings::default();
                settings.values[special] = byte;
                assert_eq!(settings.are_refused(), refused);
            }
        }
    }

    #[test]
    fn min_and_time_are_plain_numbers() {
        for number in [0, 3, 10, 13, 255] {
            let mut settings = Settings::default();
            settings.values[value::MIN] = number;
            settings.values[value::TIME] = number;
            assert!(!settings.are_refused());
            assert_eq!(settings.min(), usize::from(number));
            assert_eq!(settings.time(), number);
        }
    }

    #[test]
    fn a_disabled_character_matches_nothing_and_zero_is_real() {
        let mut settings = Settings::default();
        assert!(!settings.is(value::EOL, 255));
        settings.values[value::EOL] = 0;
        assert!(settings.is(value::EOL, 0));
        assert!(!settings.is(value::EOL, 255));
    }
}
