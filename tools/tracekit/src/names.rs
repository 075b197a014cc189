//! The one table of names: flags and special characters with their defaults, in document 01's order.

/// Each flag with its default; its place in the table is its bit.
pub const FLAGS: [(&str, bool); 32] = [
    ("IGNBRK", false),
    ("BRKINT", true),
    ("IGNPAR", false),
    ("PARMRK", false),
    ("INPCK", false),
    ("ISTRIP", false),
    ("INLCR", false),
    ("IGNCR", false),
    ("ICRNL", true),
    ("IXON", true),
    ("IXANY", false),
    ("IMAXBEL", true),
    ("OPOST", true),
    ("ONLCR", true),
    ("OCRNL", false),
    ("TAB3", false),
    ("ONOEOT", false),
    ("ONOCR", false),
    ("ONLRET", false),
    ("CLOCAL", false),
    ("ECHO", true),
    ("ECHOE", true),
    ("ECHOK", false),
    ("ECHOKE", true),
    ("ECHONL", false),
    ("ECHOCTL", true),
    ("ISIG", true),
    ("ICANON", true),
    ("ALTWERASE", false),
    ("IEXTEN", true),
    ("TOSTOP", false),
    ("NOFLSH", false),
];

/// Each value of a settings record with its default: the special characters, then MIN and TIME.
pub const VALUES: [(&str, u8); 15] = [
    ("EOF", 4),
    ("EOL", OFF),
    ("EOL2", OFF),
    ("ERASE", 127),
    ("WERASE", 23),
    ("KILL", 21),
    ("REPRINT", 18),
    ("INTR", 3),
    ("QUIT", 28),
    ("SUSP", 26),
    ("START", 17),
    ("STOP", 19),
    ("LNEXT", 22),
    ("MIN", 1),
    ("TIME", 0),
];

/// How many of `VALUES` are special characters; the rest are plain numbers.
pub const SPECIALS: usize = 13;

/// The value that disables a special character.
pub const OFF: u8 = 255;

/// The flags that are set by default.
pub const DEFAULT_FLAGS: u32 = default_flags();

/// The default of every value.
pub const DEFAULT_VALUES: [u8; 15] = default_values();

/// The place of a flag in the table.
pub fn flag_place(name: &[u8]) -> Option<usize> {
    FLAGS.iter().position(|flag| flag.0.as_bytes() == name)
}

/// The place of a value in the table.
pub fn value_place(name: &[u8]) -> Option<usize> {
    VALUES.iter().position(|value| value.0.as_bytes() == name)
}

/// The byte that a name stands for in a script: NL, CR, or a special character's default.
pub fn named_byte(name: &[u8]) -> Option<u8> {
    match name {
        b"NL" => Some(10),
        b"CR" => Some(13),
        _ => value_place(name)
            .filter(|&place| place < SPECIALS)
            .map(|place| VALUES[place].1),
    }
}

/// The name of a byte, where it has one and is not 255.
pub fn name_of(byte: u8) -> Option<&'static str> {
    match byte {
        10 => Some("NL"),
        13 => Some("CR"),
        OFF => None,
        _ => VALUES[..SPECIALS]
            .iter()
            .find(|value| value.1 == byte)
            .map(|value| value.0),
    }
}

/// The bit of a flag, for constants: an unknown name stops the build.
pub const fn bit(name: &str) -> u32 {
    let mut place = 0;
    while place < FLAGS.len() {
        if same(FLAGS[place].0, name) {
            return 1 << place;
        }
        place += 1;
    }
    panic!("no such flag")
}

/// The place of a value, for constants: an unknown name stops the build.
pub const fn place(name: &str) -> usize {
    let mut place = 0;
    while place < VALUES.len() {
        if same(VALUES[place].0, name) {
            return place;
        }
        place += 1;
    }
    panic!("no such value")
}

const fn same(a: &str, b: &str) -> bool {
    let (a, b) = (a.as_bytes(), b.as_bytes());
    if a.len() != b.len() {
        return false;
    }
    let mut at = 0;
    while at < a.len() {
        if a[at] != b[at] {
            return false;
        }
        at += 1;
    }
    true
}

const fn default_flags() -> u32 {
    let mut flags = 0;
    let mut place = 0;
    while place < FLAGS.len() {
        if FLAGS[place].1 {
            flags |= 1 << place;
        }
        place += 1;
    }
    flags
}

const fn default_values() -> [u8; 15] {
    let mut values = [0; 15];
    let mut place = 0;
    while place < VALUES.len() {
        values[place] = VALUES[place].1;
        place += 1;
    }
    values
}

#[cfg(test)]
mod tests {
    use super::*;

    #[test]
    fn the_table_has_document_01s_bits() {
        assert_eq!(bit("IGNBRK"), 1);
        assert_eq!(bit("OPOST"), 1 << 12);
        assert_eq!(bit("CLOCAL"), 1 << 19);
        assert_eq!(bit("NOFLSH"), 1 << 31);
        assert_eq!(DEFAULT_FLAGS.count_ones(), 13);
        assert_eq!(place("TIME"), 14);
    }

    #[test]
    fn named_bytes_are_found_both_ways() {
        for byte in 0..=255 {
            if let Some(name) = name_of(byte) {
                assert_eq!(named_byte(name.as_bytes()), Some(byte));
            }
        }
        assert_eq!(named_byte(b"EOL"), Some(255));
        assert_eq!(named_byte(b"MIN"), None);
        assert_eq!(name_of(255), None);
        assert_eq!(name_of(1), None);
    }
}
