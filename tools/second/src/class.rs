//! "Each of the 256 byte values has one class".

/// The class of a byte value.
#[derive(Clone, Copy, Debug, PartialEq, Eq)]
pub enum Class {
    /// 32 and 9.
    Blank,
    /// "letter or underscore (65..90, 97..122, 95)".
    LetterOrUnderscore,
    /// "control (0..31 but 9, and 127)".
    Control,
    /// Everything else.
    Other,
}

/// The class of `byte`.
pub fn class_of(byte: u8) -> Class {
    match byte {
        9 | 32 => Class::Blank,
        65..=90 | 97..=122 | 95 => Class::LetterOrUnderscore,
        0..=31 | 127 => Class::Control,
        _ => Class::Other,
    }
}

#[cfg(test)]
mod tests {
    use super::*;

    fn how_many(class: Class) -> usize {
        (0..=255).filter(|&byte| class_of(byte) == class).count()
    }

    #[test]
    fn the_classes_have_their_sizes() {
        assert_eq!(how_many(Class::Blank), 2);
        assert_eq!(how_many(Class::LetterOrUnderscore), 53);
        assert_eq!(how_many(Class::Control), 32);
        assert_eq!(how_many(Class::Other), 256 - 2 - 53 - 32);
    }

    #[test]
    fn the_edges_of_the_classes() {
        assert_eq!(class_of(0), Class::Control);
        assert_eq!(class_of(8), Class::Control);
        assert_eq!(class_of(9), Class::Blank);
        assert_eq!(class_of(10), Class::Control);
        assert_eq!(class_of(31), Class::Control);
        assert_eq!(class_of(32), Class::Blank);
        assert_eq!(class_of(33), Class::Other);
        assert_eq!(class_of(64), Class::Other);
        assert_eq!(class_of(65), Class::LetterOrUnderscore);
        assert_eq!(class_of(90), Class::LetterOrUnderscore);
        assert_eq!(class_of(91), Class::Other);
        assert_eq!(class_of(94), Class::Other);
        assert_eq!(class_of(95), Class::LetterOrUnderscore);
        assert_eq!(class_of(96), Class::Other);
        assert_eq!(class_of(97), Class::LetterOrUnderscore);
        assert_eq!(class_of(122), Class::LetterOrUnderscore);
        assert_eq!(class_of(123), Class::Other);
        assert_eq!(class_of(126), Class::Other);
        assert_eq!(class_of(127), Class::Control);
        assert_eq!(class_of(128), Class::Other);
        assert_eq!(class_of(255), Class::Other);
    }
}
