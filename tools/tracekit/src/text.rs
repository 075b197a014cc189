//! Bytes as text and back: one style for scripts, dumps and explanations.
//!
//! Text stands in double quotes. Printable ASCII stands as itself, but `"` as `\"` and `\` as
//! `\\`; 10, 13 and 9 stand as `\n`, `\r` and `\t`; every other byte stands as `\xNN`.

use crate::names::{name_of, named_byte};

/// The greatest number of bytes that one item of a script stands for, and of ticks in one line.
pub const ITEM_MAX: usize = 65_535;
/// From this length on a run of one byte is written as `N*item`.
const RUN_MIN: usize = 8;
/// A piece of text in a `good` line is cut at about this length.
const TEXT_MAX: usize = 60;

/// The bytes in double quotes.
pub fn quote(bytes: &[u8]) -> String {
    let mut text = String::from("\"");
    for &byte in bytes {
        match byte {
            b'\n' => text.push_str("\\n"),
            b'\r' => text.push_str("\\r"),
            b'\t' => text.push_str("\\t"),
            b'"' | b'\\' => {
                text.push('\\');
                text.push(char::from(byte));
            }
            32..=126 => text.push(char::from(byte)),
            _ => text.push_str(&format!("\\x{byte:02x}")),
        }
    }
    text.push('"');
    text
}

/// A word of a script for a message.
pub fn shown(word: &[u8]) -> String {
    String::from_utf8_lossy(word).into_owned()
}

/// The bytes of the text between two quotes.
fn unescape(mut inner: &[u8]) -> Result<Vec<u8>, String> {
    let mut bytes = Vec::new();
    while let [first, rest @ ..] = inner {
        inner = rest;
        if *first == b'\\' {
            let (byte, after) = escaped(rest)?;
            bytes.push(byte);
            inner = after;
        } else {
            bytes.push(*first);
        }
    }
    Ok(bytes)
}

/// The byte that an escape stands for, from behind its backslash, and what follows it.
fn escaped(rest: &[u8]) -> Result<(u8, &[u8]), String> {
    match rest {
        [b'n', after @ ..] => Ok((b'\n', after)),
        [b'r', after @ ..] => Ok((b'\r', after)),
        [b't', after @ ..] => Ok((b'\t', after)),
        [quote @ (b'\\' | b'"' | b'\''), after @ ..] => Ok((*quote, after)),
        [b'x', high, low, after @ ..] => match (digit(*high), digit(*low)) {
            (Some(high), Some(low)) => Ok((high * 16 + low, after)),
            _ => Err("expected two hex digits after \\x".to_string()),
        },
        _ => Err("expected \\n, \\r, \\t, \\\\, \\\", \\' or \\xNN after a backslash".to_string()),
    }
}

fn digit(byte: u8) -> Option<u8> {
    char::from(byte)
        .to_digit(16)
        .and_then(|digit| u8::try_from(digit).ok())
}

/// The bytes of an even number of hex digits.
pub fn hex(word: &[u8]) -> Option<Vec<u8>> {
    let pairs = word.chunks_exact(2);
    if !pairs.remainder().is_empty() {
        return None;
    }
    pairs
        .map(|pair| Some(digit(pair[0])? * 16 + digit(pair[1])?))
        .collect()
}

/// A decimal number, or a hex one after `0x`.
pub fn number(word: &[u8]) -> Option<u64> {
    let (digits, base) = match word {
        [b'0', b'x' | b'X', digits @ ..] => (digits, 16),
        _ => (word, 10),
    };
    if !digits.first()?.is_ascii_hexdigit() {
        return None;
    }
    u64::from_str_radix(std::str::from_utf8(digits).ok()?, base).ok()
}

/// A single byte: a number, a quoted character, or a name.
pub fn byte(word: &[u8]) -> Result<u8, String> {
    maybe_byte(word)?.ok_or_else(|| no_byte(word, ""))
}

/// The same, with nothing for a word of another form.
fn maybe_byte(word: &[u8]) -> Result<Option<u8>, String> {
    if let [b'\'', inner @ .., b'\''] = word {
        return match unescape(inner)?.as_slice() {
            [byte] => Ok(Some(*byte)),
            _ => Err(format!(
                "expected one character in quotes, found {}",
                shown(word)
            )),
        };
    }
    let small = || u8::try_from(number(word)?).ok();
    Ok(named_byte(word).or_else(small))
}

/// The message for a word that is no byte; `text` names a further form.
fn no_byte(word: &[u8], text: &str) -> String {
    let found = shown(word);
    format!("expected a byte (0 to 255, 0x16, 'x', {text}NL, CR or a name such as ERASE), found {found}")
}

/// An item of a script: text in double quotes or a single byte, perhaps many times (`254*"a"`).
pub fn item(word: &[u8]) -> Result<Vec<u8>, String> {
    let (times, single) = times(word)?;
    let bytes = match single {
        [b'"', inner @ .., b'"'] => unescape(inner)?,
        _ => vec![maybe_byte(single)?.ok_or_else(|| no_byte(single, "\"text\", "))?],
    };
    match bytes.len().checked_mul(times) {
        Some(length) if length <= ITEM_MAX => Ok(bytes.repeat(times)),
        _ => Err(format!(
            "expected at most {ITEM_MAX} bytes in {}",
            shown(word)
        )),
    }
}

/// Splits `N*item` in N and the item; N is 1 where it does not stand.
fn times(word: &[u8]) -> Result<(usize, &[u8]), String> {
    let Some(star) = word.iter().position(|&byte| byte == b'*') else {
        return Ok((1, word));
    };
    if !word[0].is_ascii_digit() {
        return Ok((1, word));
    }
    let times = number(&word[..star]).and_then(|times| usize::try_from(times).ok());
    match times {
        Some(times) if (1..=ITEM_MAX).contains(&times) => Ok((times, &word[star + 1..])),
        _ => Err(format!(
            "expected a number from 1 to {ITEM_MAX} before *, found {}",
            shown(&word[..star])
        )),
    }
}

/// The length of the run of equal bytes at the start.
fn run_length(bytes: &[u8]) -> usize {
    let same = bytes.iter().take_while(|&&byte| byte == bytes[0]).count();
    same.min(ITEM_MAX)
}

/// A single byte as an item of a script.
fn single(byte: u8) -> String {
    match name_of(byte) {
        Some(name) => name.to_string(),
        None if (32..127).contains(&byte) => quote(&[byte]),
        None => format!("0x{byte:02x}"),
    }
}

/// The length of the text at the start that goes into one pair of quotes.
fn text_length(bytes: &[u8], takes: fn(u8) -> bool, most: usize) -> usize {
    let mut length = 0;
    while length < bytes.len().min(most) {
        let rest = &bytes[length..];
        if !takes(rest[0]) || run_length(rest) >= RUN_MIN {
            break;
        }
        length += 1;
    }
    length
}

fn items_by(mut bytes: &[u8], takes: fn(u8) -> bool, most: usize) -> Vec<String> {
    let mut items = Vec::new();
    while !bytes.is_empty() {
        let run = run_length(bytes);
        let text = text_length(bytes, takes, most);
        let length = if run >= RUN_MIN {
            items.push(format!("{run}*{}", single(bytes[0])));
            run
        } else if text > 0 {
            items.push(quote(&bytes[..text]));
            text
        } else {
            items.push(single(bytes[0]));
            1
        };
        bytes = &bytes[length..];
    }
    items
}

/// Typed bytes as items: printable ones as text, the rest by name or number.
pub fn typed_items(bytes: &[u8]) -> Vec<String> {
    items_by(bytes, |byte| (32..127).contains(&byte), TEXT_MAX)
}

/// Written bytes as items: one text with escapes, but for long runs of one byte.
pub fn written_items(bytes: &[u8]) -> Vec<String> {
    items_by(bytes, |_| true, ITEM_MAX)
}

#[cfg(test)]
mod tests {
    use super::*;

    #[test]
    fn quoted_text_is_read_back() {
        let all: Vec<u8> = (0..=255).collect();
        assert_eq!(item(quote(&all).as_bytes()), Ok(all));
        assert_eq!(quote(b"h\r\n\x03\"\\"), "\"h\\r\\n\\x03\\\"\\\\\"");
    }

    #[test]
    fn items_stand_for_bytes() {
        assert_eq!(item(b"\"ab\""), Ok(b"ab".to_vec()));
        assert_eq!(item(b"ERASE"), Ok(vec![127]));
        assert_eq!(item(b"0x16"), Ok(vec![22]));
        assert_eq!(item(b"'*'"), Ok(b"*".to_vec()));
        assert_eq!(item(b"\"*\""), Ok(b"*".to_vec()));
        assert_eq!(item(b"3*\"ab\""), Ok(b"ababab".to_vec()));
        assert_eq!(item(b"2*7"), Ok(vec![7, 7]));
        for bad in [
            "256", "0x", "+1", "''", "'ab'", "\"\\q\"", "\"\\x4\"", "0*1", "70000*1", "*", "1*",
            "MIN",
        ] {
            assert!(item(bad.as_bytes()).is_err(), "{bad}");
        }
    }

    #[test]
    fn long_runs_are_counted() {
        assert_eq!(typed_items(&[b'a'; 254]), ["254*\"a\""]);
        assert_eq!(
            typed_items(b"ab\x7f\n\xff"),
            ["\"ab\"", "ERASE", "NL", "0xff"]
        );
        assert_eq!(written_items(b"hi\n"), ["\"hi\\n\""]);
        assert_eq!(written_items(b""), [""; 0]);
    }
}
