//! A trace and its result lines side by side.
//!
//! Each line has the record's index, the record as `dump` shows it, its outcome, its count and the
//! bytes given. The bytes are shown as text in the style of scripts: `"h\r\n"`, other controls and
//! bytes from 127 on as `\xNN`.

use crate::dump::one_line;
use crate::record::{split, Piece, What, RECORDS_MAX};
use crate::text::{hex, quote, shown};

/// The width of the column with the records.
const RECORD_WIDTH: usize = 36;

/// The explanation of a trace with its result lines.
pub fn explain(trace: &[u8], results: &[u8]) -> String {
    let pieces = split(trace);
    let results = lines(results);
    let used = pieces.len().min(RECORDS_MAX + 1);
    let mut text = String::new();
    for (index, piece) in pieces[..used].iter().enumerate() {
        let told = match results.get(index) {
            Some(line) => tell(index, piece, line),
            None => "(no result line)".to_string(),
        };
        let record = one_line(piece);
        text.push_str(&format!("{index:>5}  {record:<RECORD_WIDTH$}  {told}\n"));
    }
    if used < pieces.len() {
        let left = pieces.len() - used;
        text.push_str(&format!(
            "       ({left} records more, which are not read)\n"
        ));
    }
    for line in results.iter().skip(used) {
        text.push_str(&format!("       (no record)  {}\n", shown(line)));
    }
    text
}

/// The lines of a text, without an empty one at its end.
fn lines(text: &[u8]) -> Vec<&[u8]> {
    let mut lines: Vec<&[u8]> = text.split(|&byte| byte == b'\n').collect();
    if lines.last().is_some_and(|last| last.is_empty()) {
        lines.pop();
    }
    lines
}

/// What a result line tells about a piece.
fn tell(index: usize, piece: &Piece, line: &[u8]) -> String {
    let words: Vec<&[u8]> = line.split(|byte| byte.is_ascii_whitespace()).collect();
    let told = match words[..] {
        [place, word] if fits(place, index) => whole_or_not(index, piece, word),
        [place, kind, outcome, count, bytes] if fits(place, index) => {
            given(piece, kind, outcome, count, bytes)
        }
        _ => None,
    };
    told.unwrap_or_else(|| format!("(unfitting result line)  {}", shown(line)))
}

fn fits(word: &[u8], number: usize) -> bool {
    word == number.to_string().as_bytes()
}

/// The lines without an outcome, where they can stand.
fn whole_or_not(index: usize, piece: &Piece, word: &[u8]) -> Option<String> {
    match word {
        b"cut" if piece.what == What::Cut => Some("cut".to_string()),
        b"full" if index == RECORDS_MAX => Some("full".to_string()),
        _ => None,
    }
}

/// Outcome, count and bytes given.
fn given(piece: &Piece, kind: &[u8], outcome: &[u8], count: &[u8], bytes: &[u8]) -> Option<String> {
    let expected = match &piece.what {
        What::Record(record) => record.kind(),
        What::Malformed { kind, .. } => *kind,
        What::Cut => return None,
    };
    if !fits(kind, usize::from(expected)) {
        return None;
    }
    let text = match bytes {
        b"-" => String::new(),
        _ => quote(&hex(bytes)?),
    };
    let told = format!("{:<4} {:>4}  {text}", shown(outcome), shown(count));
    Some(told.trim_end().to_string())
}

#[cfg(test)]
mod tests {
    use super::*;

    const TRACE: &[u8] = &[1, 0, 2, 0, b'h', 2, 0, 10, 0, 16, 0, 9, 0];

    #[test]
    fn records_and_lines_stand_side_by_side() {
        let text = explain(TRACE, b"0 2 ok 1 -\n1 10 ok 1 680d0a\n2 cut\n");
        let lines: Vec<&str> = text.lines().collect();
        assert!(lines[0].starts_with("    0  good \"h\" "));
        assert!(lines[0].ends_with("  ok      1"));
        assert!(lines[1].ends_with("  ok      1  \"h\\r\\n\""));
        assert!(lines[2].contains("raw 09 00  # cut") && lines[2].ends_with("  cut"));
        assert_eq!(lines.len(), 3);
    }

    #[test]
    fn missing_and_surplus_lines_are_told() {
        let text = explain(TRACE, b"0 2 ok 1 -\n");
        assert_eq!(text.matches("(no result line)").count(), 2);
        let text = explain(&TRACE[..5], b"0 2 ok 1 -\n1 2 ok 1 -\nwhat\n");
        assert_eq!(text.matches("(no record)").count(), 2);
        let text = explain(TRACE, b"0 3 ok 1 -\n1 10 ok 1 68x\n7 cut");
        assert_eq!(text.matches("(unfitting result line)").count(), 3);
        assert_eq!(explain(b"", b""), "");
    }

    #[test]
    fn a_full_trace_ends_with_its_line() {
        let trace = [0, 0, 6, 0].repeat(RECORDS_MAX + 3);
        let mut results = String::new();
        for index in 0..RECORDS_MAX {
            results.push_str(&format!("{index} 6 ok 0 -\n"));
        }
        results.push_str("65535 full\n");
        let text = explain(&trace, results.as_bytes());
        assert!(text.contains("  full\n"));
        assert!(text.ends_with("(2 records more, which are not read)\n"));
    }
}
