//! The words of one line of a script: parted by blanks, quotes kept together, comments left out.

/// Splits a line in words; a `#` outside quotes starts a comment.
pub fn words(line: &[u8]) -> Result<Vec<&[u8]>, String> {
    let mut words = Vec::new();
    let mut at = 0;
    while at < line.len() && line[at] != b'#' {
        if line[at].is_ascii_whitespace() {
            at += 1;
            continue;
        }
        let end = word_end(line, at)?;
        words.push(&line[at..end]);
        at = end;
    }
    Ok(words)
}

/// The end of the word that starts at a place.
fn word_end(line: &[u8], start: usize) -> Result<usize, String> {
    let mut at = start;
    while at < line.len() && line[at] != b'#' && !line[at].is_ascii_whitespace() {
        at = match line[at] {
            b'"' | b'\'' => quote_end(line, at)?,
            _ => at + 1,
        };
    }
    Ok(at)
}

/// The place behind the quote that closes the one at a place.
fn quote_end(line: &[u8], open: usize) -> Result<usize, String> {
    let mut at = open + 1;
    while at < line.len() {
        match line[at] {
            b'\\' => at += 2,
            byte if byte == line[open] => return Ok(at + 1),
            _ => at += 1,
        }
    }
    Err(format!("expected a closing {}", char::from(line[open])))
}

#[cfg(test)]
mod tests {
    use super::*;

    fn split(line: &str) -> Vec<String> {
        let words = words(line.as_bytes()).unwrap_or_default();
        words
            .iter()
            .map(|word| String::from_utf8_lossy(word).into_owned())
            .collect()
    }

    #[test]
    fn quotes_hold_blanks_and_hashes() {
        assert_eq!(
            split(" good \"a # b\" '#' INTR=' ' # rest \"\r"),
            ["good", "\"a # b\"", "'#'", "INTR=' '"]
        );
        assert_eq!(split("good \"a\\\" b\"#x"), ["good", "\"a\\\" b\""]);
        assert_eq!(split("# good"), [""; 0]);
    }

    #[test]
    fn an_open_quote_is_a_fault() {
        assert!(words(b"good \"ab").is_err());
        assert!(words(b"good 'a\\").is_err());
        assert!(words(b"good '''").is_err());
    }
}
