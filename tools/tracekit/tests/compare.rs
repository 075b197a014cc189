//! Two commands compared.

mod common;

use common::{second, tracekit};
use std::time::{Duration, Instant};
use tracekit::asm::assemble;
use tracekit::compare::Pair;

const LIMIT: Duration = Duration::from_secs(10);

/// The output of a comparison and its exit status.
fn compared(a: &str, b: &str, rest: &[&str]) -> (String, Option<i32>) {
    let words: Vec<&str> = ["compare", a, b].iter().chain(rest).copied().collect();
    let (output, _, status) = tracekit(&words, b"");
    (String::from_utf8_lossy(&output).into_owned(), status)
}

/// The script in the text of a difference.
fn script_in(text: &str) -> &str {
    text.split("\n\n").nth(1).unwrap_or("")
}

#[test]
fn a_program_agrees_with_itself() {
    let (text, status) = compared(second(), second(), &["--seeds", "0..300"]);
    assert_eq!((text.as_str(), status), ("300 seeds agree\n", Some(0)));
}

#[test]
fn a_planted_difference_is_found_and_cut_down() {
    let planted = format!("{} | sed 's/ tstp / quit /'", second());
    let (text, status) = compared(
        second(),
        &planted,
        &["--count", "150", "--seeds", "0..1000"],
    );
    assert_eq!(status, Some(1), "{text}");
    assert_eq!(script_in(&text), "foreground 1\ngood SUSP", "{text}");
    assert!(
        text.contains("  A: 1 2 tstp 1 -\n  B: 1 2 quit 1 -\n"),
        "{text}"
    );
    assert!(text.contains(" to 2, in 2 lines:"), "{text}");
}

#[test]
fn a_difference_in_full_queues_stays_readable() {
    let planted = format!("{} | sed 's/ 9 r3 0 -/ 9 ok 0 -/'", second());
    let (text, status) = compared(&planted, second(), &["--seeds", "0..1000"]);
    assert_eq!(status, Some(1), "{text}");
    assert!(script_in(&text).lines().count() < 10, "{text}");
    assert!(assemble(script_in(&text).as_bytes()).is_ok(), "{text}");
}

#[test]
fn a_crash_is_a_difference() {
    let crash = "sh -c 'kill -SEGV $$'";
    let (text, status) = compared(second(), crash, &["--seeds", "0..2"]);
    assert_eq!(status, Some(1), "{text}");
    assert!(
        text.contains("signal 11") || text.contains("status 139"),
        "{text}"
    );
    let (text, status) = compared("false", "false", &["--seeds", "0..2"]);
    assert_eq!(status, Some(1), "{text}");
    assert!(text.contains("(ends with status 1)"), "{text}");
}

#[test]
fn a_hang_is_a_difference() {
    let started = Instant::now();
    let pair = Pair::new("sleep 60", "cat; sleep 60", Duration::from_millis(200));
    let found = pair.difference(&[0, 0, 6, 0]);
    let found = found.expect("both can be run").expect("they hang");
    assert_eq!(found.a, "(does not end within 0 s)");
    assert!(started.elapsed() < LIMIT);
}

#[test]
fn a_command_that_can_not_be_run_is_trouble() {
    for missing in [
        "./no-such-program",
        "./no-such-program | cat && exit 127",
        "",
    ] {
        let (text, status) = compared(second(), missing, &["--seeds", "0..2"]);
        assert_eq!((text.as_str(), status), ("", Some(2)), "{missing}");
    }
}

#[test]
fn bad_words_are_trouble() {
    for rest in [
        &["--seeds", "3"][..],
        &["--seeds", "a..b"],
        &[],
        &["--seeds", "0..1", "--count"],
    ] {
        assert_eq!(compared(second(), second(), rest).1, Some(2));
    }
    let (text, status) = compared(second(), second(), &["--seeds", "5..5"]);
    assert_eq!((text.as_str(), status), ("0 seeds agree\n", Some(0)));
}

#[test]
fn a_thousand_seeds_take_less_than_a_minute() {
    let started = Instant::now();
    let (_, status) = compared(second(), second(), &["--seeds", "1000..2000"]);
    assert_eq!(status, Some(0));
    assert!(started.elapsed() < Duration::from_secs(60));
}
