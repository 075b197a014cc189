//! Random traces: the same everywhere, and leaning to the edges.

mod common;

use common::{results, tracekit};
use std::collections::BTreeMap;
use tracekit::random::{random_trace, DEFAULT_COUNT};
use tracekit::record::{split, Record, What};

/// Length and checksum of the trace of seed 1.
const PINNED: (usize, u64) = (5600, 8_212_268_879_756_991_506);

/// A checksum that is the same on every machine (FNV-1a).
fn checksum(bytes: &[u8]) -> u64 {
    bytes.iter().fold(0xcbf2_9ce4_8422_2325, |sum, &byte| {
        (sum ^ u64::from(byte)).wrapping_mul(0x0000_0100_0000_01b3)
    })
}

#[test]
fn a_seed_gives_the_same_trace_everywhere() {
    let trace = random_trace(1, DEFAULT_COUNT);
    assert_eq!((trace.len(), checksum(&trace)), PINNED);
    assert_eq!(tracekit(&["random", "1"], b"").0, trace);
    assert_ne!(random_trace(2, DEFAULT_COUNT), trace);
}

#[test]
fn the_count_is_kept_about() {
    for seed in 0..100 {
        let records = split(&random_trace(seed, 50)).len();
        assert!((50..6000).contains(&records), "seed {seed}: {records}");
    }
    assert!(split(&random_trace(3, 0)).len() < 60);
}

/// What a record is, for the count: its kind, and for reads whether they are non-blocking.
fn sort_of(what: &What) -> String {
    match what {
        What::Record(Record::Read {
            nonblocking: true, ..
        }) => "8n".to_string(),
        What::Record(record) => record.kind().to_string(),
        What::Malformed { kind, .. } => kind.to_string(),
        What::Cut => "end".to_string(),
    }
}

/// How often each outcome of each sort of record comes up over a range of seeds.
fn outcomes(seeds: std::ops::Range<u64>, count: usize) -> BTreeMap<String, usize> {
    let mut counts = BTreeMap::new();
    for seed in seeds {
        let trace = random_trace(seed, count);
        let lines = results(&trace);
        for (piece, line) in split(&trace).iter().zip(lines.lines()) {
            let words: Vec<&str> = line.split(' ').collect();
            let outcome = match words[..] {
                [_, word] => word,
                [_, _, outcome, _, _] => outcome,
                _ => "?",
            };
            *counts
                .entry(format!("{} {outcome}", sort_of(&piece.what)))
                .or_insert(0) += 1;
        }
    }
    counts
}

#[test]
fn every_outcome_and_every_refusal_turns_up() {
    let counts = outcomes(0..200, DEFAULT_COUNT);
    let often = [
        "1 ok", "2 ok", "3 ok", "4 ok", "5 ok", "6 ok", "7 ok", "8 ok", "9 ok", "10 ok", "11 ok",
        "12 ok", "13 ok", "8n ok", "8 wait", "2 int", "2 quit", "2 tstp", "5 int", "7 hup", "1 r1",
        "1 r4", "8 r4", "8n r4", "8n r3", "9 r3", "9 r5", "end cut",
    ];
    for wanted in often {
        assert!(
            counts.get(wanted).is_some_and(|&count| count >= 10),
            "{wanted}: {counts:?}"
        );
    }
    for kind in 1..=14 {
        assert!(
            counts.contains_key(&format!("{kind} r2")),
            "kind {kind}: {counts:?}"
        );
    }
    assert!(counts.keys().all(|key| !key.ends_with('?')));
}

#[test]
fn a_great_count_fills_the_trace_program() {
    let trace = random_trace(5, 65_600);
    assert!(results(&trace).ends_with("\n65535 full\n"));
}

/// How many traces of a range have result lines of which one satisfies a wish.
fn traces_with(wish: impl Fn(&str, &str) -> bool) -> usize {
    let has = |seed: &u64| {
        let lines = results(&random_trace(*seed, DEFAULT_COUNT));
        let mut pairs = lines.lines().zip(lines.lines().skip(1));
        pairs.any(|(line, next)| wish(line, next))
    };
    (0..100).filter(has).count()
}

fn count_of(line: &str, kind: &str) -> Option<usize> {
    let words: Vec<&str> = line.split(' ').collect();
    match words[..] {
        [_, of, "ok", count, _] if of == kind => count.parse().ok(),
        _ => None,
    }
}

#[test]
fn lines_stores_and_queues_get_full() {
    assert!(traces_with(|line, _| count_of(line, "8") == Some(255)) >= 10);
    assert!(traces_with(|line, _| count_of(line, "8").is_some_and(|count| count >= 1020)) >= 3);
    assert!(traces_with(|line, _| count_of(line, "10") == Some(2048)) >= 5);
    assert!(
        traces_with(|line, next| line.ends_with(" 9 r3 0 -") || next.ends_with("9 r3 0 -")) >= 20
    );
}
