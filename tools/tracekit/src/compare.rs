//! Runs two commands on random traces and shows the first line in which they differ.

use crate::dump::dump;
use crate::random::random_trace;
use crate::record::split;
use crate::runner::{Program, Ran};
use crate::shrink::shrink;
use std::io;
use std::ops::Range;
use std::sync::atomic::{AtomicU64, Ordering};
use std::sync::{Arc, Mutex, PoisonError};
use std::thread;
use std::time::Duration;

/// How long one run may take.
pub const TIME_LIMIT: Duration = Duration::from_secs(10);

/// The first difference of two runs.
#[derive(Clone, Debug, PartialEq, Eq)]
pub struct Difference {
    /// The line, counted from 0, in which they differ first.
    pub line: usize,
    pub a: String,
    pub b: String,
}

/// Two commands to compare.
pub struct Pair {
    a: Program,
    b: Program,
    limit: Duration,
}

impl Pair {
    /// The pair of two command lines, with a time limit for each run.
    pub fn new(a: &str, b: &str, limit: Duration) -> Self {
        Pair {
            a: Program::new(a),
            b: Program::new(b),
            limit,
        }
    }

    /// Whether both can be run at all, or what stands in the way.
    pub fn check(&self) -> Result<(), String> {
        let empty: Arc<[u8]> = Arc::from([]);
        for (name, program) in [("A", &self.a), ("B", &self.b)] {
            program
                .start(&empty)
                .and_then(|running| running.finish(self.limit))
                .map_err(|fault| format!("command {name} can not be run: {fault}"))?;
        }
        Ok(())
    }

    /// How the two differ on a trace, if they do.
    pub fn difference(&self, trace: &[u8]) -> io::Result<Option<Difference>> {
        let trace: Arc<[u8]> = Arc::from(trace);
        let a = self.a.start(&trace)?;
        let b = self.b.start(&trace)?;
        let a = a.finish(self.limit)?;
        let b = b.finish(self.limit)?;
        Ok(first_difference(&a, &b))
    }

    fn differs(&self, trace: &[u8]) -> bool {
        matches!(self.difference(trace), Ok(Some(_)))
    }
}

/// The first line in which two runs differ; an end in trouble is a difference behind the last line.
fn first_difference(a: &Ran, b: &Ran) -> Option<Difference> {
    if a.output == b.output && a.trouble.is_none() && b.trouble.is_none() {
        return None;
    }
    let (a_lines, b_lines) = (lines(a), lines(b));
    let same = a_lines.iter().zip(&b_lines).take_while(|(a, b)| a == b);
    // Where both end in the same trouble, that is the last line of both.
    let last = a_lines.len().max(b_lines.len()).saturating_sub(1);
    let line = same.count().min(last);
    let shown = |lines: &[String]| lines.get(line).cloned().unwrap_or("(nothing)".to_string());
    Some(Difference {
        line,
        a: shown(&a_lines),
        b: shown(&b_lines),
    })
}

/// The lines of a run, and its trouble as a last one.
fn lines(ran: &Ran) -> Vec<String> {
    let text = String::from_utf8_lossy(&ran.output);
    let mut lines: Vec<String> = text.split_inclusive('\n').map(visible).collect();
    if let Some(trouble) = &ran.trouble {
        lines.push(format!("({trouble})"));
    }
    lines
}

/// A line for the eye; one that lacks its end says so.
fn visible(line: &str) -> String {
    match line.strip_suffix('\n') {
        Some(line) => line.to_string(),
        None => format!("{line} (no newline)"),
    }
}

/// What a comparison found.
pub enum Found {
    /// All seeds agree.
    Agreement,
    /// The lowest seed that differs, and how.
    Differing(u64, Difference),
    /// A command that could not be run.
    Trouble(String),
}

/// Compares on the traces of all seeds, on as many threads as there are cores, two at least.
pub fn compare(pair: &Pair, seeds: Range<u64>, count: usize) -> Found {
    let search = Search {
        next: AtomicU64::new(seeds.start),
        end: AtomicU64::new(seeds.end),
        found: Mutex::new(Found::Agreement),
    };
    let cores = thread::available_parallelism().map_or(2, usize::from);
    thread::scope(|scope| {
        for _ in 0..cores.max(2) {
            scope.spawn(|| search.work(pair, count));
        }
    });
    let found = search.found.into_inner();
    found.unwrap_or_else(PoisonError::into_inner)
}

/// The state that the threads of a comparison share.
struct Search {
    next: AtomicU64,
    /// The first seed that needs no look any more.
    end: AtomicU64,
    found: Mutex<Found>,
}

impl Search {
    /// Takes seed after seed until all below the lowest differing one are done.
    fn work(&self, pair: &Pair, count: usize) {
        loop {
            let seed = self.next.fetch_add(1, Ordering::SeqCst);
            if seed >= self.end.load(Ordering::SeqCst) {
                return;
            }
            match pair.difference(&random_trace(seed, count)) {
                Ok(None) => {}
                Ok(Some(difference)) => self.keep(seed, Found::Differing(seed, difference)),
                Err(fault) => self.keep(seed, Found::Trouble(format!("seed {seed}: {fault}"))),
            }
        }
    }

    /// Keeps what was found at a seed, unless a lower seed was found already.
    fn keep(&self, seed: u64, new: Found) {
        let mut found = self.found.lock().unwrap_or_else(PoisonError::into_inner);
        if self.end.fetch_min(seed, Ordering::SeqCst) > seed {
            *found = new;
        }
    }
}

/// The text about the difference at a seed.
pub fn tell(seed: u64, difference: &Difference) -> String {
    format!(
        "seed {seed} differs first in line {}:\n{}",
        difference.line,
        sides(difference)
    )
}

/// A short script that still shows a difference, found from the trace of a seed.
pub fn cut_down(pair: &Pair, seed: u64, count: usize, difference: &Difference) -> String {
    let trace = random_trace(seed, count);
    let short = shrink(&trace, difference.line, |trace| pair.differs(trace));
    let again = match pair.difference(&short) {
        Ok(Some(difference)) => sides(&difference),
        _ => "  (the difference does not come again)\n".to_string(),
    };
    let script = dump(&short);
    format!(
        "cut down from {} records to {}, in {} lines:\n\n{script}\n{again}",
        split(&trace).len(),
        split(&short).len(),
        script.lines().count(),
    )
}

fn sides(difference: &Difference) -> String {
    format!("  A: {}\n  B: {}\n", difference.a, difference.b)
}

#[cfg(test)]
mod tests {
    use super::*;

    fn ran(output: &str, trouble: Option<&str>) -> Ran {
        Ran {
            output: output.as_bytes().to_vec(),
            trouble: trouble.map(String::from),
        }
    }

    #[test]
    fn equal_runs_do_not_differ() {
        assert_eq!(first_difference(&ran("a\n", None), &ran("a\n", None)), None);
    }

    #[test]
    fn the_first_line_that_differs_is_found() {
        let found = first_difference(&ran("a\nb\nc\n", None), &ran("a\nx\nc\n", None));
        let found = found.map(|found| (found.line, found.a, found.b));
        assert_eq!(found, Some((1, "b".into(), "x".into())));
    }

    #[test]
    fn trouble_and_missing_lines_are_differences() {
        let found = first_difference(&ran("a\n", Some("hangs")), &ran("a\n", Some("hangs")));
        let found = found.map(|found| (found.line, found.a));
        assert_eq!(found, Some((1, "(hangs)".into())));
        let found = first_difference(&ran("a\n", None), &ran("a\nb\n", None));
        assert!(found.is_some_and(|found| found.a == "(nothing)"));
        let found = first_difference(&ran("a", None), &ran("a\n", None));
        assert!(found.is_some_and(|found| found.line == 0));
    }
}
