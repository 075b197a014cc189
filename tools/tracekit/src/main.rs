//! The command line of tracekit.

use std::io::{self, Read, Write};
use std::ops::Range;
use std::process::ExitCode;
use tracekit::asm::assemble;
use tracekit::compare::{compare, cut_down, tell, Found, Pair, TIME_LIMIT};
use tracekit::dump::dump;
use tracekit::explain::explain;
use tracekit::random::{random_trace, DEFAULT_COUNT};

const USAGE: &str = "\
Tools for traces of a terminal line discipline.

tracekit asm [FILE]             a script (standard input or FILE) to a binary trace
tracekit dump [FILE]            a binary trace to a script
tracekit explain TRACE RESULTS  a trace and its result lines side by side
tracekit random SEED [COUNT]    a random trace of about COUNT moves (200)
tracekit compare A B --seeds FROM..TO [--count N]
                                run the commands A and B on random traces, the seed TO
                                not included; show the first difference, cut down
tracekit --help                 this text

A script has a record a line:
  settings +PARMRK -ECHO MIN=3 INTR='x' EOL=off   (differences from the defaults)
  good \"ab\" ERASE NL 0x16 254*\"a\"                (a byte each)
  parity 0x41      framing 0x41   break           tick     tick 3
  read 10          read 10 nonblocking            cancel   hangup
  write \"hi\\n\"     transmit 16    flush input|output|both
  foreground 7     foreground 7 orphaned          foreground none
  raw 03000800 01 04 00                           (bytes as they are)
  # a comment

Bytes given are explained as text: \\n \\r \\t \\\\ \\\" and \\xNN for what can not be seen.
compare ends with 0 if all agree, 1 if they differ, 2 on trouble.
";

/// What stops a command: its message and its exit status.
struct Stop(String, u8);

impl From<String> for Stop {
    fn from(message: String) -> Self {
        Stop(message, 1)
    }
}

fn main() -> ExitCode {
    let words: Vec<String> = std::env::args_os()
        .skip(1)
        .map(|word| word.to_string_lossy().into_owned())
        .collect();
    let words: Vec<&str> = words.iter().map(String::as_str).collect();
    match run(&words) {
        Ok(status) => ExitCode::from(status),
        Err(Stop(message, status)) => {
            let _ = writeln!(io::stderr(), "{}", message.trim_end());
            ExitCode::from(status)
        }
    }
}

fn run(words: &[&str]) -> Result<u8, Stop> {
    match words {
        [] | ["--help" | "-h" | "help", ..] => say(USAGE.as_bytes()),
        ["asm", file @ ..] => say(&assembled(&input(file)?)?),
        ["dump", file @ ..] => say(dump(&input(file)?).as_bytes()),
        ["explain", trace, results] => {
            let text = explain(&load(trace)?, &load(results)?);
            say(text.as_bytes())
        }
        ["random", seed] => say(&random_trace(number(seed)?, DEFAULT_COUNT)),
        ["random", seed, count] => say(&random_trace(number(seed)?, size(count)?)),
        ["compare", a, b, rest @ ..] => run_compare(a, b, rest),
        [word, ..] => Err(Stop(format!("{word}: not understood\n\n{USAGE}"), 2)),
    }
}

/// Writes to standard output; a reader that has gone is no fault.
fn say(bytes: &[u8]) -> Result<u8, Stop> {
    let mut output = io::stdout().lock();
    match output.write_all(bytes).and_then(|()| output.flush()) {
        Err(fault) if fault.kind() != io::ErrorKind::BrokenPipe => {
            Err(format!("standard output: {fault}").into())
        }
        _ => Ok(0),
    }
}

/// The bytes of a file, or of standard input where none is named.
fn input(file: &[&str]) -> Result<Vec<u8>, Stop> {
    match file {
        [] => {
            let mut bytes = Vec::new();
            io::stdin()
                .read_to_end(&mut bytes)
                .map_err(|fault| format!("standard input: {fault}"))?;
            Ok(bytes)
        }
        [name] => load(name),
        _ => Err(Stop("expected at most one file".to_string(), 2)),
    }
}

fn load(name: &str) -> Result<Vec<u8>, Stop> {
    Ok(std::fs::read(name).map_err(|fault| format!("{name}: {fault}"))?)
}

/// The trace of a script, or a message with a line for each fault.
fn assembled(script: &[u8]) -> Result<Vec<u8>, Stop> {
    assemble(script).map_err(|faults| {
        let lines = faults
            .iter()
            .map(|fault| format!("line {}: {}\n", fault.line, fault.what));
        Stop(lines.collect(), 1)
    })
}

fn number(word: &str) -> Result<u64, Stop> {
    word.parse()
        .map_err(|_| Stop(format!("expected a number, found {word}"), 2))
}

fn size(word: &str) -> Result<usize, Stop> {
    word.parse()
        .map_err(|_| Stop(format!("expected a count, found {word}"), 2))
}

fn seeds(word: &str) -> Result<Range<u64>, Stop> {
    match word.split_once("..") {
        Some((from, to)) => Ok(number(from)?..number(to)?),
        None => Err(Stop(format!("expected FROM..TO, found {word}"), 2)),
    }
}

fn run_compare(a: &str, b: &str, rest: &[&str]) -> Result<u8, Stop> {
    let (seeds, count) = match rest {
        ["--seeds", range] => (seeds(range)?, DEFAULT_COUNT),
        ["--seeds", range, "--count", count] | ["--count", count, "--seeds", range] => {
            (seeds(range)?, size(count)?)
        }
        _ => {
            return Err(Stop(
                "expected A B --seeds FROM..TO [--count N]".to_string(),
                2,
            ))
        }
    };
    let pair = Pair::new(a, b, TIME_LIMIT);
    pair.check().map_err(|fault| Stop(fault, 2))?;
    let number = seeds.end.saturating_sub(seeds.start);
    match compare(&pair, seeds, count) {
        Found::Agreement => say(format!("{number} seeds agree\n").as_bytes()),
        Found::Differing(seed, difference) => {
            say(tell(seed, &difference).as_bytes())?;
            say(cut_down(&pair, seed, count, &difference).as_bytes())?;
            Ok(1)
        }
        Found::Trouble(fault) => Err(Stop(fault, 2)),
    }
}
