//! Reads a trace on standard input and prints its result lines.

use std::io::{self, Write};
use std::process::ExitCode;

// OPEN: document 01 names no exit status. It is 0, also after a cut or a full trace, and 1 only
// if standard input cannot be read or standard output cannot be written.
fn main() -> ExitCode {
    match second::trace::run(&mut io::stdin().lock(), &mut io::stdout().lock()) {
        Ok(()) => ExitCode::SUCCESS,
        Err(error) => {
            // Nothing is left to be done if this cannot be written either.
            let _ = writeln!(io::stderr(), "second: {error}");
            ExitCode::FAILURE
        }
    }
}
