//! Runs a command on a trace, with a time limit.

use std::io::{self, Read, Write};
use std::os::unix::process::{CommandExt, ExitStatusExt};
use std::process::{Child, Command, ExitStatus, Stdio};
use std::sync::mpsc::{channel, Receiver, RecvTimeoutError};
use std::sync::Arc;
use std::thread;
use std::time::{Duration, Instant};

/// A command that writes more than this is stopped.
const OUTPUT_MAX: u64 = 64 << 20;
/// What the shell answers when it can not run a command.
const NOT_RUN: [i32; 2] = [126, 127];

/// A command line, run through the shell only where it needs one.
#[derive(Clone, Debug)]
pub struct Program {
    words: Vec<String>,
    through_shell: bool,
}

impl Program {
    /// The program of a command line.
    pub fn new(line: &str) -> Self {
        let through_shell = line.contains(|c| "|&;<>()$`\\\"'*?[]#~=%{}!\n".contains(c));
        let words = if through_shell {
            ["sh", "-c", line].map(String::from).to_vec()
        } else {
            line.split_whitespace().map(String::from).collect()
        };
        Program {
            words,
            through_shell,
        }
    }

    fn spawn(&self) -> io::Result<Child> {
        let Some((name, rest)) = self.words.split_first() else {
            return Err(io::Error::new(
                io::ErrorKind::InvalidInput,
                "an empty command",
            ));
        };
        Command::new(name)
            .args(rest)
            .process_group(0)
            .stdin(Stdio::piped())
            .stdout(Stdio::piped())
            .stderr(Stdio::null())
            .spawn()
    }

    /// Starts the program on a trace.
    pub fn start(&self, trace: &Arc<[u8]>) -> io::Result<Running> {
        let mut child = self.spawn()?;
        let id = child.id();
        if let Some(mut input) = child.stdin.take() {
            let trace = Arc::clone(trace);
            // A program that ends early leaves bytes unread; that is no fault of ours.
            thread::spawn(move || input.write_all(&trace).ok());
        }
        let (sender, ended) = channel();
        thread::spawn(move || sender.send(collect(child)));
        Ok(Running {
            id,
            started: Instant::now(),
            ended,
            through_shell: self.through_shell,
        })
    }
}

/// Reads all output, then waits for the end.
fn collect(mut child: Child) -> io::Result<(Vec<u8>, ExitStatus)> {
    let mut output = Vec::new();
    if let Some(pipe) = child.stdout.take() {
        pipe.take(OUTPUT_MAX).read_to_end(&mut output)?;
    }
    Ok((output, child.wait()?))
}

/// A program at work.
pub struct Running {
    id: u32,
    started: Instant,
    ended: Receiver<io::Result<(Vec<u8>, ExitStatus)>>,
    through_shell: bool,
}

/// What a program did with a trace.
#[derive(Clone, Debug, PartialEq, Eq)]
pub struct Ran {
    pub output: Vec<u8>,
    /// How it ended, where that was not by exit status 0.
    pub trouble: Option<String>,
}

impl Running {
    /// Waits for the end, or stops the program at the time limit.
    pub fn finish(self, limit: Duration) -> io::Result<Ran> {
        let left = limit.saturating_sub(self.started.elapsed());
        match self.ended.recv_timeout(left) {
            Ok(Ok((output, status))) => self.ended_by(output, status),
            Ok(Err(fault)) => Err(fault),
            Err(RecvTimeoutError::Timeout) => {
                self.stop();
                Ok(Ran {
                    output: Vec::new(),
                    trouble: Some(format!("does not end within {} s", limit.as_secs())),
                })
            }
            Err(RecvTimeoutError::Disconnected) => Err(io::Error::other("its output is lost")),
        }
    }

    fn ended_by(&self, output: Vec<u8>, status: ExitStatus) -> io::Result<Ran> {
        let trouble = match (status.code(), status.signal()) {
            (Some(0), _) => None,
            (Some(code), _) if self.through_shell && NOT_RUN.contains(&code) => {
                return Err(io::Error::new(
                    io::ErrorKind::NotFound,
                    "the shell can not run it",
                ));
            }
            (Some(code), _) => Some(format!("ends with status {code}")),
            (None, Some(signal)) => Some(format!("is ended by signal {signal}")),
            (None, None) => Some("ends without a status".to_string()),
        };
        Ok(Ran { output, trouble })
    }

    /// Kills the program's own process group and waits a little for its end.
    fn stop(&self) {
        let line = format!("kill -KILL -{}", self.id);
        let killed = Command::new("sh").args(["-c", &line]).status();
        if killed.is_ok() {
            let _ = self.ended.recv_timeout(Duration::from_secs(1));
        }
    }
}
