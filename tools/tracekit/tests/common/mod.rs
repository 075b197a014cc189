//! What the tests share: the second program and the folder of examples.
#![allow(dead_code)]

use std::path::PathBuf;
use std::process::{Command, Stdio};
use std::sync::OnceLock;

/// A path told from the package's own folder.
pub fn beside(path: &str) -> PathBuf {
    PathBuf::from(env!("CARGO_MANIFEST_DIR")).join(path)
}

/// The second program, built first where it is not there.
pub fn second() -> &'static str {
    static SECOND: OnceLock<String> = OnceLock::new();
    SECOND.get_or_init(|| {
        let program = beside("../second/target/release/second");
        if !program.exists() {
            let manifest = beside("../second/Cargo.toml");
            let built = Command::new("cargo")
                .args(["build", "--offline", "--release", "--manifest-path"])
                .arg(manifest)
                .env_remove("CARGO_TARGET_DIR")
                .status();
            assert!(built.is_ok_and(|status| status.success()));
        }
        program.to_string_lossy().into_owned()
    })
}

/// What a program prints for an input, and its exit status.
pub fn run(program: &str, words: &[&str], input: &[u8]) -> (Vec<u8>, Vec<u8>, Option<i32>) {
    use std::io::Write;
    let mut child = Command::new(program)
        .args(words)
        .stdin(Stdio::piped())
        .stdout(Stdio::piped())
        .stderr(Stdio::piped())
        .spawn()
        .expect("the program starts");
    let mut pipe = child.stdin.take().expect("it has an input");
    let input = input.to_vec();
    let writer = std::thread::spawn(move || pipe.write_all(&input).ok());
    let output = child.wait_with_output().expect("it ends");
    let _ = writer.join();
    (output.stdout, output.stderr, output.status.code())
}

/// The result lines of the second program.
pub fn results(trace: &[u8]) -> String {
    let (output, _, status) = run(second(), &[], trace);
    assert_eq!(status, Some(0));
    String::from_utf8(output).expect("result lines are text")
}

/// Runs tracekit itself.
pub fn tracekit(words: &[&str], input: &[u8]) -> (Vec<u8>, String, Option<i32>) {
    let (output, faults, status) = run(env!("CARGO_BIN_EXE_tracekit"), words, input);
    (
        output,
        String::from_utf8_lossy(&faults).into_owned(),
        status,
    )
}
