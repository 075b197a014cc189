//! The folder of examples, run through the second program.

mod common;

use common::{beside, results, tracekit};
use std::fs;
use std::path::{Path, PathBuf};
use tracekit::asm::assemble;
use tracekit::explain::explain;

/// E13 as it stands in document 01.
const E13: &str = "raw 05000d000700000000 0100020068 010002000d 02000a001000 03000800080000 \
                   03000800080000 0100020003 02000a001000";
const E13_LINES: &str = "0 13 ok 0 -\n1 2 ok 1 -\n2 2 ok 1 -\n3 10 ok 3 680d0a\n4 8 ok 2 680a\n\
                         5 8 wait 0 -\n6 2 int 1 -\n7 10 ok 2 5e43\n";

fn scripts() -> Vec<PathBuf> {
    let folder = fs::read_dir(beside("../../examples")).expect("the folder is there");
    let mut scripts: Vec<PathBuf> = folder
        .filter_map(|entry| entry.ok().map(|entry| entry.path()))
        .filter(|path| path.extension().is_some_and(|end| end == "script"))
        .collect();
    scripts.sort();
    scripts
}

fn trace_of(script: &Path) -> Vec<u8> {
    let text = fs::read(script).expect("the script can be read");
    assemble(&text).unwrap_or_else(|faults| panic!("{}: {faults:?}", script.display()))
}

fn lines_of(script: &Path) -> String {
    fs::read_to_string(script.with_extension("lines")).expect("its lines stand beside it")
}

#[test]
fn every_example_is_there() {
    let names: Vec<String> = scripts()
        .iter()
        .filter_map(|path| Some(path.file_stem()?.to_string_lossy().into_owned()))
        .collect();
    for number in 1..=13 {
        let start = format!("E{number:02}");
        assert!(names.iter().any(|name| name.starts_with(&start)), "{start}");
    }
    assert!(names.contains(&"console-visit".to_string()));
}

#[test]
fn the_second_program_gives_the_lines_of_all_examples() {
    for script in scripts() {
        assert_eq!(
            results(&trace_of(&script)),
            lines_of(&script),
            "{}",
            script.display()
        );
    }
}

#[test]
fn e13_is_document_01s() {
    let trace = fs::read(beside("../../examples/E13.trace")).expect("the trace is there");
    assert_eq!(assemble(E13.as_bytes()).as_ref(), Ok(&trace));
    assert_eq!(trace_of(&beside("../../examples/E13.script")), trace);
    assert_eq!(lines_of(&beside("../../examples/E13.script")), E13_LINES);
    assert_eq!(results(&trace), E13_LINES);
}

#[test]
fn every_example_is_explained() {
    for script in scripts() {
        let (trace, lines) = (trace_of(&script), lines_of(&script));
        let text = explain(&trace, lines.as_bytes());
        assert_eq!(text.lines().count(), lines.lines().count());
        assert!(
            !text.contains("(no") && !text.contains("(unfitting"),
            "{text}"
        );
    }
}

#[test]
fn e13_is_explained_by_the_program() {
    let trace = beside("../../examples/E13.trace");
    let lines = beside("../../examples/E13.lines");
    let (text, _, status) = tracekit(
        &[
            "explain",
            &trace.to_string_lossy(),
            &lines.to_string_lossy(),
        ],
        b"",
    );
    let text = String::from_utf8_lossy(&text).into_owned();
    assert_eq!(status, Some(0));
    let squeezed: Vec<String> = text
        .lines()
        .map(|line| line.split_whitespace().collect::<Vec<_>>().join(" "))
        .collect();
    let expected = [
        "0 foreground 7 ok 0",
        "1 good \"h\" ok 1",
        "2 good CR ok 1",
        "3 transmit 16 ok 3 \"h\\r\\n\"",
        "4 read 8 ok 2 \"h\\n\"",
        "5 read 8 wait 0",
        "6 good INTR int 1",
        "7 transmit 16 ok 2 \"^C\"",
    ];
    assert_eq!(squeezed, expected);
}
