//! Scripts to traces and back.

mod common;

use common::tracekit;
use tracekit::asm::assemble;
use tracekit::dump::dump;
use tracekit::explain::explain;
use tracekit::random::random_trace;

/// Bytes without order, the same in every run.
fn noise(seed: u64, length: usize) -> Vec<u8> {
    let mut state = seed.wrapping_mul(0x9e37_79b9_7f4a_7c15) | 1;
    let mut next = || {
        state ^= state << 13;
        state ^= state >> 7;
        state ^= state << 17;
        (state >> 24) as u8
    };
    (0..length).map(|_| next()).collect()
}

fn comes_back(trace: &[u8]) {
    let script = dump(trace);
    assert_eq!(
        assemble(script.as_bytes()).as_deref(),
        Ok(trace),
        "{script}"
    );
}

fn assembled(script: &str) -> Vec<u8> {
    assemble(script.as_bytes()).unwrap_or_else(|faults| panic!("{faults:?}"))
}

/// The one fault of a script, as the program prints it.
fn fault(script: &str) -> String {
    match assemble(script.as_bytes()) {
        Ok(_) => panic!("{script} is taken"),
        Err(faults) => {
            assert_eq!(faults.len(), 1, "{faults:?}");
            format!("line {}: {}", faults[0].line, faults[0].what)
        }
    }
}

#[test]
fn random_bytes_come_back() {
    for seed in 0..3000 {
        comes_back(&noise(seed, (seed % 90) as usize));
    }
    comes_back(&noise(1, 300_000));
    comes_back(&[]);
}

#[test]
fn small_lengths_and_kinds_with_random_bodies_come_back() {
    for seed in 0..4000 {
        let mut trace = Vec::new();
        for round in 0..6 {
            let body = noise(seed * 7 + round, (seed % 22) as usize);
            trace.extend([body.len() as u8, 0, (seed + round) as u8 % 16, 0]);
            trace.extend(body);
        }
        comes_back(&trace);
    }
}

#[test]
fn random_traces_come_back() {
    for seed in 0..300 {
        comes_back(&random_trace(seed, 200));
    }
}

#[test]
fn every_value_of_every_field_comes_back() {
    for value in 0..=255 {
        for place in 0..19 {
            let mut trace = assembled("settings");
            trace[4 + place] = value;
            comes_back(&trace);
        }
        for kind in [2, 3, 4, 9, 11] {
            comes_back(&[1, 0, kind, 0, value]);
        }
        comes_back(&[3, 0, 8, 0, value, value % 6, value % 3]);
        comes_back(&[2, 0, 10, 0, value, value % 10]);
        comes_back(&[5, 0, 13, 0, value % 2, 0, 0, value, value % 3]);
    }
}

#[test]
fn long_runs_come_back() {
    comes_back(&[1, 0, 2, 0, b'a'].repeat(70_000));
    comes_back(&[0, 0, 6, 0].repeat(70_000));
    comes_back(&[&[0, 2, 9, 0][..], &[b'\\'; 512]].concat());
    comes_back(&[&[255, 255, 9, 0][..], &[7; 65_535]].concat());
}

#[test]
fn dumps_are_readable() {
    let script = "settings +PARMRK -ECHO EOL=off EOF='x' MIN=3\n\
                  good \"ab\" ERASE NL 0xff 254*\"a\"\n\
                  parity 'A'\nframing 0x80\nbreak\ntick 3\ntick\nread 10\nread 10 nonblocking\n\
                  write \"hi\\n\"\nwrite \"\"\ntransmit 16\nflush both\ncancel\nhangup\n\
                  foreground 7 orphaned\nforeground 7\nforeground none\nforeground none orphaned\n";
    let expected = script.replace("-ECHO EOL=off EOF='x'", "-ECHO EOF='x'");
    let expected = expected.replace("tick 3\ntick\n", "tick 4\n");
    assert_eq!(dump(&assembled(script)), expected);
}

#[test]
fn names_and_numbers_mean_their_bytes() {
    let goods =
        |bytes: &[u8]| -> Vec<u8> { bytes.iter().flat_map(|&byte| [1, 0, 2, 0, byte]).collect() };
    assert_eq!(
        assembled("good EOF ERASE WERASE KILL REPRINT"),
        goods(&[4, 127, 23, 21, 18])
    );
    assert_eq!(
        assembled("good INTR QUIT SUSP START STOP LNEXT"),
        goods(&[3, 28, 26, 17, 19, 22])
    );
    assert_eq!(
        assembled("good NL CR 0x16 22 'x' '\\''"),
        goods(&[10, 13, 22, 22, b'x', b'\''])
    );
    assert_eq!(assembled("good \"a#b\" # c"), goods(b"a#b"));
    assert_eq!(assembled("write \"h\" 7 0xff"), [3, 0, 9, 0, b'h', 7, 255]);
    assert_eq!(assembled("write"), [0, 0, 9, 0]);
    assert_eq!(assembled("raw 0f 00 0a0B # c\r\n"), [15, 0, 10, 11]);
    assert_eq!(assembled("# nothing\n\n   \n"), []);
}

#[test]
fn faults_tell_their_line_and_what_was_expected() {
    let line = fault("good \"a\"\n\nread 1025\n");
    assert_eq!(
        line,
        "line 3: read: expected a count from 0 to 1024 and perhaps nonblocking, found 1025 \
         (raw can hold a damaged record)"
    );
    assert!(fault("flush 4").contains("line 1: flush: expected input, output or both, found 4"));
    assert!(fault("write 513*\"a\"").contains("at most 512 bytes, found 513"));
    assert!(fault("transmit 2049").contains("0 to 2048, found 2049"));
    assert!(fault("foreground 2147483648").contains("from 1 to 2147483647"));
    assert!(fault("settings +ECHOX").contains("expected a flag, found +ECHOX"));
    assert!(fault("settings MIN=off").contains("expected a number from 0 to 255"));
    assert!(fault("settings ECHO").contains("expected +FLAG, -FLAG or NAME=VALUE, found ECHO"));
    assert!(fault("good").contains("expected one byte or more, found nothing"));
    assert!(fault("good \"a").contains("expected a closing \""));
    assert!(fault("good 256").contains("expected a byte"));
    assert!(fault("parity").contains("expected one byte, found nothing"));
    assert!(fault("raw 0").contains("hex digits"));
    assert!(fault("typo").contains("found typo"));
    assert!(fault("break 1").contains("expected nothing more, found 1"));
}

#[test]
fn other_bad_lines_are_faults() {
    let bad = [
        "tick 0",
        "tick x",
        "tick 1 2",
        "read",
        "read -1",
        "read 1 blocking",
        "read 1 nonblocking 2",
        "transmit",
        "flush",
        "flush input output",
        "cancel now",
        "foreground",
        "foreground 0",
        "foreground 7 lost",
        "settings INTR=",
        "settings INTR=300",
        "settings FOO=1",
        "settings MIN=-1",
        "parity \"a\"",
        "framing 1 2",
        "raw",
        "raw 0 0",
        "raw zz",
        "good 'ab'",
        "good \"a\"b",
        "good 99999999999999999999",
        "good 0*1",
        "write \"\\q\"",
        "write 65535*\"ab\"",
        "\u{fc}",
    ];
    for line in bad {
        assert!(fault(line).starts_with("line 1: "), "{line}");
    }
}

#[test]
fn the_program_writes_nothing_for_a_bad_script() {
    let (output, faults, status) = tracekit(&["asm"], b"good \"a\"\nread 1025\nflush 4\n");
    assert_eq!((output.as_slice(), status), (&b""[..], Some(1)));
    let lines: Vec<&str> = faults.lines().collect();
    assert_eq!(lines.len(), 2);
    assert!(lines[0].starts_with("line 2: read:") && lines[1].starts_with("line 3: flush:"));
}

#[test]
fn the_program_assembles_and_dumps() {
    let (trace, _, status) = tracekit(&["asm"], b"good \"h\" CR\n");
    assert_eq!(
        (trace.as_slice(), status),
        (&[1, 0, 2, 0, 104, 1, 0, 2, 0, 13][..], Some(0))
    );
    let (script, _, _) = tracekit(&["dump"], &trace);
    assert_eq!(script, b"good \"h\" CR\n");
    let (usage, _, status) = tracekit(&[], b"");
    assert!(usage.starts_with(b"Tools for traces") && status == Some(0));
    assert_eq!(tracekit(&["--help"], b"").0, usage);
    assert_eq!(tracekit(&["no"], b"").2, Some(2));
    assert_eq!(tracekit(&["asm", "no such file"], b"").2, Some(1));
    assert_eq!(tracekit(&["random", "x"], b"").2, Some(2));
}

#[test]
fn anything_can_be_explained() {
    for seed in 0..500 {
        let trace = noise(seed, 60);
        explain(&trace, &noise(seed + 1, 60));
        explain(
            &random_trace(seed, 30),
            b"0 1 ok\n\n \n2 8 ok 3 abc\n3 full\n4 cut\n",
        );
    }
}
