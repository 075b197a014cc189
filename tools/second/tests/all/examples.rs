//! The examples E1 to E13.

use crate::helpers::*;
use second::settings::{flag, value};

#[test]
fn e01_erase() {
    let mut port = port(0, 0);
    receive(&mut port, b"ab");
    receive(&mut port, &[ERASE, NL]);
    assert_eq!(port.read(10, false), given(b"a\n"));
    assert_eq!(port.read(10, false), WAIT);
}

#[test]
fn e02_erase_stops_at_a_finished_line() {
    let mut port = port(0, 0);
    receive(&mut port, &[b'a', NL, ERASE, b'b', NL]);
    assert_eq!(port.read(10, false), given(b"a\n"));
    assert_eq!(port.read(10, false), given(b"b\n"));
}

#[test]
fn e03_empty_lines() {
    let mut port = port(0, 0);
    receive(&mut port, &[NL, NL]);
    assert_eq!(port.read(10, false), given(b"\n"));
    assert_eq!(port.read(10, false), given(b"\n"));
    assert_eq!(port.read(10, false), WAIT);
}

#[test]
fn e04_the_mark_goes_with_the_last_byte() {
    let mut port = port(0, 0);
    receive(&mut port, b"abc");
    receive(&mut port, &[EOF]);
    assert_eq!(port.read(3, false), given(b"abc"));
    assert_eq!(port.read(3, false), WAIT);
}

#[test]
fn e05_a_mark_alone() {
    let mut port = port(0, 0);
    receive(&mut port, &[EOF]);
    assert_eq!(port.read(0, false), given(b""));
    assert_eq!(port.read(1, false), given(b""));
    assert_eq!(port.read(1, false), WAIT);
}

#[test]
fn e06_a_literal_newline_ends_no_line() {
    let mut port = port(0, 0);
    receive(&mut port, &[LNEXT, NL, b'x', NL]);
    assert_eq!(port.read(10, false), given(&[10, 120, 10]));
}

#[test]
fn e07_one_mapping_only() {
    let mut port = port(flag::ICRNL | flag::INLCR, 0);
    receive(&mut port, &[NL, CR]);
    assert_eq!(port.read(10, false), given(&[13, 10]));
}

#[test]
fn e08_a_full_line_rings_the_bell() {
    let mut port = port(0, 0);
    receive(&mut port, &[b'a'; 254]);
    assert_eq!(shown(&mut port), vec![b'a'; 254]);
    receive(&mut port, b"b");
    assert_eq!(shown(&mut port), vec![7]);
    receive(&mut port, &[NL]);
    let mut line = vec![b'a'; 254];
    line.push(NL);
    assert_eq!(port.read(300, false), given(&line));
}

#[test]
fn e08_without_imaxbel_input_is_flushed() {
    let mut port = port(0, flag::IMAXBEL);
    receive(&mut port, &[b'a'; 254]);
    receive(&mut port, b"b");
    receive(&mut port, &[NL]);
    assert_eq!(port.read(300, false), given(b"\n"));
    assert_eq!(port.read(300, false), WAIT);
}

#[test]
fn e09_a_doubled_255_is_one_unit() {
    let mut port = port(flag::PARMRK, 0);
    receive(&mut port, &[255, ERASE, NL]);
    assert_eq!(port.read(10, false), given(b"\n"));
}

#[test]
fn e10_a_tab_at_column_5() {
    let mut port = port(flag::TAB3, 0);
    assert_eq!(port.write(b"12345"), Ok(5));
    assert_eq!(shown(&mut port), b"12345");
    assert_eq!(port.column(), 5);
    assert_eq!(port.write(b"\t"), Ok(1));
    assert_eq!(shown(&mut port), b"   ");
    assert_eq!(port.column(), 8);
}

#[test]
fn e11_word_erase() {
    for (altwerase, typed, left) in [
        (0, &b"foo.bar;"[..], &b""[..]),
        (flag::ALTWERASE, b"foo.bar;", b"foo."),
        (flag::ALTWERASE, b"ab12", b"ab"),
    ] {
        let mut port = port(altwerase, 0);
        receive(&mut port, typed);
        receive(&mut port, &[WERASE, NL]);
        let mut line = left.to_vec();
        line.push(NL);
        assert_eq!(port.read(100, false), given(&line));
    }
}

#[test]
fn e12_min_3_time_2() {
    let mut settings = settings(0, flag::ICANON);
    settings.values[value::MIN] = 3;
    settings.values[value::TIME] = 2;
    let mut port = port_with(&settings);
    assert_eq!(port.read(10, false), WAIT);
    receive(&mut port, b"a");
    port.tick();
    receive(&mut port, b"b");
    port.tick();
    port.tick();
    assert_eq!(port.read(10, false), given(b"ab"));
}

#[test]
fn e13_the_trace() {
    let input = from_hex(
        "05000d000700000000 0100020068 010002000d 02000a001000 03000800080000 \
         03000800080000 0100020003 02000a001000",
    );
    let printed = "0 13 ok 0 -\n\
                   1 2 ok 1 -\n\
                   2 2 ok 1 -\n\
                   3 10 ok 3 680d0a\n\
                   4 8 ok 2 680a\n\
                   5 8 wait 0 -\n\
                   6 2 int 1 -\n\
                   7 10 ok 2 5e43\n";
    assert_eq!(run_bytes(&input), printed);
}
