//! One test or more for each numbered reading of READINGS. Number 23 stands in the verdict
//! module of the library.

use std::cell::RefCell;
use std::io::{self, Read, Write};
use std::rc::Rc;

use crate::helpers::*;
use second::port::{Port, Refusal, Signal};
use second::settings::{flag, value, Settings, DISABLED};
use second::trace;

// Input.

#[test]
fn reading_01_units_of_breaks_and_broken_bytes_are_silent() {
    for parmrk in [0, flag::PARMRK] {
        let mut port = port(parmrk | flag::INPCK, flag::BRKINT);
        assert_eq!(port.break_condition(), None);
        receive(&mut port, b"a");
        assert_eq!(port.parity_error(b'p'), None);
        port.framing_error(b'f');
        receive(&mut port, b"b");
        assert_eq!(shown(&mut port), b"ab");
        receive(&mut port, &[REPRINT]);
        assert_eq!(shown(&mut port), b"^R\r\nab");
        // They are stored all the same.
        assert_eq!(port.places_used(), if parmrk == 0 { 5 } else { 11 });
    }
}

#[test]
fn reading_01_a_good_zero_is_not_silent() {
    let mut port = port(0, flag::BRKINT);
    receive(&mut port, &[0]);
    port.framing_error(b'f');
    assert_eq!(shown(&mut port), b"^@");
    receive(&mut port, &[REPRINT]);
    assert_eq!(shown(&mut port), b"^R\r\n^@");
}

#[test]
fn reading_02_reprint_shows_units_as_under_the_settings_of_now() {
    let mut port = port(0, flag::ECHO);
    receive(&mut port, &[b'a', 1]);
    assert_eq!(shown(&mut port), b"");
    change(&mut port, &settings(0, 0));
    receive(&mut port, &[REPRINT]);
    assert_eq!(shown(&mut port), b"^R\r\na^A");
    change(&mut port, &settings(0, flag::ECHOCTL));
    receive(&mut port, &[REPRINT]);
    assert_eq!(shown(&mut port), [18, 13, 10, b'a', 1]);
    change(&mut port, &settings(0, flag::ECHO));
    receive(&mut port, &[REPRINT]);
    assert_eq!(shown(&mut port), b"");
}

#[test]
fn reading_02_a_doubled_255_shows_once() {
    let mut port = port(flag::PARMRK, 0);
    receive(&mut port, &[255]);
    assert_eq!(shown(&mut port), [255]);
    assert_eq!(port.places_used(), 2);
    receive(&mut port, &[REPRINT]);
    assert_eq!(shown(&mut port), b"^R\r\n\xff");
}

#[test]
fn reading_02_reprint_on_an_empty_line() {
    let mut port = port(0, 0);
    receive(&mut port, &[REPRINT]);
    assert_eq!(shown(&mut port), b"^R\r\n");
    // A finished line is not shown again.
    receive(&mut port, b"abc\n");
    shown(&mut port);
    receive(&mut port, &[REPRINT]);
    assert_eq!(shown(&mut port), b"^R\r\n");
}

#[test]
fn reading_03_a_literal_byte_skips_steps_4_to_8() {
    let literals = [
        LNEXT, INTR, QUIT, SUSP, STOP, START, CR, NL, ERASE, WERASE, KILL, REPRINT, EOF, b'e', b'f',
    ];
    let mut with_eol = settings(0, 0);
    with_eol.values[value::EOL] = b'e';
    with_eol.values[value::EOL2] = b'f';
    let mut port = port_with(&with_eol);
    assert_eq!(port.set_foreground(1, false), Ok(()));
    for byte in literals {
        receive(&mut port, &[LNEXT, byte]);
    }
    receive(&mut port, &[NL]);
    let mut line = literals.to_vec();
    line.push(NL);
    assert_eq!(port.read(100, false), given(&line));
    assert_eq!(port.read(100, false), WAIT);
    assert_eq!(shown(&mut port), b"^V^C^\\^Z^S^Q^M\r\n^?^W^U^R^Def\r\n");
}

#[test]
fn reading_03_a_literal_13_is_not_dropped_and_a_literal_10_not_mapped() {
    let mut port = port(flag::IGNCR | flag::INLCR, 0);
    receive(&mut port, &[LNEXT, CR, CR, LNEXT, NL, EOF]);
    assert_eq!(port.read(10, false), given(&[13, 10]));
}

#[test]
fn reading_03_a_literal_10_is_shown_under_echonl() {
    let mut port = port(flag::ECHONL, flag::ECHO);
    receive(&mut port, &[b'a', LNEXT, NL]);
    assert_eq!(shown(&mut port), b"\r\n");
    receive(&mut port, &[NL]);
    assert_eq!(shown(&mut port), b"\r\n");
    assert_eq!(port.read(10, false), given(b"a\n\n"));
}

#[test]
fn reading_03_echonl_needs_icanon() {
    let mut port = port(flag::ECHONL, flag::ECHO | flag::ICANON);
    receive(&mut port, &[LNEXT, NL, NL]);
    assert_eq!(shown(&mut port), b"");
    assert_eq!(port.read(10, false), given(b"\n\n"));
}

/// Whether output is stopped, found out by a byte written and taken back.
fn is_stopped(port: &mut Port) -> bool {
    assert_eq!(port.flush(2), Ok(()));
    assert_eq!(port.write(b"x"), Ok(1));
    let stopped = port.transmit(1).is_empty();
    assert_eq!(port.flush(2), Ok(()));
    stopped
}

#[test]
fn reading_04_ixany_resumes_on_every_good_byte() {
    for byte in [b'a', NL, LNEXT, ERASE, INTR, START, EOF, 255] {
        let mut port = port(flag::IXANY, 0);
        receive(&mut port, &[STOP]);
        assert!(is_stopped(&mut port));
        receive(&mut port, &[byte]);
        assert!(!is_stopped(&mut port));
    }
    // Also where the byte is then dropped.
    let mut port = port(flag::IXANY | flag::IGNCR, 0);
    receive(&mut port, &[STOP, CR]);
    assert!(!is_stopped(&mut port));
}

#[test]
fn reading_04_stop_itself_resumes_and_stops_again() {
    let mut port = port(flag::IXANY, 0);
    receive(&mut port, &[STOP, STOP]);
    assert!(is_stopped(&mut port));
    receive(&mut port, &[LNEXT, STOP]);
    assert!(!is_stopped(&mut port));
}

#[test]
fn reading_04_a_literal_byte_resumes() {
    // "Stopped" and "literal next" both stay over a change of settings, so that IXANY can be
    // set between LNEXT and its byte.
    let mut port = port(0, 0);
    receive(&mut port, &[STOP, LNEXT]);
    assert!(is_stopped(&mut port));
    change(&mut port, &settings(flag::IXANY, 0));
    assert!(is_stopped(&mut port));
    receive(&mut port, b"a");
    assert!(!is_stopped(&mut port));
}

#[test]
fn reading_04_without_ixany_only_start_resumes() {
    let mut port = port(0, 0);
    receive(&mut port, &[STOP, b'a', NL, LNEXT, START]);
    assert!(is_stopped(&mut port));
    receive(&mut port, &[START]);
    assert!(!is_stopped(&mut port));
}

#[test]
fn reading_04_broken_bytes_resume_nothing() {
    let mut port = port(flag::IXANY | flag::INPCK, flag::BRKINT);
    receive(&mut port, &[STOP]);
    port.framing_error(b'a');
    assert_eq!(port.parity_error(b'a'), None);
    assert_eq!(port.break_condition(), None);
    assert!(is_stopped(&mut port));
}

#[test]
fn reading_04_the_marked_byte_is_not_stripped() {
    let mut port = port(flag::PARMRK | flag::ISTRIP | flag::INPCK, 0);
    port.framing_error(0xE1);
    assert_eq!(port.parity_error(0xE2), None);
    receive(&mut port, &[0xE3, NL]);
    let line = [255, 0, 0xE1, 255, 0, 0xE2, 0x63, NL];
    assert_eq!(port.read(100, false), given(&line));
}

#[test]
fn reading_05_lnext_and_signals_work_without_icanon() {
    let mut port = raw_port(1, 0);
    assert_eq!(port.set_foreground(9, false), Ok(()));
    receive(&mut port, &[LNEXT, INTR, LNEXT, LNEXT]);
    assert_eq!(port.read(10, false), given(&[INTR, LNEXT]));
    receive(&mut port, b"abc");
    assert_eq!(port.good_byte(INTR), Some(Signal::Int));
    assert_eq!(port.good_byte(QUIT), Some(Signal::Quit));
    assert_eq!(port.good_byte(SUSP), Some(Signal::Tstp));
    assert_eq!(port.places_used(), 0);
}

#[test]
fn reading_05_werase_and_reprint_need_icanon_alone() {
    let mut port = port(0, flag::IEXTEN);
    receive(&mut port, b"ab cd");
    shown(&mut port);
    receive(&mut port, &[WERASE]);
    assert_eq!(shown(&mut port), b"\x08 \x08\x08 \x08");
    receive(&mut port, &[REPRINT]);
    assert_eq!(shown(&mut port), b"^R\r\nab ");
    // LNEXT needs IEXTEN: here it is stored.
    receive(&mut port, &[LNEXT, NL]);
    assert_eq!(port.read(10, false), given(&[b'a', b'b', 32, LNEXT, NL]));
}

#[test]
fn reading_05_without_icanon_nothing_edits_and_nothing_ends_a_line() {
    let typed = [b'a', ERASE, WERASE, KILL, REPRINT, EOF, NL];
    let mut port = raw_port(1, 0);
    receive(&mut port, &typed);
    assert_eq!(port.read(100, false), given(&typed));
}

#[test]
fn reading_06_a_parity_error_without_inpck_is_a_good_byte() {
    let mut port = port(flag::IGNPAR | flag::PARMRK | flag::IXANY, 0);
    assert_eq!(port.set_foreground(1, false), Ok(()));
    receive(&mut port, &[STOP]);
    assert_eq!(port.parity_error(b'a'), None);
    assert_eq!(shown(&mut port), b"a");
    receive(&mut port, &[LNEXT]);
    assert_eq!(port.parity_error(INTR), None);
    assert_eq!(port.parity_error(CR), None);
    assert_eq!(port.read(10, false), given(&[b'a', INTR, NL]));
    assert_eq!(port.parity_error(INTR), Some(Signal::Int));
}

#[test]
fn reading_06_inpck_has_no_effect_on_framing_errors() {
    for inpck in [0, flag::INPCK] {
        let mut plain = port(inpck, 0);
        plain.framing_error(b'a');
        receive(&mut plain, &[NL]);
        assert_eq!(plain.read(10, false), given(&[0, NL]));
        let mut dropping = port(inpck | flag::IGNPAR | flag::PARMRK, 0);
        dropping.framing_error(b'a');
        assert_eq!(dropping.places_used(), 0);
        let mut marking = port(inpck | flag::PARMRK, 0);
        marking.framing_error(b'a');
        receive(&mut marking, &[NL]);
        assert_eq!(marking.read(10, false), given(&[255, 0, b'a', NL]));
    }
}

/// A port under ICANON with all 1,024 places used by one finished line.
fn crammed_port(set: u32, clear: u32) -> Port {
    let mut port = raw_port(1, 0);
    receive(&mut port, &[b'r'; 1_024]);
    change(&mut port, &settings(set, clear));
    assert_eq!(port.places_used(), 1_024);
    port
}

#[test]
fn reading_07_with_imaxbel_a_bell_for_all_that_does_not_fit() {
    let mut port = crammed_port(flag::ECHONL, flag::BRKINT);
    for byte in [b'a', NL, EOF, 255] {
        receive(&mut port, &[byte]);
        assert_eq!(shown(&mut port), [7]);
    }
    port.framing_error(b'a');
    assert_eq!(shown(&mut port), [7]);
    assert_eq!(port.break_condition(), None);
    assert_eq!(shown(&mut port), [7]);
    assert_eq!(port.places_used(), 1_024);
}

#[test]
fn reading_07_with_imaxbel_and_no_room_nothing_happens() {
    let mut port = crammed_port(0, 0);
    assert_eq!(port.write(&[b'x'; 2_048]), Ok(2_048));
    receive(&mut port, &[b'a', NL, EOF]);
    assert_eq!(port.places_used(), 1_024);
    assert_eq!(port.queued(), 2_048);
    assert_eq!(shown(&mut port), vec![b'x'; 2_048]);
    assert_eq!(port.read(1_024, false), given(&[b'r'; 1_024]));
}

#[test]
fn reading_07_without_imaxbel_all_input_is_flushed() {
    for byte in [b'a', NL, EOF] {
        let mut port = crammed_port(0, flag::IMAXBEL);
        receive(&mut port, &[byte]);
        assert_eq!(port.places_used(), 0);
        assert_eq!(shown(&mut port), b"");
        assert_eq!(port.read(10, true), Err(Refusal::NothingMoved));
    }
    let mut port = crammed_port(0, flag::IMAXBEL | flag::BRKINT);
    // The flush of a silent unit drops "literal next" too.
    receive(&mut port, &[LNEXT]);
    port.framing_error(b'a');
    assert_eq!(port.places_used(), 0);
    receive(&mut port, &[NL]);
    assert_eq!(port.read(10, false), given(b"\n"));
}

#[test]
fn reading_08_a_break_flushes_whatever_noflsh_says() {
    let mut port = port(flag::NOFLSH, 0);
    assert_eq!(port.set_foreground(1, true), Ok(()));
    receive(&mut port, b"abc\nde");
    receive(&mut port, &[LNEXT]);
    assert_eq!(port.break_condition(), Some(Signal::Int));
    assert_eq!(port.places_used(), 0);
    assert_eq!(shown(&mut port), b"");
    // "Literal next" went too.
    receive(&mut port, &[NL]);
    assert_eq!(port.read(10, false), given(b"\n"));
}

#[test]
fn reading_08_with_no_foreground_group_the_flush_and_the_echo_happen() {
    let mut port = port(0, 0);
    for (byte, echo) in [(INTR, b"^C"), (QUIT, b"^\\"), (SUSP, b"^Z")] {
        receive(&mut port, b"abc\nde");
        assert_eq!(port.good_byte(byte), None);
        assert_eq!(port.places_used(), 0);
        assert_eq!(shown(&mut port), echo);
    }
    receive(&mut port, b"abc\nde");
    assert_eq!(port.break_condition(), None);
    assert_eq!(port.places_used(), 0);
    assert_eq!(shown(&mut port), b"");
}

#[test]
fn reading_08_an_orphaned_group_gets_no_tstp_but_the_others() {
    let mut port = port(0, 0);
    assert_eq!(port.set_foreground(1, true), Ok(()));
    receive(&mut port, b"abc");
    assert_eq!(port.good_byte(SUSP), None);
    assert_eq!(port.places_used(), 0);
    assert_eq!(shown(&mut port), b"^Z");
    assert_eq!(port.good_byte(INTR), Some(Signal::Int));
    assert_eq!(port.good_byte(QUIT), Some(Signal::Quit));
}

#[test]
fn reading_08_hangup_needs_no_foreground_group_and_comes_once() {
    let mut port = port(0, 0);
    receive(&mut port, b"abc\n");
    assert_eq!(port.hangup(), Some(Signal::Hup));
    assert_eq!(port.places_used(), 0);
    assert_eq!(port.queued(), 0);
    assert_eq!(port.hangup(), None);
}

#[test]
fn reading_09_the_run_is_empty_if_the_last_unit_left_is_a_blank() {
    for (typed, left) in [
        (&b"x y"[..], &b"x "[..]),
        (b"x y  \t ", b"x "),
        (b"ab cd", b"ab "),
        (b"ab\ty", b"ab\t"),
        (b"a;", b""),
        (b"a.;", b"a"),
        (b"   ", b""),
        (b"y", b""),
        (b"a_1", b""),
        (b"1a_2", b"1"),
    ] {
        let mut port = port(flag::ALTWERASE, 0);
        receive(&mut port, typed);
        receive(&mut port, &[WERASE, EOF]);
        assert_eq!(port.read(100, false), given(left));
    }
}

#[test]
fn reading_09_units_of_several_bytes_are_non_blanks_of_the_second_class() {
    // 255,0,32 ends in a blank's value, but the unit is none.
    let mut port = port(flag::PARMRK | flag::ALTWERASE, 0);
    receive(&mut port, b"ab");
    port.framing_error(32);
    receive(&mut port, &[255, b'c', WERASE, EOF]);
    assert_eq!(port.read(100, false), given(b"ab"));
    let mut port = self::port(flag::PARMRK, 0);
    receive(&mut port, b"ab cd");
    port.framing_error(32);
    receive(&mut port, &[WERASE, EOF]);
    assert_eq!(port.read(100, false), given(b"ab "));
}

#[test]
fn reading_10_places_used_count_marks() {
    let mut port = port(0, 0);
    receive(&mut port, &[EOF; 1_022]);
    assert_eq!(port.places_used(), 1_022);
    receive(&mut port, b"a");
    assert_eq!(shown(&mut port), b"a");
    receive(&mut port, b"b");
    assert_eq!(shown(&mut port), [7]);
    receive(&mut port, &[NL]);
    assert_eq!(shown(&mut port), b"\r\n");
    assert_eq!(port.places_used(), 1_024);
    receive(&mut port, &[EOF]);
    assert_eq!(shown(&mut port), [7]);
    // Reading a mark frees its place.
    assert_eq!(port.read(1, false), given(b""));
    assert_eq!(port.places_used(), 1_023);
    receive(&mut port, &[EOF]);
    assert_eq!(shown(&mut port), b"");
    assert_eq!(port.places_used(), 1_024);
}

#[test]
fn reading_10_a_line_without_delimiter_ends_with_its_last_byte() {
    let mut port = raw_port(1, 0);
    receive(&mut port, &[b'a', NL, b'b', NL, EOF]);
    change(&mut port, &settings(0, 0));
    receive(&mut port, b"c\n");
    assert_eq!(port.read(3, false), given(b"a\nb"));
    assert_eq!(port.read(100, false), given(&[NL, EOF]));
    assert_eq!(port.read(100, false), given(b"c\n"));
    assert_eq!(port.read(100, false), WAIT);
}

#[test]
fn reading_10_marks_vanish_when_icanon_goes_off() {
    let mut port = port(0, flag::ECHO);
    receive(&mut port, &[b'a', EOF, EOF, b'b', NL, b'c']);
    assert_eq!(port.places_used(), 6);
    change(&mut port, &raw_settings(1, 0));
    assert_eq!(port.places_used(), 4);
    assert_eq!(port.read(100, false), given(b"ab\nc"));
    // Only marks: nothing is left, and no line comes of it when ICANON goes on again.
    change(&mut port, &settings(0, 0));
    receive(&mut port, &[EOF, EOF]);
    change(&mut port, &raw_settings(1, 0));
    assert_eq!(port.places_used(), 0);
    change(&mut port, &settings(0, 0));
    assert_eq!(port.read(1, true), Err(Refusal::NothingMoved));
}

#[test]
fn reading_11_group_0_has_no_orphaned_mark() {
    let mut orphaned = Port::fresh();
    assert_eq!(orphaned.set_foreground(5, true), Ok(()));
    assert_eq!(orphaned.set_foreground(0, true), Ok(()));
    assert_eq!(orphaned, Port::fresh());
    assert_eq!(orphaned.foreground(), None);
}

// Reads.

#[test]
fn reading_12_the_order_of_a_read_s_tests() {
    let mut port = port(0, 0);
    assert_eq!(port.read(5, false), WAIT);
    assert_eq!(port.read(0, false), Err(Refusal::ReadWaits));
    assert_eq!(port.read(0, true), Err(Refusal::ReadWaits));
    assert_eq!(port.read(4, false), Err(Refusal::ReadWaits));
    assert_eq!(port.read(5, true), Err(Refusal::ReadWaits));
    receive(&mut port, b"ab\n");
    assert_eq!(port.read(4, false), Err(Refusal::ReadWaits));
    assert_eq!(port.read(5, true), Err(Refusal::ReadWaits));
    assert_eq!(port.read(5, false), given(b"ab\n"));
    assert_eq!(port.read(0, true), given(b""));
    assert_eq!(port.read(5, true), Err(Refusal::NothingMoved));
}

#[test]
fn reading_12_a_hung_up_port_answers_0_to_every_read() {
    let mut port = port(0, 0);
    assert_eq!(port.read(5, false), WAIT);
    assert_eq!(port.hangup(), Some(Signal::Hup));
    let same = settings(0, 0);
    assert_eq!(port.change_settings(&same), Err(Refusal::ReadWaits));
    // Another length and non-blocking: no refusal, and the wait ends.
    assert_eq!(port.read(7, true), given(b""));
    assert_eq!(port.change_settings(&same), Ok(()));
    assert_eq!(port.read(0, false), given(b""));
    assert_eq!(port.read(5, false), given(b""));
    assert_eq!(port.read(5, true), given(b""));
}

#[test]
fn reading_13_a_poll_never_restarts_the_timer() {
    let mut port = raw_port(0, 3);
    for _ in 0..3 {
        assert_eq!(port.read(5, false), WAIT);
        port.tick();
    }
    assert_eq!(port.read(5, false), given(b""));
    let mut port = raw_port(5, 3);
    receive(&mut port, b"a");
    for _ in 0..3 {
        assert_eq!(port.read(5, false), WAIT);
        port.tick();
    }
    assert_eq!(port.read(5, false), given(b"a"));
}

#[test]
fn reading_14_done_is_judged_at_the_call() {
    let mut port = raw_port(2, 0);
    assert_eq!(port.read(5, false), WAIT);
    receive(&mut port, b"ab");
    assert_eq!(port.flush(1), Ok(()));
    assert_eq!(port.read(5, false), WAIT);
    receive(&mut port, b"cde");
    assert_eq!(port.read(5, false), given(b"cde"));
}

#[test]
fn reading_14_a_flush_turns_an_expired_timer_off() {
    for choice in [1, 3] {
        let mut port = raw_port(3, 2);
        assert_eq!(port.read(5, false), WAIT);
        receive(&mut port, b"a");
        ticks(&mut port, 2);
        assert_eq!(port.flush(choice), Ok(()));
        assert_eq!(port.read(5, false), WAIT);
        ticks(&mut port, 300);
        assert_eq!(port.read(5, false), WAIT);
        receive(&mut port, b"b");
        port.tick();
        assert_eq!(port.read(5, false), WAIT);
        port.tick();
        assert_eq!(port.read(5, false), given(b"b"));
    }
}

#[test]
fn reading_14_flushing_output_leaves_the_timer() {
    let mut port = raw_port(3, 2);
    assert_eq!(port.read(5, false), WAIT);
    receive(&mut port, b"a");
    ticks(&mut port, 2);
    assert_eq!(port.flush(2), Ok(()));
    assert_eq!(port.read(5, false), given(b"a"));
}

#[test]
fn reading_14_the_flush_of_a_signal_counts_and_noflsh_does_not_flush() {
    let mut port = raw_port(3, 2);
    assert_eq!(port.read(5, false), WAIT);
    receive(&mut port, &[b'a', INTR]);
    ticks(&mut port, 5);
    assert_eq!(port.read(5, false), WAIT);
    let mut noflsh = raw_settings(3, 2);
    noflsh.flags |= flag::NOFLSH;
    let mut port = port_with(&noflsh);
    assert_eq!(port.read(5, false), WAIT);
    receive(&mut port, &[b'a', INTR]);
    ticks(&mut port, 2);
    assert_eq!(port.read(5, false), given(b"a"));
}

#[test]
fn reading_14_the_timer_of_min_0_is_touched_by_no_flush() {
    let mut port = raw_port(0, 3);
    assert_eq!(port.read(5, false), WAIT);
    port.tick();
    receive(&mut port, b"a");
    assert_eq!(port.flush(3), Ok(()));
    assert_eq!(port.read(5, false), WAIT);
    ticks(&mut port, 2);
    assert_eq!(port.read(5, false), given(b""));
    // Expired, and then flushed: it stays expired.
    assert_eq!(port.read(5, false), WAIT);
    ticks(&mut port, 3);
    assert_eq!(port.flush(1), Ok(()));
    assert_eq!(port.read(5, false), given(b""));
}

#[test]
fn reading_14_an_expired_timer_is_not_restarted_by_new_bytes() {
    let mut port = raw_port(5, 1);
    assert_eq!(port.read(5, false), WAIT);
    receive(&mut port, b"a");
    port.tick();
    receive(&mut port, b"b");
    assert_eq!(port.read(5, false), given(b"ab"));
}

#[test]
fn reading_15_a_unit_that_is_not_stored_restarts_nothing() {
    let mut settings = raw_settings(3, 2);
    settings.flags |= flag::IGNCR | flag::IGNPAR;
    let mut port = port_with(&settings);
    assert_eq!(port.read(5, false), WAIT);
    receive(&mut port, b"a");
    port.tick();
    receive(&mut port, &[CR, START, LNEXT]);
    port.framing_error(b'x');
    port.tick();
    assert_eq!(port.read(5, false), given(b"a"));
}

#[test]
fn reading_15_a_stored_silent_unit_restarts_the_timer() {
    let mut settings = raw_settings(9, 2);
    settings.flags |= flag::PARMRK;
    let mut port = port_with(&settings);
    assert_eq!(port.read(9, false), WAIT);
    port.framing_error(b'x');
    port.tick();
    receive(&mut port, &[255]);
    port.tick();
    assert_eq!(port.read(9, false), WAIT);
    port.tick();
    assert_eq!(port.read(9, false), given(&[255, 0, b'x', 255, 255]));
}

#[test]
fn reading_15_there_is_no_timer_under_icanon_or_with_time_0() {
    let mut canonical = settings(0, 0);
    canonical.values[value::MIN] = 0;
    canonical.values[value::TIME] = 1;
    let mut port = port_with(&canonical);
    assert_eq!(port.read(5, false), WAIT);
    receive(&mut port, b"a");
    ticks(&mut port, 10);
    assert_eq!(port.read(5, false), WAIT);
    let mut port = raw_port(2, 0);
    receive(&mut port, b"a");
    assert_eq!(port.read(5, false), WAIT);
    ticks(&mut port, 1_000);
    assert_eq!(port.read(5, false), WAIT);
}

#[test]
fn reading_15_ticks_before_the_read_do_not_count() {
    let mut port = raw_port(3, 2);
    receive(&mut port, b"a");
    ticks(&mut port, 10);
    assert_eq!(port.read(5, false), WAIT);
    port.tick();
    assert_eq!(port.read(5, false), WAIT);
    port.tick();
    assert_eq!(port.read(5, false), given(b"a"));
}

#[test]
fn reading_16_non_blocking_with_nothing_stored_is_refused() {
    for (min, time) in [(0, 0), (0, 5), (1, 0), (3, 5)] {
        let mut port = raw_port(min, time);
        assert_eq!(port.read(5, true), Err(Refusal::NothingMoved));
        receive(&mut port, b"a");
        assert_eq!(port.read(5, true), given(b"a"));
    }
    let mut port = raw_port(0, 0);
    assert_eq!(port.read(5, false), given(b""));
}

#[test]
fn reading_17_the_mark_goes_with_the_last_byte_asked_for() {
    let mut port = port(0, 0);
    receive(&mut port, &[b'a', b'b', b'c', EOF]);
    assert_eq!(port.places_used(), 4);
    assert_eq!(port.read(2, false), given(b"ab"));
    assert_eq!(port.places_used(), 2);
    assert_eq!(port.read(1, false), given(b"c"));
    assert_eq!(port.places_used(), 0);
    assert_eq!(port.read(1, false), WAIT);
}

// Output.

#[test]
fn reading_18_a_byte_whose_expansion_is_empty_fits_a_full_queue() {
    let mut port = full_port(&settings(flag::ONOEOT, 0));
    assert_eq!(port.write(&[4]), Ok(1));
    assert_eq!(port.write(&[4, 4, b'x', 4]), Ok(2));
    assert_eq!(port.write(b"x"), Err(Refusal::NothingMoved));
    assert_eq!(port.queued(), 2_048);
    // A 13 dropped at column 0.
    let mut port = port_with(&settings(flag::ONOCR, 0));
    assert_eq!(port.write(&[b'x'; 2_047]), Ok(2_047));
    assert_eq!(port.write(&[13, 13, 13]), Ok(3));
    assert_eq!(port.queued(), 2_048);
}

#[test]
fn reading_18_each_byte_sees_the_column_just_before_it() {
    let mut port = port(flag::TAB3 | flag::ONOCR, 0);
    assert_eq!(port.write(b"\r\n\r\nab\t\r\rc\r\n"), Ok(12));
    assert_eq!(shown(&mut port), b"\n\nab      \rc\r\n");
}

#[test]
fn reading_19_the_10_of_ocrnl_is_not_expanded() {
    let mut port = port(flag::OCRNL | flag::ONOCR, 0);
    assert_eq!(port.write(b"ab\rcd\n"), Ok(6));
    assert_eq!(shown(&mut port), b"ab\ncd\r\n");
}

#[test]
fn reading_19_an_echoed_10_is_processed_as_a_written_one() {
    let mut port = port(0, 0);
    receive(&mut port, &[CR]);
    assert_eq!(shown(&mut port), b"\r\n");
    change(&mut port, &settings(0, flag::ONLCR));
    receive(&mut port, &[NL]);
    assert_eq!(shown(&mut port), b"\n");
    change(&mut port, &settings(flag::ONOCR, 0));
    receive(&mut port, b"\na\n");
    assert_eq!(shown(&mut port), b"\na\r\n");
}

#[test]
fn reading_20_10_sets_the_column_only_under_opost_and_onlret() {
    for (set, clear, column) in [
        (0, flag::ONLCR, 2),
        (flag::ONLRET, flag::ONLCR, 0),
        (flag::ONLRET, flag::OPOST, 2),
        (0, 0, 0),
    ] {
        let mut port = port(set, clear);
        assert_eq!(port.write(b"ab\n"), Ok(3));
        assert_eq!(port.column(), column);
    }
    // The 10 that OCRNL made follows the same rule.
    for (set, column) in [(flag::OCRNL, 2), (flag::OCRNL | flag::ONLRET, 0)] {
        let mut port = port(set, 0);
        assert_eq!(port.write(b"ab\r"), Ok(3));
        assert_eq!(port.column(), column);
    }
}

#[test]
fn reading_21_an_echo_that_does_not_fit_leaves_the_column() {
    let mut port = port(0, 0);
    assert_eq!(port.write(&[b'x'; 2_047]), Ok(2_047));
    receive(&mut port, &[1]);
    assert_eq!((port.queued(), port.column()), (2_047, 2_047));
    receive(&mut port, &[NL]);
    assert_eq!((port.queued(), port.column()), (2_047, 2_047));
    receive(&mut port, &[REPRINT]);
    assert_eq!((port.queued(), port.column()), (2_047, 2_047));
    receive(&mut port, b"a");
    assert_eq!((port.queued(), port.column()), (2_048, 2_048));
    // What was not shown was stored.
    receive(&mut port, &[NL]);
    assert_eq!(lines(&mut port), [&[1, NL][..], &b"a\n"[..]]);
}

#[test]
fn reading_22_transmit_on_a_stopped_port_is_ok_with_0_bytes() {
    let mut port = port(0, 0);
    assert_eq!(port.write(b"abc"), Ok(3));
    receive(&mut port, &[STOP]);
    assert_eq!(port.transmit(10), b"");
    assert_eq!(port.write(b"de"), Ok(2));
    assert_eq!(port.flush(2), Ok(()));
    assert_eq!((port.queued(), port.column()), (0, 5));
    assert_eq!(port.write(b"f"), Ok(1));
    assert_eq!(port.transmit(10), b"");
    receive(&mut port, &[START]);
    assert_eq!(port.transmit(10), b"f");
    let printed = run(&[record(9, b"abc"), good(STOP), transmit(5)]);
    assert_eq!(printed[2], "2 10 ok 0 -");
}

// Calls.

#[test]
fn reading_24_a_malformed_record_is_refusal_2_in_every_state() {
    let malformed = [
        record(9, &[b'x'; 513]),
        record(8, &[1, 0, 2]),
        record(11, &[4]),
        record(1, &[0; 18]),
        record(2, &[]),
    ];
    // While a read waits, and on a hung-up port.
    let mut records = vec![read(5, 0)];
    records.extend(malformed.clone());
    records.push(record(7, &[]));
    records.extend(malformed);
    let printed = run(&records);
    let expected = [
        "0 8 wait 0 -",
        "1 9 r2 0 -",
        "2 8 r2 0 -",
        "3 11 r2 0 -",
        "4 1 r2 0 -",
        "5 2 r2 0 -",
        "6 7 hup 0 -",
        "7 9 r2 0 -",
        "8 8 r2 0 -",
        "9 11 r2 0 -",
        "10 1 r2 0 -",
        "11 2 r2 0 -",
    ];
    assert_eq!(printed, expected);
}

#[test]
fn reading_24_a_malformed_read_on_a_hung_up_port_ends_no_wait() {
    let printed = run(&[
        read(5, 0),
        record(7, &[]),
        record(8, &[5, 0, 9]),
        settings_record(&Settings::default()),
        read(5, 0),
        settings_record(&Settings::default()),
    ]);
    let expected = [
        "0 8 wait 0 -",
        "1 7 hup 0 -",
        "2 8 r2 0 -",
        "3 1 r4 0 -",
        "4 8 ok 0 -",
        "5 1 ok 0 -",
    ];
    assert_eq!(printed, expected);
}

#[test]
fn reading_25_equal_settings_are_refused_while_a_read_waits() {
    let mut port = port(0, 0);
    let same = *port.settings();
    assert_eq!(port.change_settings(&same), Ok(()));
    assert_eq!(port.read(1, false), WAIT);
    assert_eq!(port.change_settings(&same), Err(Refusal::ReadWaits));
    port.cancel();
    assert_eq!(port.change_settings(&same), Ok(()));
}

/// An input of one byte at a time that notes how many lines were flushed before each byte.
struct Slow {
    bytes: Vec<u8>,
    next: usize,
    flushed: Rc<RefCell<usize>>,
    seen: Vec<usize>,
}

impl Read for Slow {
    fn read(&mut self, buffer: &mut [u8]) -> io::Result<usize> {
        if buffer.is_empty() {
            return Ok(0);
        }
        self.seen.push(*self.flushed.borrow());
        if self.next == self.bytes.len() {
            return Ok(0);
        }
        buffer[0] = self.bytes[self.next];
        self.next += 1;
        Ok(1)
    }
}

/// An output that counts the lines that were written and flushed.
struct Flushed {
    lines: usize,
    flushed: Rc<RefCell<usize>>,
}

impl Write for Flushed {
    fn write(&mut self, bytes: &[u8]) -> io::Result<usize> {
        self.lines += bytes.iter().filter(|&&byte| byte == NL).count();
        Ok(bytes.len())
    }

    fn flush(&mut self) -> io::Result<()> {
        *self.flushed.borrow_mut() = self.lines;
        Ok(())
    }
}

#[test]
fn reading_26_each_line_is_written_as_soon_as_its_record_is_complete() {
    let flushed = Rc::new(RefCell::new(0));
    let mut slow = Slow {
        bytes: [good(b'a'), record(6, &[]), transmit(3)].concat(),
        next: 0,
        flushed: Rc::clone(&flushed),
        seen: Vec::new(),
    };
    let mut output = Flushed { lines: 0, flushed };
    trace::run(&mut slow, &mut output).expect("nothing fails here");
    // Five bytes, then four, then six, then the end of the input.
    let expected = [0, 0, 0, 0, 0, 1, 1, 1, 1, 2, 2, 2, 2, 2, 2, 3];
    assert_eq!(slow.seen, expected);
}

#[test]
fn reading_26_a_header_cut_short_is_a_cut_record() {
    for length in 1..4 {
        assert_eq!(run_bytes(&vec![0; length]), "0 cut\n");
    }
}

#[test]
fn reading_26_no_input_at_all_prints_nothing() {
    assert_eq!(run_bytes(&[]), "");
}

/// Runs one trace for two lists of plain bytes. Wherever `None` stands in the plan, the next
/// byte of the list comes, once as a good byte and once as a parity-error byte in turn.
fn run_with(plan: &[Option<Vec<u8>>], bytes: &[u8]) -> Vec<String> {
    let mut left = bytes.iter();
    let mut records = Vec::new();
    for (place, step) in plan.iter().enumerate() {
        match step {
            Some(record) => records.push(record.clone()),
            None => {
                let byte = *left.next().expect("the plan has as many places as bytes");
                records.push(record(2 + u16::from(place % 2 == 1), &[byte]));
            }
        }
    }
    run(&records)
}

#[test]
fn reading_27_runs_differ_only_where_a_differing_byte_is_delivered() {
    let mut settings = settings(0, flag::ECHO);
    settings.values[value::WERASE] = DISABLED;
    let plan = [
        Some(settings_record(&settings)),
        None,
        None,
        None,
        Some(good(ERASE)),
        None,
        Some(transmit(2_048)),
        Some(good(REPRINT)),
        Some(good(NL)),
        Some(read(2, 0)),
        Some(read(100, 0)),
        None,
        Some(good(KILL)),
        None,
        Some(good(EOF)),
        Some(read(100, 0)),
        Some(transmit(2_048)),
    ];
    // The places of the third and fourth bytes differ, and the third is erased; the fifth is
    // killed; the sixth differs.
    let one = run_with(&plan, b"abXdYf");
    let other = run_with(&plan, b"ab1.2 ");
    assert_eq!(one.len(), plan.len());
    for (line, pair) in one.iter().zip(&other).enumerate() {
        match line {
            10 => assert_eq!(
                pair,
                (&"10 8 ok 2 640a".to_string(), &"10 8 ok 2 2e0a".to_string())
            ),
            15 => assert_eq!(
                pair,
                (&"15 8 ok 1 66".to_string(), &"15 8 ok 1 20".to_string())
            ),
            _ => assert_eq!(pair.0, pair.1),
        }
    }
    assert_eq!(one[9], "9 8 ok 2 6162");
}
