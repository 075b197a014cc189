//! Settings, reads, writes, flushes, and the order of refusals.

use crate::helpers::*;
use second::port::{Port, Refusal, Signal};
use second::settings::{flag, value, Settings, DISABLED};

/// Settings that earn refusal 1.
fn bad_settings() -> Settings {
    let mut settings = Settings::default();
    settings.values[value::EOL] = INTR;
    settings
}

// Refusals and their order.

#[test]
fn the_refusals_have_their_numbers() {
    let numbers = [
        Refusal::BadSettings,
        Refusal::BadArgument,
        Refusal::NothingMoved,
        Refusal::ReadWaits,
        Refusal::HungUp,
    ]
    .map(Refusal::number);
    assert_eq!(numbers, [1, 2, 3, 4, 5]);
}

#[test]
fn settings_test_4_then_1() {
    let mut port = port(0, 0);
    assert_eq!(
        port.change_settings(&bad_settings()),
        Err(Refusal::BadSettings)
    );
    assert_eq!(port, Port::fresh());
    assert_eq!(port.read(1, false), WAIT);
    assert_eq!(
        port.change_settings(&bad_settings()),
        Err(Refusal::ReadWaits)
    );
}

#[test]
fn a_write_tests_5_then_3() {
    let mut port = full_port(&settings(0, 0));
    assert_eq!(port.write(b"x"), Err(Refusal::NothingMoved));
    assert_eq!(port.write(b""), Ok(0));
    assert_eq!(port.hangup(), Some(Signal::Hup));
    assert_eq!(port.write(b"x"), Err(Refusal::HungUp));
    assert_eq!(port.write(b""), Err(Refusal::HungUp));
}

#[test]
fn a_refused_read_keeps_the_waiting_one_and_its_timer() {
    let mut port = raw_port(0, 2);
    assert_eq!(port.read(5, false), WAIT);
    port.tick();
    let before = port.clone();
    assert_eq!(port.read(6, false), Err(Refusal::ReadWaits));
    assert_eq!(port.read(5, true), Err(Refusal::ReadWaits));
    assert_eq!(port, before);
    port.tick();
    assert_eq!(port.read(5, false), given(b""));
}

#[test]
fn refusal_2_of_a_group_and_of_a_flush() {
    let mut port = port(0, 0);
    assert_eq!(
        port.set_foreground(2_147_483_648, false),
        Err(Refusal::BadArgument)
    );
    assert_eq!(port.foreground(), None);
    assert_eq!(port.set_foreground(2_147_483_647, false), Ok(()));
    for choice in [0, 4, 255] {
        assert_eq!(port.flush(choice), Err(Refusal::BadArgument));
    }
}

#[test]
fn a_length_of_0_takes_nothing() {
    let mut port = port(0, 0);
    receive(&mut port, b"a\n");
    assert_eq!(port.read(0, false), given(b""));
    assert_eq!(port.read(0, true), given(b""));
    assert_eq!(port.read(9, false), given(b"a\n"));
    // With nothing stored it does not wait either.
    assert_eq!(port.read(0, false), given(b""));
    assert_eq!(port.change_settings(&Settings::default()), Ok(()));
}

// Settings.

#[test]
fn icanon_going_off_makes_all_stored_bytes_readable_in_their_order() {
    let mut port = port(flag::PARMRK, 0);
    receive(&mut port, b"ab\ncd");
    receive(&mut port, &[255]);
    assert_eq!(port.read(1, false), given(b"a"));
    change(&mut port, &raw_settings(1, 0));
    receive(&mut port, b"e");
    assert_eq!(port.read(100, false), given(b"b\ncd\xff\xffe"));
}

#[test]
fn icanon_going_off_and_on_makes_the_current_line_a_finished_one() {
    let mut port = port(0, 0);
    receive(&mut port, b"ab\ncd");
    change(&mut port, &raw_settings(1, 0));
    change(&mut port, &settings(0, 0));
    // ERASE finds an empty current line.
    shown(&mut port);
    receive(&mut port, &[ERASE]);
    assert_eq!(shown(&mut port), b"");
    receive(&mut port, b"e\n");
    assert_eq!(lines(&mut port), [&b"ab\ncd"[..], b"e\n"]);
}

#[test]
fn icanon_going_on_with_nothing_stored_makes_no_line() {
    let mut port = raw_port(1, 0);
    change(&mut port, &settings(0, 0));
    assert_eq!(port.read(1, true), Err(Refusal::NothingMoved));
}

#[test]
fn settings_that_leave_icanon_leave_the_input() {
    let mut port = port(0, 0);
    receive(&mut port, &[b'a', EOF, b'b']);
    change(&mut port, &settings(flag::PARMRK, flag::ECHO));
    assert_eq!(port.places_used(), 3);
    receive(&mut port, &[ERASE, b'c', NL]);
    assert_eq!(lines(&mut port), [&b"a"[..], b"c\n"]);
}

#[test]
fn literal_next_stays_over_a_change_of_settings() {
    let mut port = port(0, 0);
    receive(&mut port, &[LNEXT]);
    change(&mut port, &raw_settings(1, 0));
    receive(&mut port, &[INTR]);
    assert_eq!(port.read(10, false), given(&[INTR]));
}

#[test]
fn ixon_going_off_resumes_output() {
    let mut port = port(0, 0);
    receive(&mut port, &[STOP]);
    assert_eq!(port.write(b"x"), Ok(1));
    change(&mut port, &settings(0, flag::ECHO));
    assert_eq!(shown(&mut port), b"");
    change(&mut port, &settings(0, flag::IXON));
    assert_eq!(shown(&mut port), b"x");
    // Without IXON, START and STOP are stored.
    receive(&mut port, &[START, STOP, NL]);
    assert_eq!(port.read(10, false), given(&[START, STOP, NL]));
}

#[test]
fn settings_on_a_hung_up_port() {
    let mut port = port(0, 0);
    assert_eq!(port.hangup(), Some(Signal::Hup));
    assert_eq!(port.change_settings(&raw_settings(0, 0)), Ok(()));
    assert_eq!(
        port.change_settings(&bad_settings()),
        Err(Refusal::BadSettings)
    );
    assert_eq!(port.read(5, false), given(b""));
}

// Canonical reads.

#[test]
fn a_read_gives_at_most_one_line_and_goes_on_within_it() {
    let mut port = port(0, 0);
    receive(&mut port, b"abcd\nef\n");
    assert_eq!(port.read(3, false), given(b"abc"));
    assert_eq!(port.read(100, false), given(b"d\n"));
    assert_eq!(port.read(2, false), given(b"ef"));
    assert_eq!(port.read(2, true), given(b"\n"));
    assert_eq!(port.read(2, true), Err(Refusal::NothingMoved));
}

#[test]
fn a_line_being_typed_is_not_given() {
    let mut port = port(0, 0);
    receive(&mut port, b"abc");
    assert_eq!(port.read(3, true), Err(Refusal::NothingMoved));
    assert_eq!(port.read(3, false), WAIT);
    receive(&mut port, &[NL]);
    assert_eq!(port.read(3, false), given(b"abc"));
    // The first read was done: another length may come.
    assert_eq!(port.read(9, false), given(b"\n"));
}

#[test]
fn eol_and_eol2_end_lines_and_are_given() {
    let mut settings = settings(0, 0);
    settings.values[value::EOL] = b';';
    settings.values[value::EOL2] = 0;
    let mut port = port_with(&settings);
    receive(&mut port, b"a;b\0c\n");
    assert_eq!(shown(&mut port), b"a;b^@c\r\n");
    assert_eq!(lines(&mut port), [&b"a;"[..], b"b\0", b"c\n"]);
}

#[test]
fn a_disabled_eol_is_no_delimiter() {
    let mut port = port(0, 0);
    receive(&mut port, &[255, NL]);
    assert_eq!(port.read(10, false), given(&[255, NL]));
}

#[test]
fn a_mark_alone_answers_0_also_to_a_non_blocking_read() {
    let mut port = port(0, 0);
    receive(&mut port, &[EOF, EOF]);
    assert_eq!(port.read(5, true), given(b""));
    assert_eq!(port.read(5, false), given(b""));
    assert_eq!(port.read(5, true), Err(Refusal::NothingMoved));
}

// Noncanonical reads.

#[test]
fn min_above_0_time_0() {
    let mut port = raw_port(3, 0);
    receive(&mut port, b"ab");
    assert_eq!(port.read(10, false), WAIT);
    receive(&mut port, b"c");
    assert_eq!(port.read(10, false), given(b"abc"));
    // A short read is done sooner.
    receive(&mut port, b"de");
    assert_eq!(port.read(2, false), given(b"de"));
}

#[test]
fn min_0_time_above_0() {
    let mut port = raw_port(0, 2);
    assert_eq!(port.read(10, false), WAIT);
    receive(&mut port, b"ab");
    assert_eq!(port.read(10, false), given(b"ab"));
    // Bytes do not restart it.
    assert_eq!(port.read(10, false), WAIT);
    port.tick();
    assert_eq!(port.read(10, false), WAIT);
    port.tick();
    receive(&mut port, b"c");
    assert_eq!(port.read(10, false), given(b"c"));
    // A byte there already is taken at once.
    receive(&mut port, b"d");
    assert_eq!(port.read(10, false), given(b"d"));
}

#[test]
fn min_0_time_0_never_waits() {
    let mut port = raw_port(0, 0);
    assert_eq!(port.read(10, false), given(b""));
    receive(&mut port, b"abc");
    assert_eq!(port.read(2, false), given(b"ab"));
    assert_eq!(port.read(2, false), given(b"c"));
}

#[test]
fn min_and_time_above_0() {
    let mut port = raw_port(3, 2);
    assert_eq!(port.read(10, false), WAIT);
    // No byte yet, no timer.
    ticks(&mut port, 100);
    assert_eq!(port.read(10, false), WAIT);
    receive(&mut port, b"a");
    port.tick();
    receive(&mut port, b"b");
    port.tick();
    assert_eq!(port.read(10, false), WAIT);
    receive(&mut port, b"c");
    assert_eq!(port.read(10, false), given(b"abc"));
}

#[test]
fn min_255_and_time_255_are_plain_numbers() {
    let mut port = raw_port(255, 255);
    assert_eq!(port.read(1_024, false), WAIT);
    receive(&mut port, &[b'a'; 254]);
    ticks(&mut port, 254);
    assert_eq!(port.read(1_024, false), WAIT);
    port.tick();
    assert_eq!(port.read(1_024, false), given(&[b'a'; 254]));
    assert_eq!(port.read(1_024, false), WAIT);
    receive(&mut port, &[b'a'; 255]);
    assert_eq!(port.read(1_024, false), given(&[b'a'; 255]));
}

#[test]
fn non_blocking_takes_what_is_there() {
    let mut port = raw_port(9, 9);
    receive(&mut port, b"abc");
    assert_eq!(port.read(2, true), given(b"ab"));
    assert_eq!(port.read(2, true), given(b"c"));
    assert_eq!(port.read(2, true), Err(Refusal::NothingMoved));
}

#[test]
fn a_read_that_is_done_can_split_a_unit() {
    let mut settings = raw_settings(1, 0);
    settings.flags |= flag::PARMRK;
    let mut port = port_with(&settings);
    receive(&mut port, &[255]);
    assert_eq!(port.read(1, false), given(&[255]));
    assert_eq!(port.places_used(), 1);
    assert_eq!(port.read(9, false), given(&[255]));
}

#[test]
fn cancel_ends_a_waiting_read_and_moves_nothing() {
    let mut port = raw_port(3, 1);
    port.cancel();
    receive(&mut port, b"a");
    assert_eq!(port.read(5, false), WAIT);
    port.tick();
    port.cancel();
    assert_eq!(port.places_used(), 1);
    // A new read starts anew, its timer too.
    assert_eq!(port.read(6, false), WAIT);
    port.tick();
    assert_eq!(port.read(6, false), given(b"a"));
}

#[test]
fn a_hangup_leaves_the_wait_to_the_next_read_or_cancel() {
    let mut port = raw_port(3, 1);
    assert_eq!(port.read(5, false), WAIT);
    assert_eq!(port.hangup(), Some(Signal::Hup));
    let same = raw_settings(3, 1);
    assert_eq!(port.change_settings(&same), Err(Refusal::ReadWaits));
    port.cancel();
    assert_eq!(port.change_settings(&same), Ok(()));
}

// Writes, transmits and flushes.

#[test]
fn later_writes_go_on_from_the_rest() {
    let mut port = port(0, 0);
    let text = vec![NL; 1_100];
    assert_eq!(port.write(&text), Ok(1_024));
    assert_eq!(port.write(&text[1_024..]), Err(Refusal::NothingMoved));
    assert_eq!(port.transmit(1), [13]);
    // One place is free, but a 10 needs two.
    assert_eq!(port.write(&text[1_024..]), Err(Refusal::NothingMoved));
    assert_eq!(port.transmit(1), [10]);
    assert_eq!(port.write(&text[1_024..]), Ok(1));
}

#[test]
fn transmit_hands_out_the_oldest_bytes() {
    let mut port = port(0, 0);
    assert_eq!(port.write(b"abcdef"), Ok(6));
    assert_eq!(port.transmit(0), b"");
    assert_eq!(port.transmit(2), b"ab");
    assert_eq!(port.write(b"g"), Ok(1));
    assert_eq!(port.transmit(2_048), b"cdefg");
    assert_eq!(port.transmit(2_048), b"");
}

#[test]
fn writes_without_opost_count_in_the_column_too() {
    let mut port = port(flag::TAB3, flag::OPOST);
    assert_eq!(port.write(b"abc\t\r\n\x04xyz"), Ok(10));
    assert_eq!(shown(&mut port), b"abc\t\r\n\x04xyz");
    assert_eq!(port.column(), 3);
}

#[test]
fn flushes_do_their_part() {
    for (choice, input_left, output_left) in [(1, 0, 3), (2, 3, 0), (3, 0, 0)] {
        let mut port = port(0, 0);
        receive(&mut port, b"abc");
        receive(&mut port, &[LNEXT]);
        assert_eq!(port.flush(choice), Ok(()));
        assert_eq!(port.places_used(), input_left);
        assert_eq!(port.queued(), output_left);
        assert_eq!(port.column(), 3);
        // "Literal next" goes with the input.
        receive(&mut port, &[NL]);
        let finished = lines(&mut port).len();
        assert_eq!(finished, usize::from(choice != 2));
    }
}

#[test]
fn a_disabled_special_character_does_nothing() {
    let mut settings = settings(0, flag::ECHO);
    for special in value::EOF..=value::LNEXT {
        settings.values[special] = DISABLED;
    }
    let mut port = port_with(&settings);
    let typed: Vec<u8> = (0..=255).filter(|&byte| byte != CR && byte != NL).collect();
    receive(&mut port, &typed);
    receive(&mut port, &[NL]);
    let mut line = typed.clone();
    line.push(NL);
    assert_eq!(line.len(), 255);
    assert_eq!(port.read(1_024, false), given(&line));
}
