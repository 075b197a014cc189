//! Received events: storing, fitting, editing and echo.

use crate::helpers::*;
use second::port::{Port, Signal};
use second::settings::{flag, value, Settings};

// Hangup and hung-up ports.

#[test]
fn hangup_is_ignored_under_clocal() {
    let mut port = port(flag::CLOCAL, 0);
    receive(&mut port, b"a\n");
    let before = port.clone();
    assert_eq!(port.hangup(), None);
    assert_eq!(port, before);
}

#[test]
fn a_hung_up_port_ignores_events() {
    let mut port = port(0, 0);
    assert_eq!(port.set_foreground(1, false), Ok(()));
    assert_eq!(port.read(5, false), WAIT);
    assert_eq!(port.hangup(), Some(Signal::Hup));
    let before = port.clone();
    for byte in 0..=255 {
        assert_eq!(port.good_byte(byte), None);
        assert_eq!(port.parity_error(byte), None);
        port.framing_error(byte);
    }
    assert_eq!(port.break_condition(), None);
    assert_eq!(port.hangup(), None);
    port.tick();
    assert_eq!(port, before);
}

#[test]
fn a_hangup_leaves_column_and_stopped() {
    let mut port = port(0, 0);
    receive(&mut port, &[b'a', b'b', STOP]);
    assert_eq!(port.hangup(), Some(Signal::Hup));
    assert_eq!((port.queued(), port.column()), (0, 2));
}

// Breaks and broken bytes.

#[test]
fn breaks() {
    let mut ignoring = port(flag::IGNBRK | flag::BRKINT, 0);
    receive(&mut ignoring, b"a");
    assert_eq!(ignoring.break_condition(), None);
    assert_eq!(ignoring.places_used(), 1);
    // IGNPAR and INPCK have no say.
    for others in [0, flag::IGNPAR | flag::INPCK] {
        let mut marking = port(flag::PARMRK | others, flag::BRKINT);
        assert_eq!(marking.break_condition(), None);
        receive(&mut marking, &[NL]);
        assert_eq!(marking.read(10, false), given(&[255, 0, 0, NL]));
        let mut plain = port(others, flag::BRKINT);
        assert_eq!(plain.break_condition(), None);
        receive(&mut plain, &[NL]);
        assert_eq!(plain.read(10, false), given(&[0, NL]));
    }
}

#[test]
fn broken_units_leave_literal_next_as_it_is() {
    let mut port = port(0, flag::BRKINT);
    receive(&mut port, &[LNEXT]);
    port.framing_error(b'a');
    assert_eq!(port.break_condition(), None);
    receive(&mut port, &[NL, NL]);
    assert_eq!(port.read(10, false), given(&[0, 0, NL, NL]));
}

#[test]
fn broken_units_are_literal() {
    // A 0 from a break ends no line, though EOL is 0.
    let mut settings = settings(0, flag::BRKINT);
    settings.values[value::EOL] = 0;
    let mut port = port_with(&settings);
    assert_eq!(port.break_condition(), None);
    port.framing_error(b'a');
    receive(&mut port, &[0]);
    assert_eq!(port.read(10, false), given(&[0, 0, 0]));
}

#[test]
fn a_marked_unit_is_erased_whole() {
    let mut port = port(flag::PARMRK, 0);
    receive(&mut port, b"a");
    port.framing_error(b'x');
    shown(&mut port);
    receive(&mut port, &[ERASE]);
    assert_eq!(shown(&mut port), b"\x08 \x08");
    receive(&mut port, &[NL]);
    assert_eq!(port.read(10, false), given(b"a\n"));
}

// A good byte.

#[test]
fn istrip_comes_before_everything() {
    let mut port = port(flag::ISTRIP | flag::PARMRK, 0);
    assert_eq!(port.set_foreground(1, false), Ok(()));
    receive(&mut port, &[b'a' | 128, 255, b'b' | 128, NL | 128]);
    // 255 became 127, which is ERASE.
    assert_eq!(port.read(10, false), given(b"b\n"));
    assert_eq!(port.good_byte(INTR | 128), Some(Signal::Int));
    receive(&mut port, &[LNEXT | 128, 255, NL]);
    assert_eq!(port.read(10, false), given(&[127, NL]));
}

#[test]
fn doubled_255() {
    for (set, stored) in [
        (0, 1),
        (flag::PARMRK, 2),
        (flag::PARMRK | flag::IGNPAR, 1),
        (flag::PARMRK | flag::ISTRIP, 1),
    ] {
        let mut canonical = port(set, 0);
        receive(&mut canonical, &[LNEXT, 255]);
        assert_eq!(canonical.places_used(), stored);
        let mut raw = port(set, flag::ICANON);
        receive(&mut raw, &[255]);
        assert_eq!(raw.places_used(), stored);
        receive(&mut raw, &[LNEXT, 255]);
        assert_eq!(raw.places_used(), 2 * stored);
    }
}

#[test]
fn signals_flush_before_their_echo() {
    let mut port = port(0, 0);
    assert_eq!(port.set_foreground(1, false), Ok(()));
    for (byte, signal, echo) in [
        (INTR, Signal::Int, b"^C"),
        (QUIT, Signal::Quit, b"^\\"),
        (SUSP, Signal::Tstp, b"^Z"),
    ] {
        receive(&mut port, b"ab\ncd");
        assert_eq!(port.good_byte(byte), Some(signal));
        assert_eq!(port.places_used(), 0);
        assert_eq!(shown(&mut port), echo);
    }
}

#[test]
fn noflsh_keeps_both_queues() {
    let mut port = port(flag::NOFLSH, 0);
    assert_eq!(port.set_foreground(1, false), Ok(()));
    receive(&mut port, b"ab");
    assert_eq!(port.good_byte(INTR), Some(Signal::Int));
    assert_eq!(shown(&mut port), b"ab^C");
    receive(&mut port, &[NL]);
    assert_eq!(port.read(10, false), given(b"ab\n"));
}

#[test]
fn without_isig_signal_characters_are_stored() {
    let mut port = port(0, flag::ISIG);
    assert_eq!(port.set_foreground(1, false), Ok(()));
    receive(&mut port, &[INTR, QUIT, SUSP, NL]);
    assert_eq!(port.read(10, false), given(&[INTR, QUIT, SUSP, NL]));
}

#[test]
fn newline_mappings() {
    for (set, clear, received, stored) in [
        (0, 0, CR, Some(NL)),
        (0, flag::ICRNL, CR, Some(CR)),
        (flag::IGNCR, 0, CR, None),
        (flag::IGNCR, flag::ICRNL, CR, None),
        (0, 0, NL, Some(NL)),
        (flag::INLCR, 0, NL, Some(CR)),
        (flag::INLCR | flag::IGNCR, 0, NL, Some(CR)),
        (flag::INLCR, flag::ICRNL, CR, Some(CR)),
    ] {
        let mut port = port(set, clear | flag::ICANON);
        receive(&mut port, &[received]);
        assert_eq!(port.places_used(), usize::from(stored.is_some()));
        if let Some(byte) = stored {
            assert_eq!(port.read(1, false), given(&[byte]));
        }
    }
}

#[test]
fn a_mapped_13_ends_no_line_and_shows_as_a_control() {
    let mut port = port(flag::INLCR, 0);
    receive(&mut port, &[NL]);
    assert_eq!(shown(&mut port), b"^M");
    assert_eq!(port.read(5, false), WAIT);
}

// Fitting.

#[test]
fn units_of_two_and_three_bytes_fit_a_line_up_to_254_bytes() {
    for (length, doubled, marked) in [
        (251, true, true),
        (252, true, false),
        (253, false, false),
        (254, false, false),
    ] {
        let mut port = port(flag::PARMRK, 0);
        receive(&mut port, &vec![b'a'; length]);
        let mut marking = port.clone();
        shown(&mut port);
        receive(&mut port, &[255]);
        assert_eq!(port.places_used(), length + if doubled { 2 } else { 0 });
        assert_eq!(shown(&mut port), [if doubled { 255 } else { 7 }]);
        shown(&mut marking);
        marking.framing_error(b'x');
        assert_eq!(marking.places_used(), length + if marked { 3 } else { 0 });
        assert_eq!(
            shown(&mut marking),
            if marked { &b""[..] } else { &b"\x07"[..] }
        );
    }
}

/// A port under ICANON with so many places used, none of them in the current line.
fn port_holding(places: usize, set: u32) -> Port {
    let mut port = raw_port(1, 0);
    receive(&mut port, &vec![b'r'; places]);
    change(&mut port, &settings(set, 0));
    port
}

#[test]
fn canonical_units_leave_the_last_place_to_a_delimiter() {
    for (used, one, two, three) in [
        (1_020, true, true, true),
        (1_021, true, true, false),
        (1_022, true, false, false),
        (1_023, false, false, false),
        (1_024, false, false, false),
    ] {
        let mut port = port_holding(used, flag::PARMRK);
        receive(&mut port, b"a");
        assert_eq!(port.places_used() == used + 1, one);
        let mut port = port_holding(used, flag::PARMRK);
        receive(&mut port, &[255]);
        assert_eq!(port.places_used() == used + 2, two);
        let mut port = port_holding(used, flag::PARMRK);
        port.framing_error(b'x');
        assert_eq!(port.places_used() == used + 3, three);
        for delimiter in [NL, EOF] {
            let mut port = port_holding(used, 0);
            receive(&mut port, &[delimiter]);
            assert_eq!(port.places_used() == used + 1, used <= 1_023);
        }
    }
}

#[test]
fn without_icanon_all_places_can_be_used() {
    let mut settings = raw_settings(1, 0);
    settings.flags |= flag::PARMRK;
    for (used, one, two, three) in [
        (1_021, true, true, true),
        (1_022, true, true, false),
        (1_023, true, false, false),
        (1_024, false, false, false),
    ] {
        let mut full = port_with(&settings);
        receive(&mut full, &vec![b'r'; used]);
        let mut port = full.clone();
        receive(&mut port, b"a");
        assert_eq!(port.places_used() == used + 1, one);
        let mut port = full.clone();
        receive(&mut port, &[255]);
        assert_eq!(port.places_used() == used + 2, two);
        assert_eq!(shown(&mut port).is_empty(), two);
        let mut port = full;
        port.framing_error(b'x');
        assert_eq!(port.places_used() == used + 3, three);
    }
}

#[test]
fn room_is_free_again_as_soon_as_bytes_are_read() {
    let mut port = port_holding(1_024, 0);
    assert_eq!(port.read(2, false), given(b"rr"));
    receive(&mut port, b"a");
    assert_eq!(port.places_used(), 1_023);
    receive(&mut port, &[ERASE, NL]);
    assert_eq!(port.places_used(), 1_023);
}

#[test]
fn the_line_limit_is_that_of_the_current_line() {
    let mut port = port(0, flag::ECHO);
    for _ in 0..3 {
        receive(&mut port, &[b'a'; 254]);
        receive(&mut port, &[NL]);
    }
    receive(&mut port, &[b'b'; 254]);
    assert_eq!(port.places_used(), 3 * 255 + 254);
    assert_eq!(shown(&mut port), b"");
}

#[test]
fn a_line_of_more_than_254_bytes_does_not_count_as_the_current_line() {
    let mut port = port_holding(600, 0);
    receive(&mut port, &[b'a'; 254]);
    assert_eq!(port.places_used(), 854);
    receive(&mut port, b"a");
    assert_eq!(port.places_used(), 854);
}

#[test]
fn a_bell_is_queued_unprocessed_and_whether_or_not_echo_is_set() {
    let mut port = port(0, flag::ECHO);
    receive(&mut port, &[b'a'; 255]);
    assert_eq!(shown(&mut port), [7]);
}

#[test]
fn a_10_that_does_not_fit_is_not_shown() {
    let mut settings = raw_settings(1, 0);
    settings.flags |= flag::ECHO;
    let mut port = port_with(&settings);
    receive(&mut port, &[b'r'; 1_024]);
    shown(&mut port);
    receive(&mut port, &[NL]);
    assert_eq!(shown(&mut port), [7]);
}

// Editing.

#[test]
fn erase_shows_8_32_8_or_its_own_echo() {
    for (clear, echo) in [
        (0, &b"\x08 \x08"[..]),
        (flag::ECHOE, b"^?"),
        (flag::ECHOE | flag::ECHOCTL, b"\x7f"),
        (flag::ECHO, b""),
    ] {
        let mut port = port(0, clear);
        receive(&mut port, b"ab");
        shown(&mut port);
        receive(&mut port, &[ERASE]);
        assert_eq!(shown(&mut port), echo);
        assert_eq!(port.places_used(), 1);
    }
}

#[test]
fn werase_shows_8_32_8_for_each_unit_or_its_own_echo_once() {
    for (clear, echo) in [
        (0, &b"\x08 \x08\x08 \x08\x08 \x08"[..]),
        (flag::ECHOE, b"^W"),
        (flag::ECHOE | flag::ECHOCTL, b"\x17"),
        (flag::ECHO, b""),
    ] {
        let mut port = port(flag::PARMRK, clear);
        receive(&mut port, &[b'a', b' ', b'b', 255, b' ']);
        shown(&mut port);
        receive(&mut port, &[WERASE]);
        assert_eq!(shown(&mut port), echo);
        assert_eq!(port.places_used(), 2);
    }
}

#[test]
fn kill_shows_8_32_8_for_each_unit_or_its_echo_and_10() {
    for (set, clear, echo) in [
        (0, 0, &b"\x08 \x08\x08 \x08"[..]),
        (flag::ECHOK, 0, b"\x08 \x08\x08 \x08"),
        (flag::ECHOK, flag::ECHOKE, b"^U\r\n"),
        (0, flag::ECHOKE, b"^U"),
        (0, flag::ECHOKE | flag::ECHOCTL, b"\x15"),
        // ECHOE has no say here.
        (0, flag::ECHOE, b"\x08 \x08\x08 \x08"),
        (flag::ECHOK | flag::ECHONL, flag::ECHOKE | flag::ECHO, b""),
    ] {
        let mut port = port(set, clear);
        receive(&mut port, b"ab");
        shown(&mut port);
        receive(&mut port, &[KILL]);
        assert_eq!(shown(&mut port), echo);
        assert_eq!(port.places_used(), 0);
    }
}

#[test]
fn on_an_empty_line_erase_werase_and_kill_do_and_show_nothing() {
    for clear in [0, flag::ECHOE | flag::ECHOKE] {
        for byte in [ERASE, WERASE, KILL] {
            let mut port = port(flag::ECHOK, clear);
            receive(&mut port, b"a\n");
            shown(&mut port);
            receive(&mut port, &[byte]);
            assert_eq!(shown(&mut port), b"");
            assert_eq!(port.read(5, false), given(b"a\n"));
        }
    }
}

#[test]
fn werase_on_blanks_and_words() {
    for (typed, left) in [
        (&b"foo bar"[..], &b"foo "[..]),
        (b"foo bar \t ", b"foo "),
        (b"  ", b""),
        (b" a", b" "),
        (b"a\tb;c", b"a\t"),
    ] {
        let mut port = port(0, 0);
        receive(&mut port, typed);
        receive(&mut port, &[WERASE, EOF]);
        assert_eq!(port.read(100, false), given(left));
    }
}

#[test]
fn a_silent_unit_gets_its_8_32_8_too() {
    let mut port = port(0, flag::BRKINT);
    assert_eq!(port.break_condition(), None);
    receive(&mut port, &[ERASE]);
    assert_eq!(shown(&mut port), b"\x08 \x08");
    assert_eq!(port.break_condition(), None);
    receive(&mut port, &[KILL]);
    assert_eq!(shown(&mut port), b"\x08 \x08");
}

// Echo.

#[test]
fn every_byte_s_echo_with_and_without_echoctl() {
    for byte in 0..=255 {
        let mut settings = Settings {
            flags: flag::ECHO | flag::ECHOCTL,
            ..Settings::default()
        };
        let mut port = port_with(&settings);
        receive(&mut port, &[byte]);
        let expected = match byte {
            9 | 10 => vec![byte],
            127 => vec![94, 63],
            0..=31 => vec![94, byte + 64],
            _ => vec![byte],
        };
        assert_eq!(shown(&mut port), expected);
        settings.flags = flag::ECHO;
        let mut port = port_with(&settings);
        receive(&mut port, &[byte]);
        assert_eq!(shown(&mut port), [byte]);
    }
}

#[test]
fn echo_passes_through_output_processing() {
    let mut port = port(flag::TAB3 | flag::ONOEOT, flag::ECHOCTL);
    receive(&mut port, b"ab\tc");
    assert_eq!(shown(&mut port), b"ab      c");
    assert_eq!(port.column(), 9);
    // A literal 4 is stored, but its echo is dropped.
    receive(&mut port, &[LNEXT, 4]);
    assert_eq!(shown(&mut port), b"");
    receive(&mut port, &[NL]);
    assert_eq!(port.read(10, false), given(b"ab\tc\x04\n"));
}

#[test]
fn echo_of_a_literal_13_can_be_turned_into_10() {
    let mut port = port(flag::OCRNL, flag::ECHOCTL);
    receive(&mut port, &[LNEXT, CR]);
    assert_eq!(shown(&mut port), [10]);
}

#[test]
fn eof_has_no_echo() {
    let mut port = port(0, 0);
    receive(&mut port, &[b'a', EOF]);
    assert_eq!(shown(&mut port), b"a");
    // A literal one has.
    receive(&mut port, &[LNEXT, EOF]);
    assert_eq!(shown(&mut port), b"^D");
}

#[test]
fn an_event_s_echo_is_whole_or_absent() {
    let mut port = port(0, 0);
    receive(&mut port, b"abc");
    shown(&mut port);
    assert_eq!(port.write(&[b'x'; 2_040]), Ok(2_040));
    // 8,32,8 for three units needs nine places.
    receive(&mut port, &[KILL]);
    assert_eq!(port.queued(), 2_040);
    assert_eq!(port.places_used(), 0);
    receive(&mut port, b"ab");
    assert_eq!(port.queued(), 2_042);
    receive(&mut port, &[KILL]);
    assert_eq!(port.queued(), 2_048);
}

#[test]
fn the_column_moves_back_with_8_32_8() {
    let mut port = port(0, 0);
    receive(&mut port, b"ab");
    assert_eq!(port.column(), 2);
    receive(&mut port, &[ERASE]);
    assert_eq!(port.column(), 1);
    receive(&mut port, &[KILL]);
    assert_eq!(port.column(), 0);
}
