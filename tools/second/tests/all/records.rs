//! The trace program: its lines, malformed records, cut and full traces.

use crate::helpers::*;
use second::settings::{flag, value, Settings};

/// A trace that uses every kind, with its lines.
fn every_kind() -> (Vec<Vec<u8>>, Vec<&'static str>) {
    let mut equal = Settings::default();
    equal.values[value::EOL] = INTR;
    let pairs = [
        (
            settings_record(&settings(flag::PARMRK | flag::INPCK, flag::BRKINT)),
            "0 1 ok 0 -",
        ),
        (settings_record(&equal), "1 1 r1 0 -"),
        (good(b'h'), "2 2 ok 1 -"),
        (record(3, b"p"), "3 3 ok 1 -"),
        (record(4, b"f"), "4 4 ok 1 -"),
        (record(5, &[]), "5 5 ok 0 -"),
        (record(6, &[]), "6 6 ok 0 -"),
        (read(20, 1), "7 8 r3 0 -"),
        (read(20, 0), "8 8 wait 0 -"),
        (settings_record(&equal), "9 1 r4 0 -"),
        (read(21, 0), "10 8 r4 0 -"),
        (read(20, 1), "11 8 r4 0 -"),
        (record(12, &[]), "12 12 ok 0 -"),
        (good(NL), "13 2 ok 1 -"),
        (read(20, 0), "14 8 ok 11 68ff0070ff0066ff00000a"),
        (transmit(2), "15 10 ok 2 680d"),
        (record(9, b"ab\n"), "16 9 ok 3 -"),
        (record(9, b""), "17 9 ok 0 -"),
        (transmit(2_048), "18 10 ok 5 0a61620d0a"),
        (transmit(2_048), "19 10 ok 0 -"),
        (record(11, &[1]), "20 11 ok 0 -"),
        (record(11, &[2]), "21 11 ok 0 -"),
        (record(11, &[3]), "22 11 ok 0 -"),
        (good(INTR), "23 2 ok 1 -"),
        (foreground(2_147_483_647, 0), "24 13 ok 0 -"),
        (good(INTR), "25 2 int 1 -"),
        (good(QUIT), "26 2 quit 1 -"),
        (good(SUSP), "27 2 tstp 1 -"),
        (foreground(1, 1), "28 13 ok 0 -"),
        (good(SUSP), "29 2 ok 1 -"),
        (settings_record(&settings(0, 0)), "30 1 ok 0 -"),
        (record(5, &[]), "31 5 int 0 -"),
        (record(3, &[INTR]), "32 3 int 1 -"),
        (good(EOF), "33 2 ok 1 -"),
        (read(0, 0), "34 8 ok 0 -"),
        (read(1_024, 0), "35 8 ok 0 -"),
        (foreground(0, 1), "36 13 ok 0 -"),
        (record(5, &[]), "37 5 ok 0 -"),
        (record(7, &[]), "38 7 hup 0 -"),
        (record(7, &[]), "39 7 ok 0 -"),
        (good(b'a'), "40 2 ok 1 -"),
        (record(3, b"a"), "41 3 ok 1 -"),
        (record(4, b"a"), "42 4 ok 1 -"),
        (record(5, &[]), "43 5 ok 0 -"),
        (record(6, &[]), "44 6 ok 0 -"),
        (read(5, 0), "45 8 ok 0 -"),
        (read(5, 1), "46 8 ok 0 -"),
        (record(9, b"x"), "47 9 r5 0 -"),
        (record(9, b""), "48 9 r5 0 -"),
        (transmit(5), "49 10 ok 0 -"),
        (record(11, &[3]), "50 11 ok 0 -"),
        (record(12, &[]), "51 12 ok 0 -"),
        (foreground(4, 0), "52 13 ok 0 -"),
        (settings_record(&settings(0, 0)), "53 1 ok 0 -"),
        (record(14, b"zz"), "54 14 r2 0 -"),
    ];
    pairs.into_iter().unzip()
}

#[test]
fn every_kind_prints_its_line() {
    let (records, expected) = every_kind();
    assert_eq!(run(&records), expected);
}

#[test]
fn a_refused_write_prints_count_0() {
    let mut records = vec![record(9, &[b'x'; 512]); 4];
    records.push(record(9, b"yz"));
    records.push(transmit(1));
    records.push(record(9, b"yz"));
    let printed = run(&records);
    assert_eq!(printed[3], "3 9 ok 512 -");
    assert_eq!(printed[4..], ["4 9 r3 0 -", "5 10 ok 1 78", "6 9 ok 1 -"]);
}

// Malformed records.

/// Checks that this record is refused as malformed and leaves the port as it was.
fn is_malformed(kind: u16, body: &[u8]) {
    let before = [good(b'a'), good(NL), good(b'b'), record(9, b"w")].concat();
    let after = [transmit(2_048), good(NL), read(9, 1), read(9, 1)].concat();
    let with = [before.clone(), record(kind, body), after.clone()].concat();
    let with = run_bytes(&with);
    let with: Vec<&str> = with.lines().collect();
    assert_eq!(with.len(), 9);
    assert_eq!(with[4], format!("4 {kind} r2 0 -"), "body {body:?}");
    let without = run_bytes(&[before, after].concat());
    // The lines after it are the same but for their index.
    for (line, other) in with[5..].iter().zip(without.lines().skip(4)) {
        assert_eq!(
            line.split_once(' ').map(|x| x.1),
            other.split_once(' ').map(|x| x.1)
        );
    }
}

#[test]
fn wrong_lengths_are_malformed() {
    let right: [(u16, &[usize]); 12] = [
        (1, &[19]),
        (2, &[1]),
        (3, &[1]),
        (4, &[1]),
        (5, &[0]),
        (6, &[0]),
        (7, &[0]),
        (8, &[3]),
        (10, &[2]),
        (11, &[1]),
        (12, &[0]),
        (13, &[5]),
    ];
    for (kind, lengths) in right {
        for length in (0..40).chain([255, 256, 257, 512, 513, 1_024, 65_535]) {
            if !lengths.contains(&length) {
                is_malformed(kind, &vec![1; length]);
                is_malformed(kind, &vec![0; length]);
            }
        }
    }
    for length in [513, 514, 1_024, 65_535] {
        is_malformed(9, &vec![b'x'; length]);
    }
}

#[test]
fn every_write_length_to_512_is_well_formed() {
    for length in 0..=512 {
        let printed = run_bytes(&record(9, &vec![b'x'; length]));
        assert_eq!(printed, format!("0 9 ok {length} -\n"));
    }
}

#[test]
fn unknown_kinds_are_malformed() {
    for kind in [0, 14, 15, 255, 256, 257, 512, 8 << 8, 65_535] {
        for length in [0, 1, 2, 3, 5, 19] {
            is_malformed(kind, &vec![1; length]);
        }
    }
}

#[test]
fn wrong_values_of_a_read_are_malformed() {
    for count in [1_025, 1_026, 2_048, 32_768, 65_535] {
        let [low, high] = u16::to_le_bytes(count);
        for non_blocking in [0, 1, 2] {
            is_malformed(8, &[low, high, non_blocking]);
        }
    }
    for non_blocking in 2..=255 {
        is_malformed(8, &[9, 0, non_blocking]);
    }
    assert_eq!(run_bytes(&read(1_024, 0)), "0 8 wait 0 -\n");
    assert_eq!(run_bytes(&read(1_024, 1)), "0 8 r3 0 -\n");
}

#[test]
fn wrong_values_of_a_transmit_are_malformed() {
    for count in [2_049, 4_096, 65_535] {
        is_malformed(10, &u16::to_le_bytes(count));
    }
    assert_eq!(run_bytes(&transmit(2_048)), "0 10 ok 0 -\n");
    assert_eq!(run_bytes(&transmit(0)), "0 10 ok 0 -\n");
}

#[test]
fn wrong_values_of_a_flush_are_malformed() {
    is_malformed(11, &[0]);
    for choice in 4..=255 {
        is_malformed(11, &[choice]);
    }
}

#[test]
fn wrong_values_of_a_foreground_are_malformed() {
    for group in [2_147_483_648, 2_147_483_649, u32::MAX] {
        let mut body = group.to_le_bytes().to_vec();
        body.push(0);
        is_malformed(13, &body);
    }
    for group in [0_u32, 1, 2_147_483_647] {
        for orphaned in 2..=255 {
            let mut body = group.to_le_bytes().to_vec();
            body.push(orphaned);
            is_malformed(13, &body);
        }
    }
}

#[test]
fn a_malformed_foreground_keeps_the_old_one() {
    let printed = run(&[
        foreground(5, 0),
        foreground(0, 2),
        foreground(6, 2),
        good(SUSP),
    ]);
    assert_eq!(
        printed,
        ["0 13 ok 0 -", "1 13 r2 0 -", "2 13 r2 0 -", "3 2 tstp 1 -"]
    );
}

#[test]
fn settings_records_hold_flags_and_values_in_order() {
    // ICANON off, MIN 0, TIME 0: a read of nothing answers at once.
    let mut plain = Settings {
        flags: 0,
        ..Settings::default()
    };
    plain.values[value::MIN] = 0;
    let printed = run(&[settings_record(&plain), read(4, 0), good(EOF), read(4, 0)]);
    assert_eq!(
        printed,
        ["0 1 ok 0 -", "1 8 ok 0 -", "2 2 ok 1 -", "3 8 ok 1 04"]
    );
    // The bytes of a settings record, written out: ICANON alone, EOF 5.
    let mut body = vec![0, 0, 0, 8, 5];
    body.extend([255; 12]);
    body.extend([1, 0]);
    let printed = run(&[record(1, &body), good(b'a'), good(5), read(4, 0)]);
    assert_eq!(printed[3], "3 8 ok 1 61");
}

// Cut and full traces.

#[test]
fn a_trace_cut_at_each_of_its_bytes() {
    let (records, expected) = every_kind();
    let whole = records.concat();
    for length in 0..=whole.len() {
        let mut complete = 0;
        let mut end = 0;
        for record in &records {
            if end + record.len() > length {
                break;
            }
            end += record.len();
            complete += 1;
        }
        let mut lines: Vec<String> = expected[..complete]
            .iter()
            .map(|line| line.to_string())
            .collect();
        if end < length {
            lines.push(format!("{complete} cut"));
        }
        let printed = run_bytes(&whole[..length]);
        assert_eq!(printed.lines().collect::<Vec<_>>(), lines);
        assert!(printed.is_empty() || printed.ends_with('\n'));
    }
}

#[test]
fn a_cut_record_is_cut_whatever_its_kind() {
    for kind in [0, 2, 8, 9, 99, 65_535] {
        let mut whole = record(kind, &[1; 600]);
        whole.pop();
        assert_eq!(run_bytes(&whole), "0 cut\n");
        assert_eq!(run_bytes(&whole[..4]), "0 cut\n");
    }
}

#[test]
fn at_most_65_535_records_are_read() {
    let tick = record(6, &[]);
    let full = tick.repeat(65_535);
    let printed = run_bytes(&full);
    assert_eq!(printed.lines().count(), 65_535);
    assert_eq!(printed.lines().last(), Some("65534 6 ok 0 -"));
    // One more, whole or cut anywhere, and whatever follows it.
    for more in [&tick[..1], &tick[..2], &tick[..3], &tick[..], &[9; 500]] {
        let longer = [&full[..], more].concat();
        let longer_printed = run_bytes(&longer);
        assert_eq!(longer_printed, format!("{printed}65535 full\n"));
    }
}

#[test]
fn the_65_535th_record_can_be_cut() {
    let mut bytes = record(6, &[]).repeat(65_535);
    bytes.pop();
    let printed = run_bytes(&bytes);
    assert_eq!(printed.lines().last(), Some("65534 cut"));
}
