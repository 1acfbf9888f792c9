//! Refusals 1 to 7, with their places and their order.

mod common;

use common::all_flags::judge;
use common::{fresh_buffer, fresh_with_tail, refused, set_bits, set_ck};
use reference::cases::reports::{beyond_the_lister, damaged, sound};
use reference::lister::lines;
use reference::table::Scaled;

/// The first bit of each field, added up by hand from the widths.
const STARTS: [usize; 47] = [
    16, 26, 34, 38, 43, 48, 60, 71, 74, 84, 92, 96, 98, 101, 103, 106, 108, 111, 120, 124, 134,
    136, 140, 147, 151, 155, 166, 170, 181, 192, 203, 214, 218, 222, 226, 230, 232, 236, 240, 244,
    250, 255, 262, 268, 273, 280, 282,
];

/// Fields whose bits hold codes above the highest, with the least of those.
const TOO_HIGH: [(usize, u64); 34] = [
    (1, 649),
    (3, 13),
    (5, 25),
    (6, 3601),
    (7, 1802),
    (8, 5),
    (9, 1001),
    (11, 9),
    (13, 7),
    (15, 3),
    (17, 7),
    (18, 363),
    (19, 5),
    (22, 11),
    (23, 101),
    (24, 11),
    (25, 11),
    (27, 7),
    (28, 2000),
    (29, 2000),
    (30, 2000),
    (31, 2000),
    (32, 4),
    (33, 11),
    (34, 11),
    (35, 12),
    (36, 3),
    (37, 12),
    (38, 12),
    (39, 12),
    (40, 40),
    (42, 101),
    (43, 40),
    (45, 101),
];

/// Codes of the fresh report.
fn fresh_code(field: usize) -> u64 {
    match field {
        1 | 3 | 6 => 1,
        2 => 101,
        7 => 901,
        _ => 0,
    }
}

/// The fresh report with one code replaced and CK in keeping.
fn with_code(field: usize, code: u64) -> Vec<u8> {
    let mut report = fresh_buffer(38);
    let start = STARTS[field - 1];
    set_bits(&mut report, start, STARTS[field] - start, code);
    set_ck(&mut report, (1005 - fresh_code(field) + code) % 255);
    report
}

#[test]
fn accepted_report_as_read() {
    let mut report = fresh_with_tail(2, &[0, 2, 9, 3, 4, 0, 1, 4, 7]);
    report[..2].copy_from_slice(&[0x12, 0x34]);
    report.extend([0xFF; 3]);
    let judged = judge(&report).unwrap();
    assert_eq!(judged.observation.rptin, 0x1234);
    assert_eq!((judged.ck, judged.ac, judged.bytes), (240, 2, 42));
    let present: Vec<(usize, Scaled)> = judged
        .observation
        .values
        .iter()
        .enumerate()
        .filter_map(|(index, value)| value.map(|value| (index + 1, value)))
        .collect();
    let expected = [(1, 1), (2, 1900), (3, 1), (6, 0), (7, 0)].map(|(k, v)| (k, Scaled(v)));
    assert_eq!(present, expected);
    let attachments: Vec<(u8, &[u8])> = judged
        .observation
        .attachments
        .iter()
        .map(|attachment| (attachment.id, &attachment.nibbles[..]))
        .collect();
    assert_eq!(attachments, [(9, &[3, 4][..]), (4, &[7][..])]);
}

#[test]
fn r1_under_38_bytes() {
    for length in 0..38 {
        assert_eq!(judge(&fresh_buffer(38)[..length]), refused(1, 0));
        assert_eq!(judge(&vec![0xFF; length]), refused(1, 0));
    }
    assert!(judge(&fresh_buffer(38)).is_ok());
}

#[test]
fn r1_header_or_data_cut() {
    let whole = fresh_with_tail(2, &[0, 2, 9, 3, 4, 0, 4, 8, 1, 2, 3, 4]);
    assert_eq!(whole.len(), 44);
    assert_eq!(judge(&whole).unwrap().bytes, 44);
    for (length, position) in [(38, 1), (39, 1), (40, 2), (41, 2), (42, 2), (43, 2)] {
        assert_eq!(judge(&whole[..length]), refused(1, position), "{length}");
    }
}

#[test]
fn r2_code_above_the_highest() {
    for (field, code) in TOO_HIGH {
        assert_eq!(judge(&with_code(field, code)), refused(2, field));
        let all_ones = (1 << (STARTS[field] - STARTS[field - 1])) - 1;
        assert_eq!(judge(&with_code(field, all_ones)), refused(2, field));
        assert!(judge(&with_code(field, code - 1)).is_ok(), "{field}");
    }
}

#[test]
fn codes_that_fill_their_bits_are_accepted() {
    for field in [2, 4, 10, 12, 14, 16, 20, 21, 26, 41, 44] {
        let all_ones = (1 << (STARTS[field] - STARTS[field - 1])) - 1;
        assert!(judge(&with_code(field, all_ones)).is_ok(), "{field}");
    }
    // A6 has two bits and highest code 2.
    assert_eq!(judge(&with_code(46, 3)), refused(2, 46));
    assert!(judge(&with_code(46, 2)).is_ok());
}

#[test]
fn r3_required_field_missing() {
    for field in [1, 2, 3, 6, 7] {
        assert_eq!(judge(&with_code(field, 0)), refused(3, field));
    }
    for field in (1..=46).filter(|field| ![1, 2, 3, 6, 7].contains(field)) {
        let judged = judge(&with_code(field, 0)).unwrap();
        assert_eq!(judged.observation.values[field - 1], None);
    }
}

#[test]
fn r2_and_r3_by_ascending_field() {
    let mut report = with_code(3, 13);
    set_bits(&mut report, STARTS[5], 12, 0);
    assert_eq!(judge(&report), refused(2, 3));
    set_bits(&mut report, STARTS[1], 8, 0);
    assert_eq!(judge(&report), refused(3, 2));
    set_bits(&mut report, STARTS[0], 10, 1023);
    assert_eq!(judge(&report), refused(2, 1));
}

#[test]
fn r4_checksum_differs() {
    for ck in [0, 239, 241, 255, 240 + 255, 240 + 256, 0x3FFF] {
        let mut report = fresh_buffer(38);
        set_ck(&mut report, ck);
        assert_eq!(judge(&report), refused(4, 0), "{ck}");
    }
}

#[test]
fn checksum_0_is_real_and_255_is_not() {
    // DAY 15 makes the sum 1020, 4 times 255.
    let mut report = with_code(4, 15);
    assert_eq!(judge(&report).unwrap().ck, 0);
    set_ck(&mut report, 255);
    assert_eq!(judge(&report), refused(4, 0));
    // DAY 14 makes it 1019: CK 254, the largest.
    assert_eq!(judge(&with_code(4, 14)).unwrap().ck, 254);
}

#[test]
fn rptin_and_ac_are_not_in_the_checksum() {
    let mut report = fresh_with_tail(1, &[0, 1, 5, 9]);
    report[..2].copy_from_slice(&[0xFF, 0xFF]);
    assert_eq!(judge(&report).unwrap().ck, 240);
}

#[test]
fn r5_header() {
    assert_eq!(judge(&fresh_with_tail(1, &[0, 0, 5])), refused(5, 1));
    assert_eq!(judge(&fresh_with_tail(1, &[0, 1, 0, 9])), refused(5, 1));
    assert_eq!(judge(&fresh_with_tail(1, &[0, 0, 0])), refused(5, 1));
    let repeated = [0, 1, 5, 9, 0, 1, 6, 9, 0, 1, 5, 9];
    assert_eq!(judge(&fresh_with_tail(3, &repeated)), refused(5, 3));
    assert!(judge(&fresh_with_tail(2, &repeated)).is_ok());
}

#[test]
fn r6_flags() {
    let with_body = |body: &[u8]| {
        let mut tail = vec![0, 1, 5, 9, body.len() as u8 / 16, body.len() as u8 % 16, 1];
        tail.extend(body);
        judge(&fresh_with_tail(2, &tail)).map(|report| report.ac)
    };
    let sound = [1, 0, 0, 0, 0, 6, 0, 0, 0, 0, 0, 0, 0, 0, 0, 3];
    assert_eq!(with_body(&sound), Ok(2));
    assert_eq!(with_body(&[0; 16]), Ok(2));
    assert_eq!(with_body(&sound[..15]), refused(6, 2));
    assert_eq!(with_body(&[&sound[..], &[0]].concat()), refused(6, 2));
    assert_eq!(with_body(&[0; 32]), refused(6, 2));
    for (index, nibble) in [
        (0, 11),
        (13, 11),
        (5, 15),
        (15, 2),
        (15, 4),
        (14, 1),
        (0, 2),
    ] {
        let mut body = sound;
        body[index] = nibble;
        assert_eq!(with_body(&body), refused(6, 2), "{index} {nibble}");
    }
    let mut only_correct = [0; 16];
    only_correct[3] = 1;
    assert_eq!(with_body(&only_correct), refused(6, 2));
    only_correct[15] = 1;
    assert_eq!(with_body(&only_correct), Ok(2));
    let mut none_with_code = [0; 16];
    none_with_code[15] = 1;
    assert_eq!(with_body(&none_with_code), refused(6, 2));
}

#[test]
fn r6_text() {
    let with_body = |body: &[u8]| {
        let mut tail = vec![0, body.len() as u8, 4];
        tail.extend(body);
        judge(&fresh_with_tail(1, &tail)).map(|report| report.ac)
    };
    assert_eq!(with_body(&[1, 10, 2]), Ok(1));
    assert_eq!(with_body(&[1, 10]), refused(6, 1));
    assert_eq!(with_body(&[15, 4, 1]), Ok(1));
    assert_eq!(with_body(&[15, 2, 0]), Ok(1));
    assert_eq!(with_body(&[10, 15, 2, 0]), Ok(1));
    assert_eq!(with_body(&[15, 2, 0, 10]), refused(6, 1));
    assert_eq!(with_body(&[10, 10, 10, 15, 2, 0]), refused(6, 1));
    assert_eq!(with_body(&[14, 0]), refused(6, 1));
    assert_eq!(with_body(&[15, 6]), refused(6, 1));
}

#[test]
fn r7_odd_last_nibble() {
    for last in 1..16 {
        let mut report = fresh_buffer(38);
        report[37] = last;
        assert_eq!(judge(&report), refused(7, 0));
        let mut report = fresh_with_tail(1, &[0, 1, 5, 9]);
        *report.last_mut().unwrap() |= last;
        assert_eq!(judge(&report), refused(7, 0));
    }
    // 75 + 5 nibbles are even: the next nibble is not the report's.
    let mut report = fresh_with_tail(1, &[0, 2, 5, 9, 9]);
    report.push(0xFF);
    assert_eq!(judge(&report).unwrap().bytes, 40);
}

#[test]
fn bytes_after_the_report_are_not_read() {
    for mut report in sound() {
        let judged = judge(&report).unwrap();
        report.truncate(judged.bytes);
        assert_eq!(judge(&report).as_ref(), Ok(&judged));
        report.extend([0xFF; 2000]);
        assert_eq!(judge(&report).as_ref(), Ok(&judged));
    }
}

#[test]
fn the_lister_reads_1856_bytes() {
    for (length, bytes, listed) in [
        (22, 1856, "R 6 15"),
        (23, 1857, "R 1 15"),
        (255, 1973, "R 1 15"),
    ] {
        let report = beyond_the_lister(length);
        assert_eq!(report.len(), bytes);
        assert_eq!(judge(&report), refused(6, 15));
        assert_eq!(lines(&report), [listed]);
    }
}

#[test]
fn damaged_reports_meet_every_refusal() {
    for report in damaged() {
        assert!(judge(&report).is_err());
    }
    for number in 1..=7 {
        let met = damaged()
            .iter()
            .any(|report| judge(report).is_err_and(|refusal| refusal.number == number));
        assert!(met, "{number}");
    }
}
