//! The lines of "Edges of the shelf" and "Mistakes to expect".

mod common;

use common::all_flags::*;
use common::{fresh_buffer, fresh_with_tail, refused, set_ck};
use reference::lister::lines;
use reference::outside::fresh;
use reference::table::{Scaled, fields};

fn buffer_of_fresh(length: usize) -> Vec<u8> {
    let mut buffer = vec![0xA5; length];
    assert_eq!(fresh([1, 1900, 1, 0, 0], &mut buffer), Ok(()));
    buffer
}

#[test]
fn fresh_report() {
    let buffer = buffer_of_fresh(60);
    assert_eq!(buffer[..9], [0, 0, 0, 0x59, 0x44, 0, 0, 0x17, 0x0A]);
    assert!(buffer[9..36].iter().all(|&byte| byte == 0));
    assert_eq!(buffer[36..38], [0xF0, 0]);
    assert!(buffer[38..].iter().all(|&byte| byte == 0xA5));
    assert_eq!(judge(&buffer).unwrap().ck, 240);
    assert_eq!(buffer, fresh_buffer(60));
}

#[test]
fn lister_of_the_fresh_report() {
    let expected = ["1 1", "2 1900", "3 1", "6 0", "7 0", "C 240", "A 0"];
    assert_eq!(lines(&fresh_buffer(38)), expected);
    assert_eq!(lines(&[]), ["R 1 0"]);
}

#[test]
fn s_set_to_286_then_text_a1() {
    let mut buffer = fresh_buffer(60);
    assert_eq!(set_field(&mut buffer, 31, Scaled(286)), Ok(None));
    assert_eq!(buffer[25..27], [0x14, 0x18]);
    assert_eq!(judge(&buffer).unwrap().ck, 251);
    assert_eq!(buffer[36..38], [0xFB, 0]);
    assert_eq!(put_text(&mut buffer, b"A1", &[0, 0]), Ok(3));
    assert_eq!(buffer[36], 0xFB);
    assert_eq!(buffer[37..41], [0x10, 0x34, 0xC1, 0x10]);
    let report = judge(&buffer).unwrap();
    assert_eq!((report.ck, report.ac, report.bytes), (251, 1, 41));
    assert!(buffer[41..].iter().all(|&byte| byte == 0xA5));
}

#[test]
fn all_highest_and_all_coded_1() {
    let word = (1 << 47) - 2;
    let highest: Vec<i64> = fields()
        .iter()
        .map(|field| field.highest_value().0)
        .collect();
    assert_eq!(
        fields().iter().map(|field| field.highest).sum::<u64>(),
        19643
    );
    let mut output = [0; 38];
    assert_eq!(pack(&highest, word, 0, &[], &mut output), Ok(38));
    assert_eq!(judge(&output).unwrap().ck, 8);
    let lowest: Vec<i64> = fields()
        .iter()
        .map(|field| field.lowest_value().0)
        .collect();
    assert_eq!(pack(&lowest, word, 0, &[], &mut output), Ok(38));
    assert_eq!(judge(&output).unwrap().ck, 46);
}

#[test]
fn s_below_its_range() {
    let mut buffer = fresh_buffer(38);
    assert_eq!(set_field(&mut buffer, 31, Scaled(-1000)), refused(9, 31));
    assert_eq!(buffer, fresh_buffer(38));
    assert_eq!(set_field(&mut buffer, 31, Scaled(-999)), Ok(None));
    // Code 1 at bits 203 to 213; CK 241.
    let mut expected = fresh_buffer(38);
    expected[26] = 0x04;
    expected[36] = 0xF1;
    assert_eq!(buffer, expected);
}

/// The nibbles of bytes that are all plain or all original.
fn nibbles_of_text(text: &[u8], origin: u8) -> Vec<u8> {
    let mut buffer = fresh_buffer(200);
    let origins = vec![origin; text.len()];
    let written = put_text(&mut buffer, text, &origins);
    let mut output = [0xEE; 255];
    let count = fetch(&buffer, 4, &mut output).unwrap();
    assert_eq!(written, Ok(count));
    output[..count].to_vec()
}

#[test]
fn texts() {
    assert_eq!(nibbles_of_text(b"12   3", 0), [1, 2, 11, 0, 3]);
    let twenty = [&[b' '; 20][..], b"B"].concat();
    assert_eq!(nibbles_of_text(&twenty, 0), [11, 15, 10, 10, 12, 2]);
    assert_eq!(nibbles_of_text(b"a", 1), [15, 6, 1]);
}

#[test]
fn three_spaces_spelled_out() {
    let mut buffer = fresh_buffer(60);
    assert_eq!(put(&mut buffer, 4, &[10, 10, 10, 1]), refused(14, 0));
    assert_eq!(buffer, fresh_buffer(60));
    let report = fresh_with_tail(1, &[0, 4, 4, 10, 10, 10, 1]);
    assert_eq!(judge(&report), refused(6, 1));
}

#[test]
fn eighty_five_escapes_fit_and_eighty_six_do_not() {
    let mut buffer = fresh_buffer(200);
    assert_eq!(put_text(&mut buffer, &[b'a'; 85], &[1; 85]), Ok(255));
    let after = buffer.clone();
    let refusal = put_text(&mut buffer, &[b'a'; 86], &[1; 86]);
    assert_eq!(refusal, refused(12, 0));
    assert_eq!(buffer, after);
}

#[test]
fn flags_r_and_l() {
    let mut buffer = fresh_buffer(60);
    assert_eq!(put(&mut buffer, 1, &[0; 16]), Ok(()));
    assert_eq!(set_flag(&mut buffer, 1, 1), Ok(None));
    assert_eq!(set_flag(&mut buffer, 6, 6), Ok(None));
    let mut body = [0xEE; 16];
    assert_eq!(fetch(&buffer, 1, &mut body), Ok(16));
    assert_eq!(body, [1, 0, 0, 0, 0, 6, 0, 0, 0, 0, 0, 0, 0, 0, 0, 3]);
}

#[test]
fn clearing_day_and_month() {
    let mut buffer = fresh_buffer(38);
    assert_eq!(clear_field(&mut buffer, 4), Ok(None));
    assert_eq!(clear_field(&mut buffer, 3), refused(10, 3));
    assert_eq!(buffer, fresh_buffer(38));
}

#[test]
fn a_temperature_of_0_is_not_missing() {
    let mut buffer = fresh_buffer(38);
    assert_eq!(set_field(&mut buffer, 28, Scaled(0)), Ok(None));
    assert_eq!(read_field(&buffer, 28), Ok(Some(Scaled(0))));
    // Code 1000 is 01111101000 at bits 170 to 180; 2005 modulo 255 is 220.
    let mut expected = fresh_buffer(38);
    expected[21] = 0b0001_1111;
    expected[22] = 0b0100_0000;
    expected[36] = 0xDC;
    assert_eq!(buffer, expected);
}

#[test]
fn ac_is_not_in_ck() {
    let mut report = fresh_with_tail(2, &[0, 1, 5, 9, 0, 1, 6, 9]);
    assert_eq!(judge(&report).unwrap().ck, 240);
    set_ck(&mut report, 242);
    assert_eq!(judge(&report), refused(4, 0));
}

#[test]
fn ck_is_compared_in_all_14_bits() {
    for bit in 8..14 {
        let mut report = fresh_buffer(38);
        set_ck(&mut report, 240 | (1 << bit));
        assert_eq!(judge(&report), refused(4, 0), "bit {bit}");
    }
}

#[test]
fn al_counts_nibbles() {
    // AL 4 takes two bytes: 75 + 3 + 4 nibbles are 41 bytes.
    let report = fresh_with_tail(1, &[0, 4, 5, 1, 2, 3, 4]);
    assert_eq!(report.len(), 41);
    assert_eq!(judge(&report).unwrap().bytes, 41);
    assert_eq!(judge(&report[..40]), refused(1, 1));
}

#[test]
fn nineteen_spaces() {
    let nineteen = [&[b' '; 19][..], b"1"].concat();
    assert_eq!(nibbles_of_text(&nineteen, 0), [11, 15, 10, 1]);
    let mut buffer = fresh_buffer(60);
    assert_eq!(put(&mut buffer, 4, &[10, 11, 15, 1]), refused(14, 0));
}
