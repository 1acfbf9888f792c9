//! Bytes worked out by hand.

mod common;

use common::all_flags::*;
use common::{fresh_buffer, fresh_with_tail};
use reference::table::{Scaled, fields};

fn bytes_of_digits(digits: &str) -> Vec<u8> {
    let bits: Vec<u8> = digits
        .chars()
        .filter(|digit| !digit.is_whitespace())
        .map(|digit| u8::from(digit == '1'))
        .collect();
    assert_eq!(bits.len() % 8, 0);
    bits.chunks(8)
        .map(|byte| byte.iter().fold(0, |sum, bit| 2 * sum + bit))
        .collect()
}

#[test]
fn card_with_every_field_highest() {
    let expected = bytes_of_digits(
        "1010101111001101
         1010001000 11111111 1100 11111 11000 111000010000 11100001001 100
         1111101000 11111111 1000 11 110 11 010 11
         110 101101010 0100 1111111111 11 1010 1100100 1010 1010 11111111111
         0110 11111001111 11111001111 11111001111 11111001111 0011 1010 1010
         1011 10 1011 1011 1011 100111 11111 1100100 100111 11111 1100100 10
         00000000001000 0000
         0000",
    );
    assert_eq!(expected.len(), 38);
    let values: Vec<i64> = fields()
        .iter()
        .map(|field| field.highest_value().0)
        .collect();
    let mut output = [0; 38];
    assert_eq!(
        pack(&values, (1 << 47) - 2, 0xABCD, &[], &mut output),
        Ok(38)
    );
    assert_eq!(output.to_vec(), expected);
}

#[test]
fn card_of_distinct_values() {
    // BOX10 300, YEAR 1987, MONTH 7, DAY 23, HOUR 0, X 1795, Y -450, P 10132,
    // W 57, SH 3; the codes 300, 188, 7, 23, 1, 1796, 451, 1433, 58, 4 add up
    // to 4261, modulo 255 that is 181.
    let expected = bytes_of_digits(
        "0000000000000001
         0100101100 10111100 0111 10111 00001 011100000100 00111000011 000
         0000000000 00000000 0000 00 000 00 000 00
         000 000000000 0000 0000111010 00 0000 0000000 0000 0000 10110011001
         0000 00000000000 00000000000 00000000000 00000000000 0000 0000 0000
         0000 00 0000 0000 0000 000000 00000 0000000 000000 00000 0000100 00
         00000010110101 0000
         0000",
    );
    let mut values = [0; 46];
    let mut word = 0_u64;
    for (field, value) in [
        (1, 300),
        (2, 1987),
        (3, 7),
        (4, 23),
        (5, 0),
        (6, 1795),
        (7, -450),
        (26, 10132),
        (20, 57),
        (45, 3),
    ] {
        values[field - 1] = value;
        word |= 1 << field;
    }
    let mut output = [0xEE; 40];
    assert_eq!(pack(&values, word, 1, &[], &mut output), Ok(38));
    assert_eq!(output[..38], expected);
    assert_eq!(output[38..], [0xEE, 0xEE]);
    assert_eq!(judge(&output).unwrap().ck, 181);
}

#[test]
fn flags_behind_the_card() {
    let mut buffer = fresh_buffer(60);
    let body = [1, 0, 0, 0, 0, 6, 0, 0, 0, 0, 0, 0, 0, 0, 0, 3];
    assert_eq!(put(&mut buffer, 1, &body), Ok(()));
    assert_eq!(
        buffer[37..47],
        [0x11, 0x01, 0x10, 0x00, 0x06, 0x00, 0x00, 0x00, 0x00, 0x03]
    );
    assert!(buffer[47..].iter().all(|&byte| byte == 0xA5));
    // Flag 14 S: weight 3 more. Flags 13 and 14 share byte 45.
    assert_eq!(set_flag(&mut buffer, 14, 10), Ok(None));
    assert_eq!(buffer[44..48], [0x00, 0x0A, 0x06, 0xA5]);
}

#[test]
fn largest_quality_code_takes_both_nibbles() {
    let mut buffer = fresh_buffer(47);
    assert_eq!(put(&mut buffer, 1, &[0; 16]), Ok(()));
    for flag in 1..=14 {
        assert_eq!(set_flag(&mut buffer, flag, 7), Ok(None));
    }
    // 1 + 14 times 3 is 43, hex 2B.
    assert_eq!(
        buffer[37..],
        [0x11, 0x01, 0x77, 0x77, 0x77, 0x77, 0x77, 0x77, 0x77, 0x2B]
    );
}

#[test]
fn two_attachments_and_their_edits() {
    let mut buffer = fresh_buffer(60);
    assert_eq!(put(&mut buffer, 5, &[10, 11, 12]), Ok(()));
    // AC 1; 03, 5, A B C: 81 nibbles and padding.
    assert_eq!(buffer[37..42], [0x10, 0x35, 0xAB, 0xC0, 0xA5]);
    assert_eq!(put(&mut buffer, 15, &[1]), Ok(()));
    // AC 2; ...; 01, F, 1: 85 nibbles.
    assert_eq!(buffer[37..44], [0x20, 0x35, 0xAB, 0xC0, 0x1F, 0x10, 0xA5]);
    // Replaced where it stands: 02, 5, 7 8: 84 nibbles; the byte given up is 0.
    assert_eq!(put(&mut buffer, 5, &[7, 8]), Ok(()));
    assert_eq!(buffer[37..44], [0x20, 0x25, 0x78, 0x01, 0xF1, 0x00, 0xA5]);
    // Grown again by three nibbles: 87 nibbles.
    assert_eq!(put(&mut buffer, 5, &[7, 8, 9, 9, 9]), Ok(()));
    assert_eq!(
        buffer[37..45],
        [0x20, 0x55, 0x78, 0x99, 0x90, 0x1F, 0x10, 0xA5]
    );
    // Dropped; bytes from the new end 40 to the old end 44 are 0.
    assert_eq!(drop_attachment(&mut buffer, 5), Ok(()));
    assert_eq!(buffer[37..46], [0x10, 0x1F, 0x10, 0, 0, 0, 0, 0xA5, 0xA5]);
    assert_eq!(drop_attachment(&mut buffer, 15), Ok(()));
    assert_eq!(buffer[36..45], [0xF0, 0, 0, 0, 0, 0, 0, 0, 0xA5]);
}

#[test]
fn attachment_of_255_nibbles() {
    let mut buffer = fresh_buffer(167);
    assert_eq!(put(&mut buffer, 3, &[9; 255]), Ok(()));
    // 75 + 258 nibbles are 167 bytes, the last nibble 0.
    let mut tail = vec![15, 15, 3];
    tail.extend([9; 255]);
    assert_eq!(buffer, fresh_with_tail(1, &tail));
    assert_eq!(buffer[37..40], [0x1F, 0xF3, 0x99]);
    assert_eq!(buffer[165..], [0x99, 0x90]);
}

#[test]
fn largest_report() {
    let mut buffer = fresh_buffer(1853);
    for id in 2..=15 {
        let nibbles = if id == 4 { 1 } else { id as u8 };
        assert_eq!(put(&mut buffer, id, &[nibbles; 255]), Ok(()));
    }
    assert_eq!(put(&mut buffer, 1, &[0; 16]), Ok(()));
    let report = judge(&buffer).unwrap();
    assert_eq!((report.ac, report.bytes), (15, 1853));
    assert_eq!(judge(&buffer[..1852]), common::refused(1, 15));
}

#[test]
fn a_set_keeps_rptin_tail_and_bytes_after() {
    let mut buffer = fresh_with_tail(1, &[0, 1, 5, 9]);
    buffer[..2].copy_from_slice(&[0xBE, 0xEF]);
    buffer.extend([0x55, 0xAA]);
    let mut expected = buffer.clone();
    // DAY 31 at bits 38 to 42; CK 240 + 31 - 255 = 16.
    expected[4] |= 0x03;
    expected[5] |= 0xE0;
    common::set_ck(&mut expected, 16);
    assert_eq!(set_field(&mut buffer, 4, Scaled(31)), Ok(None));
    assert_eq!(buffer, expected);
}
