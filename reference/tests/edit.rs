//! Eleven of the calls: what they give, refusals 8 to 14, bytes left alone.

mod common;

use common::all_flags::*;
use common::{fresh_buffer, fresh_value, fresh_with_tail, refused};
use reference::table::{Scaled, fields};

const WRONG_NUMBERS: [u64; 8] = [0, 256, 257, 270, 1 << 16, (1 << 32) + 1, 1 << 63, u64::MAX];

/// A buffer of 50 bytes with flags, all missing, behind attachment 9.
fn buffer_with_flags() -> Vec<u8> {
    let mut tail = vec![0, 1, 9, 3, 1, 0, 1];
    tail.extend([0; 16]);
    let mut buffer = fresh_with_tail(2, &tail);
    assert_eq!(buffer.len(), 49);
    buffer.push(0xA5);
    buffer
}

/// Runs a call that must be refused and must leave the buffer alone.
#[track_caller]
fn refuses<T: std::fmt::Debug + PartialEq>(
    buffer: &[u8],
    number: u8,
    place: usize,
    call: impl Fn(&mut [u8]) -> Result<T, reference::refusal::Refusal>,
) {
    let mut after = buffer.to_vec();
    assert_eq!(call(&mut after), refused(number, place));
    assert_eq!(after, buffer);
}

#[test]
fn fields_read_set_and_cleared() {
    for field in fields() {
        let number = field.number as u64;
        let mut buffer = fresh_buffer(39);
        let mut former = fresh_value(field.number);
        for value in [field.lowest_value(), field.highest_value()] {
            assert_eq!(set_field(&mut buffer, number, value), Ok(former));
            former = Some(value);
            assert_eq!(read_field(&buffer, number), Ok(former));
            let report = judge(&buffer).unwrap();
            assert_eq!(report.observation.values[field.number - 1], Some(value));
        }
        let before = buffer.clone();
        for value in [
            field.base,
            field.base + field.highest as i64 + 1,
            i64::MIN,
            i64::MAX,
        ] {
            refuses(&before, 9, field.number, |b| {
                set_field(b, number, Scaled(value))
            });
        }
        if [1, 2, 3, 6, 7].contains(&field.number) {
            refuses(&before, 10, field.number, |b| clear_field(b, number));
        } else {
            assert_eq!(clear_field(&mut buffer, number), Ok(former));
            assert_eq!(read_field(&buffer, number), Ok(None));
            assert_eq!(buffer, fresh_buffer(39));
        }
    }
}

#[test]
fn clearing_a_missing_field_is_accepted() {
    let mut buffer = fresh_buffer(38);
    assert_eq!(clear_field(&mut buffer, 46), Ok(None));
    assert_eq!(buffer, fresh_buffer(38));
}

#[test]
fn r8_fields() {
    let buffer = fresh_buffer(38);
    for number in WRONG_NUMBERS.into_iter().chain([47, 48]) {
        refuses(&buffer, 8, 0, |b| read_field(b, number));
        refuses(&buffer, 8, 0, |b| set_field(b, number, Scaled(1)));
        refuses(&buffer, 8, 0, |b| clear_field(b, number));
    }
}

#[test]
fn r8_flags() {
    for buffer in [fresh_buffer(38), buffer_with_flags()] {
        for number in WRONG_NUMBERS.into_iter().chain([15, 16]) {
            refuses(&buffer, 8, 0, |b| read_flag(b, number));
            refuses(&buffer, 8, 0, |b| set_flag(b, number, 1));
            refuses(&buffer, 8, 0, |b| set_flag(b, number, 11));
            refuses(&buffer, 8, 0, |b| clear_flag(b, number));
        }
    }
}

#[test]
fn r8_ids() {
    let buffer = buffer_with_flags();
    for id in WRONG_NUMBERS.into_iter().chain([16, 17]) {
        refuses(&buffer, 8, 0, |b| put(b, id, &[1]));
        refuses(&buffer, 8, 0, |b| put(b, id, &[]));
        refuses(&buffer, 8, 0, |b| fetch(b, id, &mut [0; 16]));
        refuses(&buffer, 8, 0, |b| drop_attachment(b, id));
    }
}

#[test]
fn r9_flags_with_and_without_id_1() {
    for buffer in [fresh_buffer(38), buffer_with_flags()] {
        for value in [0, 11, -1, 257, (1 << 32) + 1, i64::MIN, i64::MAX] {
            refuses(&buffer, 9, 14, |b| set_flag(b, 14, value));
        }
    }
}

#[test]
fn r11_flags_and_attachments() {
    let buffer = fresh_with_tail(1, &[0, 1, 9, 3]);
    refuses(&buffer, 11, 0, |b| read_flag(b, 1));
    refuses(&buffer, 11, 0, |b| set_flag(b, 1, 1));
    refuses(&buffer, 11, 0, |b| clear_flag(b, 1));
    refuses(&buffer, 11, 0, |b| fetch(b, 8, &mut [0; 3]));
    refuses(&buffer, 11, 0, |b| drop_attachment(b, 8));
    refuses(&buffer, 11, 0, |b| fetch_text(b, &mut [0; 3], &mut [0; 3]));
    refuses(&buffer, 11, 0, |b| fetch_text(b, &mut [], &mut [0; 3]));
}

#[test]
fn flags_read_set_and_cleared() {
    let mut buffer = buffer_with_flags();
    assert_eq!(read_flag(&buffer, 5), Ok(None));
    let quality = |buffer: &[u8]| {
        let mut body = [0; 16];
        assert_eq!(fetch(buffer, 1, &mut body), Ok(16));
        16 * body[14] + body[15]
    };
    assert_eq!(quality(&buffer), 0);
    // 1 + the weights of R A B J K L M N Q S.
    let codes = [1, 2, 2, 3, 3, 3, 4, 4, 4, 4];
    for (value, code) in (1..=10).zip(codes) {
        let former = (value > 1).then_some(value as u8 - 1);
        assert_eq!(set_flag(&mut buffer, 5, value), Ok(former));
        assert_eq!(read_flag(&buffer, 5), Ok(Some(value as u8)));
        assert_eq!(quality(&buffer), code);
    }
    assert_eq!(set_flag(&mut buffer, 14, 2), Ok(None));
    assert_eq!(quality(&buffer), 5);
    assert_eq!(clear_flag(&mut buffer, 5), Ok(Some(10)));
    assert_eq!(quality(&buffer), 2);
    assert_eq!(clear_flag(&mut buffer, 5), Ok(None));
    assert_eq!(clear_flag(&mut buffer, 14), Ok(Some(2)));
    assert_eq!(quality(&buffer), 0);
    assert_eq!(buffer, buffer_with_flags());
}

#[test]
fn r12_content() {
    let buffer = fresh_buffer(1000);
    for id in [1, 4, 5] {
        for length in [0, 256, 257, 1000] {
            refuses(&buffer, 12, 0, |b| put(b, id, &vec![0; length]));
            refuses(&buffer, 12, 0, |b| put(b, id, &vec![16; length]));
        }
    }
    refuses(&buffer, 12, 0, |b| put_text(b, b"", &[]));
    refuses(&buffer, 12, 0, |b| put_text(b, &[b' '; 300], &[0; 300]));
    refuses(&buffer, 12, 0, |b| put_text(b, &[b'7'; 256], &[0; 256]));
    refuses(&buffer, 12, 0, |b| put_text(b, &[b'Z'; 128], &[0; 128]));
    refuses(&buffer, 12, 0, |b| put_text(b, &[b'7'; 86], &[1; 86]));
    refuses(&buffer, 12, 0, |b| put_text(b, &[b' '; 86], &[1; 86]));
    let mut after = buffer.clone();
    for (text, origins, nibbles) in [
        (vec![b'7'; 255], vec![0; 255], 255),
        (vec![b'Z'; 127], vec![0; 127], 254),
        (vec![b'7'; 85], vec![1; 85], 255),
        (vec![b' '; 85], vec![1; 85], 255),
        (
            [vec![b'a'; 85], vec![b' '; 9]].concat(),
            [[1; 85].to_vec(), vec![0; 9]].concat(),
            255,
        ),
    ] {
        assert_eq!(put_text(&mut after, &text, &origins), Ok(nibbles));
    }
}

#[test]
fn r14_content() {
    let buffer = fresh_buffer(100);
    for byte in [16, 17, 32, 255] {
        for id in [1, 4, 5] {
            refuses(&buffer, 14, 0, |b| put(b, id, &[1, byte]));
            refuses(&buffer, 14, 0, |b| put(b, id, &[byte, 1]));
        }
    }
    refuses(&buffer, 14, 0, |b| put(b, 1, &[0; 15]));
    refuses(&buffer, 14, 0, |b| put(b, 1, &[0; 17]));
    let mut other_code = [0; 16];
    other_code[15] = 1;
    refuses(&buffer, 14, 0, |b| put(b, 1, &other_code));
    other_code[0] = 11;
    refuses(&buffer, 14, 0, |b| put(b, 1, &other_code));
    refuses(&buffer, 14, 0, |b| put(b, 4, &[1, 10]));
    refuses(&buffer, 14, 0, |b| put(b, 4, &[15, 2, 0, 10]));
    let mut after = buffer.clone();
    assert_eq!(put(&mut after, 5, &[1, 10]), Ok(()));
    for body in [[15, 4, 0], [15, 4, 1], [15, 2, 0]] {
        assert_eq!(put(&mut after, 4, &body), Ok(()));
    }
}

#[test]
fn r13_buffer() {
    // 75 + 3 + 1 nibbles are 40 bytes; with 2 data nibbles they still are.
    for n in [38, 39] {
        let buffer = fresh_buffer(n);
        refuses(&buffer, 13, 0, |b| put(b, 5, &[1]));
        refuses(&buffer, 13, 0, |b| put_text(b, b"1", &[0]));
    }
    let mut buffer = fresh_buffer(40);
    assert_eq!(put(&mut buffer, 5, &[1]), Ok(()));
    assert_eq!(put(&mut buffer, 5, &[1, 2]), Ok(()));
    refuses(&buffer, 13, 0, |b| put(b, 5, &[1, 2, 3]));
    refuses(&buffer, 13, 0, |b| put(b, 6, &[1]));
    assert_eq!(drop_attachment(&mut buffer, 5), Ok(()));
    assert_eq!(buffer, [&fresh_buffer(38)[..], &[0, 0]].concat());
}

#[test]
fn r13_output() {
    let buffer = fresh_with_tail(2, &[0, 3, 9, 3, 4, 5, 0, 3, 4, 12, 1, 1]);
    for length in 0..3 {
        let mut output = vec![0xEE; length];
        assert_eq!(fetch(&buffer, 9, &mut output), refused(13, 0));
        assert_eq!(output, vec![0xEE; length]);
    }
    let mut output = [0xEE; 5];
    assert_eq!(fetch(&buffer, 9, &mut output), Ok(3));
    assert_eq!(output, [3, 4, 5, 0xEE, 0xEE]);
    let mut output = [0xEE; 3];
    assert_eq!(fetch(&buffer, 9, &mut output), Ok(3));
    assert_eq!(output, [3, 4, 5]);
}

#[test]
fn r13_either_output_of_a_text() {
    let buffer = fresh_with_tail(1, &[0, 6, 4, 12, 1, 1, 15, 4, 1]);
    for text in 0..6 {
        for origins in 0..6 {
            let (mut bytes, mut marks) = (vec![0xEE; text], vec![0xDD; origins]);
            let answer = fetch_text(&buffer, &mut bytes, &mut marks);
            let (mut due, mut due_marks) = (vec![0xEE; text], vec![0xDD; origins]);
            if text < 3 || origins < 3 {
                assert_eq!(answer, refused(13, 0));
            } else {
                assert_eq!(answer.map(|given| given.symbols), Ok(3));
                due[..3].copy_from_slice(b"A1A");
                due_marks[..3].copy_from_slice(&[0, 0, 1]);
            }
            assert_eq!((bytes, marks), (due, due_marks), "{text} {origins}");
        }
    }
}

/// 13 for lengths that differ, then 14, then 12, then 13 for the buffer.
#[test]
fn the_order_of_put_text() {
    let full = fresh_buffer(38);
    let bad = [
        (&b"a"[..], 0),
        (b"\0", 0),
        (b"1", 2),
        (b" ", 255),
        (b"a", 2),
    ];
    for (byte, origin) in bad {
        refuses(&full, 14, 0, |b| put_text(b, byte, &[origin]));
        refuses(&full, 13, 0, |b| put_text(b, byte, &[]));
        refuses(&full, 13, 0, |b| put_text(b, byte, &[origin; 2]));
        refuses(&full, 13, 0, |b| put_text(b, &[byte[0]; 2], &[origin]));
        // Behind or before 86 originals, which alone are refused by 12.
        let behind = (
            [&[b'a'; 86], byte].concat(),
            [&[1; 86][..], &[origin]].concat(),
        );
        let before = (
            [byte, &[b'a'; 86]].concat(),
            [&[origin][..], &[1; 86]].concat(),
        );
        for (text, origins) in [behind, before] {
            refuses(&full, 14, 0, |b| put_text(b, &text, &origins));
            refuses(&full, 13, 0, |b| put_text(b, &text[1..], &origins));
        }
        // Behind spaces that alone come to no nibbles.
        let text = [b"   ", byte].concat();
        refuses(&full, 14, 0, |b| put_text(b, &text, &[0, 0, 0, origin]));
    }
    refuses(&full, 13, 0, |b| put_text(b, b"", &[0]));
    refuses(&full, 13, 0, |b| put_text(b, b" ", &[]));
    refuses(&full, 13, 0, |b| put_text(b, &[b'a'; 86], &[1; 85]));
    // 300 and 44 differ by 256.
    refuses(&full, 13, 0, |b| put_text(b, &[b'a'; 300], &[0; 44]));
    refuses(&full, 12, 0, |b| put_text(b, b"", &[]));
    refuses(&full, 12, 0, |b| put_text(b, b" ", &[0]));
    refuses(&full, 12, 0, |b| put_text(b, &[b'a'; 86], &[1; 86]));
    refuses(&full, 13, 0, |b| put_text(b, b" ", &[1]));
    refuses(&full, 13, 0, |b| put_text(b, &[b'a'; 85], &[1; 85]));
}

/// Ten digits, the space, 26 letters and six marks have a short code.
#[test]
fn r14_symbols() {
    let buffer = fresh_buffer(60);
    let mut plain = 0;
    for byte in 0..=255 {
        let mut after = buffer.clone();
        assert_eq!(put_text(&mut after, &[byte, b'1'], &[1, 0]), Ok(4));
        if put_text(&mut after, &[byte, b'1'], &[0, 0]).is_ok() {
            plain += 1;
        } else {
            refuses(&buffer, 14, 0, |b| put_text(b, &[byte, b'1'], &[0, 0]));
        }
        for origin in [2, 3, 127, 128, 255] {
            refuses(&buffer, 14, 0, |b| put_text(b, &[byte], &[origin]));
        }
    }
    assert_eq!(plain, 43);
}

#[test]
fn puts_keep_the_order_and_drops_close_it() {
    let mut buffer = fresh_buffer(80);
    let ids = |buffer: &[u8]| -> Vec<u8> {
        let report = judge(buffer).unwrap();
        report
            .observation
            .attachments
            .iter()
            .map(|a| a.id)
            .collect()
    };
    for id in [9, 2, 7] {
        assert_eq!(put(&mut buffer, id, &[1]), Ok(()));
    }
    assert_eq!(put(&mut buffer, 2, &[5; 9]), Ok(()));
    assert_eq!(ids(&buffer), [9, 2, 7]);
    assert_eq!(drop_attachment(&mut buffer, 9), Ok(()));
    assert_eq!(put(&mut buffer, 9, &[2]), Ok(()));
    assert_eq!(ids(&buffer), [2, 7, 9]);
    assert_eq!(put_text(&mut buffer, b"1", &[0]), Ok(1));
    assert_eq!(put(&mut buffer, 4, &[2]), Ok(()));
    assert_eq!(put_text(&mut buffer, b" 3", &[0, 1]), Ok(4));
    assert_eq!(ids(&buffer), [2, 7, 9, 4]);
}

#[test]
fn a_refused_report_is_refused_whatever_the_call() {
    let mut wrong_ck = fresh_buffer(60);
    common::set_ck(&mut wrong_ck, 241);
    let mut wrong_month = fresh_buffer(60);
    common::set_bits(&mut wrong_month, 34, 4, 15);
    let short = fresh_buffer(38)[..37].to_vec();
    let bad_body = fresh_with_tail(2, &[0, 1, 9, 3, 0, 1, 4, 10]);
    for (buffer, number, place) in [
        (&wrong_ck, 4, 0),
        (&wrong_month, 2, 3),
        (&short, 1, 0),
        (&bad_body, 6, 2),
    ] {
        refuses(buffer, number, place, |b| read_field(b, 0));
        refuses(buffer, number, place, |b| set_field(b, 31, Scaled(5000)));
        refuses(buffer, number, place, |b| clear_field(b, 3));
        refuses(buffer, number, place, |b| read_flag(b, 99));
        refuses(buffer, number, place, |b| set_flag(b, 1, 0));
        refuses(buffer, number, place, |b| clear_flag(b, 1));
        refuses(buffer, number, place, |b| put(b, 0, &[]));
        refuses(buffer, number, place, |b| fetch(b, 9, &mut []));
        refuses(buffer, number, place, |b| drop_attachment(b, 16));
        refuses(buffer, number, place, |b| put_text(b, b"", &[]));
        refuses(buffer, number, place, |b| put_text(b, b"a", &[]));
        refuses(buffer, number, place, |b| put_text(b, b"a", &[0]));
        refuses(buffer, number, place, |b| fetch_text(b, &mut [], &mut []));
    }
}
