//! Fresh, unpack, pack and same.

mod common;

use common::all_flags::{judge, pack, same, unpack};
use common::{fresh_buffer, fresh_with_tail, refused, set_bits, set_ck};
use reference::cases::reports;
use reference::outside::{Unpacked, fresh};

const SOUND: [i64; 5] = [1, 1900, 1, 0, 0];
const FRESH_WORD: u64 = 0b1100_1110;

fn fresh_values() -> [i64; 46] {
    let mut values = [i64::MIN; 46];
    for (field, value) in [(1, 1), (2, 1900), (3, 1), (6, 0), (7, 0)] {
        values[field - 1] = value;
    }
    values
}

/// Packs into an output of EE that must stay on refusal.
#[track_caller]
fn pack_refuses(values: &[i64], word: u64, tail: &[u8], room: usize, number: u8, place: usize) {
    let mut output = vec![0xEE; room];
    let result = pack(values, word, 0, tail, &mut output);
    assert_eq!(result, refused(number, place));
    assert_eq!(output, vec![0xEE; room]);
}

#[test]
fn fresh_writes_38_bytes_and_no_others() {
    let mut output = [0xA5; 45];
    assert_eq!(fresh(SOUND, &mut output), Ok(()));
    assert_eq!(output.to_vec(), fresh_buffer(45));
    let mut output = [0xA5; 38];
    assert_eq!(fresh(SOUND, &mut output), Ok(()));
    assert_eq!(output.to_vec(), fresh_buffer(38));
}

#[test]
fn fresh_refusals() {
    let edges = [
        (0, 1, [0, 649]),
        (1, 2, [1799, 2055]),
        (2, 3, [0, 13]),
        (3, 6, [-1, 3600]),
        (4, 7, [-901, 901]),
    ];
    for (index, field, values) in edges {
        for value in values.into_iter().chain([i64::MIN, i64::MAX]) {
            let mut required = SOUND;
            required[index] = value;
            let mut output = [0xA5; 38];
            assert_eq!(fresh(required, &mut output), refused(9, field));
            assert_eq!(output, [0xA5; 38]);
            assert_eq!(fresh(required, &mut []), refused(9, field));
        }
    }
    let mut output = [0xA5; 37];
    assert_eq!(fresh(SOUND, &mut output), refused(13, 0));
    assert_eq!(output, [0xA5; 37]);
    let mut output = [0; 38];
    for required in [[1, 1800, 1, 0, -900], [648, 2054, 12, 3599, 900]] {
        assert_eq!(fresh(required, &mut output), Ok(()));
    }
}

#[test]
fn unpack_gives_all_that_a_report_holds() {
    let mut report = fresh_with_tail(2, &[0, 2, 9, 3, 4, 0, 1, 4, 7]);
    report[..2].copy_from_slice(&[0xFE, 0xDC]);
    report.extend([0xFF; 4]);
    let mut values = [-77; 48];
    let mut tail = [0xEE; 11];
    let given = unpack(&report, &mut values, &mut tail);
    let expected = Unpacked {
        word: FRESH_WORD,
        present: 5,
        rptin: 0xFEDC,
        ac: 2,
        bytes: 42,
        tail: 9,
    };
    assert_eq!(given, Ok(expected));
    let mut shown = [0; 48];
    shown[0] = 1;
    shown[1] = 1900;
    shown[2] = 1;
    shown[46..].fill(-77);
    assert_eq!(values, shown);
    assert_eq!(tail, [0, 2, 9, 3, 4, 0, 1, 4, 7, 0xEE, 0xEE]);
}

#[test]
fn unpack_leaves_out_an_odd_last_nibble() {
    // 75 + 8 nibbles: the 84th is no part of the tail.
    let report = fresh_with_tail(1, &[0, 5, 9, 1, 2, 3, 4, 5]);
    let mut values = [0; 46];
    let mut tail = [0xEE; 8];
    assert_eq!(unpack(&report, &mut values, &mut tail).unwrap().tail, 8);
    assert_eq!(tail, [0, 5, 9, 1, 2, 3, 4, 5]);
    let given = unpack(&fresh_buffer(38), &mut values, &mut []).unwrap();
    assert_eq!((given.tail, given.ac, given.bytes), (0, 0, 38));
}

#[test]
fn unpack_refusals_leave_both_outputs() {
    let report = fresh_with_tail(1, &[0, 1, 9, 3]);
    for (count, room) in [(45, 4), (0, 4), (46, 3), (46, 0), (45, 3)] {
        let mut values = vec![-77; count];
        let mut tail = vec![0xEE; room];
        assert_eq!(unpack(&report, &mut values, &mut tail), refused(13, 0));
        assert_eq!(values, vec![-77; count]);
        assert_eq!(tail, vec![0xEE; room]);
        let cut = &report[..39];
        assert_eq!(unpack(cut, &mut values, &mut tail), refused(1, 1));
        assert_eq!(values, vec![-77; count]);
    }
}

#[test]
fn pack_writes_the_report() {
    let tail = [0, 2, 9, 3, 4, 0, 1, 4, 7];
    let mut output = [0xEE; 44];
    assert_eq!(
        pack(&fresh_values(), FRESH_WORD, 0, &tail, &mut output),
        Ok(42)
    );
    assert_eq!(output[..42], fresh_with_tail(2, &tail));
    assert_eq!(output[42..], [0xEE, 0xEE]);
    let mut more = fresh_values().to_vec();
    more.extend([i64::MAX; 3]);
    let mut output = [0xEE; 38];
    assert_eq!(pack(&more, FRESH_WORD, 0, &[], &mut output), Ok(38));
    assert_eq!(output.to_vec(), fresh_buffer(38));
}

#[test]
fn pack_13_for_values_then_8() {
    let values = fresh_values();
    pack_refuses(&values[..45], FRESH_WORD, &[], 38, 13, 0);
    pack_refuses(&values[..45], 1, &[16], 0, 13, 0);
    for bit in [0].into_iter().chain(47..64) {
        pack_refuses(&values, FRESH_WORD | (1 << bit), &[], 38, 8, 0);
        pack_refuses(&values, 1 << bit, &[16], 0, 8, 0);
    }
}

#[test]
fn pack_10_and_9_by_ascending_field() {
    let values = fresh_values();
    for field in [1, 2, 3, 6, 7] {
        pack_refuses(&values, FRESH_WORD & !(1 << field), &[], 38, 10, field);
    }
    // Field 4 is present with the lowest number there is.
    pack_refuses(&values, FRESH_WORD | (1 << 4), &[], 38, 9, 4);
    pack_refuses(&values, FRESH_WORD & !(1 << 6) | (1 << 4), &[], 38, 9, 4);
    pack_refuses(&values, FRESH_WORD & !(1 << 3) | (1 << 4), &[], 38, 10, 3);
    let mut values = values;
    values[1] = 2055;
    pack_refuses(&values, FRESH_WORD & !(1 << 3), &[16], 0, 9, 2);
    values[1] = 1800 + (1 << 32);
    pack_refuses(&values, FRESH_WORD, &[], 38, 9, 2);
}

#[test]
fn pack_14_then_the_tails_attachments_then_13() {
    let values = fresh_values();
    for (tail, number, place) in [
        (&[16][..], 14, 0),
        (&[0, 1, 9, 255], 14, 0),
        (&[0, 1, 9, 3, 0, 16], 14, 0),
        (&[0], 1, 1),
        (&[0, 1], 1, 1),
        (&[0, 1, 9], 1, 1),
        (&[0, 1, 9, 3, 0], 1, 2),
        (&[0, 1, 9, 3, 0, 2, 8, 1], 1, 2),
        (&[0, 0, 9], 5, 1),
        (&[0, 1, 0, 3], 5, 1),
        (&[0, 1, 9, 3, 0, 1, 9, 3], 5, 2),
        (&[0, 1, 1, 0], 6, 1),
        (&[0, 1, 9, 3, 0, 1, 4, 10], 6, 2),
    ] {
        pack_refuses(&values, FRESH_WORD, tail, 100, number, place);
        pack_refuses(&values, FRESH_WORD, tail, 0, number, place);
    }
    pack_refuses(&values, FRESH_WORD, &[], 37, 13, 0);
    pack_refuses(&values, FRESH_WORD, &[0, 1, 9, 3], 39, 13, 0);
}

#[test]
fn a_sixteenth_attachment_repeats_an_id() {
    let mut tail = Vec::new();
    for id in (2..=15).chain([1]) {
        if id == 1 {
            tail.extend([1, 0, 1]);
            tail.extend([0; 16]);
        } else {
            tail.extend([0, 1, id, 5]);
        }
    }
    let mut output = [0; 100];
    assert_eq!(
        pack(&fresh_values(), FRESH_WORD, 0, &tail, &mut output),
        Ok(75)
    );
    assert_eq!(output[37], 0xF0);
    tail.extend([0, 1, 7, 5]);
    pack_refuses(&fresh_values(), FRESH_WORD, &tail, 200, 5, 16);
}

#[test]
fn same_reads_the_reports_and_not_the_bytes_after_them() {
    let tail = [0, 2, 9, 3, 4, 0, 1, 4, 7];
    for report in [fresh_buffer(38), fresh_with_tail(2, &tail)] {
        let longer = [&report[..], &[0xFF; 5]].concat();
        let other = [&report[..], &[0; 2]].concat();
        for first in [&report, &longer, &other] {
            for second in [&report, &longer, &other] {
                assert_eq!(same(first, second), Ok(true));
            }
        }
    }
}

#[test]
fn same_tells_reports_apart() {
    let fresh = fresh_buffer(38);
    let mut with_rptin = fresh.clone();
    with_rptin[1] = 1;
    // DAY 1 or HOUR 0: both have CK 241.
    let mut with_day = fresh.clone();
    set_bits(&mut with_day, 38, 5, 1);
    set_ck(&mut with_day, 241);
    let mut with_hour = fresh.clone();
    set_bits(&mut with_hour, 43, 5, 1);
    set_ck(&mut with_hour, 241);
    let reports = [
        fresh,
        with_rptin,
        with_day,
        with_hour,
        fresh_with_tail(1, &[0, 1, 9, 3]),
        fresh_with_tail(1, &[0, 1, 9, 2]),
        fresh_with_tail(1, &[0, 1, 8, 3]),
        fresh_with_tail(1, &[0, 2, 9, 3, 0]),
        fresh_with_tail(2, &[0, 1, 9, 3, 0, 1, 8, 3]),
        fresh_with_tail(2, &[0, 1, 8, 3, 0, 1, 9, 3]),
    ];
    for (index, first) in reports.iter().enumerate() {
        for (other, second) in reports.iter().enumerate() {
            assert_eq!(same(first, second), Ok(index == other));
        }
    }
}

#[test]
fn same_gives_the_first_refusal() {
    let sound = fresh_buffer(38);
    let damaged = reports::damaged();
    for (first, second) in damaged.iter().zip(damaged.iter().skip(1)) {
        let refusal = judge(first).unwrap_err();
        assert_eq!(same(first, &sound), Err(refusal));
        assert_eq!(same(&sound, first), Err(refusal));
        assert_eq!(same(first, second), Err(refusal));
        assert_eq!(same(first, first), Err(refusal));
    }
    let mut wrong = sound.clone();
    set_ck(&mut wrong, 0);
    assert_eq!(same(&wrong, &sound[..37]), refused(4, 0));
    assert_eq!(same(&sound[..37], &wrong), refused(1, 0));
}
