//! Both round trips: accepted ones, refused ones, and that these change nothing.

mod common;

use common::all_flags::{judge, recover, restore};
use common::{fresh_buffer, fresh_with_tail};
use reference::cases::material::{random_observation, tail_of, values_and_word};
use reference::cases::{Case, pairs, reports};
use reference::observation::Observation;
use reference::outside::Unpacked;
use reference::prng::Prng;
use reference::refusal::{Refusal, refusal};

const FRESH_WORD: u64 = 0b1100_1110;
const TOO_SHORT: Refusal = refusal(13, 0);
const TAIL: [u8; 9] = [0, 2, 9, 3, 4, 0, 1, 4, 7];

/// The fresh report's values, with others for the missing ones.
fn fresh_values(missing: i64) -> Vec<i64> {
    let mut values = vec![missing; 46];
    for (field, value) in [(1, 1), (2, 1900), (3, 1), (6, 0), (7, 0)] {
        values[field - 1] = value;
    }
    values
}

/// The reports of 38 to 1853 bytes that other tests have, and random ones.
fn sound_reports() -> Vec<Vec<u8>> {
    let mut prng = Prng::new(30);
    let mut reports = reports::sound();
    reports.extend((0..200).map(|_| random_observation(&mut prng).packing()));
    reports
}

/// A row and behind it as many marks as are left of a length.
fn marked<T: Clone>(row: &[T], length: usize, mark: T) -> Vec<T> {
    let mut marked = row.to_vec();
    marked.resize(length, mark);
    marked
}

/// Values, tail and output as lent, full of marks.
fn lent(values: usize, tail: usize, output: usize) -> (Vec<i64>, Vec<u8>, Vec<u8>) {
    (vec![-77; values], vec![0xEE; tail], vec![0xEE; output])
}

/// Refused with nothing changed.
#[track_caller]
fn restore_refuses(report: &[u8], room: (usize, usize, usize), refusal: Refusal) {
    let before = lent(room.0, room.1, room.2);
    let (mut values, mut tail, mut output) = before.clone();
    let result = restore(report, &mut values, &mut tail, &mut output);
    assert_eq!(result, Err(refusal));
    assert_eq!((values, tail, output), before);
}

/// Refused with nothing changed; the room is of values, tail and output.
#[track_caller]
fn recover_refuses(
    (values, word, tail): (&[i64], u64, &[u8]),
    room: (usize, usize, usize),
    refusal: Refusal,
) {
    let before = lent(room.0, room.1, room.2);
    let (mut values_out, mut tail_out, mut output) = before.clone();
    let result = recover(
        values,
        word,
        7,
        tail,
        &mut output,
        &mut values_out,
        &mut tail_out,
    );
    assert_eq!(result, Err(refusal));
    assert_eq!((values_out, tail_out, output), before);
}

/// Seven rooms, in which one, two or three of the three are one short.
fn short_rooms(values: usize, tail: usize, output: usize) -> Vec<(usize, usize, usize)> {
    (1..8)
        .map(|short| (values - short % 2, tail - short / 2 % 2, output - short / 4))
        .collect()
}

#[test]
fn restore_by_hand() {
    let mut report = fresh_with_tail(2, &TAIL);
    report[..2].copy_from_slice(&[0xFE, 0xDC]);
    let buffer = [&report[..], &[0xFF; 4]].concat();
    let (mut values, mut tail, mut output) = lent(48, 11, 45);
    let result = restore(&buffer, &mut values, &mut tail, &mut output);
    assert_eq!(result, Ok(42));
    assert_eq!(values, marked(&fresh_values(0), 48, -77));
    assert_eq!(tail, marked(&TAIL, 11, 0xEE));
    assert_eq!(output, marked(&report, 45, 0xEE));
    let (mut values, mut tail, mut output) = lent(46, 0, 38);
    let result = restore(&fresh_buffer(40), &mut values, &mut tail, &mut output);
    assert_eq!(result, Ok(38));
    assert_eq!((values, output), (fresh_values(0), fresh_buffer(38)));
}

#[test]
fn recover_by_hand() {
    let mut report = fresh_with_tail(2, &TAIL);
    report[..2].copy_from_slice(&[0xFE, 0xDC]);
    let given = marked(&fresh_values(i64::MIN), 49, i64::MAX);
    let (mut values, mut tail, mut output) = lent(48, 11, 45);
    let result = recover(
        &given,
        FRESH_WORD,
        0xFEDC,
        &TAIL,
        &mut output,
        &mut values,
        &mut tail,
    );
    let expected = Unpacked {
        word: FRESH_WORD,
        present: 5,
        rptin: 0xFEDC,
        ac: 2,
        bytes: 42,
        tail: 9,
    };
    assert_eq!(result, Ok(expected));
    assert_eq!(values, marked(&fresh_values(0), 48, -77));
    assert_eq!(tail, marked(&TAIL, 11, 0xEE));
    assert_eq!(output, marked(&report, 45, 0xEE));
}

#[test]
fn restore_gives_back_every_report() {
    for buffer in sound_reports() {
        let report = judge(&buffer).unwrap();
        let (given, _) = values_and_word(&report.observation, 0);
        let given_tail = tail_of(&report.observation);
        for more in [0, 3] {
            let room = (46 + more, given_tail.len() + more, report.bytes + more);
            let (mut values, mut tail, mut output) = lent(room.0, room.1, room.2);
            let result = restore(&buffer, &mut values, &mut tail, &mut output);
            assert_eq!(result, Ok(report.bytes));
            assert_eq!(values, marked(&given, room.0, -77));
            assert_eq!(tail, marked(&given_tail, room.1, 0xEE));
            assert_eq!(output, marked(&buffer[..report.bytes], room.2, 0xEE));
        }
    }
}

/// Recovers an observation with absurd values for its missing fields.
fn recover_and_compare(observation: &Observation, more: usize) {
    let (given, word) = values_and_word(observation, i64::MIN);
    let given_tail = tail_of(observation);
    let room = (
        46 + more,
        given_tail.len() + more,
        observation.size() + more,
    );
    let (mut values, mut tail, mut output) = lent(room.0, room.1, room.2);
    let result = recover(
        &given,
        word,
        observation.rptin,
        &given_tail,
        &mut output,
        &mut values,
        &mut tail,
    );
    let expected = Unpacked {
        word,
        present: word.count_ones() as usize,
        rptin: observation.rptin,
        ac: observation.attachments.len(),
        bytes: observation.size(),
        tail: given_tail.len(),
    };
    assert_eq!(result, Ok(expected));
    let (present, _) = values_and_word(observation, 0);
    assert_eq!(values, marked(&present, room.0, -77));
    assert_eq!(tail, marked(&given_tail, room.1, 0xEE));
    assert_eq!(output, marked(&observation.packing(), room.2, 0xEE));
}

#[test]
fn recover_gives_back_what_was_packed() {
    for buffer in sound_reports() {
        let observation = judge(&buffer).unwrap().observation;
        recover_and_compare(&observation, 0);
        recover_and_compare(&observation, 3);
    }
}

#[test]
fn restore_is_refused_as_the_report_is() {
    for report in reports::damaged() {
        let refusal = judge(&report).unwrap_err();
        for room in [(46, 4000, 2000), (45, 0, 0), (46, 0, 2000), (46, 4000, 37)] {
            restore_refuses(&report, room, refusal);
        }
    }
}

#[test]
fn restore_is_refused_for_each_output() {
    for buffer in sound_reports() {
        let report = judge(&buffer).unwrap();
        let tail = tail_of(&report.observation).len();
        if tail > 0 {
            for room in short_rooms(46, tail, report.bytes) {
                restore_refuses(&buffer, room, TOO_SHORT);
            }
        }
        restore_refuses(&buffer, (0, tail, report.bytes), TOO_SHORT);
        restore_refuses(&buffer, (46, tail, 0), TOO_SHORT);
    }
}

#[test]
fn recover_is_refused_as_pack_is() {
    let mut met = 0;
    for pair in pairs::pairs() {
        for (case, refusal) in [(pair.both, pair.first), (pair.mended, pair.second)] {
            if let Case::Pack {
                values,
                word,
                tail,
                output,
                ..
            } = case
            {
                for (values_out, tail_out) in [(46, 100), (45, 100), (46, 0), (0, 0)] {
                    let room = (values_out, tail_out, output.len());
                    recover_refuses((&values, word, &tail), room, refusal);
                    met += 1;
                }
            }
        }
    }
    assert!(met > 1000, "{met}");
}

#[test]
fn recover_is_refused_for_each_output() {
    let values = fresh_values(0);
    for room in short_rooms(46, 9, 42) {
        recover_refuses((&values, FRESH_WORD, &TAIL), room, TOO_SHORT);
    }
    for room in [(0, 9, 42), (46, 0, 42), (46, 9, 0), (0, 0, 0)] {
        recover_refuses((&values, FRESH_WORD, &TAIL), room, TOO_SHORT);
    }
    // Without attachments, too.
    for room in [(45, 0, 38), (46, 0, 37), (45, 0, 37)] {
        recover_refuses((&values, FRESH_WORD, &[]), room, TOO_SHORT);
    }
}

#[test]
fn recover_packs_before_it_judges_its_other_outputs() {
    let values = fresh_values(0);
    for (word, tail, number, place) in [
        (FRESH_WORD | 1, &TAIL[..], 8, 0),
        (FRESH_WORD & !2, &TAIL, 10, 1),
        (FRESH_WORD | 16, &TAIL, 9, 4),
        (FRESH_WORD, &[16], 14, 0),
        (FRESH_WORD, &TAIL[..8], 1, 2),
        (FRESH_WORD, &[0, 0, 9], 5, 1),
        (FRESH_WORD, &[0, 1, 4, 10], 6, 1),
    ] {
        for room in [(46, 9, 42), (45, 9, 42), (46, 0, 42), (0, 0, 0)] {
            recover_refuses((&values, word, tail), room, refusal(number, place));
        }
    }
}
