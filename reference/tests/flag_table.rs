//! A library's own table of flags, with values worked out by hand.

mod common;

use common::{fresh_buffer, fresh_with_tail, refused};
use reference::attachment::Attachment;
use reference::call::Call;
use reference::cases::material::{fresh_observation, observation_with};
use reference::cases::{Case, Outcome, flag_tables};
use reference::edit::*;
use reference::flag_table::FlagTable;
use reference::flags::is_valid;
use reference::gate::list::{self, Item, List};
use reference::gate::script::{run, script};
use reference::gate::{self, SEED, flag_cases, list_cases, record, whole_cases};
use reference::judge::judge;
use reference::lister::lines;
use reference::number::Number;
use reference::observation::Observation;
use reference::outside::{pack, same, unpack};
use reference::refusal::{Refusal, refusal};
use reference::step::step;
use reference::table::Scaled;
use reference::trips::{recover, restore};

const FRESH_WORD: u64 = 0b1100_1110;

/// Flag 1 is R, A or S and the others are missing, with quality codes 1, 2 and 4.
const R: [u8; 16] = [1, 0, 0, 0, 0, 0, 0, 0, 0, 0, 0, 0, 0, 0, 0, 1];
const A: [u8; 16] = [2, 0, 0, 0, 0, 0, 0, 0, 0, 0, 0, 0, 0, 0, 0, 2];
const S: [u8; 16] = [10, 0, 0, 0, 0, 0, 0, 0, 0, 0, 0, 0, 0, 0, 0, 4];

/// Flag 2 is R or A.
const SECOND_R: [u8; 16] = [0, 1, 0, 0, 0, 0, 0, 0, 0, 0, 0, 0, 0, 0, 0, 1];
const SECOND_A: [u8; 16] = [0, 2, 0, 0, 0, 0, 0, 0, 0, 0, 0, 0, 0, 0, 0, 2];

/// All yes but for the mark at a place.
fn marked(place: usize, mark: u8) -> FlagTable {
    let mut marks = [1; 140];
    marks[place] = mark;
    FlagTable::of(&marks)
}

/// The table that forbids A for flag 1.
fn without_a() -> FlagTable {
    marked(1, 0)
}

/// Attachment 9, then the flags.
fn tail_with(body: &[u8; 16]) -> Vec<u8> {
    [&[0, 1, 9, 3, 1, 0, 1][..], body].concat()
}

/// The report of that tail has 75 + 23 nibbles, 49 bytes.
fn report_with(body: &[u8; 16]) -> Vec<u8> {
    fresh_with_tail(2, &tail_with(body))
}

fn fresh_values() -> Vec<i64> {
    let mut values = vec![0; 46];
    values[..3].copy_from_slice(&[1, 1900, 1]);
    values
}

/// Runs a call that must be refused and must leave the buffer alone.
#[track_caller]
fn refuses<T: std::fmt::Debug + PartialEq>(
    buffer: &[u8],
    number: u8,
    place: usize,
    call: impl Fn(&mut [u8]) -> Result<T, Refusal>,
) {
    let mut after = buffer.to_vec();
    assert_eq!(call(&mut after), refused(number, place));
    assert_eq!(after, buffer);
}

#[track_caller]
fn accepts<T>(buffer: &[u8], call: impl Fn(&mut [u8]) -> Result<T, Refusal>) {
    assert!(call(&mut buffer.to_vec()).is_ok());
}

#[test]
fn before_any_load_every_flag_is_permitted() {
    assert_eq!(FlagTable::all().marks(), [1; 140]);
    for flag in 1..=14 {
        for value in 0..=10 {
            assert!(FlagTable::all().permits(flag, value));
        }
    }
}

/// Byte 10(j - 1) + v - 1 is flag j, value v.
#[test]
fn each_mark_is_of_one_flag_and_one_value() {
    for (place, forbidden) in [
        (0, (1, 1)),
        (1, (1, 2)),
        (9, (1, 10)),
        (10, (2, 1)),
        (19, (2, 10)),
        (20, (3, 1)),
        (64, (7, 5)),
        (129, (13, 10)),
        (130, (14, 1)),
        (139, (14, 10)),
    ] {
        let table = marked(place, 0);
        for flag in 1..=14 {
            for value in 0..=10 {
                let permitted = (flag, value) != forbidden;
                assert_eq!(table.permits(flag, value), permitted, "{flag} {value}");
            }
        }
    }
    for place in 0..140 {
        let table = marked(place, 0);
        assert_eq!(table.marks()[place], 0);
        assert_eq!(table.marks().iter().filter(|&&mark| mark == 1).count(), 139);
        let (flag, value) = (place / 10 + 1, (place % 10 + 1) as u8);
        assert_eq!(table.forbidden(flag), [value]);
        let others = (1..=14).filter(|&other| other != flag);
        assert!(
            others
                .clone()
                .all(|other| table.forbidden(other).is_empty())
        );
        assert_eq!(table.permitted(flag).len(), 9);
    }
}

#[test]
fn s_of_flag_1_beside_r_of_flag_2() {
    let (without_s, without_second_r) = (marked(9, 0), marked(10, 0));
    assert_eq!(judge(&report_with(&S), &without_s), refused(6, 2));
    assert!(judge(&report_with(&SECOND_R), &without_s).is_ok());
    assert!(judge(&report_with(&S), &without_second_r).is_ok());
    let second_r = report_with(&SECOND_R);
    assert_eq!(judge(&second_r, &without_second_r), refused(6, 2));
    let empty = report_with(&[0; 16]);
    refuses(&empty, 9, 1, |b| set_flag(b, 1, 10, &without_s));
    accepts(&empty, |b| set_flag(b, 2, 1, &without_s));
    accepts(&empty, |b| set_flag(b, 1, 10, &without_second_r));
    refuses(&empty, 9, 2, |b| set_flag(b, 2, 1, &without_second_r));
}

/// The last marks of the table.
#[test]
fn r_and_s_of_flag_14() {
    let empty = report_with(&[0; 16]);
    for (place, forbidden, permitted) in [(130, 1, 10), (139, 10, 1)] {
        let table = marked(place, 0);
        refuses(&empty, 9, 14, |b| set_flag(b, 14, forbidden, &table));
        accepts(&empty, |b| set_flag(b, 14, permitted, &table));
        accepts(&empty, |b| set_flag(b, 13, forbidden, &table));
    }
}

#[test]
fn a_mark_that_is_not_1_is_a_no() {
    for mark in [0, 2, 3, 10, 128, 254, 255] {
        let table = marked(1, mark);
        assert!(!table.permits(1, 2), "{mark}");
        assert_eq!(judge(&report_with(&A), &table), refused(6, 2));
        refuses(&report_with(&R), 9, 1, |b| set_flag(b, 1, 2, &table));
        refuses(&report_with(&R), 14, 0, |b| put(b, 1, &A, &table));
        assert!(judge(&report_with(&R), &table).is_ok());
    }
}

/// Each row permits J alone, or nothing.
#[test]
fn a_missing_flag_is_always_permitted() {
    let mut marks = [0; 140];
    let nothing = FlagTable::of(&marks);
    for row in 0..14 {
        marks[10 * row + 3] = 1;
    }
    let only_j = FlagTable::of(&marks);
    let empty = report_with(&[0; 16]);
    for table in [nothing, only_j] {
        assert!(judge(&empty, &table).is_ok());
        assert_eq!(read_flag(&empty, 1, &table), Ok(None));
        accepts(&fresh_buffer(60), |b| put(b, 1, &[0; 16], &table));
        accepts(&empty, |b| clear_flag(b, 5, &table));
        refuses(&empty, 9, 5, |b| set_flag(b, 5, 1, &table));
    }
    refuses(&empty, 9, 5, |b| set_flag(b, 5, 4, &nothing));
    let mut report = empty.clone();
    assert_eq!(set_flag(&mut report, 5, 4, &only_j), Ok(None));
    assert_eq!(read_flag(&report, 5, &only_j), Ok(Some(4)));
    assert_eq!(clear_flag(&mut report, 5, &only_j), Ok(Some(4)));
    assert_eq!(report, empty);
    // All fourteen are J: 1 + 14 times 2 is 29.
    let mut all_j = [4; 16];
    all_j[14..].copy_from_slice(&[1, 13]);
    assert!(judge(&report_with(&all_j), &only_j).is_ok());
    let mut one_other = all_j;
    one_other[13] = 5;
    assert_eq!(judge(&report_with(&one_other), &only_j), refused(6, 2));
    assert!(judge(&report_with(&one_other), &FlagTable::all()).is_ok());
}

#[test]
fn bodies() {
    assert!(!is_valid(&A, &without_a()));
    for body in [R, S, SECOND_A, [0; 16]] {
        assert!(is_valid(&body, &without_a()));
    }
    // The other rules of the body stand.
    let mut other_code = R;
    other_code[15] = 2;
    assert!(!is_valid(&other_code, &without_a()));
    assert!(!is_valid(&R[..15], &without_a()));
    assert!(!is_valid(&[11; 16], &without_a()));
    assert!(!is_valid(&[15; 16], &without_a()));
}

/// The flags are at position 2 behind attachment 9, else at position 1.
#[test]
fn a_report_that_holds_a_forbidden_flag_is_6() {
    let alone = fresh_with_tail(1, &[&[1, 0, 1][..], &A].concat());
    assert_eq!(judge(&alone, &without_a()), refused(6, 1));
    assert_eq!(judge(&report_with(&A), &without_a()), refused(6, 2));
    for body in [R, S, SECOND_A] {
        assert_eq!(judge(&report_with(&body), &without_a()).unwrap().bytes, 49);
    }
    assert!(judge(&report_with(&A), &FlagTable::all()).is_ok());
    assert!(judge(&fresh_buffer(38), &without_a()).is_ok());
}

#[test]
fn the_report_s_other_refusals_keep_their_order() {
    let table = without_a();
    let mut wrong_ck = report_with(&A);
    common::set_ck(&mut wrong_ck, 241);
    assert_eq!(judge(&wrong_ck, &table), refused(4, 0));
    let mut wrong_month = report_with(&A);
    common::set_bits(&mut wrong_month, 34, 4, 15);
    assert_eq!(judge(&wrong_month, &table), refused(2, 3));
    assert_eq!(judge(&report_with(&A)[..48], &table), refused(1, 2));
    assert_eq!(judge(&report_with(&A)[..37], &table), refused(1, 0));
    // Behind flags or text that are refused nothing is read.
    let repeated = [&[1, 0, 1][..], &A, &[0, 1, 9, 3, 0, 1, 9, 3]].concat();
    assert_eq!(judge(&fresh_with_tail(3, &repeated), &table), refused(6, 1));
    let text_first = [&[0, 1, 4, 10][..], &[1, 0, 1], &A].concat();
    let report = fresh_with_tail(2, &text_first);
    assert_eq!(judge(&report, &table), refused(6, 1));
    let flags_twice = [&[1, 0, 1][..], &R, &[1, 0, 1], &A].concat();
    let report = fresh_with_tail(2, &flags_twice);
    assert_eq!(judge(&report, &table), refused(5, 2));
    // 75 + 19 + 5 nibbles are odd; the last nibble is 9.
    let odd = [&[1, 0, 1][..], &A, &[0, 2, 9, 3, 3, 9]].concat();
    let mut report = fresh_with_tail(2, &odd);
    assert_eq!(judge(&report, &table), refused(6, 1));
    assert_eq!(judge(&report, &FlagTable::all()), refused(7, 0));
    *report.last_mut().unwrap() &= 0xF0;
    assert!(judge(&report, &FlagTable::all()).is_ok());
}

#[test]
fn setting_a_forbidden_value_is_9_before_11_and_after_8() {
    let table = without_a();
    refuses(&report_with(&R), 9, 1, |b| set_flag(b, 1, 2, &table));
    accepts(&report_with(&R), |b| set_flag(b, 1, 3, &table));
    accepts(&report_with(&R), |b| set_flag(b, 2, 2, &table));
    accepts(&report_with(&R), |b| set_flag(b, 1, 2, &FlagTable::all()));
    // No attachment 1.
    let bare = fresh_buffer(60);
    refuses(&bare, 9, 1, |b| set_flag(b, 1, 2, &table));
    refuses(&bare, 11, 0, |b| set_flag(b, 1, 3, &table));
    refuses(&bare, 11, 0, |b| set_flag(b, 1, 2, &FlagTable::all()));
    // No such flag; 257 is no flag 1.
    for number in [0, 15, 257, (1 << 32) + 1, u64::MAX] {
        refuses(&bare, 8, 0, |b| set_flag(b, number, 2, &table));
        refuses(&report_with(&R), 8, 0, |b| set_flag(b, number, 2, &table));
    }
    // No such value, permitted or not.
    for value in [0, 11, -1, 256 + 2, i64::MIN, i64::MAX] {
        refuses(&report_with(&R), 9, 1, |b| set_flag(b, 1, value, &table));
        refuses(&report_with(&R), 9, 2, |b| set_flag(b, 2, value, &table));
    }
}

#[test]
fn flags_set_and_read_under_a_table() {
    let mut buffer = report_with(&R);
    let table = without_a();
    assert_eq!(set_flag(&mut buffer, 1, 10, &table), Ok(Some(1)));
    assert_eq!(buffer, report_with(&S));
    assert_eq!(read_flag(&buffer, 1, &table), Ok(Some(10)));
    assert_eq!(clear_flag(&mut buffer, 1, &table), Ok(Some(10)));
    assert_eq!(buffer, report_with(&[0; 16]));
    assert_eq!(set_flag(&mut buffer, 1, 1, &table), Ok(None));
    assert_eq!(set_flag(&mut buffer, 1, 1, &table), Ok(Some(1)));
    assert_eq!(buffer, report_with(&R));
}

#[test]
fn a_content_that_holds_a_forbidden_flag_is_14() {
    let table = without_a();
    for buffer in [fresh_buffer(60), report_with(&R)] {
        refuses(&buffer, 14, 0, |b| put(b, 1, &A, &table));
        accepts(&buffer, |b| put(b, 1, &S, &table));
        accepts(&buffer, |b| put(b, 1, &A, &FlagTable::all()));
        // 8 and 12 come first.
        refuses(&buffer, 8, 0, |b| put(b, 16, &A, &table));
        refuses(&buffer, 12, 0, |b| put(b, 1, &[2; 256], &table));
    }
    // 13 comes after.
    let full = fresh_buffer(38);
    refuses(&full, 14, 0, |b| put(b, 1, &A, &table));
    refuses(&full, 13, 0, |b| put(b, 1, &R, &table));
    refuses(&full, 13, 0, |b| put(b, 1, &A, &FlagTable::all()));
}

#[test]
fn other_ids_may_have_any_nibbles() {
    let table = without_a();
    for id in [2, 3, 5, 15] {
        accepts(&fresh_buffer(60), |b| put(b, id, &A, &table));
        let report = fresh_with_tail(1, &[&[1, 0, id as u8][..], &A].concat());
        assert!(judge(&report, &table).is_ok());
    }
}

#[test]
fn every_call_of_the_list_refuses_such_a_report() {
    let table = without_a();
    let mut buffer = report_with(&A);
    buffer.extend([0xA5; 30]);
    refuses(&buffer, 6, 2, |b| read_field(b, 2, &table));
    refuses(&buffer, 6, 2, |b| set_field(b, 4, Scaled(1), &table));
    refuses(&buffer, 6, 2, |b| clear_field(b, 4, &table));
    refuses(&buffer, 6, 2, |b| read_flag(b, 1, &table));
    refuses(&buffer, 6, 2, |b| set_flag(b, 1, 1, &table));
    refuses(&buffer, 6, 2, |b| clear_flag(b, 1, &table));
    refuses(&buffer, 6, 2, |b| put(b, 1, &R, &table));
    refuses(&buffer, 6, 2, |b| fetch(b, 9, &mut [0; 3], &table));
    refuses(&buffer, 6, 2, |b| drop_attachment(b, 1, &table));
    refuses(&buffer, 6, 2, |b| put_text(b, b"A", &[0], &table));
    refuses(&buffer, 6, 2, |b| {
        fetch_text(b, &mut [0; 3], &mut [0; 3], &table)
    });
    // The report is checked before the arguments.
    refuses(&buffer, 6, 2, |b| set_flag(b, 15, 2, &table));
    refuses(&buffer, 6, 2, |b| set_flag(b, 1, 2, &table));
    refuses(&buffer, 6, 2, |b| put(b, 1, &A, &table));
    refuses(&buffer, 6, 2, |b| fetch(b, 5, &mut [], &table));
    let mut output = [0xEE; 16];
    assert_eq!(fetch(&buffer, 1, &mut output, &table), refused(6, 2));
    assert_eq!(output, [0xEE; 16]);
    assert_eq!(fetch(&buffer, 1, &mut output, &FlagTable::all()), Ok(16));
    assert_eq!(output, A);
}

#[test]
fn unpack_and_restore() {
    let table = without_a();
    let (mut values, mut tail) = ([-77; 46], [0xEE; 23]);
    let report = report_with(&A);
    let result = unpack(&report, &mut values, &mut tail, &table);
    assert_eq!(result, refused(6, 2));
    let result = unpack(&report, &mut values[..3], &mut tail[..3], &table);
    assert_eq!(result, refused(6, 2));
    let mut output = [0xEE; 49];
    for (count, room) in [(46, 23), (45, 23), (46, 22), (0, 0)] {
        let (values, tail) = (&mut values[..count], &mut tail[..room]);
        let result = restore(&report, values, tail, &mut output, &table);
        assert_eq!(result, refused(6, 2));
    }
    assert_eq!((values, tail, output), ([-77; 46], [0xEE; 23], [0xEE; 49]));
    let report = report_with(&S);
    let result = restore(&report, &mut values, &mut tail, &mut output, &table);
    assert_eq!(result, Ok(49));
    assert_eq!(tail.to_vec(), tail_with(&S));
    assert_eq!(output.to_vec(), report);
    assert_eq!(values.to_vec(), fresh_values());
}

#[test]
fn pack_and_recover() {
    let (values, table) = (fresh_values(), without_a());
    let alone = [&[1, 0, 1][..], &A].concat();
    let forbidden = tail_with(&A);
    let with_byte = [&forbidden[..], &[16]].concat();
    for (word, tail, room, refusal) in [
        (FRESH_WORD, &forbidden, 49, refusal(6, 2)),
        (FRESH_WORD, &forbidden, 0, refusal(6, 2)),
        (FRESH_WORD, &alone, 49, refusal(6, 1)),
        (FRESH_WORD, &with_byte, 49, refusal(14, 0)),
        (FRESH_WORD | 1, &forbidden, 49, refusal(8, 0)),
        (FRESH_WORD & !2, &forbidden, 49, refusal(10, 1)),
        (FRESH_WORD, &tail_with(&R), 48, refusal(13, 0)),
    ] {
        let mut output = vec![0xEE; room];
        let result = pack(&values, word, 0, tail, &mut output, &table);
        assert_eq!(result, Err(refusal));
        let (mut values_out, mut tail_out) = ([-77; 46], [0xEE; 23]);
        let result = recover(
            &values,
            word,
            0,
            tail,
            &mut output,
            &mut values_out,
            &mut tail_out,
            &table,
        );
        assert_eq!(result, Err(refusal));
        assert_eq!((values_out, tail_out), ([-77; 46], [0xEE; 23]));
        assert_eq!(output, vec![0xEE; room]);
    }
    let few = pack(&values[..45], FRESH_WORD, 0, &forbidden, &mut [], &table);
    assert_eq!(few, refused(13, 0));
    for (body, table) in [(R, table), (A, FlagTable::all())] {
        let mut output = [0xEE; 49];
        let tail = tail_with(&body);
        let result = pack(&values, FRESH_WORD, 0, &tail, &mut output, &table);
        assert_eq!(result, Ok(49));
        assert_eq!(output.to_vec(), report_with(&body));
        let (mut output, mut values_out, mut tail_out) = ([0xEE; 49], [-77; 46], [0xEE; 23]);
        let result = recover(
            &values,
            FRESH_WORD,
            0,
            &tail,
            &mut output,
            &mut values_out,
            &mut tail_out,
            &table,
        );
        let given = result.unwrap();
        assert_eq!((given.bytes, given.ac, given.tail), (49, 2, 23));
        assert_eq!(output.to_vec(), report_with(&body));
        assert_eq!(values_out.to_vec(), fresh_values());
        assert_eq!(tail_out.to_vec(), tail);
    }
}

#[test]
fn same_judges_both_reports_under_the_table() {
    let (table, all) = (without_a(), FlagTable::all());
    let (r, a) = (report_with(&R), report_with(&A));
    assert_eq!(same(&r, &r, &table), Ok(true));
    assert_eq!(same(&r, &a, &table), refused(6, 2));
    assert_eq!(same(&a, &r, &table), refused(6, 2));
    assert_eq!(same(&a, &a, &table), refused(6, 2));
    assert_eq!(same(&a, &a, &all), Ok(true));
    assert_eq!(same(&a, &r, &all), Ok(false));
    // The first refusal of the two.
    let alone = fresh_with_tail(1, &[&[1, 0, 1][..], &A].concat());
    assert_eq!(same(&alone, &a, &table), refused(6, 1));
    assert_eq!(same(&a, &alone, &table), refused(6, 2));
    assert_eq!(same(&a, &[], &table), refused(6, 2));
    assert_eq!(same(&[], &a, &table), refused(1, 0));
}

#[test]
fn the_lister_permits_every_flag() {
    let shown = ["1 1", "2 1900", "3 1", "6 0", "7 0", "C 240", "A 2"];
    assert_eq!(lines(&report_with(&A)), shown);
    let case = Case::Lister {
        input: report_with(&A),
    };
    let mut table = without_a();
    let shown = shown.map(String::from).to_vec();
    assert_eq!(case.run(&mut table), Outcome::Lister(shown));
    assert_eq!(table, without_a());
}

fn set(flag: u64, value: i64) -> Call {
    Call::SetFlag { flag, value }
}

fn put_body(body: &[u8; 16]) -> Call {
    Call::Put {
        id: 1,
        content: body.to_vec(),
    }
}

/// One table for the whole script: what each call comes to, 0 where it is accepted.
#[test]
fn replays() {
    let calls = [
        set(1, 2),
        set(1, 10),
        put_body(&A),
        put_body(&SECOND_A),
        set(15, 2),
        Call::ReadFlag { flag: 2 },
        Call::Drop { id: 1 },
        set(1, 2),
        set(1, 1),
        Call::ReadField { field: 2 },
    ];
    let script = script(&calls);
    for (table, body, refusals) in [
        (without_a(), R, [9, 0, 14, 0, 8, 0, 0, 9, 11, 0]),
        (FlagTable::all(), R, [0, 0, 0, 0, 8, 0, 0, 11, 11, 0]),
        (without_a(), A, [6; 10]),
    ] {
        let mut buffer = report_with(&body);
        let ran = run(&mut buffer, &script, 37 * 10, &table);
        assert_eq!((ran.calls.len(), ran.taken), (10, script.len()));
        let met: Vec<u8> = ran.log.chunks(37).map(|record| record[1]).collect();
        assert_eq!(met, refusals);
        let dropped = [&fresh_with_tail(1, &[0, 1, 9, 3])[..], &[0; 9]].concat();
        let due = if body == A { report_with(&A) } else { dropped };
        assert_eq!(buffer, due);
    }
    let ran = run(&mut report_with(&R), &script, 37 * 10, &without_a());
    assert_eq!(ran.log[..10], [0, 9, 0, 0, 0, 0, 0, 0, 0, 1]);
    assert_eq!(ran.log[37 * 7..][..10], [0, 9, 0, 0, 0, 0, 0, 0, 0, 1]);
    let ran = run(&mut report_with(&A), &script, 37 * 10, &without_a());
    assert_eq!(ran.log[..10], [0, 6, 0, 0, 0, 0, 0, 0, 0, 2]);
}

fn held(body: &[u8; 16]) -> Observation {
    observation_with(&[(9, &[3]), (1, body)])
}

/// The machine's answer and its observation after the step.
#[track_caller]
fn steps(
    from: &Observation,
    n: usize,
    call: Call,
    due: Result<(&Observation, &[Number]), Refusal>,
) {
    let (after, answer) = step(from, n, &call, &without_a());
    match due {
        Ok((observation, given)) => {
            assert_eq!(answer.result, Ok(given.to_vec()));
            assert_eq!(&after, observation);
        }
        Err(refusal) => {
            assert_eq!(answer.result, Err(refusal));
            assert_eq!(&after, from);
        }
    }
}

#[test]
fn the_machine_reads_the_table() {
    let nine = Err(refusal(9, 1));
    steps(&held(&R), 60, set(1, 2), nine);
    let former = |value| [Number::flag(value)];
    steps(&held(&R), 60, set(1, 10), Ok((&held(&S), &former(Some(1)))));
    let second_a = held(&SECOND_A);
    steps(
        &held(&[0; 16]),
        60,
        set(2, 2),
        Ok((&second_a, &former(None))),
    );
    steps(&held(&R), 60, put_body(&A), Err(refusal(14, 0)));
    steps(&held(&R), 60, put_body(&S), Ok((&held(&S), &[])));
    steps(
        &held(&S),
        60,
        Call::ClearFlag { flag: 1 },
        Ok((&held(&[0; 16]), &former(Some(10)))),
    );
    // The order: 8, 9, 11, and 14 before 13.
    let bare = fresh_observation();
    steps(&bare, 38, set(0, 2), Err(refusal(8, 0)));
    steps(&bare, 38, set(15, 2), Err(refusal(8, 0)));
    steps(&bare, 38, set(1, 2), nine);
    steps(&bare, 38, set(1, 11), nine);
    steps(&bare, 38, set(1, 3), Err(refusal(11, 0)));
    steps(&bare, 38, put_body(&A), Err(refusal(14, 0)));
    steps(&bare, 38, put_body(&R), Err(refusal(13, 0)));
    let mut with_flags = bare.clone();
    with_flags.attachments.push(Attachment::new(1, R.to_vec()));
    steps(&bare, 48, put_body(&R), Ok((&with_flags, &[])));
}

/// A sound table other than all yes: each row permits R and A.
fn sound() -> Vec<u8> {
    [1, 1, 0, 0, 0, 0, 0, 0, 0, 0].repeat(14)
}

#[test]
fn a_sound_table_is_loaded() {
    let mut table = FlagTable::all();
    assert_eq!(table.load(&sound()), Ok(()));
    assert_eq!(table.marks().to_vec(), sound());
    assert!(judge(&report_with(&A), &table).is_ok());
    assert_eq!(judge(&report_with(&S), &table), refused(6, 2));
    for flag in 1..=14 {
        assert_eq!(table.permitted(flag), [1, 2]);
    }
    // The next one takes its place whole.
    let next = [0, 0, 0, 0, 0, 0, 0, 0, 0, 1].repeat(14);
    assert_eq!(table.load(&next), Ok(()));
    assert_eq!(table.marks().to_vec(), next);
    assert_eq!(table.load(&[1; 140]), Ok(()));
    assert_eq!(table, FlagTable::all());
}

/// Ten noes in turn are no empty row unless they are one.
#[test]
fn a_row_needs_one_yes() {
    let mut marks = [1; 140];
    marks[5..15].fill(0);
    assert_eq!(FlagTable::all().load(&marks), Ok(()));
    for row in 0..14 {
        for place in 0..10 {
            let mut marks = [1; 140];
            marks[10 * row..][..10].fill(0);
            assert_eq!(FlagTable::all().load(&marks), refused(16, 0), "{row}");
            marks[10 * row + place] = 1;
            assert_eq!(FlagTable::all().load(&marks), Ok(()), "{row} {place}");
        }
    }
}

/// The former table, all yes or another, stays in force.
#[test]
fn tables_that_are_refused_change_nothing() {
    let changed = |place: usize, byte: u8| {
        let mut marks = sound();
        marks[place] = byte;
        marks
    };
    let without_row = |row: usize| {
        let mut marks = sound();
        marks[10 * row..][..10].fill(0);
        marks
    };
    let mut refused_tables = vec![
        Vec::new(),
        vec![1],
        sound()[..139].to_vec(),
        [sound(), vec![1]].concat(),
        [sound(), vec![0]].concat(),
        vec![1; 139],
        vec![1; 141],
        vec![1; 150],
        vec![1; 280],
        vec![0; 140],
        vec![255; 140],
        changed(0, 2),
        changed(0, 255),
        changed(9, 2),
        changed(77, 255),
        changed(139, 2),
        changed(139, 255),
        without_row(0),
        without_row(6),
        without_row(13),
    ];
    refused_tables.extend(flag_tables::refused_tables());
    for former in [FlagTable::all(), without_a(), marked(139, 0)] {
        for marks in &refused_tables {
            let mut table = former;
            assert_eq!(table.load(marks), refused(16, 0), "{marks:?}");
            assert_eq!(table, former, "{marks:?}");
        }
    }
    let mut table = without_a();
    assert_eq!(table.load(&[1; 139]), refused(16, 0));
    assert_eq!(judge(&report_with(&A), &table), refused(6, 2));
    assert!(judge(&report_with(&S), &table).is_ok());
}

/// The head and the table in force after the load.
#[test]
fn load_records_by_hand() {
    let load = |marks: &[u8]| Case::Load {
        marks: marks.to_vec(),
    };
    let mut table = FlagTable::all();
    let accepted = [1, 0, 0, 0, 0, 0, 0, 0, 0, 0];
    let refused = [0, 16, 0, 0, 0, 0, 0, 0, 0, 0];
    let mut wide = sound();
    wide.resize(200, 1);
    for (marks, count, head, after) in [
        (&[][..], [0, 0], refused, &[1; 140][..]),
        (&sound(), [0, 140], accepted, &sound()),
        (&[1; 139], [0, 139], refused, &sound()),
        (&wide, [0, 200], refused, &sound()),
        (&[1; 140], [0, 140], accepted, &[1; 140]),
    ] {
        let case = load(marks);
        assert!(record::fits(&case));
        let input = [&[10][..], &count, marks].concat();
        assert_eq!(record::input(&case), input);
        let outcome = case.run(&mut table);
        assert_eq!(record::answer(&outcome), [&head, after].concat());
        let input = [&[255][..], &count, marks].concat();
        assert_eq!(list::load(marks), input);
    }
    assert!(!record::fits(&load(&[1; 201])));
}

/// A load, a list under it, a refused load and the list again.
#[test]
fn a_file_of_lists_by_hand() {
    let list = List::of(report_with(&R), &[set(1, 2)]);
    let items = [
        Item::List(list.clone()),
        Item::Load(without_a().marks().to_vec()),
        Item::List(list.clone()),
        Item::Load(vec![1; 139]),
        Item::List(list.clone()),
    ];
    let files = gate::lists(&items);
    let table = [&[1, 0][..], &[1; 138]].concat();
    let input = list.input();
    let stdin = [
        &input[..],
        &[255, 0, 140],
        &table,
        &input,
        &[255, 0, 139],
        &[1; 139],
        &input,
    ];
    assert_eq!(files.stdin, stdin.concat());
    let counts = [0, 0, 0, 1, 0, 0, 0, 17, 0, 0, 0, 37];
    // Flag 1 was R.
    let set = [&[1, 0][..], &[0; 8], &[2, 0, 0, 0, 0, 0, 0, 0, 1], &[0; 18]].concat();
    let refused = [&[0, 9, 0, 0, 0, 0, 0, 0, 0, 1][..], &[0; 27]].concat();
    let stdout = [
        &counts[..],
        &report_with(&A),
        &set,
        &[1, 0, 0, 0, 0, 0, 0, 0, 0, 0],
        &table,
        &counts,
        &report_with(&R),
        &refused,
        &[0, 16, 0, 0, 0, 0, 0, 0, 0, 0],
        &table,
        &counts,
        &report_with(&R),
        &refused,
    ];
    assert_eq!(files.stdout, stdout.concat());
    assert_eq!(files.tally.counts[&("load", 0)], 1);
    assert_eq!(files.tally.counts[&("load", 16)], 1);
    assert_eq!((files.tally.lists, files.tally.calls), (3, 3));
}

/// What is before the first load stands first in both files.
#[test]
fn loads_come_last() {
    let front = gate::whole(&whole_cases::before_loads(SEED));
    let whole = gate::whole(&whole_cases::cases(SEED));
    assert!(whole.stdin.starts_with(&front.stdin));
    assert!(whole.stdout.starts_with(&front.stdout));
    let more = whole.stdin.len() + whole.stdout.len() - front.stdin.len() - front.stdout.len();
    assert!(more < 750_000, "{more}");
    let lists: Vec<Item> = list_cases::lists(SEED)
        .into_iter()
        .map(Item::List)
        .collect();
    let front = gate::lists(&lists);
    let whole = gate::lists(&list_cases::items(SEED));
    assert!(whole.stdin.starts_with(&front.stdin));
    assert!(whole.stdout.starts_with(&front.stdout));
    let more = whole.stdin.len() + whole.stdout.len() - front.stdin.len() - front.stdout.len();
    assert!(more < 800_000, "{more}");
}

/// The number of the refusal, 0 where accepted.
fn number(outcome: &Outcome) -> u8 {
    let number = |result: Option<&Refusal>| result.map_or(0, |refusal| refusal.number);
    match outcome {
        Outcome::Judge(result) => number(result.as_ref().as_ref().err()),
        Outcome::Unpack { result, .. } | Outcome::Recover { result, .. } => {
            number(result.as_ref().err())
        }
        Outcome::Pack { result, .. } | Outcome::Restore { result, .. } => {
            number(result.as_ref().err())
        }
        Outcome::Same(result) => number(result.as_ref().err()),
        _ => 0,
    }
}

fn kind(case: &Case) -> usize {
    match case {
        Case::Judge { .. } => 0,
        Case::Unpack { .. } => 1,
        Case::Pack { .. } => 2,
        Case::Same { .. } => 3,
        Case::Restore { .. } => 4,
        Case::Recover { .. } => 5,
        _ => 6,
    }
}

/// Refused by 6 under the table in force, and otherwise answered with all yes; also
/// behind a refused load.
#[test]
fn records_meet_the_table() {
    let mut table = FlagTable::all();
    let mut met = [0; 6];
    let mut behind_refused = 0;
    let mut last_load_refused = false;
    for case in flag_cases::records(SEED) {
        let outcome = case.run(&mut table);
        if let Outcome::Load { result, .. } = outcome {
            last_load_refused = result.is_err();
            continue;
        }
        let under_all = case.run(&mut FlagTable::all());
        if number(&outcome) == 6 && outcome != under_all {
            met[kind(&case)] += 1;
            behind_refused += usize::from(last_load_refused);
        }
        if kind(&case) == 6 {
            assert_eq!(outcome, under_all);
        }
    }
    assert!(met.iter().all(|&count| count >= 15), "{met:?}");
    assert!(behind_refused >= 60, "{behind_refused}");
}

/// Each of the eleven calls in these lists meets 6 by the table, set flag 9 and put 14.
#[test]
fn lists_meet_the_table() {
    let mut table = FlagTable::all();
    let mut by_six = [0; 11];
    let (mut nines, mut fourteens) = (0, 0);
    for item in flag_cases::items(SEED) {
        let list = match item {
            Item::List(list) => list,
            Item::Load(marks) => {
                let result = table.load(&marks);
                assert!(result.is_ok() || result == refused(16, 0));
                continue;
            }
        };
        let accepted_by_all = judge(&list.buffer, &FlagTable::all()).is_ok();
        let (_, ran) = list.run(&table);
        for (call, answer) in &ran.calls {
            let number = answer.result.as_ref().err().map_or(0, |other| other.number);
            let place = match call {
                Call::ReadField { .. } => 0,
                Call::SetField { .. } => 1,
                Call::ClearField { .. } => 2,
                Call::ReadFlag { .. } => 3,
                Call::SetFlag { .. } => 4,
                Call::ClearFlag { .. } => 5,
                Call::Put { .. } => 6,
                Call::Fetch { .. } => 7,
                Call::Drop { .. } => 8,
                Call::PutText { .. } => 9,
                Call::FetchText { .. } => 10,
                Call::ClearWithIndicators { .. } => unreachable!("it has lists of its own"),
            };
            by_six[place] += usize::from(number == 6 && accepted_by_all);
            match call {
                Call::SetFlag { value, .. } if number == 9 => {
                    nines += usize::from((1..=10).contains(value));
                }
                Call::Put { id: 1, content } if number == 14 => {
                    fourteens += usize::from(is_valid(content, &FlagTable::all()));
                }
                _ => {}
            }
        }
    }
    assert!(by_six.iter().all(|&count| count > 0), "{by_six:?}");
    assert!(nines > 300, "{nines}");
    assert!(fourteens > 30, "{fourteens}");
}
