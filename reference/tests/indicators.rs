//! Indicators that have lost their data: finding them, and clearing a field with them.

mod common;

use std::collections::{BTreeMap, BTreeSet};

use common::all_flags::*;
use common::{fresh_buffer, fresh_with_tail, hex, refused, set_bits, set_ck};
use reference::call::{Answer, Call};
use reference::cases::material::{fresh_observation, random_indicators, random_observation};
use reference::cases::{Case, Outcome, fixed, random, reports};
use reference::edit;
use reference::flag_table::FlagTable;
use reference::gate::list::Item;
use reference::gate::script::{entry, first_call, script};
use reference::gate::{self, SEED, indicator_cases, list_cases, record, whole_cases};
use reference::number::Number;
use reference::outside;
use reference::prng::Prng;
use reference::refusal::Refusal;
use reference::step::{clears, step};
use reference::table::Scaled;

/// Each indicator and its data: DI on D, WI on W, VI on VB, TI on A, WB, DPT and S, BI on
/// S, HI on H.
const RESTS: [(usize, &[usize]); 6] = [
    (17, &[18]),
    (19, &[20]),
    (21, &[22]),
    (27, &[28, 29, 30, 31]),
    (32, &[31]),
    (36, &[37]),
];

/// The numbers of the indicators.
const ALL: [u8; 6] = [17, 19, 21, 27, 32, 36];

const REQUIRED: [usize; 5] = [1, 2, 3, 6, 7];

/// An indicator or a field of its data: first bit on the card, bits, highest code, base.
struct Place {
    field: usize,
    start: usize,
    bits: usize,
    highest: u64,
    base: i64,
}

const fn place(field: usize, start: usize, bits: usize, highest: u64, base: i64) -> Place {
    Place {
        field,
        start,
        bits,
        highest,
        base,
    }
}

const PLACES: [Place; 14] = [
    place(17, 108, 3, 6, -1),
    place(18, 111, 9, 362, 0),
    place(19, 120, 4, 4, -1),
    place(20, 124, 10, 1023, -1),
    place(21, 134, 2, 3, -1),
    place(22, 136, 4, 10, 89),
    place(27, 166, 4, 6, -1),
    place(28, 170, 11, 1999, -1000),
    place(29, 181, 11, 1999, -1000),
    place(30, 192, 11, 1999, -1000),
    place(31, 203, 11, 1999, -1000),
    place(32, 214, 4, 3, -1),
    place(36, 230, 2, 2, -1),
    place(37, 232, 4, 11, -1),
];

fn place_of(field: usize) -> &'static Place {
    let place = PLACES.iter().find(|place| place.field == field);
    place.expect("an indicator or a field of its data")
}

/// The fresh report, whose codes add up to 1005, with some more codes.
fn card(codes: &[(usize, u64)]) -> Vec<u8> {
    let mut report = fresh_buffer(38);
    let mut sum = 1005;
    for &(field, code) in codes {
        let place = place_of(field);
        set_bits(&mut report, place.start, place.bits, code);
        sum += code;
    }
    set_ck(&mut report, sum % 255);
    report
}

/// Fields with their highest codes.
fn highest(fields: &[usize]) -> Vec<u8> {
    let codes = fields.iter().map(|&field| (field, place_of(field).highest));
    card(&codes.collect::<Vec<_>>())
}

/// A card with AC and the nibbles behind it.
fn with_tail(card: &[u8], ac: u8, tail: &[u8]) -> Vec<u8> {
    [&card[..37], &fresh_with_tail(ac, tail)[37..]].concat()
}

/// Attachment 5 of one nibble, behind a card.
fn beside_attachment_5(card: &[u8]) -> Vec<u8> {
    with_tail(card, 1, &[0, 1, 5, 9])
}

/// What is found, written to the front of an output of ten bytes.
#[track_caller]
fn found(report: &[u8]) -> Vec<u8> {
    let mut output = [0xEE; 10];
    let count = find_indicators(report, &mut output).unwrap();
    assert_eq!(output[count..], [0xEE; 10][count..]);
    output[..count].to_vec()
}

/// The fields that are present.
fn present(report: &[u8]) -> Vec<usize> {
    let values = judge(report).unwrap().observation.values;
    let is_present = |field: &usize| values[field - 1].is_some();
    (1..=46).filter(is_present).collect()
}

fn clear_of(field: usize) -> Call {
    let field = field as u64;
    Call::ClearField { field }
}

fn with_indicators(field: usize) -> Call {
    let field = field as u64;
    Call::ClearWithIndicators { field }
}

/// The clears that clearing a field with its indicators stands for, on a report of the
/// fields that are present.
fn clears_by_hand(present: &[usize], field: usize) -> Vec<usize> {
    let mut clears = vec![field];
    for (indicator, data) in RESTS {
        let others = data.iter().filter(|&&other| other != field);
        let all_missing = others.clone().all(|other| !present.contains(other));
        if data.contains(&field) && all_missing {
            clears.push(indicator);
        }
    }
    clears
}

#[test]
fn each_indicator_without_and_with_its_data() {
    assert_eq!(found(&fresh_buffer(38)), []);
    for (indicator, data) in RESTS {
        for code in 1..=place_of(indicator).highest {
            let alone = card(&[(indicator, code)]);
            assert_eq!(found(&alone), [indicator as u8]);
            for &field in data {
                for other in [1, place_of(field).highest] {
                    let report = card(&[(indicator, code), (field, other)]);
                    assert_eq!(found(&report), []);
                    assert_eq!(found(&card(&[(field, other)])), []);
                }
            }
        }
    }
}

/// A scaled value of 0 is there: coded 1000 for temperatures, 1 for W and H.
#[test]
fn data_of_value_0_are_not_missing() {
    for (indicator, field, code) in [
        (19, 20, 1),
        (27, 28, 1000),
        (27, 29, 1000),
        (27, 30, 1000),
        (27, 31, 1000),
        (32, 31, 1000),
        (36, 37, 1),
    ] {
        let report = card(&[(indicator, 1), (field, code)]);
        assert_eq!(read_field(&report, field as u64), Ok(Some(Scaled(0))));
        assert_eq!(found(&report), []);
    }
    let report = card(&[(17, 1), (36, 1)]);
    assert_eq!(read_field(&report, 17), Ok(Some(Scaled(0))));
    assert_eq!(found(&report), [17, 36]);
}

#[test]
fn all_subsets_are_found_ascending() {
    for subset in 0..64 {
        let is_in = |index: usize| (subset >> index) & 1 == 1;
        let mut fields = Vec::new();
        let mut due = Vec::new();
        for (index, (indicator, _)) in RESTS.into_iter().enumerate() {
            if is_in(index) {
                fields.push(indicator);
                due.push(indicator as u8);
            }
        }
        assert_eq!(found(&highest(&fields)), due);
    }
    assert_eq!(found(&highest(&[17, 19, 21, 27, 32, 36])), ALL);
}

/// The four fields of TI's data in all combinations.
fn temperatures() -> Vec<Vec<usize>> {
    let fields = |mask: usize| (28..=31).filter(move |field| (mask >> (field - 28)) & 1 == 1);
    (0..16).map(|mask| fields(mask).collect()).collect()
}

#[test]
fn ti_rests_on_any_of_four_and_bi_on_s() {
    let mut met = BTreeMap::new();
    for data in temperatures() {
        let mut due = Vec::new();
        if data.is_empty() {
            due.push(27);
        }
        if !data.contains(&31) {
            due.push(32);
        }
        let report = highest(&[&[27, 32], &data[..]].concat());
        assert_eq!(found(&report), due, "{data:?}");
        *met.entry(due).or_insert(0) += 1;
        let ti = found(&highest(&[&[27], &data[..]].concat()));
        assert_eq!(ti.is_empty(), !data.is_empty(), "{data:?}");
        assert_eq!(found(&highest(&data)), []);
    }
    let due = [(vec![], 8), (vec![27, 32], 1), (vec![32], 7)];
    assert_eq!(met, BTreeMap::from(due));
}

/// Each field beside each indicator, with no other field that is not required.
#[test]
fn each_pair_of_field_and_indicator_is_found() {
    for field in (1..=46).filter(|field| !REQUIRED.contains(field)) {
        for (indicator, data) in RESTS {
            let mut report = highest(&[indicator]);
            let value = if field == 22 { 99 } else { 1 };
            let value = if field == 26 { 9000 } else { value };
            set_field(&mut report, field as u64, Scaled(value)).unwrap();
            let mut due = vec![indicator];
            due.retain(|_| !data.contains(&field));
            if ALL.contains(&(field as u8)) && field != indicator {
                due.push(field);
            }
            due.sort();
            let due: Vec<u8> = due.into_iter().map(|field| field as u8).collect();
            assert_eq!(found(&report), due, "{field} {indicator}");
        }
    }
}

#[test]
fn other_indicators_and_fields_are_not_found() {
    let mut report = fresh_buffer(38);
    for (field, value) in [
        (8, 3),
        (11, 7),
        (12, 2),
        (13, 5),
        (14, 2),
        (15, 1),
        (16, 2),
        (46, 1),
    ] {
        set_field(&mut report, field, Scaled(value)).unwrap();
    }
    assert_eq!(found(&report), []);
}

/// For each number of indicators, every length up to two more.
#[test]
fn an_output_of_that_number_will_do() {
    for count in 0..=6 {
        let report = highest(&[17, 19, 21, 27, 32, 36][..count]);
        for room in 0..=count + 2 {
            let mut output = vec![0xEE; room];
            let answer = find_indicators(&report, &mut output);
            if room < count {
                assert_eq!(answer, refused(13, 0));
                assert_eq!(output, vec![0xEE; room]);
            } else {
                assert_eq!(answer, Ok(count));
                let due = [&ALL[..count], &vec![0xEE; room - count]].concat();
                assert_eq!(output, due);
            }
        }
    }
}

/// Any content in any position, and an empty output.
#[test]
fn attachment_5_hides_them_all() {
    let all = highest(&[17, 19, 21, 27, 32, 36]);
    let five = |nibbles: &[u8]| {
        let length = nibbles.len() as u8;
        [&[length >> 4, length & 15, 5][..], nibbles].concat()
    };
    for body in [&[0][..], &[15], &[1, 2, 3, 4], &[0; 255]] {
        for (before, behind) in [(false, false), (true, false), (false, true), (true, true)] {
            let ac = 1 + u8::from(before) + u8::from(behind);
            let mut tail = Vec::new();
            if before {
                tail.extend([0, 2, 6, 5, 5]);
            }
            tail.extend(five(body));
            if behind {
                tail.extend([0, 1, 15, 0]);
            }
            let mut report = with_tail(&all, ac, &tail);
            for room in [0, 5, 6, 7] {
                let mut output = vec![0xEE; room];
                assert_eq!(find_indicators(&report, &mut output), Ok(0));
                assert_eq!(output, vec![0xEE; room]);
            }
            drop_attachment(&mut report, 5).unwrap();
            assert_eq!(found(&report), ALL);
            assert_eq!(find_indicators(&report, &mut []), refused(13, 0));
        }
    }
}

#[test]
fn no_other_attachment_hides_any() {
    let all = highest(&[17, 19, 21, 27, 32, 36]);
    for id in (1..=15).filter(|&id| id != 5) {
        let content = if id == 1 { vec![0; 16] } else { vec![5; 5] };
        let mut report = [all.clone(), vec![0xA5; 30]].concat();
        put(&mut report, id, &content).unwrap();
        assert_eq!(found(&report), ALL, "{id}");
        // An id 5 behind the report is none of it.
        report[38 + 12..].fill(0x55);
        assert_eq!(found(&report), ALL, "{id}");
    }
    let tail = [0, 6, 9, 0, 1, 5, 9, 0, 1];
    assert_eq!(found(&with_tail(&all, 1, &tail)), ALL);
}

/// With AC 0 the nibbles of attachment 5 stand behind the report.
#[test]
fn bytes_after_the_report_are_not_read() {
    let mut report = beside_attachment_5(&highest(&[17, 36]));
    assert_eq!(found(&report), []);
    assert_eq!(report[37..], [0x10, 0x15, 0x90]);
    report[37] = 0;
    assert_eq!(found(&report), [17, 36]);
}

/// Two reports of each of the report's refusals, with outputs that would do and none.
#[test]
fn refused_reports_come_first() {
    let mut numbers = Vec::new();
    for report in reports::two_of_each_refusal() {
        let due = judge(&report).unwrap_err();
        numbers.push(due.number);
        for room in [0, 6, 50] {
            let mut output = vec![0xEE; room];
            assert_eq!(find_indicators(&report, &mut output), Err(due));
            assert_eq!(output, vec![0xEE; room]);
        }
        for field in [0, 18, 17, 1, 47] {
            let mut after = report.clone();
            let answer = clear_with_indicators(&mut after, field);
            assert_eq!((answer, after), (Err(due), report.clone()));
        }
    }
    assert_eq!(numbers, [1, 1, 2, 2, 3, 3, 4, 4, 5, 5, 6, 6, 7, 7]);
    let mut all = highest(&[17, 19, 21, 27, 32, 36]);
    all[36] ^= 1;
    assert_eq!(find_indicators(&all, &mut []), refused(4, 0));
}

/// Flag 1 has the value A, which the table forbids it.
#[test]
fn a_table_of_flags_refuses_the_report() {
    let mut marks = [1; 140];
    marks[1] = 0;
    let forbidding = FlagTable::of(&marks);
    let mut flags = [0; 16];
    (flags[0], flags[15]) = (2, 2);
    let tail = [&[0, 1, 9, 3][..], &[1, 0, 1], &flags].concat();
    let report = with_tail(&highest(&[17]), 2, &tail);
    for (table, room, due) in [
        (&forbidding, 1, refused(6, 2)),
        (&forbidding, 0, refused(6, 2)),
        (&FlagTable::all(), 1, Ok(1)),
        (&FlagTable::all(), 0, refused(13, 0)),
    ] {
        let mut output = vec![0xEE; room];
        let answer = outside::find_indicators(&report, &mut output, table);
        assert_eq!(answer, due);
        let written = if due.is_ok() { 17 } else { 0xEE };
        assert_eq!(output, vec![written; room]);
    }
    for field in [18, 17, 0, 47, 3] {
        let mut after = report.clone();
        let answer = edit::clear_with_indicators(&mut after, field, &forbidding);
        assert_eq!((answer, after), (refused(6, 2), report.clone()));
    }
    let mut after = report.clone();
    assert_eq!(clear_with_indicators(&mut after, 18), Ok(None));
    assert_eq!(after, with_tail(&highest(&[]), 2, &tail));
}

/// On a report of those two fields and the required ones, and on one of all fields.
#[test]
fn each_pair_of_field_and_indicator_is_cleared() {
    for (indicator, data) in RESTS {
        for place in &PLACES {
            let field = place.field;
            let mut fields = vec![field, indicator];
            fields.sort();
            fields.dedup();
            let mut report = highest(&fields);
            let former = place.base + place.highest as i64;
            let cleared = clear_with_indicators(&mut report, field as u64);
            assert_eq!(cleared, Ok(Some(Scaled(former))));
            fields.retain(|&other| other != field);
            if data.contains(&field) {
                fields.retain(|&other| other != indicator);
            }
            assert_eq!(report, highest(&fields), "{field} {indicator}");
        }
    }
    let all: Vec<usize> = PLACES.iter().map(|place| place.field).collect();
    for (field, along) in [
        (17, None),
        (18, Some(17)),
        (19, None),
        (20, Some(19)),
        (21, None),
        (22, Some(21)),
        (27, None),
        (28, None),
        (29, None),
        (30, None),
        (31, Some(32)),
        (32, None),
        (36, None),
        (37, Some(36)),
    ] {
        let mut report = highest(&all);
        clear_with_indicators(&mut report, field as u64).unwrap();
        let mut left = all.clone();
        left.retain(|&other| other != field && Some(other) != along);
        assert_eq!(report, highest(&left), "{field}");
    }
}

/// The fields that no indicator rests on are cleared alone.
#[test]
fn other_fields_are_cleared_alone() {
    let all: Vec<usize> = PLACES.iter().map(|place| place.field).collect();
    let indicators: Vec<usize> = RESTS.iter().map(|rest| rest.0).collect();
    for fields in [&all, &indicators] {
        for field in (1..=46).filter(|field| !all.contains(field) && !REQUIRED.contains(field)) {
            let mut report = highest(fields);
            let value = Scaled(if field == 26 { 8700 } else { 1 });
            set_field(&mut report, field as u64, value).unwrap();
            let cleared = clear_with_indicators(&mut report, field as u64);
            assert_eq!(cleared, Ok(Some(value)), "{field}");
            assert_eq!(report, highest(fields), "{field}");
        }
    }
}

/// All combinations of A, WB, DPT and S, each of them cleared beside TI and BI.
#[test]
fn ti_goes_with_the_last_of_its_data() {
    let mut taken = 0;
    for data in temperatures() {
        for field in 28..=31 {
            for indicators in [&[27, 32][..], &[27], &[32], &[]] {
                let mut report = highest(&[indicators, &data].concat());
                let former = data.contains(&field).then_some(Scaled(999));
                let cleared = clear_with_indicators(&mut report, field as u64);
                assert_eq!(cleared, Ok(former));
                let mut left = [indicators, &data].concat();
                left.retain(|&other| other != field);
                if left.iter().all(|other| !(28..=31).contains(other)) {
                    taken += usize::from(left.contains(&27));
                    left.retain(|&other| other != 27);
                }
                if field == 31 {
                    left.retain(|&other| other != 32);
                }
                assert_eq!(report, highest(&left), "{data:?} {field}");
            }
        }
    }
    // No data, or the one that is cleared: two of 16, four fields, with BI or without.
    assert_eq!(taken, 2 * 4 * 2);
}

#[test]
fn missing_data_still_take_their_indicator_along() {
    for (indicator, data) in RESTS {
        for &field in data {
            let mut report = highest(&[indicator]);
            assert_eq!(clear_with_indicators(&mut report, field as u64), Ok(None));
            assert_eq!(report, fresh_buffer(38));
            assert_eq!(clear_with_indicators(&mut report, field as u64), Ok(None));
            assert_eq!(report, fresh_buffer(38));
        }
    }
}

/// D is cleared; WI, whose data were lost before, stays and is still found.
#[test]
fn other_lone_indicators_stay() {
    let indicators = [17, 19, 21, 27, 32, 36];
    for (field, along) in [
        (18, &[17][..]),
        (20, &[19]),
        (22, &[21]),
        (28, &[27]),
        (29, &[27]),
        (30, &[27]),
        (31, &[27, 32]),
        (37, &[36]),
    ] {
        let mut report = highest(&[&indicators[..], &[field]].concat());
        let place = place_of(field);
        let former = Scaled(place.base + place.highest as i64);
        let cleared = clear_with_indicators(&mut report, field as u64);
        assert_eq!(cleared, Ok(Some(former)));
        let left: Vec<usize> = indicators
            .into_iter()
            .filter(|indicator| !along.contains(indicator))
            .collect();
        assert_eq!(report, highest(&left), "{field}");
        let due: Vec<u8> = left.iter().map(|&field| field as u8).collect();
        assert_eq!(found(&report), due);
    }
}

#[test]
fn an_indicator_is_cleared_alone() {
    let indicators = [17, 19, 21, 27, 32, 36];
    for indicator in indicators {
        let mut report = highest(&indicators);
        let place = place_of(indicator);
        let former = Scaled(place.base + place.highest as i64);
        let cleared = clear_with_indicators(&mut report, indicator as u64);
        assert_eq!(cleared, Ok(Some(former)));
        let mut left = indicators.to_vec();
        left.retain(|&other| other != indicator);
        assert_eq!(report, highest(&left));
        assert_eq!(
            clear_with_indicators(&mut report, indicator as u64),
            Ok(None)
        );
        assert_eq!(report, highest(&left));
    }
}

#[test]
fn attachment_5_keeps_none_from_being_cleared() {
    for (indicator, data) in RESTS {
        for &field in data {
            for fields in [vec![indicator], vec![indicator, field]] {
                let mut report = beside_attachment_5(&highest(&fields));
                clear_with_indicators(&mut report, field as u64).unwrap();
                assert_eq!(report, beside_attachment_5(&fresh_buffer(38)));
            }
        }
    }
}

/// DI has the value 5 and D 362; clearing D gives 362.
#[test]
fn the_answer_is_never_that_of_an_indicator() {
    let mut report = highest(&[17, 18]);
    assert_eq!(
        clear_with_indicators(&mut report, 18),
        Ok(Some(Scaled(362)))
    );
    let mut report = highest(&[17]);
    assert_eq!(clear_with_indicators(&mut report, 18), Ok(None));
    let mut report = highest(&[17]);
    assert_eq!(clear_with_indicators(&mut report, 17), Ok(Some(Scaled(5))));
    // S of value 0 with TI and BI.
    let mut report = card(&[(27, 6), (31, 1000), (32, 3)]);
    assert_eq!(clear_with_indicators(&mut report, 31), Ok(Some(Scaled(0))));
    assert_eq!(report, fresh_buffer(38));
}

const NO_FIELDS: [u64; 10] = [
    0,
    47,
    48,
    255,
    256 + 18,
    65_536 + 31,
    (1 << 32) + 18,
    (1 << 63) + 18,
    u64::MAX - 45,
    u64::MAX,
];

#[test]
fn refused_as_clear_field_is() {
    let all: Vec<usize> = PLACES.iter().map(|place| place.field).collect();
    let report = [beside_attachment_5(&highest(&all)), vec![0xA5; 3]].concat();
    let numbers = NO_FIELDS
        .into_iter()
        .chain(REQUIRED.map(|field| field as u64));
    for number in numbers {
        let (mut first, mut second) = (report.clone(), report.clone());
        let answer = clear_with_indicators(&mut first, number);
        assert_eq!(answer, clear_field(&mut second, number));
        let due = if NO_FIELDS.contains(&number) {
            refused(8, 0)
        } else {
            refused(10, number as usize)
        };
        assert_eq!((answer, first), (due, report.clone()));
    }
}

/// A call on a buffer and, where the report is sound, on its observation.
fn answer(buffer: &mut [u8], call: &Call, table: &FlagTable) -> Answer {
    let report = reference::judge::judge(buffer, table);
    let n = buffer.len();
    let answer = call.run(buffer, table);
    if let Ok(report) = report {
        let (after, stepped) = step(&report.observation, n, call, table);
        assert_eq!(stepped, answer, "{call:?}");
        assert!(buffer.starts_with(&after.packing()), "{call:?}");
    }
    answer
}

/// On a buffer, the call leaves what its clears leave one after the other, and answers as
/// the first of them. Nothing else moves, and no indicator that rests on the field is left
/// without its data.
fn stands_for_its_clears(buffer: &[u8], field: usize, table: &FlagTable) -> usize {
    let before = present(buffer);
    let clears_due = clears_by_hand(&before, field);
    let mut by_clears = buffer.to_vec();
    let first = clear_of(field).run(&mut by_clears, table);
    for &other in &clears_due[1..] {
        clear_of(other).run(&mut by_clears, table).result.unwrap();
    }
    let observation = judge(buffer).unwrap().observation;
    let machine = clears(&observation, field as u64);
    let due: Vec<Call> = clears_due.iter().map(|&field| clear_of(field)).collect();
    assert_eq!(machine, due);
    let mut after = buffer.to_vec();
    let given = answer(&mut after, &with_indicators(field), table);
    assert_eq!((&given, &after), (&first, &by_clears), "{field}");
    let left = present(&after);
    let mut due = before.clone();
    due.retain(|field| !clears_due.contains(field));
    assert_eq!(left, due, "{field}");
    let rests = |indicator: &u8| {
        let rest = RESTS.iter().find(|rest| rest.0 == usize::from(*indicator));
        rest.unwrap().1.contains(&field)
    };
    let mut still = found(buffer);
    still.retain(|indicator| !rests(indicator) && usize::from(*indicator) != field);
    assert_eq!(found(&after), still, "{field}");
    before.len() - left.len()
}

#[test]
fn random_reports_stand_for_their_clears() {
    let mut prng = Prng::new(50);
    // How often so many fields went, and how often that was beside attachment 5.
    let mut went = [[0; 2]; 4];
    for index in 0..200 {
        let mut observation = match index % 8 {
            0 => random_observation(&mut prng),
            _ => random_indicators(&mut prng),
        };
        while observation.size() > 300 {
            observation = random_indicators(&mut prng);
        }
        let room = prng.pick(&[0, 0, 1, 7]);
        let mut buffer = observation.packing();
        buffer.extend(prng.bytes(room));
        let five = usize::from(observation.content(5).is_some());
        for field in (1..=46).filter(|field| !REQUIRED.contains(field)) {
            let count = stands_for_its_clears(&buffer, field, &FlagTable::all());
            went[count][five] += 1;
        }
    }
    for (count, [without, beside]) in went.into_iter().enumerate() {
        let least = [500, 500, 100, 8][count];
        assert!(without >= least && beside >= least / 4, "{went:?}");
    }
}

/// What is present in random reports tells what is found.
#[test]
fn random_reports_give_what_is_found() {
    let mut prng = Prng::new(51);
    let mut counts = [0; 7];
    let mut beside = 0;
    for _ in 0..1500 {
        let observation = random_indicators(&mut prng);
        let report = observation.packing();
        let there = present(&report);
        let mut due: Vec<u8> = RESTS
            .iter()
            .filter(|(indicator, _)| there.contains(indicator))
            .filter(|(_, data)| !data.iter().any(|field| there.contains(field)))
            .map(|(indicator, _)| *indicator as u8)
            .collect();
        if observation.content(5).is_some() {
            beside += usize::from(!due.is_empty());
            due.clear();
        }
        counts[due.len()] += 1;
        assert_eq!(found(&report), due);
        let mut output = prng.bytes(due.len());
        assert_eq!(find_indicators(&report, &mut output), Ok(due.len()));
        assert_eq!(output, due);
        if let Some(short) = due.len().checked_sub(1) {
            let held = prng.bytes(short);
            let mut output = held.clone();
            let answer = find_indicators(&report, &mut output);
            assert_eq!((answer, output), (refused(13, 0), held));
        }
    }
    assert!(counts.iter().all(|&count| count >= 5), "{counts:?}");
    assert!(beside > 100, "{beside}");
}

/// A flipped bit of the card, which most often is refused.
#[test]
fn random_refused_reports_answer_with_their_refusal() {
    let mut prng = Prng::new(52);
    let mut met = 0;
    for _ in 0..300 {
        let mut buffer = random_indicators(&mut prng).packing();
        let place = prng.below(38);
        buffer[place] ^= 1 << prng.below(8);
        let Err(due) = judge(&buffer) else {
            continue;
        };
        let mut output = [0xEE; 6];
        assert_eq!(find_indicators(&buffer, &mut output), Err(due));
        assert_eq!(output, [0xEE; 6]);
        let before = buffer.clone();
        let number = prng.pick(&[18, 31, 17, 1, 0]);
        let answer = clear_with_indicators(&mut buffer, number);
        assert_eq!((answer, &buffer), (Err(due), &before));
        met += 1;
    }
    assert!(met > 200, "{met}");
}

/// The machine over an observation, never over bytes.
#[test]
fn the_machine_clears_one_after_the_other() {
    let set = |field, value| Call::SetField { field, value };
    let put = Call::Put {
        id: 5,
        content: vec![1],
    };
    let mut observation = fresh_observation();
    for (call, given, left) in [
        (set(17, 0), Ok(None), &[17][..]),
        (set(18, 361), Ok(None), &[17, 18]),
        (set(27, 5), Ok(None), &[17, 18, 27]),
        (set(28, -5), Ok(None), &[17, 18, 27, 28]),
        (set(31, 286), Ok(None), &[17, 18, 27, 28, 31]),
        (set(32, 2), Ok(None), &[17, 18, 27, 28, 31, 32]),
        (
            with_indicators(3),
            refused(10, 3),
            &[17, 18, 27, 28, 31, 32],
        ),
        (with_indicators(31), Ok(Some(286)), &[17, 18, 27, 28]),
        (with_indicators(31), Ok(None), &[17, 18, 27, 28]),
        (set(32, 1), Ok(None), &[17, 18, 27, 28, 32]),
        (with_indicators(28), Ok(Some(-5)), &[17, 18, 32]),
        (put, Ok(None), &[17, 18, 32]),
        (with_indicators(18), Ok(Some(361)), &[32]),
        (with_indicators(47), refused(8, 0), &[32]),
        (with_indicators(32), Ok(Some(1)), &[]),
    ] {
        let (after, answer) = step(&observation, 41, &call, &FlagTable::all());
        let given = match (&call, given) {
            (Call::Put { .. }, _) => Ok(vec![]),
            (_, given) => given.map(|value| vec![Number::value(value)]),
        };
        assert_eq!(answer.result, given, "{call:?}");
        assert_eq!(answer.outputs, Vec::<Vec<u8>>::new());
        let there = (1..=46).filter(|field| after.values[field - 1].is_some());
        let there: Vec<usize> = there.filter(|field| !REQUIRED.contains(field)).collect();
        assert_eq!(there, left, "{call:?}");
        observation = after;
    }
}

/// Kind 12 and the field; a record as that of clear field.
#[test]
fn a_script_and_its_log_by_hand() {
    let lines = [
        (
            with_indicators(18),
            "0C 0000000000000012",
            "01 00 0000000000000000 01 000000000000016A",
        ),
        (
            with_indicators(18),
            "0C 0000000000000012",
            "01 00 0000000000000000 81 0000000000000000",
        ),
        (
            Call::ReadField { field: 17 },
            "01 0000000000000011",
            "01 00 0000000000000000 81 0000000000000000",
        ),
        (
            with_indicators(31),
            "0C 000000000000001F",
            "01 00 0000000000000000 01 0000000000000000",
        ),
        (
            with_indicators(7),
            "0C 0000000000000007",
            "00 0A 0000000000000007",
        ),
        (
            Call::ClearWithIndicators { field: u64::MAX },
            "0C FFFFFFFFFFFFFFFF",
            "00 08 0000000000000000",
        ),
        (
            with_indicators(19),
            "0C 0000000000000013",
            "01 00 0000000000000000 01 0000000000000003",
        ),
    ];
    for (call, written, _) in &lines {
        let bytes = hex(written);
        assert_eq!(entry(call), bytes);
        assert_eq!(first_call(&bytes), Some((call.clone(), &[][..])));
        for length in 0..bytes.len() {
            assert_eq!(first_call(&bytes[..length]), None);
        }
    }
    let calls: Vec<Call> = lines.iter().map(|line| line.0.clone()).collect();
    let mut buffer = card(&[(17, 6), (18, 362), (19, 4), (27, 1), (31, 1000), (32, 3)]);
    let ran = run(&mut buffer, &script(&calls), 37 * calls.len());
    assert_eq!((ran.calls.len(), ran.taken), (7, 9 * 7));
    for (record, (call, _, written)) in ran.log.chunks(37).zip(&lines) {
        let mut due = hex(written);
        due.resize(37, 0);
        assert_eq!(record, due, "{call:?}");
    }
    assert_eq!(buffer, fresh_buffer(38));
}

#[test]
fn records_by_hand() {
    let report = highest(&[19, 36]);
    let case = |room: usize| Case::FindIndicators {
        report: report.clone(),
        output: vec![0xEE; room],
    };
    for (room, output, answer) in [
        (3, "0003 EEEEEE", "02 00 0000000000000002 1324EE"),
        (2, "0002 EEEE", "02 00 0000000000000002 1324"),
        (1, "0001 EE", "00 0D 0000000000000000 EE"),
        (0, "0000", "00 0D 0000000000000000"),
    ] {
        let input = [&hex("0D 0026")[..], &report, &hex(output)].concat();
        assert_eq!(record::input(&case(room)), input);
        assert_eq!(record::answer(&run_case(&case(room))), hex(answer));
    }
    let beside = Case::FindIndicators {
        report: beside_attachment_5(&report),
        output: vec![],
    };
    let answer = hex("02 00 0000000000000000");
    assert_eq!(record::answer(&run_case(&beside)), answer);
    let empty = Case::FindIndicators {
        report: vec![],
        output: vec![7],
    };
    assert_eq!(record::input(&empty), hex("0D 0000 0001 07"));
    let answer = hex("00 01 0000000000000000 07");
    assert_eq!(record::answer(&run_case(&empty)), answer);
    let fits = |report, output| {
        record::fits(&Case::FindIndicators {
            report: vec![0; report],
            output: vec![0; output],
        })
    };
    assert!(fits(2000, 200));
    assert!(!fits(2001, 0) && !fits(0, 201));
}

#[test]
fn lines_by_hand() {
    // HI is bits 230 and 231, the last of byte 28. H is the high half of byte 29.
    let zeros = |bytes: usize| "00".repeat(bytes);
    let held = |hi: &str, h: &str, ck: &str| {
        let (before, behind) = (zeros(19), zeros(6));
        format!("00000059440000170A{before}{hi}{h}{behind}{ck}00")
    };
    let (fresh, hi) = (held("00", "00", "F0"), held("02", "00", "F2"));
    let both = held("02", "B0", "FD");
    assert_eq!(highest(&[36]), hex(&hi));
    assert_eq!(highest(&[36, 37]), hex(&both));
    let find = |report: &str, output: &[u8]| {
        line(&Case::FindIndicators {
            report: hex(report),
            output: output.to_vec(),
        })
    };
    let written = format!("find-indicators {hi} EEEE -> ok 1 24EE");
    assert_eq!(find(&hi, &[0xEE; 2]), written);
    let written = format!("find-indicators {hi} - -> refused 13 0 -");
    assert_eq!(find(&hi, &[]), written);
    let written = format!("find-indicators {both} - -> ok 0 -");
    assert_eq!(find(&both, &[]), written);
    let case = Case::Calls {
        buffer: hex(&both),
        calls: vec![with_indicators(37), with_indicators(37), with_indicators(1)],
    };
    let calls = "clear-with-indicators 37 ; clear-with-indicators 37 ; clear-with-indicators 1";
    let answers = format!("ok 10 {fresh} ; ok missing {fresh} ; refused 10 1 {fresh}");
    let written = format!("calls {both} ; {calls} -> {answers}");
    assert_eq!(line(&case), written);
}

/// The optional fields of a report, and whether attachment 5 stands.
fn contents(report: &[u8]) -> (Vec<usize>, bool) {
    let mut fields = present(report);
    fields.retain(|field| !REQUIRED.contains(field));
    let observation = judge(report).unwrap().observation;
    (fields, observation.content(5).is_some())
}

/// What is found among fields, by the rules.
fn found_by_hand(fields: &[usize], five: bool) -> Vec<u8> {
    if five {
        return Vec::new();
    }
    let lone = RESTS.iter().filter(|(indicator, data)| {
        fields.contains(indicator) && !data.iter().any(|field| fields.contains(field))
    });
    lone.map(|rest| rest.0 as u8).collect()
}

/// A record in which indicators are found, with the table of flags in force, and what
/// comes of it.
struct Lent {
    report: Vec<u8>,
    output: Vec<u8>,
    table: FlagTable,
    result: Result<usize, Refusal>,
    after: Vec<u8>,
}

fn lent(cases: Vec<Case>) -> Vec<Lent> {
    let mut table = FlagTable::all();
    let mut lent = Vec::new();
    for case in cases {
        let outcome = case.run(&mut table);
        if let (
            Case::FindIndicators { report, output },
            Outcome::FindIndicators {
                result,
                output: after,
            },
        ) = (case, outcome)
        {
            lent.push(Lent {
                report,
                output,
                table,
                result,
                after,
            });
        }
    }
    assert_eq!(table, FlagTable::all());
    lent
}

/// Each record by its rules, in the lines and in the records.
#[test]
fn every_find_by_hand() {
    for cases in [fixed(), whole_cases::cases(SEED)] {
        let mut met = [0; 14];
        for lent in lent(cases) {
            let due = match reference::judge::judge(&lent.report, &lent.table) {
                Err(refusal) => Err(refusal),
                Ok(_) => {
                    let (fields, five) = contents(&lent.report);
                    let found = found_by_hand(&fields, five);
                    if found.len() > lent.output.len() {
                        refused(13, 0)
                    } else {
                        Ok(found)
                    }
                }
            };
            assert_eq!(lent.result, due.clone().map(|found| found.len()));
            let mut after = lent.output.clone();
            after.splice(
                ..due.as_ref().map_or(0, Vec::len),
                due.clone().unwrap_or_default(),
            );
            assert_eq!(lent.after, after);
            met[due.map_or_else(|refusal| refusal.number.into(), |_| 0)] += 1;
        }
        for number in (0..=7).chain([13]) {
            assert!(met[number] >= 4, "{met:?}");
        }
    }
}

/// The gate's records have every subset of the indicators, each field beside each of them,
/// each combination of TI's data, outputs of each length about what is found, attachment 5
/// first, amid and last, and every other attachment.
#[test]
fn records_of_the_gate_meet_every_case() {
    let records = indicator_cases::records(SEED);
    assert!(whole_cases::cases(SEED).ends_with(&records));
    let files = gate::whole(&records);
    assert!(files.stdin.len() < 30_000 && files.stdout.len() < 30_000);
    let mut subsets = BTreeSet::new();
    let mut pairs = BTreeSet::new();
    let mut codes = BTreeSet::new();
    let mut temperatures = BTreeSet::new();
    let mut rooms = BTreeSet::new();
    let mut positions = BTreeSet::new();
    let mut others = BTreeSet::new();
    let mut refusals = BTreeSet::new();
    let (mut by_table, mut beside_5) = (0, 0);
    for lent in lent(records) {
        if let Err(refusal) = lent.result {
            refusals.insert((refusal.number, lent.output.is_empty()));
            by_table += usize::from(refusal.number == 6 && judge(&lent.report).is_ok());
        }
        if reference::judge::judge(&lent.report, &lent.table).is_err() {
            continue;
        }
        let (fields, five) = contents(&lent.report);
        let found = found_by_hand(&fields, five);
        let observation = judge(&lent.report).unwrap().observation;
        if five {
            let ids: Vec<u8> = observation
                .attachments
                .iter()
                .map(|other| other.id)
                .collect();
            let place = ids.iter().position(|&id| id == 5).unwrap();
            positions.insert((place > 0, place + 1 < ids.len()));
            let hides = !found_by_hand(&fields, false).is_empty();
            beside_5 += usize::from(hides && lent.output.is_empty() && lent.result == Ok(0));
        } else if found.len() == 6 {
            others.extend(observation.attachments.iter().map(|other| other.id));
        }
        let more = lent.output.len() as i64 - found.len() as i64;
        rooms.insert((found.len(), more.clamp(-2, 2)));
        let beside: Vec<usize> = fields
            .iter()
            .copied()
            .filter(|field| !ALL.contains(&(*field as u8)))
            .collect();
        for (indicator, _) in RESTS.iter().filter(|rest| fields.contains(&rest.0)) {
            if let Some(Scaled(value)) = observation.values[indicator - 1] {
                codes.insert((*indicator, value));
            }
            if let [field] = beside[..] {
                pairs.insert((field, *indicator));
            }
        }
        if fields.contains(&27) && beside.iter().all(|field| (28..=31).contains(field)) {
            temperatures.insert((beside.clone(), fields.contains(&32)));
        }
        if beside.is_empty() && !five {
            subsets.insert(found);
        }
    }
    assert_eq!(subsets.len(), 64);
    // 41 fields without the six indicators.
    assert_eq!(pairs.len(), 35 * 6);
    assert_eq!(codes.len(), 6 + 4 + 3 + 6 + 3 + 2);
    assert_eq!(temperatures.len(), 16 * 2);
    for count in 0..=6 {
        for more in -2..=2 {
            assert!(rooms.contains(&(count, more)) || count as i64 + more < 0);
        }
    }
    assert_eq!(positions.len(), 4);
    assert!(beside_5 >= 4, "{beside_5}");
    let ids: Vec<u8> = others.into_iter().collect();
    assert_eq!(ids, [1, 2, 3, 4, 6, 7, 8, 9, 10, 11, 12, 13, 14, 15]);
    let due = (1..=7)
        .chain([13])
        .flat_map(|number| [(number, false), (number, true)]);
    assert_eq!(refusals, due.collect());
    assert!(by_table >= 3, "{by_table}");
}

/// A call of a list with the buffer before and after it, and the table of flags in force.
struct Performed {
    call: Call,
    answer: Answer,
    before: Vec<u8>,
    after: Vec<u8>,
    table: FlagTable,
}

/// The calls of each list.
fn performed(items: &[Item]) -> Vec<Vec<Performed>> {
    let mut table = FlagTable::all();
    let mut lists = Vec::new();
    for item in items {
        let list = match item {
            Item::List(list) => list,
            Item::Load(marks) => {
                let _ = table.load(marks);
                continue;
            }
        };
        let (_, ran) = list.run(&table);
        let mut buffer = list.buffer.clone();
        let mut calls = Vec::new();
        for (call, answer) in ran.calls {
            let before = buffer.clone();
            assert_eq!(call.run(&mut buffer, &table), answer);
            calls.push(Performed {
                call,
                answer,
                before,
                after: buffer.clone(),
                table,
            });
        }
        lists.push(calls);
    }
    assert_eq!(table, FlagTable::all());
    lists
}

/// The lists of the gate clear every field over a value and over missing, with all that it
/// can take along, beside attachment 5 and without it, and meet every refusal.
#[test]
fn lists_of_the_gate_meet_every_case() {
    let items = indicator_cases::items(SEED);
    assert!(list_cases::items(SEED).ends_with(&items));
    let files = gate::lists(&items);
    assert!(files.stdin.len() < 35_000 && files.stdout.len() < 100_000);
    let mut cleared = BTreeSet::new();
    let mut taken = BTreeSet::new();
    let mut combinations = BTreeSet::new();
    let mut refusals = BTreeSet::new();
    let mut by_table = 0;
    let mut stays = 0;
    for performed in performed(&items).into_iter().flatten() {
        let Call::ClearWithIndicators { field } = performed.call else {
            continue;
        };
        let Ok(given) = &performed.answer.result else {
            let refusal = performed.answer.result.unwrap_err();
            assert_eq!(performed.after, performed.before);
            let as_clear = Call::ClearField { field };
            let answer = as_clear.run(&mut performed.before.clone(), &performed.table);
            assert_eq!(answer.result, Err(refusal));
            refusals.insert((refusal.number, refusal.place));
            by_table += usize::from(refusal.number == 6 && judge(&performed.before).is_ok());
            continue;
        };
        let field = field as usize;
        let (fields, five) = contents(&performed.before);
        let (left, _) = contents(&performed.after);
        let clears = clears_by_hand(&fields, field);
        let due: Vec<usize> = fields
            .iter()
            .copied()
            .filter(|other| !clears.contains(other))
            .collect();
        assert_eq!(left, due, "{field}");
        let value = judge(&performed.before).unwrap().observation.values[field - 1];
        assert_eq!(given, &[Number::value(value.map(|value| value.0))]);
        cleared.insert((field, value.is_some()));
        let along: Vec<usize> = clears[1..]
            .iter()
            .copied()
            .filter(|indicator| fields.contains(indicator))
            .collect();
        taken.insert((field, along, value.is_some(), five));
        stays += usize::from(!found_by_hand(&left, false).is_empty());
        if (28..=31).contains(&field) && fields.contains(&27) && fields.contains(&32) {
            let data = (28..=31).filter(|other| fields.contains(other));
            combinations.insert((field, data.collect::<Vec<usize>>()));
        }
    }
    for field in (1..=46).filter(|field| !REQUIRED.contains(field)) {
        assert!(cleared.contains(&(field, true)), "{field}");
        let missing = cleared.contains(&(field, false));
        let known = PLACES.iter().any(|place| place.field == field);
        assert!(missing || !known, "{field}");
    }
    for (indicator, data) in RESTS {
        for &field in data {
            for value in [true, false] {
                for five in [true, false] {
                    let goes = taken.iter().any(|(of, along, had, beside)| {
                        *of == field
                            && along.contains(&indicator)
                            && (*had, *beside) == (value, five)
                    });
                    assert!(goes, "{field} {indicator} {value} {five}");
                }
            }
        }
        let alone = taken.contains(&(indicator, vec![], true, false));
        assert!(alone, "{indicator}");
    }
    // With S goes TI, BI, both or neither.
    for along in [vec![27, 32], vec![27], vec![32], vec![]] {
        assert!(taken.contains(&(31, along, true, false)));
    }
    assert_eq!(combinations.len(), 4 * 16);
    assert!(stays > 50, "{stays}");
    let numbers: BTreeSet<u8> = refusals.iter().map(|refusal| refusal.0).collect();
    assert_eq!(numbers, [1, 2, 3, 4, 5, 6, 7, 8, 10].into());
    for field in REQUIRED {
        assert!(refusals.contains(&(10, field)));
    }
    assert!(by_table >= 5, "{by_table}");
}

/// Lists mix the call with sets, clears and reads of the same fields, with attachment 5
/// put and dropped, with every other call, and with refused ones.
#[test]
fn lists_of_the_gate_mix_the_call_with_others() {
    let mut neighbours = BTreeSet::new();
    let (mut around_5, mut after_refused) = (0, 0);
    for list in performed(&indicator_cases::items(SEED)) {
        for pair in list.windows(2) {
            let [first, second] = pair else {
                continue;
            };
            let is_clear = |performed: &Performed| {
                let accepted = performed.answer.result.is_ok();
                accepted && matches!(performed.call, Call::ClearWithIndicators { .. })
            };
            if is_clear(second) {
                neighbours.insert(entry(&first.call)[0]);
                after_refused += usize::from(first.answer.result.is_err());
            }
            if is_clear(first) {
                neighbours.insert(100 + entry(&second.call)[0]);
            }
        }
        let puts = list
            .iter()
            .any(|performed| matches!(performed.call, Call::Put { id: 5, .. }));
        let drops = list
            .iter()
            .any(|performed| performed.call == Call::Drop { id: 5 });
        around_5 += usize::from(puts && drops);
    }
    let due: BTreeSet<u8> = (1..=12).chain(101..=112).collect();
    assert_eq!(neighbours, due);
    assert!(around_5 >= 15, "{around_5}");
    assert!(after_refused >= 30, "{after_refused}");
}

/// Entries of kind 12 that are cut off, and logs that end in their records.
#[test]
fn lists_of_the_gate_end_about_the_call() {
    let mut left = BTreeSet::new();
    let mut cut = BTreeSet::new();
    for item in indicator_cases::items(SEED) {
        let Item::List(list) = item else {
            continue;
        };
        let (_, ran) = run_list(&list);
        let rest = &list.script[ran.taken..];
        if rest.first() == Some(&12) {
            if rest.len() < 9 {
                cut.insert(rest.len());
            } else {
                left.insert(list.room - ran.log.len());
            }
        }
    }
    assert_eq!(cut, [1, 2, 8].into());
    assert_eq!(left, [0, 1, 9, 10, 11, 19, 36].into());
}

/// What was drawn for the gate before has neither call.
#[test]
fn other_files_of_the_gate_stay() {
    let cases = whole_cases::cases(SEED);
    let records = indicator_cases::records(SEED);
    let before = &cases[..cases.len() - records.len()];
    let finds = |case: &Case| matches!(case, Case::FindIndicators { .. });
    assert!(!before.iter().any(finds));
    let items = list_cases::items(SEED);
    let before = items.len() - indicator_cases::items(SEED).len();
    for performed in performed(&items[..before]).into_iter().flatten() {
        let clears = matches!(performed.call, Call::ClearWithIndicators { .. });
        assert!(!clears);
    }
}

/// Drawn cases find indicators, and clear fields with them, often enough.
#[test]
fn drawn_cases_know_indicators() {
    let cases: Vec<Case> = random::cases(53, 3000).collect();
    let mut met = BTreeMap::new();
    let mut counts = [0; 7];
    let mut hidden = 0;
    for lent in lent(cases.clone()) {
        let number = lent.result.map_or_else(|refusal| refusal.number, |_| 0);
        *met.entry(number).or_insert(0) += 1;
        if let Ok(count) = lent.result {
            counts[count] += 1;
            let (fields, five) = contents(&lent.report);
            hidden += usize::from(five && !found_by_hand(&fields, false).is_empty());
        }
    }
    assert!(met[&0] > 100 && met[&13] > 20, "{met:?}");
    assert!(met.len() >= 7, "{met:?}");
    assert!(counts[..5].iter().all(|&count| count >= 10), "{counts:?}");
    assert!(hidden > 20, "{hidden}");
    let mut taken = [[0; 2]; 3];
    let mut refusals = BTreeMap::new();
    for case in cases {
        let Case::Calls { mut buffer, calls } = case else {
            continue;
        };
        for call in calls {
            let before = judge(&buffer).map(|_| contents(&buffer));
            let answer = call.run(&mut buffer, &FlagTable::all());
            if let Call::ClearWithIndicators { field } = call {
                let Ok((fields, five)) = before else {
                    continue;
                };
                if let Err(refusal) = answer.result {
                    *refusals.entry(refusal.number).or_insert(0) += 1;
                    continue;
                }
                let (left, _) = contents(&buffer);
                let own = usize::from(fields.contains(&(field as usize)));
                taken[fields.len() - left.len() - own][usize::from(five)] += 1;
            }
        }
    }
    assert!(taken[0][0] > 200 && taken[0][1] > 50, "{taken:?}");
    assert!(taken[1][0] > 100 && taken[1][1] > 25, "{taken:?}");
    assert!(taken[2][0] > 5 && taken[2][1] > 0, "{taken:?}");
    assert!(refusals[&8] > 10 && refusals[&10] > 20, "{refusals:?}");
}
