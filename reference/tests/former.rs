//! What set and clear give: the value that stood before, or missing.

mod common;

use std::collections::{BTreeMap, BTreeSet};

use common::all_flags::*;
use common::{fresh_buffer, fresh_value, fresh_with_tail, refused};
use reference::call::{Answer, Call};
use reference::cases::Case;
use reference::cases::material::{
    observation_with, permit_flags, random_flag_table, random_observation,
};
use reference::cases::random::random_call;
use reference::edit;
use reference::flag_table::FlagTable;
use reference::flags;
use reference::gate::list::Item;
use reference::gate::script::script;
use reference::gate::{SEED, former_cases, indicator_cases, list_cases, lists};
use reference::number::Number;
use reference::prng::Prng;
use reference::refusal::refusal;
use reference::step::step;
use reference::table::Scaled;

/// Highest code and base of the fields 1 to 46.
const CARD: [(i64, i64); 46] = [
    (648, 0),
    (255, 1799),
    (12, 0),
    (31, 0),
    (24, -1),
    (3600, -1),
    (1801, -901),
    (4, -1),
    (1000, -1),
    (255, -1),
    (8, -1),
    (3, -1),
    (6, -1),
    (3, -1),
    (2, -1),
    (3, -1),
    (6, -1),
    (362, 0),
    (4, -1),
    (1023, -1),
    (3, -1),
    (10, 89),
    (100, -1),
    (10, -1),
    (10, -1),
    (2047, 8699),
    (6, -1),
    (1999, -1000),
    (1999, -1000),
    (1999, -1000),
    (1999, -1000),
    (3, -1),
    (10, -1),
    (10, -1),
    (11, -1),
    (2, -1),
    (11, -1),
    (11, -1),
    (11, -1),
    (39, -1),
    (31, -1),
    (100, -1),
    (39, -1),
    (31, -1),
    (100, -1),
    (2, -1),
];

const REQUIRED: [usize; 5] = [1, 2, 3, 6, 7];

/// The lowest and the highest value of a field.
fn ends(field: usize) -> (i64, i64) {
    let (highest, base) = CARD[field - 1];
    (base + 1, base + highest)
}

fn scaled(value: i64) -> Option<Scaled> {
    Some(Scaled(value))
}

/// Flags behind attachment 9, all missing.
fn report_with_flags() -> Vec<u8> {
    let tail = [&[0, 1, 9, 3][..], &[1, 0, 1], &[0; 16]].concat();
    fresh_with_tail(2, &tail)
}

#[test]
fn s_on_the_fresh_report() {
    let mut buffer = fresh_buffer(40);
    assert_eq!(set_field(&mut buffer, 31, Scaled(286)), Ok(None));
    assert_eq!(set_field(&mut buffer, 31, Scaled(-999)), Ok(scaled(286)));
    assert_eq!(clear_field(&mut buffer, 31), Ok(scaled(-999)));
    assert_eq!(buffer, fresh_buffer(40));
    assert_eq!(clear_field(&mut buffer, 31), Ok(None));
    assert_eq!(buffer, fresh_buffer(40));
}

#[test]
fn required_fields_always_have_a_former_value() {
    let former = [1, 1900, 1, 0, 0];
    let mut buffer = fresh_buffer(38);
    for (&field, former) in REQUIRED.iter().zip(former) {
        let number = field as u64;
        let (lowest, highest) = ends(field);
        assert_eq!(clear_field(&mut buffer, number), refused(10, field));
        let set = set_field(&mut buffer, number, Scaled(highest));
        assert_eq!(set, Ok(scaled(former)));
        assert_eq!(clear_field(&mut buffer, number), refused(10, field));
        let set = set_field(&mut buffer, number, Scaled(lowest));
        assert_eq!(set, Ok(scaled(highest)));
    }
}

/// Every field whose range holds 0; DAY's does not.
#[test]
fn a_former_0_is_not_missing() {
    let mut with_0 = 0;
    for field in 1..=46 {
        let (lowest, highest) = ends(field);
        let number = field as u64;
        let mut buffer = fresh_buffer(38);
        if !(lowest..=highest).contains(&0) {
            continue;
        }
        with_0 += 1;
        let fresh = fresh_value(field);
        assert_eq!(set_field(&mut buffer, number, Scaled(0)), Ok(fresh));
        assert_eq!(set_field(&mut buffer, number, Scaled(0)), Ok(scaled(0)));
        if REQUIRED.contains(&field) {
            continue;
        }
        assert_eq!(clear_field(&mut buffer, number), Ok(scaled(0)));
        assert_eq!(clear_field(&mut buffer, number), Ok(None));
        assert_eq!(buffer, fresh_buffer(38));
    }
    // All but BOX10, YEAR, MONTH, DAY, D, VB and P.
    assert_eq!(with_0, 39);
}

#[test]
fn every_field_at_both_ends() {
    let highest: i64 = CARD.iter().map(|(highest, _)| highest).sum();
    assert_eq!(highest, 19643);
    for field in 1..=46 {
        let number = field as u64;
        let (lowest, highest) = ends(field);
        for (first, second) in [(lowest, highest), (highest, lowest)] {
            let mut buffer = fresh_buffer(38);
            let mut former = fresh_value(field);
            for value in [first, first, second, second, first] {
                let set = set_field(&mut buffer, number, Scaled(value));
                assert_eq!(set, Ok(former), "field {field}");
                former = scaled(value);
            }
            if !REQUIRED.contains(&field) {
                assert_eq!(clear_field(&mut buffer, number), Ok(former));
                assert_eq!(clear_field(&mut buffer, number), Ok(None));
                assert_eq!(buffer, fresh_buffer(38));
            }
        }
    }
}

/// Every field has a value of its own before the first is set again.
#[test]
fn each_field_gives_its_own() {
    for highest in [false, true] {
        let value = |field: usize| {
            let (lowest, top) = ends(field);
            if highest { top } else { lowest }
        };
        let mut buffer = fresh_buffer(38);
        for field in 1..=46 {
            let set = set_field(&mut buffer, field as u64, Scaled(value(field)));
            assert_eq!(set, Ok(fresh_value(field)));
        }
        for field in (1..=46).filter(|field| !REQUIRED.contains(field)) {
            let number = field as u64;
            let former = clear_field(&mut buffer, number);
            assert_eq!(former, Ok(scaled(value(field))));
        }
    }
}

#[test]
fn every_flag_and_every_value() {
    for flag in 1..=14 {
        for first in 1..=10 {
            for second in 1..=10 {
                let mut report = report_with_flags();
                let former = |value: i64| Ok(Some(value as u8));
                assert_eq!(set_flag(&mut report, flag, first), Ok(None));
                assert_eq!(set_flag(&mut report, flag, second), former(first));
                assert_eq!(clear_flag(&mut report, flag), former(second));
                assert_eq!(report, report_with_flags());
                assert_eq!(clear_flag(&mut report, flag), Ok(None));
                assert_eq!(report, report_with_flags());
            }
        }
    }
}

/// All fourteen stand side by side, at an even place and at an odd one.
#[test]
fn each_flag_gives_its_own() {
    let value = |flag: u64| (flag * 3 % 10 + 1) as u8;
    for other in [&[3][..], &[3, 3]] {
        let header = [0, other.len() as u8, 9];
        let tail = [&header[..], other, &[1, 0, 1], &[0; 16]].concat();
        let mut report = fresh_with_tail(2, &tail);
        for flag in 1..=14 {
            let set = set_flag(&mut report, flag, i64::from(value(flag)));
            assert_eq!(set, Ok(None));
        }
        for flag in 1..=14 {
            assert_eq!(set_flag(&mut report, flag, 10), Ok(Some(value(flag))));
            assert_eq!(clear_flag(&mut report, flag), Ok(Some(10)));
        }
        assert_eq!(report, fresh_with_tail(2, &tail));
    }
}

/// A table that forbids flag 1 the value A.
fn without_a() -> FlagTable {
    let mut marks = [1; 140];
    marks[1] = 0;
    FlagTable::of(&marks)
}

#[test]
fn a_refused_set_leaves_the_former_value_to_the_next() {
    let table = without_a();
    let mut report = report_with_flags();
    let mut set = |value| edit::set_flag(&mut report, 1, value, &table);
    assert_eq!(set(2), refused(9, 1));
    assert_eq!(set(1), Ok(None));
    assert_eq!(set(2), refused(9, 1));
    assert_eq!(set(11), refused(9, 1));
    assert_eq!(set(10), Ok(Some(1)));
    assert_eq!(set(0), refused(9, 1));
    assert_eq!(edit::clear_flag(&mut report, 1, &table), Ok(Some(10)));
    let mut buffer = fresh_buffer(38);
    assert_eq!(set_field(&mut buffer, 4, Scaled(31)), Ok(None));
    assert_eq!(set_field(&mut buffer, 4, Scaled(32)), refused(9, 4));
    assert_eq!(clear_field(&mut buffer, 4), Ok(scaled(31)));
}

fn set_of(field: u64, value: i64) -> Call {
    Call::SetField { field, value }
}

fn clear_of(field: u64) -> Call {
    Call::ClearField { field }
}

fn set_flag_of(flag: u64, value: i64) -> Call {
    Call::SetFlag { flag, value }
}

fn clear_flag_of(flag: u64) -> Call {
    Call::ClearFlag { flag }
}

/// A call on a buffer and, where the report is sound, on its observation.
fn answer(buffer: &mut [u8], call: &Call, table: &FlagTable) -> Answer {
    let report = reference::judge::judge(buffer, table);
    let n = buffer.len();
    let answer = call.run(buffer, table);
    if let Ok(report) = report {
        assert_eq!(step(&report.observation, n, call, table).1, answer);
    }
    answer
}

/// Flag 1 has the value A and YEAR 1900, so each call could give a former value.
#[test]
fn refused_calls_give_their_refusal_alone() {
    let mut a = [0; 16];
    (a[0], a[15]) = (2, 2);
    let sound = fresh_with_tail(1, &[&[1, 0, 1][..], &a].concat());
    let mut other_ck = sound.clone();
    other_ck[36] ^= 1;
    let odd = [&[1, 0, 1][..], &a, &[0, 2, 9, 3, 3, 9]].concat();
    let all = FlagTable::all();
    let calls = [
        (set_of(2, 1901), None),
        (clear_of(4), None),
        (set_flag_of(1, 1), None),
        (clear_flag_of(1), None),
        (set_of(0, 1), Some((8, 0))),
        (set_of(47, 1), Some((8, 0))),
        (set_of(2, 1799), Some((9, 2))),
        (set_of(2, 2055), Some((9, 2))),
        (clear_of(0), Some((8, 0))),
        (clear_of(47), Some((8, 0))),
        (clear_of(2), Some((10, 2))),
        (set_flag_of(0, 1), Some((8, 0))),
        (set_flag_of(15, 1), Some((8, 0))),
        (set_flag_of(1, 0), Some((9, 1))),
        (set_flag_of(1, 11), Some((9, 1))),
        (clear_flag_of(0), Some((8, 0))),
        (clear_flag_of(15), Some((8, 0))),
    ];
    for (report, table, due) in [
        (sound[..37].to_vec(), all, Some((1, 0))),
        (sound[..46].to_vec(), all, Some((1, 1))),
        (other_ck, all, Some((4, 0))),
        (sound.clone(), without_a(), Some((6, 1))),
        (fresh_with_tail(2, &odd), all, Some((7, 0))),
        (sound, all, None),
    ] {
        for (call, own) in &calls {
            let mut after = report.clone();
            let given = answer(&mut after, call, &table);
            assert_eq!(given.outputs, Vec::<Vec<u8>>::new());
            match due.or(*own) {
                Some((number, place)) => {
                    assert_eq!(given.result, refused(number, place), "{call:?}");
                    assert_eq!(after, report, "{call:?}");
                }
                None => assert_eq!(given.result.unwrap().len(), 1, "{call:?}"),
            }
        }
    }
    // No attachment 1.
    for call in [set_flag_of(1, 1), clear_flag_of(1)] {
        let given = answer(&mut fresh_buffer(60), &call, &all);
        assert_eq!(given.result, refused(11, 0));
    }
}

#[test]
fn put_and_drop_give_no_former_content() {
    let put = |id, content: &[u8]| Call::Put {
        id,
        content: content.to_vec(),
    };
    let put_text = |text: &[u8]| Call::PutText {
        text: text.to_vec(),
        origins: vec![0; text.len()],
    };
    let mut buffer = fresh_buffer(100);
    for (call, given) in [
        (put(5, &[1, 2]), vec![]),
        (put(5, &[3]), vec![]),
        (put(1, &[0; 16]), vec![]),
        (set_flag_of(3, 7), vec![Number::flag(None)]),
        (put(1, &[0; 16]), vec![]),
        (clear_flag_of(3), vec![Number::flag(None)]),
        (put_text(b"A1"), vec![Number::nibbles(3)]),
        (put_text(b"7"), vec![Number::nibbles(1)]),
        (Call::Drop { id: 4 }, vec![]),
        (Call::Drop { id: 5 }, vec![]),
    ] {
        let answer = answer(&mut buffer, &call, &FlagTable::all());
        assert_eq!(answer.result, Ok(given), "{call:?}");
    }
}

/// The machine over an observation, never over bytes.
#[test]
fn the_machine_gives_what_stood_before_the_step() {
    let value = |value| vec![Number::value(value)];
    let flag = |value| vec![Number::flag(value)];
    let mut observation = observation_with(&[(1, &[0; 16])]);
    let n = observation.size();
    for (call, given) in [
        (set_of(31, 286), Ok(value(None))),
        (set_of(31, -999), Ok(value(Some(286)))),
        (set_of(31, 1000), Err(refusal(9, 31))),
        (clear_of(31), Ok(value(Some(-999)))),
        (clear_of(31), Ok(value(None))),
        (set_of(28, 0), Ok(value(None))),
        (clear_of(28), Ok(value(Some(0)))),
        (set_of(6, 3599), Ok(value(Some(0)))),
        (clear_of(6), Err(refusal(10, 6))),
        (set_of(6, 0), Ok(value(Some(3599)))),
        (set_of(2, 2054), Ok(value(Some(1900)))),
        (set_of(2, 1900), Ok(value(Some(2054)))),
        (set_flag_of(14, 10), Ok(flag(None))),
        (set_flag_of(14, 2), Ok(flag(Some(10)))),
        (clear_flag_of(13), Ok(flag(None))),
        (clear_flag_of(14), Ok(flag(Some(2)))),
        (clear_flag_of(14), Ok(flag(None))),
    ] {
        let (after, answer) = step(&observation, n, &call, &FlagTable::all());
        assert_eq!(answer.result, given, "{call:?}");
        observation = after;
    }
    assert_eq!(observation, observation_with(&[(1, &[0; 16])]));
}

/// Label 1 or 129 and 2 or 130, then eight bytes; the rest of a row is 0.
#[test]
fn a_log_by_hand() {
    let calls = [
        (set_of(31, -5), Some((0x81, 0))),
        (set_of(31, 0), Some((0x01, -5))),
        (clear_of(31), Some((0x01, 0))),
        (clear_of(31), Some((0x81, 0))),
        (set_of(2, 1800), Some((0x01, 1900))),
        (clear_of(2), None),
        (set_flag_of(2, 1), Some((0x82, 0))),
        (set_flag_of(2, 10), Some((0x02, 1))),
        (set_flag_of(2, 11), None),
        (clear_flag_of(2), Some((0x02, 10))),
        (clear_flag_of(2), Some((0x82, 0))),
    ];
    let script = script(&calls.clone().map(|(call, _)| call));
    let ran = run(&mut report_with_flags(), &script, 37 * calls.len());
    for (record, (call, given)) in ran.log.chunks(37).zip(calls) {
        let mut due = vec![0; 37];
        if let Some((label, number)) = given {
            (due[0], due[10]) = (1, label);
            due[11..19].copy_from_slice(&i64::to_be_bytes(number));
        } else if call == clear_of(2) {
            (due[1], due[9]) = (10, 2);
        } else {
            (due[1], due[9]) = (9, 2);
        }
        assert_eq!(record, due, "{call:?}");
    }
}

#[test]
fn a_line_by_hand() {
    let case = Case::Calls {
        buffer: fresh_buffer(38),
        calls: vec![
            set_of(46, 0),
            set_of(46, 1),
            clear_of(46),
            clear_of(46),
            set_of(46, 2),
        ],
    };
    // A6 is the two bits before CK, bits 280 and 281: byte 35.
    let line = line(&case);
    let zeros = "00".repeat(26);
    let held = |a6: &str, ck: &str| format!("00000059440000170A{zeros}{a6}{ck}00");
    let (fresh, one, two) = (held("00", "F0"), held("40", "F1"), held("80", "F2"));
    let calls =
        "set-field 46 0 ; set-field 46 1 ; clear-field 46 ; clear-field 46 ; set-field 46 2";
    let answers = format!(
        "ok missing {one} ; ok 0 {two} ; ok 1 {fresh} ; ok missing {fresh} ; refused 9 46 {fresh}"
    );
    assert_eq!(line, format!("calls {fresh} ; {calls} -> {answers}"));
}

/// The read of the field or flag that a set or a clear changes, and the number that the
/// read gives behind it.
fn read_and_due(call: &Call) -> Option<(Call, Number)> {
    Some(match *call {
        Call::SetField { field, value } => (Call::ReadField { field }, Number::value(Some(value))),
        Call::ClearField { field } => (Call::ReadField { field }, Number::value(None)),
        Call::SetFlag { flag, value } => (Call::ReadFlag { flag }, Number::flag(Some(value))),
        Call::ClearFlag { flag } => (Call::ReadFlag { flag }, Number::flag(None)),
        _ => return None,
    })
}

/// The call that brings a former value back.
fn undoing(call: &Call, former: Option<i64>) -> Call {
    match (call, former) {
        (Call::SetField { field, .. } | Call::ClearField { field }, Some(value)) => {
            set_of(*field, value)
        }
        (Call::SetField { field, .. } | Call::ClearField { field }, None) => clear_of(*field),
        (Call::SetFlag { flag, .. } | Call::ClearFlag { flag }, Some(value)) => {
            set_flag_of(*flag, value)
        }
        (Call::SetFlag { flag, .. } | Call::ClearFlag { flag }, None) => clear_flag_of(*flag),
        _ => unreachable!("a set or a clear"),
    }
}

/// How often each kind gave a value, 0 and missing.
type Met = BTreeMap<(&'static str, &'static str), usize>;

fn count(met: &mut Met, call: &Call, given: Option<i64>) {
    let kind = match call {
        Call::SetField { .. } => "set field",
        Call::ClearField { .. } => "clear field",
        Call::SetFlag { .. } => "set flag",
        _ => "clear flag",
    };
    let what = match given {
        None => "missing",
        Some(0) => "0",
        Some(_) => "a value",
    };
    *met.entry((kind, what)).or_default() += 1;
}

/// An accepted set or clear answers as the read before it, and setting the answer again
/// brings every byte back.
fn answers_as_the_read(buffer: &mut [u8], call: &Call, table: &FlagTable, met: &mut Met) {
    let Some((read, due)) = read_and_due(call) else {
        call.run(buffer, table);
        return;
    };
    let before = buffer.to_vec();
    let read_before = read.run(buffer, table);
    let answer = call.run(buffer, table);
    let Ok(given) = &answer.result else {
        assert_eq!(buffer, before, "{call:?}");
        return;
    };
    assert_eq!(answer, read_before, "{call:?}");
    assert_eq!(given.len(), 1);
    assert_eq!(read.run(buffer, table).result, Ok(vec![due]), "{call:?}");
    count(met, call, given[0].value);
    let mut back = buffer.to_vec();
    let undone = undoing(call, given[0].value).run(&mut back, table);
    assert_eq!(undone.result, Ok(vec![due]), "{call:?}");
    assert_eq!(back, before, "{call:?}");
}

#[test]
fn random_lists_answer_as_the_reads() {
    let mut prng = Prng::new(40);
    let mut met = Met::new();
    for index in 0..600 {
        let mut observation = random_observation(&mut prng);
        let table = match index % 3 {
            0 => random_flag_table(&mut prng),
            _ => FlagTable::all(),
        };
        for attachment in &mut observation.attachments {
            if attachment.id == flags::ID {
                let row = &mut attachment.nibbles[..flags::FLAGS];
                permit_flags(&mut prng, &table, row);
                attachment.nibbles = flags::body_of(row);
            }
        }
        let mut buffer = observation.packing();
        let room = prng.pick(&[0, 1, 10, 100]);
        buffer.extend(prng.bytes(room));
        for _ in 0..40 {
            let call = random_call(&mut prng, &observation, buffer.len());
            answers_as_the_read(&mut buffer, &call, &table, &mut met);
            let (field, flag) = (1 + prng.below(46) as u64, 1 + prng.below(14) as u64);
            let more = [
                set_of(field, 0),
                clear_of(field),
                set_flag_of(flag, 1 + prng.below(10) as i64),
                clear_flag_of(flag),
            ];
            let call = prng.pick(&more);
            answers_as_the_read(&mut buffer, &call, &table, &mut met);
        }
    }
    let kinds: Vec<(&str, &str)> = met.keys().copied().collect();
    let due = [
        ("clear field", "0"),
        ("clear field", "a value"),
        ("clear field", "missing"),
        ("clear flag", "a value"),
        ("clear flag", "missing"),
        ("set field", "0"),
        ("set field", "a value"),
        ("set field", "missing"),
        ("set flag", "a value"),
        ("set flag", "missing"),
    ];
    assert_eq!(kinds, due);
    assert!(met.values().all(|&count| count > 100), "{met:?}");
}

/// A refused report answers every set and clear with its own refusal.
#[test]
fn random_refused_reports_give_nothing() {
    let mut prng = Prng::new(41);
    let mut refused = 0;
    for _ in 0..300 {
        let observation = random_observation(&mut prng);
        let mut buffer = observation.packing();
        let place = prng.below(38);
        buffer[place] ^= 1 << prng.below(8);
        let Err(due) = judge(&buffer) else {
            continue;
        };
        let before = buffer.clone();
        for call in [
            set_of(2, 1900),
            clear_of(4),
            set_flag_of(1, 1),
            clear_flag_of(1),
        ] {
            let answer = call.run(&mut buffer, &FlagTable::all());
            assert_eq!((answer.result, &buffer), (Err(due), &before));
        }
        refused += 1;
    }
    assert!(refused > 200, "{refused}");
}

/// The lists of the gate set and clear every field and flag over missing, over a value
/// and over the same value, and meet every refusal in between.
#[test]
fn lists_of_the_gate_meet_every_former_value() {
    let mut fields = BTreeSet::new();
    let mut flags_met = BTreeSet::new();
    let mut zeros = BTreeSet::new();
    let mut same = BTreeSet::new();
    let mut refusals = BTreeSet::new();
    let mut table = FlagTable::all();
    let items = former_cases::items(SEED);
    for item in &items {
        let list = match item {
            Item::List(list) => list,
            Item::Load(marks) => {
                table.load(marks).unwrap();
                continue;
            }
        };
        let (_, ran) = list.run(&table);
        assert_eq!(ran.taken, list.script.len());
        for (call, answer) in ran.calls {
            let given = match &answer.result {
                Ok(given) => given.first().and_then(|number| number.value),
                Err(refusal) => {
                    refusals.insert(refusal.number);
                    continue;
                }
            };
            match call {
                Call::SetField { field, value } => {
                    fields.insert((field, "set", given.is_some()));
                    if given == Some(value) {
                        same.insert(("field", field));
                    }
                    if given == Some(0) {
                        zeros.insert(field);
                    }
                }
                Call::ClearField { field } => {
                    fields.insert((field, "clear", given.is_some()));
                }
                Call::SetFlag { flag, value } => {
                    flags_met.insert((flag, "set", given));
                    if given == Some(value) {
                        same.insert(("flag", flag));
                    }
                }
                Call::ClearFlag { flag } => {
                    flags_met.insert((flag, "clear", given));
                }
                _ => {}
            }
        }
    }
    // 41 fields in four ways, the required ones only set over a value.
    assert_eq!(fields.len(), 41 * 4 + 5);
    assert_eq!(zeros.len(), 39);
    assert_eq!(same.len(), 46 + 14);
    for flag in 1..=14 {
        for former in (1..=10).map(Some).chain([None]) {
            assert!(
                flags_met.contains(&(flag, "set", former)),
                "{flag} {former:?}"
            );
        }
        for former in [Some(10), None] {
            assert!(flags_met.contains(&(flag, "clear", former)), "{flag}");
        }
    }
    let due: Vec<u8> = (1..=11).collect();
    assert_eq!(refusals.into_iter().collect::<Vec<u8>>(), due);
    assert_eq!(table, FlagTable::all());
    let last = [items.clone(), indicator_cases::items(SEED)].concat();
    assert!(list_cases::items(SEED).ends_with(&last));
    let files = lists(&items);
    assert!(files.stdin.len() + files.stdout.len() < 150_000);
}
