//! Texts as symbols: put and fetched, read a symbol at a time, and the deck's set.

mod common;

use std::collections::BTreeSet;

use common::all_flags::*;
use common::{SHORT, fresh_buffer, fresh_with_tail, originals, plain, refused, set_bits, set_ck};
use reference::call::{Answer, Call};
use reference::cases::material::{all_symbols, random_observation};
use reference::cases::{Case, Outcome, fixed};
use reference::deck::{CharacterSet, character_set};
use reference::flag_table::FlagTable;
use reference::gate::list::Item;
use reference::gate::{SEED, list_cases, whole_cases};
use reference::number::{Number, Quantity};
use reference::prng::Prng;
use reference::reader::Reader;
use reference::table::Scaled;
use reference::text::{Symbol, bytes, origins, read};

/// Table F1-2, by source ID; it names no set for 0 and 22.
const SETS: [&str; 25] = [
    "", "ebcdic", "ebcdic", "ebcdic", "ascii", "ebcdic", "ebcdic", "ebcdic", "ebcdic", "ebcdic",
    "ebcdic", "ebcdic", "ebcdic", "ebcdic", "ebcdic", "ebcdic", "ebcdic", "ebcdic", "ascii",
    "ebcdic", "ebcdic", "ebcdic", "", "ebcdic", "ebcdic",
];

fn set_by_hand(sid: Option<i64>) -> i64 {
    let listed = sid.and_then(|sid| SETS.get(sid as usize));
    match listed {
        Some(&"ebcdic") => 1,
        Some(&"ascii") => 2,
        _ => 0,
    }
}

/// The source IDs from 0 to 254, and none.
fn sids() -> Vec<Option<i64>> {
    (0..=254).map(Some).chain([None]).collect()
}

/// The report of text "A", its A an original one. SID stands at bits 84 to 91; without
/// it CK is 240.
fn report_of_sid(sid: Option<i64>) -> Vec<u8> {
    let mut report = fresh_with_tail(1, &[0, 3, 4, 15, 4, 1]);
    let code = sid.map_or(0, |sid| sid as u64 + 1);
    set_bits(&mut report, 84, 8, code);
    set_ck(&mut report, (240 + code) % 255);
    report
}

#[test]
fn the_set_of_every_source_id() {
    for sid in sids() {
        let due = set_by_hand(sid);
        let set = character_set(sid.map(Scaled));
        assert_eq!(set as i64, due, "{sid:?}");
        let report = report_of_sid(sid);
        assert_eq!(read_field(&report, 10), Ok(sid.map(Scaled)));
        let (mut text, mut marks) = ([0xEE], [0xEE]);
        let given = fetch_text(&report, &mut text, &mut marks).unwrap();
        assert_eq!((given.symbols, given.set as i64), (1, due), "{sid:?}");
        assert_eq!(given.nibbles, 3);
        assert_eq!((text, marks), ([b'A'], [1]));
        assert_eq!(read_out(&report, &mut text, &mut marks), Ok(given));
    }
    for value in [i64::MIN, -1, 255, 256 + 4, (1 << 32) + 1, i64::MAX] {
        let set = character_set(Some(Scaled(value)));
        assert_eq!(set, CharacterSet::Unknown, "{value}");
    }
}

/// A set that is unknown is the number 0 and not missing.
#[test]
fn the_set_is_the_one_at_that_moment() {
    let fetch = || Call::FetchText {
        text: vec![0xEE],
        origins: vec![0xEE],
    };
    let set = |value| Call::SetField { field: 10, value };
    let calls = [
        (None, 0),
        (Some(set(4)), 2),
        (Some(set(3)), 1),
        (Some(set(22)), 0),
        (Some(set(18)), 2),
        (Some(set(255)), 2),
        (Some(Call::ClearField { field: 10 }), 0),
        (Some(set(24)), 1),
    ];
    let mut buffer = report_of_sid(None);
    for (edit, due) in calls {
        if let Some(edit) = edit {
            edit.run(&mut buffer, &FlagTable::all());
        }
        let Answer { result, outputs } = fetch().run(&mut buffer, &FlagTable::all());
        let set = Number {
            quantity: Quantity::Set,
            value: Some(due),
        };
        let nibbles = Number::nibbles(3);
        assert_eq!(result, Ok(vec![Number::count(1), set, nibbles]));
        assert_eq!(outputs, [vec![b'A'], vec![1]]);
    }
}

/// No byte becomes another one: 193 is A in EBCDIC, and 65 is in ASCII.
#[test]
fn an_original_byte_comes_back_as_it_was() {
    for sid in [None, Some(1), Some(4)] {
        for byte in 0..=255 {
            let mut buffer = report_of_sid(sid);
            assert_eq!(put_text(&mut buffer, &[byte], &[1]), Ok(3));
            let mut nibbles = [0xEE; 3];
            assert_eq!(fetch(&buffer, 4, &mut nibbles), Ok(3));
            assert_eq!(nibbles, [15, byte / 16, byte % 16]);
            let (mut text, mut marks) = ([!byte], [0xEE]);
            assert!(fetch_text(&buffer, &mut text, &mut marks).is_ok());
            assert_eq!((text, marks), ([byte], [1]));
        }
    }
}

#[test]
fn a_plain_byte_comes_back_as_it_was() {
    for (byte, entry) in SHORT {
        let mut buffer = fresh_buffer(60);
        // A digit stands behind it, as a space at the end is dropped.
        let written = put_text(&mut buffer, &[byte, b'5'], &[0, 0]);
        assert_eq!(written, Ok(usize::from(entry >> 12) + 1));
        let mut nibbles = [0xEE; 3];
        let code: Vec<u8> = match entry >> 12 {
            1 => vec![(entry & 15) as u8, 5, 0xEE],
            _ => vec![(entry >> 4 & 15) as u8, (entry & 15) as u8, 5],
        };
        assert!(fetch(&buffer, 4, &mut nibbles).is_ok());
        assert_eq!(nibbles[..], code, "{byte}");
        let (mut text, mut marks) = ([0xEE; 2], [0xEE; 2]);
        assert!(fetch_text(&buffer, &mut text, &mut marks).is_ok());
        assert_eq!((text, marks), ([byte, b'5'], [0, 0]));
    }
}

/// Nibbles of id 4 and their symbols.
fn texts_by_hand() -> Vec<(Vec<u8>, Vec<Symbol>)> {
    let spaces = |times: usize| vec![Symbol::SPACE; times];
    vec![
        (vec![7], plain(b"7")),
        (vec![12, 1, 1], plain(b"A1")),
        (vec![15, 4, 1], originals(b"A")),
        (vec![15, 2, 0], originals(b" ")),
        (
            vec![12, 1, 15, 4, 1],
            [plain(b"A"), originals(b"A")].concat(),
        ),
        (
            vec![10, 10, 15, 2, 0],
            [spaces(2), originals(b" ")].concat(),
        ),
        (
            vec![15, 2, 0, 11, 0, 3],
            [originals(b" "), spaces(3), plain(b"3")].concat(),
        ),
        (
            vec![11, 15, 10, 10, 12, 2],
            [spaces(20), plain(b"B")].concat(),
        ),
        (
            vec![11, 15, 11, 15, 11, 14, 15, 15, 15],
            [spaces(53), originals(&[255])].concat(),
        ),
    ]
}

#[test]
fn the_reader_gives_each_symbol_once_and_then_the_end() {
    for (nibbles, symbols) in texts_by_hand() {
        let mut tail = vec![0, 1, 9, 3, 0, nibbles.len() as u8, 4];
        tail.extend(&nibbles);
        tail.extend([0, 2, 1 + 4, 6, 6]);
        let report = fresh_with_tail(3, &tail);
        let mut reader = open(&report);
        assert_eq!(reader.opened(), Ok(()));
        assert_eq!(reader.report, report);
        for symbol in &symbols {
            assert_eq!(reader.next(), Some(*symbol), "{nibbles:?}");
        }
        let at_the_end = reader.clone();
        for _ in 0..5 {
            assert_eq!(reader.next(), None, "{nibbles:?}");
            assert_eq!(reader, at_the_end);
        }
        let n = symbols.len();
        let (mut text, mut marks) = (vec![0xEE; n + 1], vec![0xDD; n + 2]);
        let given = read_out(&report, &mut text, &mut marks).unwrap();
        assert_eq!((given.symbols, given.set), (n, CharacterSet::Unknown));
        assert_eq!(given.nibbles, nibbles.len());
        assert_eq!(text, [bytes(&symbols), vec![0xEE]].concat());
        assert_eq!(marks, [origins(&symbols), vec![0xDD; 2]].concat());
    }
}

/// Reports that no reader is opened on, and their refusals.
fn refused_by_hand() -> Vec<(Vec<u8>, u8, usize)> {
    let mut wrong_ck = report_of_sid(None);
    set_ck(&mut wrong_ck, 241);
    let mut no_month = report_of_sid(None);
    set_bits(&mut no_month, 34, 4, 0);
    let mut high_month = report_of_sid(None);
    set_bits(&mut high_month, 34, 4, 13);
    let mut padded = fresh_with_tail(1, &[0, 1, 4, 1]);
    *padded.last_mut().unwrap() |= 1;
    vec![
        (Vec::new(), 1, 0),
        (report_of_sid(None)[..37].to_vec(), 1, 0),
        (report_of_sid(None)[..40].to_vec(), 1, 1),
        (high_month, 2, 3),
        (no_month, 3, 3),
        (wrong_ck, 4, 0),
        (fresh_with_tail(2, &[0, 1, 4, 1, 0, 1, 4, 1]), 5, 2),
        (fresh_with_tail(1, &[0, 2, 4, 1, 10]), 6, 1),
        (fresh_with_tail(1, &[0, 4, 4, 10, 10, 10, 1]), 6, 1),
        (padded, 7, 0),
        (fresh_buffer(38), 11, 0),
        (fresh_with_tail(1, &[0, 3, 5, 15, 4, 1]), 11, 0),
    ]
}

#[test]
fn a_refused_reader_gives_only_the_end() {
    for (report, number, place) in refused_by_hand() {
        let mut reader = open(&report);
        assert_eq!(reader.opened(), refused(number, place));
        let opened = reader.clone();
        for _ in 0..3 {
            assert_eq!(reader.next(), None);
            assert_eq!(reader, opened);
        }
        for room in [0, 3] {
            let (mut text, mut marks) = (vec![0xEE; room], vec![0xDD; room]);
            let answer = read_out(&report, &mut text, &mut marks);
            assert_eq!(answer, refused(number, place));
            assert_eq!((text, marks), (vec![0xEE; room], vec![0xDD; room]));
            let (mut text, mut marks) = (vec![0xEE; room], vec![0xDD; room]);
            let answer = fetch_text(&report, &mut text, &mut marks);
            assert_eq!(answer, refused(number, place));
        }
    }
}

#[test]
fn the_reader_is_opened_under_the_table_of_flags() {
    // Flag 1 is A, the second value.
    let mut body = [0; 16];
    (body[0], body[15]) = (2, 2);
    let tail = [&[0, 1, 4, 7, 1, 0, 1][..], &body].concat();
    let report = fresh_with_tail(2, &tail);
    let mut marks = [1; 140];
    marks[1] = 0;
    let table = FlagTable::of(&marks);
    let mut reader = Reader::open(&report, &table);
    assert_eq!((reader.opened(), reader.next()), (refused(6, 2), None));
    let mut reader = open(&report);
    assert_eq!(reader.opened(), Ok(()));
    assert_eq!(reader.next(), Some(plain(b"7")[0]));
}

/// Outputs one short, just long enough and longer, each of them.
#[test]
fn reading_out_is_refused_where_an_output_is_too_short() {
    let report = fresh_with_tail(1, &[0, 4, 4, 11, 0, 12, 2]);
    for text in 0..7 {
        for origins in 0..7 {
            let (mut bytes, mut marks) = (vec![0xEE; text], vec![0xDD; origins]);
            let answer = read_out(&report, &mut bytes, &mut marks);
            let (mut due, mut due_marks) = (vec![0xEE; text], vec![0xDD; origins]);
            if text < 4 || origins < 4 {
                assert_eq!(answer, refused(13, 0));
            } else {
                assert_eq!(answer.map(|given| given.symbols), Ok(4));
                due[..4].copy_from_slice(b"   B");
                due_marks[..4].fill(0);
            }
            assert_eq!((bytes, marks), (due, due_marks), "{text} {origins}");
        }
    }
}

#[test]
fn the_reader_and_fetch_text_agree() {
    let mut prng = Prng::new(12);
    let mut read_through = 0;
    for _ in 0..1500 {
        let mut report = random_observation(&mut prng).packing();
        if prng.one_in(4) {
            let index = prng.below(report.len());
            report[index] ^= 1 << prng.below(8);
        }
        let room = prng.pick(&[0, 1, 20, 400, 2400]);
        let (mut text, mut marks) = (vec![0xEE; room], vec![0xDD; 2400]);
        let (mut read_text, mut read_marks) = (text.clone(), marks.clone());
        let fetched = fetch_text(&report, &mut text, &mut marks);
        let read = read_out(&report, &mut read_text, &mut read_marks);
        assert_eq!((&read, &read_text), (&fetched, &text));
        assert_eq!(read_marks, marks);
        if let Ok(given) = fetched {
            read_through += 1;
            assert_eq!(open(&report).count(), given.symbols);
        }
    }
    assert!(read_through > 150, "{read_through}");
}

/// The nibbles of symbols: the short codes by hand, and runs counted down.
fn nibbles_by_hand(symbols: &[Symbol]) -> Vec<u8> {
    let mut nibbles = Vec::new();
    let mut spaces = 0;
    for symbol in symbols {
        let byte = symbol.byte();
        if (byte, symbol.origin()) == (b' ', 0) {
            spaces += 1;
            continue;
        }
        while spaces >= 18 {
            nibbles.extend([11, 15]);
            spaces -= 18;
        }
        match spaces {
            0..3 => nibbles.extend(vec![10; spaces]),
            _ => nibbles.extend([11, spaces as u8 - 3]),
        }
        spaces = 0;
        let short = SHORT.iter().find(|(other, _)| *other == byte);
        match (symbol.origin(), short) {
            (1, _) => nibbles.extend([15, byte / 16, byte % 16]),
            (_, Some((_, entry))) if entry >> 12 == 1 => nibbles.push((entry & 15) as u8),
            (_, Some((_, entry))) => {
                nibbles.extend([(entry >> 4 & 15) as u8, (entry & 15) as u8]);
            }
            other => panic!("{other:?}"),
        }
    }
    nibbles
}

/// Put text's own refusals on an accepted report, worked out from its rules.
fn refusal_by_hand(text: &[u8], origins: &[u8]) -> Option<u8> {
    if text.len() != origins.len() {
        return Some(13);
    }
    let has_short_code = |byte: u8| SHORT.iter().any(|&(short, _)| short == byte);
    for (&byte, &origin) in text.iter().zip(origins) {
        if origin > 1 || (origin == 0 && !has_short_code(byte)) {
            return Some(14);
        }
    }
    let symbols = reference::text::symbols(text, origins).unwrap();
    let nibbles = nibbles_by_hand(&symbols);
    (nibbles.is_empty() || nibbles.len() > 255).then_some(12)
}

/// The calls and answers of every fixed list and every list of the gate on a report
/// that is accepted.
fn answered() -> Vec<Vec<(Call, Answer)>> {
    let mut table = FlagTable::all();
    let mut lists = Vec::new();
    for case in fixed() {
        let outcome = case.run(&mut table);
        if let (Case::Calls { buffer, calls }, Outcome::Calls(answers)) = (case, outcome)
            && reference::judge::judge(&buffer, &table).is_ok()
        {
            let answers = answers.into_iter().map(|(answer, _)| answer);
            lists.push(calls.into_iter().zip(answers).collect());
        }
    }
    for item in list_cases::items(SEED) {
        match item {
            Item::List(list) => {
                if reference::judge::judge(&list.buffer, &table).is_ok() {
                    lists.push(list.run(&table).1.calls);
                }
            }
            Item::Load(marks) => {
                let _ = table.load(&marks);
            }
        }
    }
    lists
}

/// Each put text is refused as its rules say, and comes back without trailing plain
/// spaces. Both calls give the number of nibbles that are left.
#[test]
fn every_text_of_the_lists_by_hand() {
    let (mut by_room, mut fetched) = (0, 0);
    let mut met = [0; 15];
    for list in answered() {
        let mut standing: Option<Vec<Symbol>> = None;
        for (call, answer) in list {
            let number = answer.result.as_ref().err().map_or(0, |other| other.number);
            match &call {
                Call::PutText { text, origins } => {
                    met[usize::from(number)] += 1;
                    match refusal_by_hand(text, origins) {
                        Some(due) => assert_eq!(number, due, "{call:?}"),
                        None if number == 13 => by_room += 1,
                        None => {
                            let mut symbols = reference::text::symbols(text, origins).unwrap();
                            let nibbles = nibbles_by_hand(&symbols).len();
                            let given = vec![Number::nibbles(nibbles)];
                            assert_eq!(answer.result, Ok(given), "{call:?}");
                            while symbols.last() == Some(&Symbol::SPACE) {
                                symbols.pop();
                            }
                            standing = Some(symbols);
                        }
                    }
                }
                Call::FetchText { text, origins } => {
                    let Some(symbols) = &standing else { continue };
                    let n = symbols.len();
                    if text.len() < n || origins.len() < n {
                        assert_eq!(number, 13, "{call:?}");
                        assert_eq!(answer.outputs, [text.clone(), origins.clone()]);
                    } else {
                        fetched += 1;
                        let numbers = answer.result.unwrap();
                        assert_eq!(numbers[0], Number::count(n));
                        let nibbles = nibbles_by_hand(symbols).len();
                        assert_eq!(numbers[2..], [Number::nibbles(nibbles)]);
                        let bytes = [&bytes(symbols)[..], &text[n..]].concat();
                        let marks = [&reference::text::origins(symbols)[..], &origins[n..]];
                        assert_eq!(answer.outputs, [bytes, marks.concat()]);
                    }
                }
                Call::Put { id: 4, content } if number == 0 => standing = read(content),
                Call::Drop { id: 4 } => standing = None,
                _ => {}
            }
        }
    }
    assert!(met[0] > 1000 && met[12] > 100, "{met:?}");
    assert!(met[13] > by_room + 20 && by_room > 20, "{met:?} {by_room}");
    assert!(met[14] > 500, "{met:?}");
    assert!(fetched > 1000, "{fetched}");
}

/// Each SID and none, in records and in lists, with the set by hand.
#[test]
fn records_and_lists_meet_every_source_id() {
    let mut in_records = BTreeSet::new();
    for case in whole_cases::cases(SEED) {
        if let Outcome::ReadOut {
            result: Ok(given), ..
        } = run_case(&case)
            && let Case::ReadOut { report, .. } = &case
        {
            let sid = read_field(report, 10).unwrap().map(|sid| sid.0);
            assert_eq!(given.set as i64, set_by_hand(sid), "{sid:?}");
            in_records.insert(sid);
        }
    }
    assert_eq!(in_records.len(), 256);
    let mut in_lists = BTreeSet::new();
    for list in answered() {
        let mut sid = None;
        for (call, answer) in list {
            match (&call, &answer.result) {
                (Call::SetField { field: 10, value }, Ok(_)) => sid = Some(Some(*value)),
                (Call::ClearField { field: 10 }, Ok(_)) => sid = Some(None),
                (Call::FetchText { .. }, Ok(numbers)) => {
                    if let Some(sid) = sid {
                        let set = numbers[1];
                        assert_eq!(set.value, Some(set_by_hand(sid)), "{sid:?}");
                        in_lists.insert(sid);
                    }
                }
                _ => {}
            }
        }
    }
    assert_eq!(in_lists.len(), 256);
}

#[test]
fn every_symbol_is_read_out() {
    let mut found = BTreeSet::new();
    for case in whole_cases::cases(SEED) {
        if let Case::ReadOut { report, .. } = &case {
            found.extend(open(report));
        }
    }
    assert_eq!(found, all_symbols().into_iter().collect());
    assert_eq!(found.len(), 299);
}
