//! The gate files' bytes, worked out by hand, and their contents.

mod common;

use std::collections::BTreeSet;
use std::fs;
use std::path::Path;
use std::process::Command;

use common::all_flags::{judge, run, run_case, run_list};
use common::{fresh_buffer, hex, table_by_hand};
use reference::call::{Answer, Call};
use reference::cases::{Case, Outcome};
use reference::gate::list::{Item, List};
use reference::gate::list_cases::CALLS;
use reference::gate::log::{self, FRONT, HEAD, record_size};
use reference::gate::script::{entry, first_call, script};
use reference::gate::{self, SEED, list_cases, record, sizes, whole_cases};
use reference::number::{Number, Quantity};
use reference::prng::Prng;

/// A record of the log. Zeros fill it up to 37 bytes; an output stands behind a
/// bar.
fn logged(written: &str) -> Vec<u8> {
    let (front, output) = written.split_once('|').unwrap_or((written, ""));
    let mut record = hex(front);
    record.extend(vec![0; 37 - record.len()]);
    record.extend(hex(output));
    record
}

/// A list of calls on the fresh report in 60 bytes: the call, its entry in the
/// script and its record in the log.
fn by_hand() -> Vec<(Call, &'static str, &'static str)> {
    let mut flags = vec![0; 16];
    flags[0] = 1;
    flags[15] = 1;
    vec![
        (
            Call::ReadField { field: 2 },
            "01 0000000000000002",
            "01 00 0000000000000000 01 000000000000076C",
        ),
        (
            Call::ReadField { field: 4 },
            "01 0000000000000004",
            "01 00 0000000000000000 81 0000000000000000",
        ),
        (
            Call::SetField {
                field: 31,
                value: -5,
            },
            "02 000000000000001F FFFFFFFFFFFFFFFB",
            "01 00 0000000000000000 81 0000000000000000",
        ),
        (
            Call::ReadField { field: 31 },
            "01 000000000000001F",
            "01 00 0000000000000000 01 FFFFFFFFFFFFFFFB",
        ),
        (
            Call::SetField {
                field: 31,
                value: -1000,
            },
            "02 000000000000001F FFFFFFFFFFFFFC18",
            "00 09 000000000000001F",
        ),
        (
            Call::ClearField { field: 31 },
            "03 000000000000001F",
            "01 00 0000000000000000 01 FFFFFFFFFFFFFFFB",
        ),
        (
            Call::ClearField { field: 3 },
            "03 0000000000000003",
            "00 0A 0000000000000003",
        ),
        (
            Call::ReadFlag { flag: 1 },
            "04 0000000000000001",
            "00 0B 0000000000000000",
        ),
        (
            Call::Put {
                id: 1,
                content: flags,
            },
            "07 0000000000000001 0000000000000010
             01000000000000000000000000000001",
            "01 00 0000000000000000",
        ),
        (
            Call::SetFlag { flag: 6, value: 6 },
            "05 0000000000000006 0000000000000006",
            "01 00 0000000000000000 82 0000000000000000",
        ),
        (
            Call::SetFlag { flag: 6, value: -1 },
            "05 0000000000000006 FFFFFFFFFFFFFFFF",
            "00 09 0000000000000006",
        ),
        (
            Call::ReadFlag { flag: 6 },
            "04 0000000000000006",
            "01 00 0000000000000000 02 0000000000000006",
        ),
        (
            Call::Fetch {
                id: 1,
                output: vec![0xEE; 17],
            },
            "08 0000000000000001 0000000000000011
             EEEEEEEEEEEEEEEEEEEEEEEEEEEEEEEEEE",
            "01 00 0000000000000000 03 0000000000000010
             | 01000000000600000000000000000003EE",
        ),
        (
            Call::ClearFlag { flag: 6 },
            "06 0000000000000006",
            "01 00 0000000000000000 02 0000000000000006",
        ),
        (
            Call::ReadFlag { flag: 6 },
            "04 0000000000000006",
            "01 00 0000000000000000 82 0000000000000000",
        ),
        (
            Call::ClearFlag { flag: u64::MAX },
            "06 FFFFFFFFFFFFFFFF",
            "00 08 0000000000000000",
        ),
        (
            Call::Drop { id: 1 },
            "09 0000000000000001",
            "01 00 0000000000000000",
        ),
        (
            Call::PutText {
                text: b"A1".to_vec(),
                origins: vec![0, 2],
            },
            "0A 0000000000000002 4131 0000000000000002 0002",
            "00 0E 0000000000000000",
        ),
        (
            Call::PutText {
                text: b"A1".to_vec(),
                origins: vec![0],
            },
            "0A 0000000000000002 4131 0000000000000001 00",
            "00 0D 0000000000000000",
        ),
        (
            Call::PutText {
                text: b"A1".to_vec(),
                origins: vec![0, 0],
            },
            "0A 0000000000000002 4131 0000000000000002 0000",
            "01 00 0000000000000000 09 0000000000000003",
        ),
        (
            Call::FetchText {
                text: vec![7],
                origins: vec![5, 6],
            },
            "0B 0000000000000001 07 0000000000000002 0506",
            "00 0D 0000000000000000 | 07 0506",
        ),
        (
            Call::FetchText {
                text: vec![7, 8, 9],
                origins: vec![4, 5, 6, 7],
            },
            "0B 0000000000000003 070809 0000000000000004 04050607",
            "01 00 0000000000000000 03 0000000000000002 0A 0000000000000000
             09 0000000000000003 | 413109 00000607",
        ),
        (
            Call::SetField {
                field: 10,
                value: 18,
            },
            "02 000000000000000A 0000000000000012",
            "01 00 0000000000000000 81 0000000000000000",
        ),
        (
            Call::FetchText {
                text: vec![7, 8],
                origins: vec![5, 6],
            },
            "0B 0000000000000002 0708 0000000000000002 0506",
            "01 00 0000000000000000 03 0000000000000002 0A 0000000000000002
             09 0000000000000003 | 4131 0000",
        ),
        (
            Call::ClearField { field: 10 },
            "03 000000000000000A",
            "01 00 0000000000000000 01 0000000000000012",
        ),
        (
            Call::FetchText {
                text: vec![],
                origins: vec![],
            },
            "0B 0000000000000000 0000000000000000",
            "00 0D 0000000000000000",
        ),
    ]
}

/// The buffer that the list by hand leaves: "A1" behind the fresh card. The
/// flags went up to byte 46.
fn buffer_after() -> Vec<u8> {
    let mut buffer = fresh_buffer(60);
    buffer[37..47].fill(0);
    buffer[37..41].copy_from_slice(&[0x10, 0x34, 0xC1, 0x10]);
    buffer
}

#[test]
fn entries_by_hand_are_written_and_read() {
    for (call, written, _) in by_hand() {
        let bytes = hex(written);
        assert_eq!(entry(&call), bytes, "{call:?}");
        assert_eq!(first_call(&bytes), Some((call.clone(), &[][..])));
        let more = [&bytes[..], &[9, 9]].concat();
        assert_eq!(first_call(&more), Some((call.clone(), &[9, 9][..])));
        for length in 0..bytes.len() {
            assert_eq!(first_call(&bytes[..length]), None, "{call:?} {length}");
        }
    }
}

#[test]
fn unknown_kinds_are_no_calls() {
    for kind in [0, 13, 14, 128, 255] {
        assert_eq!(first_call(&[kind; 40]), None);
    }
}

#[test]
fn counts_are_whole_numbers() {
    for count in ["0000000100000001", "8000000000000001", "FFFFFFFFFFFFFFFF"] {
        let first = hex(&format!("0A {count} 41 0000000000000001 00"));
        let second = hex(&format!("0A 0000000000000001 41 {count} 00"));
        assert_eq!((first_call(&first), first_call(&second)), (None, None));
    }
}

#[test]
fn a_list_by_hand() {
    let script: Vec<u8> = by_hand().iter().flat_map(|line| hex(line.1)).collect();
    let log: Vec<u8> = by_hand().iter().flat_map(|line| logged(line.2)).collect();
    let mut buffer = fresh_buffer(60);
    let ran = run(&mut buffer, &script, 5000);
    assert_eq!(ran.calls.len(), 26);
    assert_eq!(ran.taken, script.len());
    assert_eq!(ran.log, log);
    assert_eq!(buffer, buffer_after());
}

#[test]
fn a_log_ends_a_list_before_the_entry_that_does_not_fit() {
    let calls: Vec<Call> = by_hand().into_iter().map(|line| line.0).collect();
    let script = script(&calls);
    let whole = List::of(fresh_buffer(60), &calls).room;
    let (last, before) = (1 + 8 + 8, 37);
    for (room, taken, log) in [
        (whole, script.len(), whole),
        (whole - 1, script.len() - last, whole - before),
        (whole - 36, script.len() - last, whole - before),
        (whole - 37, script.len() - last, whole - before),
        (0, 0, 0),
        (10, 0, 0),
        (19, 0, 0),
        (36, 0, 0),
        (37, 9, 37),
        (73, 9, 37),
        (74, 18, 74),
        (110, 18, 74),
        (111, 35, 111),
    ] {
        let ran = run(&mut fresh_buffer(60), &script, room);
        assert_eq!((ran.taken, ran.log.len()), (taken, log), "{room}");
    }
    // The fetch does not fit; the drop behind it would.
    let calls = [
        Call::Fetch {
            id: 4,
            output: vec![0; 2],
        },
        Call::Drop { id: 4 },
    ];
    for room in [10, 19, 36, 37, 38] {
        let mut buffer = buffer_after();
        let ran = run(&mut buffer, &reference::gate::script::script(&calls), room);
        assert_eq!((ran.calls.len(), ran.taken, ran.log.len()), (0, 0, 0));
        assert_eq!(buffer, buffer_after());
    }
}

#[test]
fn labels_by_hand() {
    for (quantity, label) in [
        (Quantity::Value, 1),
        (Quantity::Flag, 2),
        (Quantity::Count, 3),
        (Quantity::Word, 4),
        (Quantity::Present, 5),
        (Quantity::Rptin, 6),
        (Quantity::Attachments, 7),
        (Quantity::Bytes, 8),
        (Quantity::Nibbles, 9),
        (Quantity::Set, 10),
    ] {
        let number = |value| Number { quantity, value };
        assert_eq!(number(Some(-1)).label(), label);
        assert_eq!(number(Some(0)).label(), label);
        assert_eq!(number(None).label(), 128 + label);
    }
}

#[test]
fn rows_by_hand() {
    let head = "01 00 0000000000000000";
    let three = [
        Number::bytes(38),
        Number::flag(None),
        Number::value(Some(-2)),
    ];
    for (count, row) in [
        "00 0000000000000000 00 0000000000000000 00 0000000000000000",
        "08 0000000000000026 00 0000000000000000 00 0000000000000000",
        "08 0000000000000026 82 0000000000000000 00 0000000000000000",
        "08 0000000000000026 82 0000000000000000 01 FFFFFFFFFFFFFFFE",
    ]
    .iter()
    .enumerate()
    {
        for (outputs, written) in [
            (vec![], vec![]),
            (vec![vec![]], vec![]),
            (vec![vec![5, 6]], vec![5, 6]),
            (vec![vec![5, 6], vec![7]], vec![5, 6, 7]),
            (vec![vec![], vec![7]], vec![7]),
        ] {
            let answer = Answer {
                result: Ok(three[..count].to_vec()),
                outputs,
            };
            let record = [hex(&format!("{head} {row}")), written];
            assert_eq!(log::record(&answer), record.concat());
        }
    }
}

/// A record has 37 bytes and the outputs, refused or not. Fetch text gives three
/// numbers, put and drop none, and every other call one.
#[test]
fn records_of_every_list() {
    for list in list_cases::lists(SEED) {
        let (_, ran) = run_list(&list);
        let mut rest = &ran.log[..];
        for (call, answer) in &ran.calls {
            let output = answer.outputs.concat();
            assert_eq!(record_size(call), 37 + output.len());
            let (record, behind) = rest.split_at(37 + output.len());
            let row = match &answer.result {
                Err(refusal) => {
                    assert_eq!(record[..2], [0, refusal.number], "{call:?}");
                    let place = refusal.place as u64;
                    assert_eq!(record[2..10], place.to_be_bytes(), "{call:?}");
                    vec![0; 27]
                }
                Ok(numbers) => {
                    assert_eq!(record[..10], [1, 0, 0, 0, 0, 0, 0, 0, 0, 0], "{call:?}");
                    match call {
                        Call::FetchText { .. } => assert_eq!(numbers.len(), 3),
                        Call::Put { .. } | Call::Drop { .. } => assert_eq!(numbers, &[]),
                        _ => assert_eq!(numbers.len(), 1, "{call:?}"),
                    }
                    let mut row = Vec::new();
                    for number in numbers {
                        row.push(number.label());
                        row.extend(number.value.unwrap_or(0).to_be_bytes());
                    }
                    row.resize(27, 0);
                    row
                }
            };
            assert_eq!(record[10..37], row, "{call:?}");
            assert_eq!(record[37..], output, "{call:?}");
            rest = behind;
        }
        assert_eq!(rest, []);
    }
}

#[test]
fn a_refused_report_refuses_every_call() {
    let calls = [
        Call::ReadField { field: 99 },
        Call::FetchText {
            text: vec![5, 6],
            origins: vec![7],
        },
    ];
    let mut buffer = vec![0; 37];
    let ran = run(&mut buffer, &script(&calls), 100);
    let refused = logged("00 01 0000000000000000");
    assert_eq!(ran.log, [&refused[..], &refused, &[5, 6, 7]].concat());
}

#[test]
fn a_list_and_its_answer_by_hand() {
    let list = List {
        buffer: fresh_buffer(38),
        script: hex("01 0000000000000007 0D"),
        room: 51,
    };
    let report = fresh_buffer(38);
    let input = [
        &hex("0026")[..],
        &report,
        &hex("0000000A 010000000000000007 0D 00000033"),
    ];
    assert_eq!(list.input(), input.concat());
    let (after, ran) = run_list(&list);
    let answer = [
        &hex("00000001 00000009 00000025")[..],
        &report,
        &hex("01 00 0000000000000000 01 0000000000000000"),
        &hex("00 0000000000000000 00 0000000000000000"),
        &[165; 14],
    ];
    assert_eq!(list.answer(&after, &ran), answer.concat());
}

/// A record and its answer.
fn both(case: &Case) -> (Vec<u8>, Vec<u8>) {
    (record::input(case), record::answer(&run_case(case)))
}

#[test]
fn judge_and_lister_records_by_hand() {
    let report = fresh_buffer(40);
    let counted = [&hex("0028")[..], &report].concat();
    let judge = Case::Judge {
        report: report.clone(),
    };
    let input = [&[1][..], &counted].concat();
    assert_eq!(both(&judge), (input, hex("02 00 0000000000000026")));
    let lister = Case::Lister { input: report };
    let input = [&[2][..], &counted].concat();
    let lines = b"1 1\n2 1900\n3 1\n6 0\n7 0\nC 240\nA 0\n".to_vec();
    assert_eq!(both(&lister), (input, lines));
    let empty = Case::Judge { report: Vec::new() };
    let answer = hex("00 01 0000000000000000");
    assert_eq!(both(&empty), (hex("01 0000"), answer));
    let empty = Case::Lister { input: Vec::new() };
    assert_eq!(both(&empty), (hex("02 0000"), b"R 1 0\n".to_vec()));
}

#[test]
fn fresh_records_by_hand() {
    let values = "0000000000000001 000000000000076C 0000000000000001
                  0000000000000000";
    let fresh = |y, room| Case::Fresh {
        required: [1, 1900, 1, 0, y],
        output: vec![0xA5; room],
    };
    let input = [
        &hex("03")[..],
        &hex(values),
        &hex("0000000000000000 0027"),
        &[0xA5; 39],
    ];
    let answer = [&hex("01 00 0000000000000000")[..], &fresh_buffer(39)];
    assert_eq!(both(&fresh(0, 39)), (input.concat(), answer.concat()));
    let input = [
        &hex("03")[..],
        &hex(values),
        &hex("FFFFFFFFFFFFFC7B 0001 A5"),
    ];
    let answer = hex("00 09 0000000000000007 A5");
    assert_eq!(both(&fresh(-901, 1)), (input.concat(), answer));
}

/// The fresh report's 46 values, 0 where missing.
fn fresh_values() -> Vec<u8> {
    let mut values = vec![0; 46 * 8];
    values[7] = 1;
    values[14..16].copy_from_slice(&[0x07, 0x6C]);
    values[23] = 1;
    values
}

#[test]
fn unpack_records_by_hand() {
    let mut report = buffer_after();
    report.truncate(41);
    report[..2].copy_from_slice(&[0xAB, 0xCD]);
    let unpack = |values, tail| Case::Unpack {
        report: report.clone(),
        values: vec![-1; values],
        tail: vec![0xEE; tail],
    };
    let input = [
        &hex("04 0029")[..],
        &report,
        &hex("002F"),
        &[0xFF; 47 * 8],
        &hex("0007 EEEEEEEEEEEEEE"),
    ];
    let answer = [
        &hex("01 00 0000000000000000")[..],
        &hex("00000000000000CE 0000000000000005 000000000000ABCD"),
        &hex("0000000000000001 0000000000000029 0000000000000006"),
        &fresh_values(),
        &hex("FFFFFFFFFFFFFFFF 0003040C0101EE"),
    ];
    assert_eq!(both(&unpack(47, 7)), (input.concat(), answer.concat()));
    let input = [
        &hex("04 0029")[..],
        &report,
        &hex("0001 FFFFFFFFFFFFFFFF 0002 EEEE"),
    ];
    let answer = hex("00 0D 0000000000000000 FFFFFFFFFFFFFFFF EEEE");
    assert_eq!(both(&unpack(1, 2)), (input.concat(), answer));
}

#[test]
fn pack_records_by_hand() {
    let mut report = buffer_after();
    report.truncate(41);
    report[..2].copy_from_slice(&[0xAB, 0xCD]);
    let mut values = vec![0; 46];
    values[..3].copy_from_slice(&[1, 1900, 1]);
    let pack = |word, room| Case::Pack {
        values: values.clone(),
        word,
        rptin: 0xABCD,
        tail: vec![0, 3, 4, 12, 1, 1],
        output: vec![0xEE; room],
    };
    let input = |word: &str, output: &str| {
        [
            &hex("05 002E")[..],
            &fresh_values(),
            &hex(word),
            &hex("ABCD 0006 0003040C0101"),
            &hex(output),
        ]
        .concat()
    };
    let output = format!("002A {}", "EE".repeat(42));
    let answer = [&hex("02 00 0000000000000029")[..], &report, &[0xEE]].concat();
    let record = both(&pack(0xCE, 42));
    assert_eq!(record, (input("00000000000000CE", &output), answer));
    let record = both(&pack(0xC6, 1));
    let answer = hex("00 0A 0000000000000003 EE");
    assert_eq!(record, (input("00000000000000C6", "0001 EE"), answer));
}

#[test]
fn same_records_by_hand() {
    let (first, second) = (fresh_buffer(38), fresh_buffer(40));
    let mut other = second.clone();
    other[0] = 1;
    let mut wrong = second.clone();
    wrong[36] = 0;
    for (second, answer) in [
        (second, "02 00 0000000000000001"),
        (other, "02 00 0000000000000000"),
        (wrong, "00 04 0000000000000000"),
    ] {
        let input = [&hex("06 0026")[..], &first, &hex("0028"), &second].concat();
        let same = Case::Same {
            first: first.clone(),
            second,
        };
        assert_eq!(both(&same), (input, hex(answer)));
    }
}

#[test]
fn restore_records_by_hand() {
    let mut report = buffer_after();
    report.truncate(41);
    report[..2].copy_from_slice(&[0xAB, 0xCD]);
    let restore = |values, tail, output| Case::Restore {
        report: report.clone(),
        values: vec![-1; values],
        tail: vec![0xEE; tail],
        output: vec![0xDD; output],
    };
    let input = [
        &hex("07 0029")[..],
        &report,
        &hex("002F"),
        &[0xFF; 47 * 8],
        &hex("0007 EEEEEEEEEEEEEE 002B"),
        &[0xDD; 43],
    ];
    let answer = [
        &hex("02 00 0000000000000029")[..],
        &fresh_values(),
        &hex("FFFFFFFFFFFFFFFF 0003040C0101EE"),
        &report,
        &hex("DDDD"),
    ];
    assert_eq!(both(&restore(47, 7, 43)), (input.concat(), answer.concat()));
    let input = [
        &hex("07 0029")[..],
        &report,
        &hex("0001 FFFFFFFFFFFFFFFF 0002 EEEE 0003 DDDDDD"),
    ];
    let answer = hex("00 0D 0000000000000000 FFFFFFFFFFFFFFFF EEEE DDDDDD");
    assert_eq!(both(&restore(1, 2, 3)), (input.concat(), answer));
}

#[test]
fn recover_records_by_hand() {
    let mut report = buffer_after();
    report.truncate(41);
    report[..2].copy_from_slice(&[0xAB, 0xCD]);
    let mut values = vec![0; 46];
    values[..3].copy_from_slice(&[1, 1900, 1]);
    let recover = |word, values_out| Case::Recover {
        values: values.clone(),
        word,
        rptin: 0xABCD,
        tail: vec![0, 3, 4, 12, 1, 1],
        output: vec![0xDD; 43],
        values_out: vec![-1; values_out],
        tail_out: vec![0xEE; 7],
    };
    let input = |word: &str, values_out: &str| {
        [
            &hex("08 002E")[..],
            &fresh_values(),
            &hex(word),
            &hex("ABCD 0006 0003040C0101 002B"),
            &[0xDD; 43],
            &hex(values_out),
            &hex("0007 EEEEEEEEEEEEEE"),
        ]
        .concat()
    };
    let values_out = format!("002F {}", "FF".repeat(47 * 8));
    let answer = [
        &hex("01 00 0000000000000000")[..],
        &hex("00000000000000CE 0000000000000005 000000000000ABCD"),
        &hex("0000000000000001 0000000000000029 0000000000000006"),
        &fresh_values(),
        &hex("FFFFFFFFFFFFFFFF 0003040C0101EE"),
        &report,
        &hex("DDDD"),
    ];
    let record = both(&recover(0xCE, 47));
    let expected = (input("00000000000000CE", &values_out), answer.concat());
    assert_eq!(record, expected);
    for (word, answer) in [
        (0xCE, "00 0D 0000000000000000"),
        (0xC6, "00 0A 0000000000000003"),
    ] {
        let input = input(&format!("{word:016X}"), "0001 FFFFFFFFFFFFFFFF");
        let answer = [
            &hex(answer)[..],
            &hex("FFFFFFFFFFFFFFFF EEEEEEEEEEEEEE"),
            &[0xDD; 43],
        ];
        assert_eq!(both(&recover(word, 1)), (input, answer.concat()));
    }
}

#[test]
fn read_out_records_by_hand() {
    let mut report = buffer_after();
    report.truncate(41);
    let read_out = |text, origins| Case::ReadOut {
        report: report.clone(),
        text: vec![0xEE; text],
        origins: vec![0xDD; origins],
    };
    let input = [
        &hex("0B 0029")[..],
        &report,
        &hex("0003 EEEEEE 0004 DDDDDDDD"),
    ];
    let answer = hex("02 00 0000000000000002 0000000000000000 0000000000000003
                      4131EE 0000DDDD");
    assert_eq!(both(&read_out(3, 4)), (input.concat(), answer));
    let input = [&hex("0B 0029")[..], &report, &hex("0002 EEEE 0001 DD")];
    let answer = hex("00 0D 0000000000000000 EEEE DD");
    assert_eq!(both(&read_out(2, 1)), (input.concat(), answer));
    let absent = Case::ReadOut {
        report: fresh_buffer(38),
        text: vec![],
        origins: vec![0xDD],
    };
    let input = [&hex("0B 0026")[..], &fresh_buffer(38), &hex("0000 0001 DD")];
    let answer = hex("00 0B 0000000000000000 DD");
    assert_eq!(both(&absent), (input.concat(), answer));
}

/// Two symbols take six nibbles, and none take none, which put text refuses.
#[test]
fn costliest_records_by_hand() {
    let costliest = |symbols, text, origins| Case::Costliest {
        symbols,
        text: vec![0xEE; text],
        origins: vec![0xDD; origins],
    };
    for (case, input, answer) in [
        (
            costliest(2, 3, 4),
            "0C 0000000000000002 0003 EEEEEE 0004 DDDDDDDD",
            "01 00 0000000000000000 0101DDDD EE 02 00 0000000000000006",
        ),
        (
            costliest(0, 1, 0),
            "0C 0000000000000000 0001 EE 0000",
            "01 00 0000000000000000 EE 00 0C 0000000000000000",
        ),
        (
            costliest(2, 1, 2),
            "0C 0000000000000002 0001 EE 0002 DDDD",
            "00 0D 0000000000000000 DDDD EE",
        ),
        (
            costliest(2, 2, 1),
            "0C 0000000000000002 0002 EEEE 0001 DD",
            "00 0D 0000000000000000 DD EEEE",
        ),
        (
            costliest(86, 1, 2),
            "0C 0000000000000056 0001 EE 0002 DDDD",
            "00 09 0000000000000000 DDDD EE",
        ),
        (
            costliest(u64::MAX, 0, 0),
            "0C FFFFFFFFFFFFFFFF 0000 0000",
            "00 09 0000000000000000",
        ),
    ] {
        assert_eq!(both(&case), (hex(input), hex(answer)));
    }
    let (input, answer) = both(&costliest(85, 85, 85));
    let lent = [hex("0C 0000000000000055 0055"), vec![0xEE; 85]].concat();
    assert_eq!(input, [lent, hex("0055"), vec![0xDD; 85]].concat());
    let nibbles = hex("02 00 00000000000000FF");
    let head = hex("01 00 0000000000000000");
    assert_eq!(answer, [head, vec![1; 85], nibbles].concat());
    assert!(record::fits(&costliest(0, 200, 200)));
    assert!(!record::fits(&costliest(0, 201, 0)));
    assert!(!record::fits(&costliest(0, 0, 201)));
}

/// A text of 2287 symbols is the longest; its outputs may have 2400 bytes.
#[test]
fn read_out_records_keep_their_limits() {
    let read_out = |report, text, origins| Case::ReadOut {
        report: vec![0; report],
        text: vec![0; text],
        origins: vec![0; origins],
    };
    assert_eq!(record::MOST_TEXT, 2400);
    assert!(record::fits(&read_out(2000, 2400, 2400)));
    assert!(!record::fits(&read_out(2001, 0, 0)));
    assert!(!record::fits(&read_out(0, 2401, 0)));
    assert!(!record::fits(&read_out(0, 0, 2401)));
    let longest = whole_cases::cases(SEED).iter().any(|case| {
        let outcome = run_case(case);
        matches!(outcome, Outcome::ReadOut { result: Ok(given), .. } if given.symbols == 2287)
    });
    assert!(longest);
}

#[test]
fn observations_have_the_wanted_size_and_sum() {
    let mut prng = Prng::new(1);
    let tails = (4..400).chain((400..3600).step_by(7)).chain(3600..=3631);
    for tail in [0].into_iter().chain(tails) {
        let observation = sizes::observation_of_tail(&mut prng, tail);
        let report = judge(&observation.packing()).unwrap();
        assert_eq!(report.nibbles, 75 + tail);
    }
    assert_eq!(sizes::LONGEST_TAIL, 3631);
    for sum in [5, 6, 255, 510, 19635, 19643] {
        let codes = sizes::observation_of_sum(sum).codes();
        assert_eq!(codes.iter().map(|code| code.0).sum::<u64>(), sum);
    }
    for (sum, required) in [
        (5, [1, 1800, 1, 0, -900]),
        (255, [251, 1800, 1, 0, -900]),
        (6120, [648, 2054, 12, 3599, 704]),
        (6316, [648, 2054, 12, 3599, 900]),
    ] {
        assert_eq!(sizes::required_of_sum(sum), required);
    }
}

#[test]
fn whole_files_meet_every_refusal_and_keep_their_limits() {
    let cases = whole_cases::cases(SEED);
    assert!(cases.iter().all(record::fits));
    let files = gate::reports(SEED);
    assert!(files.stdin.len() + files.stdout.len() < 2_350_000);
    for (kind, refusals) in [
        ("judge", &[0, 1, 2, 3, 4, 5, 6, 7][..]),
        ("lister", &[0, 1, 2, 3, 4, 5, 6, 7]),
        ("fresh", &[0, 9, 13]),
        ("unpack", &[0, 1, 2, 3, 4, 5, 6, 7, 13]),
        ("pack", &[0, 1, 5, 6, 8, 9, 10, 13, 14]),
        ("same", &[0, 1, 2, 3, 4, 5, 6, 7]),
        ("restore", &[0, 1, 2, 3, 4, 5, 6, 7, 13]),
        ("recover", &[0, 1, 5, 6, 8, 9, 10, 13, 14]),
        ("load", &[0, 16]),
        ("read out", &[0, 1, 2, 3, 4, 5, 6, 7, 11, 13]),
        ("costliest", &[0, 9, 13]),
        ("find indicators", &[0, 1, 2, 3, 4, 5, 6, 7, 13]),
        ("first steps", &[0, 1, 2, 3, 4, 5, 6, 7, 11]),
    ] {
        let met: Vec<u8> = files.tally.refusals(kind);
        assert_eq!(met, refusals, "{kind}");
    }
    let sizes: BTreeSet<usize> = cases
        .iter()
        .filter_map(|case| match case {
            Case::Unpack { report, .. } => judge(report).ok(),
            _ => None,
        })
        .map(|report| report.bytes)
        .collect();
    assert!(sizes.len() > 60);
    assert_eq!((sizes.first(), sizes.last()), (Some(&38), Some(&1853)));
}

/// Fourteen arrays, of which six hold one number and the ninth is the table.
#[test]
fn the_table_of_the_characters_comes_before_the_loads() {
    let files = gate::whole(&whole_cases::before_loads(SEED));
    let entries = table_by_hand().map(|entry| format!("{entry:04X}")).concat();
    let answer = hex(&format!("01 00 0000000000000000 {entries}"));
    assert!(files.stdout.ends_with(&answer.repeat(14)));
    let records = &files.stdin[files.stdin.len() - 14 * 513..];
    let records: Vec<&[u8]> = records.chunks(513).collect();
    assert!(records.iter().all(|record| record[0] == 9));
    let held = ["0000", "0001", "00FF", "1000", "FF00", "FFFF"];
    for (record, entry) in records.iter().zip(held) {
        assert_eq!(*record, hex(&format!("09 {}", entry.repeat(256))));
    }
    assert_eq!(records[8], hex(&format!("09 {entries}")));
    assert_eq!(files.tally.counts[&("characters", 0)], 14);
}

#[test]
fn same_and_trips_are_met_on_every_side() {
    let cases = whole_cases::before_loads(SEED);
    let mut equal = [0, 0];
    let mut sizes = BTreeSet::new();
    for case in &cases {
        match run_case(case) {
            Outcome::Same(Ok(same)) => equal[usize::from(same)] += 1,
            Outcome::Restore { result, .. } => sizes.extend(result),
            Outcome::Recover { result, .. } => sizes.extend(result.map(|given| given.bytes)),
            _ => {}
        }
    }
    assert!(equal[0] > 50 && equal[1] > 15, "{equal:?}");
    assert!(sizes.len() > 12);
    assert_eq!((sizes.first(), sizes.last()), (Some(&38), Some(&1853)));
}

#[test]
fn many_logs_are_longer_than_what_is_written() {
    let mut a_little_longer = 0;
    // What is left of a log, and the size of the record that does not fit.
    let mut ends = Vec::new();
    for list in list_cases::lists(SEED) {
        let (_, ran) = run_list(&list);
        let left = list.room - ran.log.len();
        a_little_longer += usize::from((1..=40).contains(&left));
        if let Some((call, _)) = first_call(&list.script[ran.taken..]) {
            ends.push((left, record_size(&call)));
        }
    }
    assert!(a_little_longer > 100, "{a_little_longer}");
    let count = |is_there: fn(usize, usize) -> bool| {
        let there = ends.iter().filter(|&&(left, size)| is_there(left, size));
        there.count()
    };
    let in_head = count(|left, _| left > 0 && left < HEAD);
    let behind_head = count(|left, _| left == HEAD);
    let in_row = count(|left, _| left > HEAD && left < FRONT);
    let behind_row = count(|left, _| left == FRONT);
    let in_output = count(|left, _| left > FRONT);
    let before_last = count(|left, size| left == size - 1);
    let before_output_s_last = count(|left, size| left > FRONT && left == size - 1);
    assert!(in_head >= 20, "{in_head}");
    assert!(behind_head >= 20, "{behind_head}");
    assert!(in_row >= 100, "{in_row}");
    assert!(behind_row >= 5, "{behind_row}");
    assert!(in_output >= 10, "{in_output}");
    assert!(before_last >= 20, "{before_last}");
    assert!(before_output_s_last >= 5, "{before_output_s_last}");
}

#[test]
fn list_files_meet_every_refusal_and_keep_their_limits() {
    let lists = list_cases::lists(SEED);
    let items = list_cases::items(SEED);
    assert!(items.iter().all(|item| match item {
        Item::List(list) => list.fits(),
        Item::Load(marks) => marks.len() <= 200,
    }));
    let files = gate::lists(&items);
    assert!(files.stdin.len() + files.stdout.len() < 2_250_000);
    let whole = lists.iter().filter(|list| {
        let (_, ran) = run_list(list);
        ran.calls.len() == CALLS && judge(&list.buffer).is_ok()
    });
    assert!(whole.count() >= 200);
    let report = [0, 1, 2, 3, 4, 5, 6, 7];
    for (kind, refusals) in [
        ("read field", &[8][..]),
        ("set field", &[8, 9]),
        ("clear field", &[8, 10]),
        ("read flag", &[8, 11]),
        ("set flag", &[8, 9, 11]),
        ("clear flag", &[8, 11]),
        ("put", &[8, 12, 13, 14]),
        ("fetch", &[8, 11, 13]),
        ("drop", &[8, 11]),
        ("put text", &[12, 13, 14]),
        ("fetch text", &[11, 13]),
        ("clear with indicators", &[8, 10]),
    ] {
        let expected = [&report[..], refusals].concat();
        assert_eq!(files.tally.refusals(kind), expected, "{kind}");
    }
    assert_eq!(files.tally.refusals("load"), [0, 16]);
}

#[test]
fn the_same_seed_gives_the_same_files() {
    let lists = |seed| gate::lists(&list_cases::items(seed));
    for make in [&gate::reports as &dyn Fn(u64) -> gate::Files, &lists] {
        let (first, again, other) = (make(SEED), make(SEED), make(SEED + 1));
        assert_eq!(first.stdin, again.stdin);
        assert_eq!(first.stdout, again.stdout);
        assert_ne!(first.stdin, other.stdin);
    }
}

#[test]
fn the_programs_write_the_files() {
    let programs = [
        (env!("CARGO_BIN_EXE_gate-reports"), gate::reports(SEED)),
        (
            env!("CARGO_BIN_EXE_gate-scripts"),
            gate::lists(&list_cases::items(SEED)),
        ),
    ];
    for (index, (program, files)) in programs.into_iter().enumerate() {
        let directory = Path::new(env!("CARGO_TARGET_TMPDIR")).join(format!("gate-{index}"));
        let run = Command::new(program).arg(&directory).output().unwrap();
        assert!(run.status.success());
        assert_eq!(fs::read(directory.join("stdin")).unwrap(), files.stdin);
        assert_eq!(fs::read(directory.join("stdout")).unwrap(), files.stdout);
        let run = Command::new(program).output().unwrap();
        assert_eq!(run.status.code(), Some(2));
    }
}
