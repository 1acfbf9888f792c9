//! The two programs.

mod common;

use std::io::Write;
use std::process::{Command, Stdio};

use common::all_flags::line;
use common::{fresh_buffer, fresh_with_tail, table_by_hand};
use reference::cases::{Case, fixed, random};
use reference::flag_table::FlagTable;
use reference::line;

fn vectors(arguments: &[&str]) -> (bool, String) {
    let output = Command::new(env!("CARGO_BIN_EXE_vectors"))
        .args(arguments)
        .output()
        .unwrap();
    (
        output.status.success(),
        String::from_utf8(output.stdout).unwrap(),
    )
}

fn list(input: &[u8]) -> String {
    let mut child = Command::new(env!("CARGO_BIN_EXE_lister"))
        .stdin(Stdio::piped())
        .stdout(Stdio::piped())
        .spawn()
        .unwrap();
    child.stdin.take().unwrap().write_all(input).unwrap();
    String::from_utf8(child.wait_with_output().unwrap().stdout).unwrap()
}

#[test]
fn the_same_seed_prints_the_same_lines() {
    let (ok, first) = vectors(&["7", "60"]);
    assert!(ok);
    assert_eq!(vectors(&["7", "60"]).1, first);
    assert_eq!(first.lines().count(), fixed().len() + 60);
    let (_, second) = vectors(&["8", "60"]);
    let (first, second): (Vec<&str>, Vec<&str>) =
        (first.lines().collect(), second.lines().collect());
    let fixed = fixed().len();
    assert_eq!(first[..fixed], second[..fixed]);
    assert_ne!(first[fixed..], second[fixed..]);
}

#[test]
fn wrong_arguments_print_nothing() {
    for arguments in [&[][..], &["1"], &["x", "1"], &["1", "-1"], &["1", "2", "3"]] {
        assert_eq!(vectors(arguments), (false, String::new()));
    }
}

#[test]
fn lines_by_hand() {
    let zeros = "00".repeat(27);
    let report = format!("00000059440000170A{zeros}F000");
    let case = Case::Fresh {
        required: [1, 1900, 1, 0, 0],
        output: vec![0xA5; 39],
    };
    let input = "A5".repeat(39);
    assert_eq!(
        line(&case),
        format!("fresh 1 1900 1 0 0 {input} -> ok {report}A5")
    );
    let case = Case::Lister {
        input: fresh_buffer(38),
    };
    assert_eq!(
        line(&case),
        format!("lister {report} -> 1 1,2 1900,3 1,6 0,7 0,C 240,A 0")
    );
    let case = Case::Judge { report: Vec::new() };
    assert_eq!(line(&case), "judge - -> refused 1 0");
    let same = |second: Vec<u8>| Case::Same {
        first: fresh_buffer(38),
        second,
    };
    assert_eq!(
        line(&same(fresh_buffer(39))),
        format!("same {report} {report}A5 -> ok 1")
    );
    let other = "ABCD".to_owned() + &report[4..];
    let mut with_rptin = fresh_buffer(38);
    with_rptin[..2].copy_from_slice(&[0xAB, 0xCD]);
    assert_eq!(
        line(&same(with_rptin)),
        format!("same {report} {other} -> ok 0")
    );
    assert_eq!(
        line(&same(vec![0])),
        format!("same {report} 00 -> refused 1 0")
    );
}

#[test]
fn trips_by_hand() {
    let zeros = "00".repeat(27);
    let report = format!("00000059440000170A{zeros}F000");
    let mut values = vec![0; 46];
    values[..3].copy_from_slice(&[1, 1900, 1]);
    let numbers = format!("1,1900,1{}", ",0".repeat(43));
    let lent = format!("-7{}", ",-7".repeat(46));
    let marks = "EE".repeat(39);
    let restore = |values: usize| Case::Restore {
        report: fresh_buffer(38),
        values: vec![-7; values],
        tail: vec![0xEE],
        output: vec![0xEE; 39],
    };
    assert_eq!(
        line(&restore(47)),
        format!("restore {report} {lent} EE {marks} -> ok 38 {numbers},-7 EE {report}EE")
    );
    assert_eq!(
        line(&restore(1)),
        format!("restore {report} -7 EE {marks} -> refused 13 0 -7 EE {marks}")
    );
    let recover = |values_out: usize| Case::Recover {
        values: values.clone(),
        word: 0xCE,
        rptin: 0,
        tail: Vec::new(),
        output: vec![0xEE; 39],
        values_out: vec![-7; values_out],
        tail_out: vec![0xEE],
    };
    let given = format!("recover {numbers} 206 0 - {marks}");
    assert_eq!(
        line(&recover(47)),
        format!("{given} {lent} EE -> ok 206 5 0 0 38 0 {numbers},-7 EE {report}EE")
    );
    assert_eq!(
        line(&recover(1)),
        format!("{given} -7 EE -> refused 13 0 -7 EE {marks}")
    );
}

#[test]
fn lists_by_hand() {
    use reference::call::Call;
    let case = Case::Calls {
        buffer: fresh_buffer(38),
        calls: vec![
            Call::ReadField { field: 2 },
            Call::ReadField { field: 4 },
            Call::FetchText {
                text: vec![1, 2],
                origins: vec![3],
            },
            Call::Put {
                id: 5,
                content: vec![1],
            },
        ],
    };
    let zeros = "00".repeat(27);
    let report = format!("00000059440000170A{zeros}F000");
    let calls = "read-field 2 ; read-field 4 ; fetch-text 0102 03 ; put 5 01";
    let answers = format!(
        "ok 1900 {report} ; ok missing {report} ; refused 11 0 {report} 0102 03 ; refused 13 0 {report}"
    );
    assert_eq!(
        line(&case),
        format!("calls {report} ; {calls} -> {answers}")
    );
}

#[test]
fn texts_by_hand() {
    use reference::call::Call;
    let zeros = "00".repeat(27);
    let fresh = format!("00000059440000170A{zeros}F000");
    // AC 1, AL 5, AID 4, nibbles 1, 10, 15, 4, 1 and the padding.
    let report = format!("00000059440000170A{zeros}F010541AF410");
    let held = fresh_with_tail(1, &[0, 5, 4, 1, 10, 15, 4, 1]);
    let case = Case::Calls {
        buffer: [fresh_buffer(38), vec![0xA5; 5]].concat(),
        calls: vec![
            Call::PutText {
                text: b"1 A".to_vec(),
                origins: vec![0, 0, 1],
            },
            Call::FetchText {
                text: vec![0xEE; 4],
                origins: vec![0xDD; 3],
            },
            Call::PutText {
                text: Vec::new(),
                origins: vec![0],
            },
        ],
    };
    let (before, after) = (format!("{fresh}A5A5A5A5A5"), format!("{report}A5"));
    assert_eq!(after.len(), before.len());
    let calls = "put-text 312041 000001 ; fetch-text EEEEEEEE DDDDDD ; put-text - 00";
    let answers = format!("ok 5 {after} ; ok 3 0 5 {after} 312041EE 000001 ; refused 13 0 {after}");
    assert_eq!(
        line(&case),
        format!("calls {before} ; {calls} -> {answers}")
    );
    let read_out = |text: usize, origins: usize| Case::ReadOut {
        report: held.clone(),
        text: vec![0xEE; text],
        origins: vec![0xDD; origins],
    };
    assert_eq!(
        line(&read_out(4, 3)),
        format!("read-out {report} EEEEEEEE DDDDDD -> ok 3 0 5 312041EE 000001")
    );
    assert_eq!(
        line(&read_out(0, 3)),
        format!("read-out {report} - DDDDDD -> refused 13 0 - DDDDDD")
    );
}

#[test]
fn costliest_texts_by_hand() {
    for (symbols, text, origins, written) in [
        (2, 3, 4, "EEEEEE DDDDDDDD -> ok 0101DDDD EE ; ok 6"),
        (1, 1, 1, "EE DD -> ok 01 - ; ok 3"),
        (0, 0, 1, "- DD -> ok DD - ; refused 12 0"),
        (2, 1, 2, "EE DDDD -> refused 13 0 DDDD EE"),
        (86, 0, 1, "- DD -> refused 9 0 DD -"),
    ] {
        let case = Case::Costliest {
            symbols,
            text: vec![0xEE; text],
            origins: vec![0xDD; origins],
        };
        assert_eq!(line(&case), format!("costliest {symbols} {written}"));
    }
}

#[test]
fn loads_by_hand() {
    let mut flags = FlagTable::all();
    let load = |marks: Vec<u8>| Case::Load { marks };
    let mut marks = vec![1; 140];
    marks[1] = 0;
    let table = format!("0100{}", "01".repeat(138));
    let case = load(marks.clone());
    let written = format!("load {table} -> ok {table}");
    assert_eq!(line::line(&case, &mut flags), written);
    marks.pop();
    let short = &table[..278];
    let written = format!("load {short} -> refused 16 0 {table}");
    assert_eq!(line::line(&load(marks), &mut flags), written);
    let written = format!("load - -> refused 16 0 {table}");
    assert_eq!(line::line(&load(Vec::new()), &mut flags), written);
    let written = format!("load - -> refused 16 0 {}", "01".repeat(140));
    assert_eq!(line(&load(Vec::new())), written);
}

#[test]
fn vectors_meet_every_refusal_and_accept() {
    let mut flags = FlagTable::all();
    let lines: Vec<String> = fixed()
        .iter()
        .chain(&random::cases(3, 400).collect::<Vec<_>>())
        .map(|case| line::line(case, &mut flags))
        .collect();
    assert_eq!(flags, FlagTable::all());
    for number in (1..=14).chain([16]) {
        let refused = format!(" refused {number} ");
        assert!(lines.iter().any(|line| line.contains(&refused)), "{number}");
    }
    let kinds = [
        "judge ",
        "lister ",
        "fresh ",
        "unpack ",
        "pack ",
        "load ",
        "read-out ",
        "costliest ",
        "find-indicators ",
        "calls ",
    ];
    for kind in kinds {
        let of_kind = lines.iter().filter(|line| line.starts_with(kind));
        let accepted = of_kind
            .clone()
            .filter(|line| line.contains(" -> ok"))
            .count();
        let listed = of_kind.clone().filter(|line| line.contains(",C ")).count();
        assert!(accepted + listed > 10, "{kind}");
        assert!(accepted + listed < of_kind.count(), "{kind}");
    }
    let mut of_kind = lines.iter().filter(|line| line.starts_with("characters "));
    assert!(of_kind.clone().count() > 10);
    let entries = table_by_hand().map(|entry| entry.to_string()).join(",");
    let written = format!(" -> ok {entries}");
    assert!(of_kind.all(|line| line.ends_with(&written)));
}

#[test]
fn lister_program() {
    assert_eq!(
        list(&fresh_buffer(50)),
        "1 1\n2 1900\n3 1\n6 0\n7 0\nC 240\nA 0\n"
    );
    assert_eq!(list(&[]), "R 1 0\n");
    let beyond = reference::cases::reports::beyond_the_lister(255);
    assert_eq!(list(&beyond), "R 1 15\n");
    let mut wrong = fresh_buffer(38);
    common::set_ck(&mut wrong, 0);
    assert_eq!(list(&wrong), "R 4 0\n");
}
