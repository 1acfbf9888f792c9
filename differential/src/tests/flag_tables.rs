//! What has to be found of the table of flags.

use reference::flag_table::{NO, YES};
use reference::judge::judge;

use super::altered::{self, Change};
use super::*;

/// All yes but for one mark.
fn without(flag: usize, value: u8) -> FlagTable {
    let mut table = FlagTable::all();
    table.mark(flag, value, NO);
    table
}

/// The report of attachment 9 and of flag 1 with a value.
fn report_with(value: u8) -> Vec<u8> {
    let mut row = [0; 14];
    row[0] = value;
    observation_with(&[(9, &[3]), (1, &flags::body_of(&row))]).packing()
}

fn set(flag: u64, value: i64) -> Call {
    Call::SetFlag { flag, value }
}

fn load(marks: &[u8]) -> Case {
    Case::Load {
        marks: marks.to_vec(),
    }
}

/// The name of a trial's call as in the tally.
fn name(given: &Given) -> &'static str {
    match given {
        Given::Whole(Case::Judge { .. }) => "judge",
        Given::Whole(Case::Unpack { .. }) => "unpack",
        Given::Whole(Case::Pack { .. }) => "pack",
        Given::Whole(Case::ReadOut { .. }) => "read out",
        Given::Whole(Case::FindIndicators { .. }) => "indicators",
        Given::Whole(_) | Given::AllFlags | Given::Forged { .. } | Given::List { .. } => "",
        Given::Script { .. } => "replay",
        Given::Call { call, .. } => match call {
            Call::ReadField { .. } => "read field",
            Call::SetField { .. } => "set field",
            Call::ClearField { .. } => "clear field",
            Call::ReadFlag { .. } => "read flag",
            Call::SetFlag { .. } => "set flag",
            Call::ClearFlag { .. } => "clear flag",
            Call::Put { .. } => "put",
            Call::Fetch { .. } => "fetch",
            Call::Drop { .. } => "drop",
            Call::PutText { .. } => "put text",
            Call::FetchText { .. } => "fetch text",
            Call::ClearWithIndicators { .. } => "clear with",
        },
    }
}

/// The change is found in each call that takes a table.
fn found_in_every_call(change: Change, shrunk: impl Fn(&FlagTable) -> bool) {
    altered::change(change);
    for (call, library) in altered::libraries() {
        let found = found(library);
        assert_eq!(name(&found.trial.given), call);
        assert!(shrunk(&found.trial.flags), "{call}: {}", found.trial);
    }
}

/// The marks that are not a yes.
fn noes(table: &FlagTable) -> Vec<u8> {
    let mut marks = table.marks().to_vec();
    marks.retain(|&mark| mark != YES);
    marks
}

#[test]
fn a_call_that_does_not_read_the_table_is_found() {
    let one_no = |table: &FlagTable| noes(table) == [NO];
    found_in_every_call(|flags| flags.marks = [[YES; 10]; 14], one_no);
}

#[test]
fn a_row_off_by_one_is_found() {
    let one_no = |table: &FlagTable| noes(table) == [NO];
    found_in_every_call(|flags| flags.marks.rotate_left(1), one_no);
    found_in_every_call(|flags| flags.marks.rotate_right(1), one_no);
}

#[test]
fn a_column_off_by_one_is_found() {
    let one_no = |table: &FlagTable| noes(table) == [NO];
    let whole_table: Change = |flags| flags.marks.as_flattened_mut().rotate_left(1);
    let row_by_row: Change = |flags| flags.marks.iter_mut().for_each(|row| row.rotate_right(1));
    found_in_every_call(whole_table, one_no);
    found_in_every_call(row_by_row, one_no);
}

/// Marks that no load gives.
#[test]
fn a_mark_other_than_1_that_is_taken_for_a_yes_is_found() {
    let one_other = |table: &FlagTable| noes(table).iter().filter(|&&mark| mark > YES).count() == 1;
    found_in_every_call(
        |flags| {
            for mark in flags.marks.as_flattened_mut() {
                *mark = (*mark).min(YES);
            }
        },
        one_other,
    );
    let lowest_bit = |table: &FlagTable| noes(table).iter().any(|&mark| mark > 1 && mark % 2 == 1);
    found_in_every_call(
        |flags| {
            for mark in flags.marks.as_flattened_mut() {
                *mark &= 1;
            }
        },
        lowest_bit,
    );
}

/// The flags of a report, if it is accepted where every flag is permitted.
unsafe fn flags_of(report: *const u8, n: usize) -> Option<Vec<u8>> {
    let report = unsafe { stand_in::input(report, n) };
    let report = judge(report, &FlagTable::all()).ok()?;
    let content = report.observation.content(1)?;
    Some(content[..14].to_vec())
}

/// A missing flag is taken for the first value of its row.
#[test]
fn a_missing_flag_that_is_refused_is_found() {
    unsafe extern "C" fn wrong(report: *const u8, n: usize, flags: *const Flags) -> Answer {
        let mut answer = unsafe { stand_in::judge(report, n, flags) };
        let row = unsafe { flags_of(report, n) }.unwrap_or_default();
        let marks = unsafe { (*flags).marks };
        let refused = row
            .iter()
            .zip(marks)
            .any(|(&flag, row)| flag == 0 && row[0] != YES);
        if answer.refusal == 0 && refused {
            answer = Answer {
                refusal: 6,
                place: 1,
                ..Answer::default()
            };
        }
        answer
    }
    let found = found(Library {
        judge: wrong,
        ..STAND_IN
    });
    assert_ne!(found.expected.said, found.got.said);
    assert_eq!(noes(&found.trial.flags), [NO]);
    let table = found.trial.flags;
    assert!((1..=14).any(|flag| table.forbidden(flag) == [1]));
}

#[test]
fn a_missing_flag_that_is_refused_in_a_put_is_found() {
    unsafe extern "C" fn wrong(
        report: *mut u8,
        n: usize,
        id: usize,
        content: *const u8,
        content_n: usize,
        flags: *const Flags,
    ) -> Answer {
        if id == 1 && content_n == 16 {
            let row = unsafe { std::slice::from_raw_parts(content, 14) };
            let marks = unsafe { (*flags).marks };
            if row
                .iter()
                .zip(marks)
                .any(|(&flag, row)| flag == 0 && row[9] != YES)
            {
                return Answer {
                    refusal: 14,
                    ..Answer::default()
                };
            }
        }
        unsafe { stand_in::put(report, n, id, content, content_n, flags) }
    }
    let found = found(Library {
        put: wrong,
        ..STAND_IN
    });
    assert_eq!(name(&found.trial.given), "put");
}

/// Flag 1 without attachment 1.
#[test]
fn an_absent_attachment_before_a_forbidden_value_is_found() {
    unsafe extern "C" fn wrong(
        report: *mut u8,
        n: usize,
        flag: usize,
        value: usize,
        flags: *const Flags,
    ) -> Answer {
        let mut answer = unsafe { stand_in::set_flag(report, n, flag, value, flags) };
        let held = unsafe { flags_of(report, n) };
        if answer.refusal == 9 && (1..=10).contains(&value) && held.is_none() {
            (answer.refusal, answer.place) = (11, 0);
        }
        answer
    }
    let found = found(Library {
        set_flag: wrong,
        ..STAND_IN
    });
    let Said::Answer(expected) = found.expected.said else {
        panic!("no answer: {}", found.trial);
    };
    assert_eq!(expected.refusal, 9);
    assert_eq!(noes(&found.trial.flags), [NO]);
}

/// The table is read for the first call of a script alone.
#[test]
fn a_script_under_two_tables_is_found() {
    unsafe extern "C" fn wrong(
        report: *mut u8,
        n: usize,
        script: *const u8,
        script_n: usize,
        log: *mut u8,
        log_n: usize,
        flags: *const Flags,
    ) -> Performed {
        let whole = unsafe { stand_in::input(script, script_n) };
        let first = first_call(whole).map_or(0, |(_, rest)| script_n - rest.len());
        let all = Flags {
            marks: [[YES; 10]; 14],
        };
        unsafe {
            let one = stand_in::replay(report, n, script, first, log, log_n, flags);
            if one.calls == 0 {
                return stand_in::replay(report, n, script, script_n, log, log_n, flags);
            }
            let (taken, written) = (one.taken as usize, one.written as usize);
            let rest = stand_in::replay(
                report,
                n,
                script.add(taken),
                script_n - taken,
                log.add(written),
                log_n - written,
                &all,
            );
            Performed {
                calls: 1 + rest.calls,
                taken: one.taken + rest.taken,
                written: one.written + rest.written,
            }
        }
    }
    let found = found(Library {
        replay: wrong,
        ..STAND_IN
    });
    let Given::Script { script, .. } = found.trial.given else {
        panic!("no script: {}", found.trial);
    };
    let (_, rest) = first_call(&script).expect("a call");
    let (_, rest) = first_call(rest).expect("a second call");
    assert_eq!(rest, []);
    assert_eq!(noes(&found.trial.flags), [NO]);
}

type Load = unsafe extern "C" fn(*const u8, usize, *mut Flags) -> Answer;

/// The first difference, which has to be in a load.
fn found_load(wrong: Load) -> (Difference, Vec<u8>) {
    let found = found(Library {
        load_flags: wrong,
        ..STAND_IN
    });
    let Given::Whole(Case::Load { marks }) = found.trial.given.clone() else {
        panic!("no load: {}", found.trial);
    };
    (found, marks)
}

/// Marks taken from a lent table as it is, whatever it holds.
unsafe fn take(marks: *const u8, flags: *mut Flags) {
    unsafe { marks.copy_to_nonoverlapping(flags.cast(), 140) };
}

#[test]
fn a_refused_table_that_replaces_the_former_one_is_found() {
    unsafe extern "C" fn wrong(marks: *const u8, n: usize, flags: *mut Flags) -> Answer {
        let answer = unsafe { stand_in::load_flags(marks, n, flags) };
        if answer.refusal != 0 && n == 140 {
            unsafe { take(marks, flags) };
        }
        answer
    }
    let (found, marks) = found_load(wrong);
    assert_eq!(found.expected.said, found.got.said);
    assert_eq!(differing(&found), ["flags"]);
    assert_eq!(marks.len(), 140);
}

/// The rows before the fault are taken.
#[test]
fn a_refused_table_that_is_taken_in_part_is_found() {
    unsafe extern "C" fn wrong(marks: *const u8, n: usize, flags: *mut Flags) -> Answer {
        let answer = unsafe { stand_in::load_flags(marks, n, flags) };
        if answer.refusal != 0 && n >= 10 {
            unsafe { (*flags).marks[0].copy_from_slice(std::slice::from_raw_parts(marks, 10)) };
        }
        answer
    }
    let (found, _) = found_load(wrong);
    assert_eq!(differing(&found), ["flags"]);
}

#[test]
fn a_refused_table_that_permits_every_flag_is_found() {
    unsafe extern "C" fn wrong(marks: *const u8, n: usize, flags: *mut Flags) -> Answer {
        let answer = unsafe { stand_in::load_flags(marks, n, flags) };
        if answer.refusal != 0 {
            unsafe { stand_in::all_flags(flags) };
        }
        answer
    }
    let (found, _) = found_load(wrong);
    assert_eq!(differing(&found), ["flags"]);
    assert_eq!(noes(&found.trial.flags), [NO]);
}

#[test]
fn an_accepted_table_that_is_not_in_force_is_found() {
    unsafe extern "C" fn wrong(marks: *const u8, n: usize, flags: *mut Flags) -> Answer {
        let former = unsafe { *flags };
        let answer = unsafe { stand_in::load_flags(marks, n, flags) };
        unsafe { *flags = former };
        answer
    }
    let (found, marks) = found_load(wrong);
    assert_eq!(differing(&found), ["flags"]);
    let lent = FlagTable::of(&marks.try_into().expect("a sound table"));
    assert_eq!(noes(&lent).len() + noes(&found.trial.flags).len(), 1);
}

/// The last row of a sound table is left as it was.
#[test]
fn a_row_that_is_not_loaded_is_found() {
    unsafe extern "C" fn wrong(marks: *const u8, n: usize, flags: *mut Flags) -> Answer {
        let former = unsafe { (*flags).marks[13] };
        let answer = unsafe { stand_in::load_flags(marks, n, flags) };
        unsafe { (*flags).marks[13] = former };
        answer
    }
    let (found, _) = found_load(wrong);
    assert_eq!(differing(&found), ["flags"]);
}

/// A length over 140 of which the first 140 marks are sound.
#[test]
fn a_longer_table_that_is_loaded_is_found() {
    unsafe extern "C" fn wrong(marks: *const u8, n: usize, flags: *mut Flags) -> Answer {
        unsafe { stand_in::load_flags(marks, n.min(140), flags) }
    }
    let (found, marks) = found_load(wrong);
    assert_ne!(found.expected.said, found.got.said);
    assert_eq!(marks.len(), 141);
}

#[test]
fn a_length_that_is_cut_to_8_bits_is_found() {
    unsafe extern "C" fn wrong(marks: *const u8, n: usize, flags: *mut Flags) -> Answer {
        unsafe { stand_in::load_flags(marks, n % 256, flags) }
    }
    let (found, marks) = found_load(wrong);
    assert_ne!(found.expected.said, found.got.said);
    assert_eq!(marks.len(), 140 + 256);
}

#[test]
fn a_shorter_table_that_is_loaded_is_found() {
    unsafe extern "C" fn wrong(marks: *const u8, n: usize, flags: *mut Flags) -> Answer {
        let mut whole = vec![YES; 140];
        if n == 139 {
            unsafe { marks.copy_to_nonoverlapping(whole.as_mut_ptr(), n) };
            return unsafe { stand_in::load_flags(whole.as_ptr(), 140, flags) };
        }
        unsafe { stand_in::load_flags(marks, n, flags) }
    }
    let (_, marks) = found_load(wrong);
    assert_eq!(marks.len(), 139);
}

/// A library that loads a table with one kind of fault.
unsafe fn load_but(marks: *const u8, n: usize, flags: *mut Flags, mend: fn(&mut [u8])) -> Answer {
    let answer = unsafe { stand_in::load_flags(marks, n, flags) };
    if answer.refusal == 0 || n != 140 {
        return answer;
    }
    let mut mended = unsafe { std::slice::from_raw_parts(marks, n) }.to_vec();
    mend(&mut mended);
    let answer = unsafe { stand_in::load_flags(mended.as_ptr(), n, flags) };
    if answer.refusal == 0 {
        unsafe { take(marks, flags) };
    }
    answer
}

#[test]
fn a_table_with_another_byte_that_is_loaded_is_found() {
    unsafe extern "C" fn wrong(marks: *const u8, n: usize, flags: *mut Flags) -> Answer {
        let mend = |marks: &mut [u8]| {
            for mark in marks {
                *mark = (*mark).min(YES);
            }
        };
        unsafe { load_but(marks, n, flags, mend) }
    }
    let (_, marks) = found_load(wrong);
    assert_eq!(marks.iter().filter(|&&mark| mark > YES).count(), 1);
}

/// The highest bit of a mark is not looked at.
#[test]
fn a_table_with_a_rare_byte_that_is_loaded_is_found() {
    unsafe extern "C" fn wrong(marks: *const u8, n: usize, flags: *mut Flags) -> Answer {
        let mend = |marks: &mut [u8]| {
            for mark in marks {
                *mark &= 127;
            }
        };
        unsafe { load_but(marks, n, flags, mend) }
    }
    let (_, marks) = found_load(wrong);
    assert!(marks.iter().any(|&mark| mark >= 128));
}

#[test]
fn a_table_with_an_empty_row_that_is_loaded_is_found() {
    unsafe extern "C" fn wrong(marks: *const u8, n: usize, flags: *mut Flags) -> Answer {
        let mend = |marks: &mut [u8]| {
            for row in marks.chunks_mut(10) {
                if row.iter().all(|&mark| mark == NO) {
                    row[0] = YES;
                }
            }
        };
        unsafe { load_but(marks, n, flags, mend) }
    }
    let (_, marks) = found_load(wrong);
    let mut empty = marks
        .chunks(10)
        .filter(|row| row.iter().all(|&mark| mark == NO));
    assert!(empty.next().is_some());
    assert_eq!(marks.iter().filter(|&&mark| mark == NO).count(), 10);
}

/// The first row, or the last one, is not looked at.
#[test]
fn an_empty_row_at_an_end_is_found() {
    unsafe extern "C" fn first(marks: *const u8, n: usize, flags: *mut Flags) -> Answer {
        unsafe { load_but(marks, n, flags, |marks| mend_row(&mut marks[..10])) }
    }
    unsafe extern "C" fn last(marks: *const u8, n: usize, flags: *mut Flags) -> Answer {
        unsafe { load_but(marks, n, flags, |marks| mend_row(&mut marks[130..])) }
    }
    fn mend_row(row: &mut [u8]) {
        if row == [NO; 10] {
            row[0] = YES;
        }
    }
    let (_, marks) = found_load(first);
    assert_eq!(marks[..10], [NO; 10]);
    let (_, marks) = found_load(last);
    assert_eq!(marks[130..], [NO; 10]);
}

/// Ten noes in turn are refused although each row has a yes.
#[test]
fn noes_that_are_no_row_are_tried() {
    unsafe extern "C" fn wrong(marks: *const u8, n: usize, flags: *mut Flags) -> Answer {
        let former = unsafe { *flags };
        let answer = unsafe { stand_in::load_flags(marks, n, flags) };
        if answer.refusal == 0 {
            let marks = unsafe { std::slice::from_raw_parts(marks, n) };
            if marks.windows(10).any(|marks| marks == [NO; 10]) {
                unsafe { *flags = former };
                return Answer {
                    refusal: 16,
                    ..Answer::default()
                };
            }
        }
        answer
    }
    let (found, _) = found_load(wrong);
    assert_ne!(found.expected.said, found.got.said);
}

#[test]
fn a_place_of_a_refused_table_is_found() {
    unsafe extern "C" fn wrong(marks: *const u8, n: usize, flags: *mut Flags) -> Answer {
        let mut answer = unsafe { stand_in::load_flags(marks, n, flags) };
        answer.place = answer.refusal.into();
        answer
    }
    let (found, _) = found_load(wrong);
    assert_eq!(differing(&found), [""; 0]);
}

#[test]
fn a_mark_that_all_flags_leaves_is_found() {
    unsafe extern "C" fn wrong(flags: *mut Flags) {
        let last = unsafe { (*flags).marks[13][9] };
        unsafe {
            stand_in::all_flags(flags);
            (*flags).marks[13][9] = last;
        }
    }
    let found = found(Library {
        all_flags: wrong,
        ..STAND_IN
    });
    assert_eq!(found.trial, Given::AllFlags.under(without(14, 10)));
    assert_eq!(differing(&found), ["flags"]);
    let shown = found.trial.to_string();
    let marks = format!("{}00", "01".repeat(139));
    assert_eq!(shown, format!("flags {marks} ; all-flags"));
}

#[test]
fn a_byte_before_the_flags_is_found() {
    unsafe extern "C" fn wrong(flags: *mut Flags) {
        unsafe {
            stand_in::all_flags(flags);
            flags.cast::<u8>().sub(1).write(0);
        }
    }
    let found = found(Library {
        all_flags: wrong,
        ..STAND_IN
    });
    assert_eq!(found.trial, Given::AllFlags.under(FlagTable::all()));
    assert_eq!(found.trial.to_string(), "all-flags");
    let shown = found.got.against(&found.expected);
    assert!(shown.contains("before flags"), "{shown}");
}

/// Answers and bytes worked out by hand.
#[test]
fn loads_have_the_header_s_form() {
    let former = without(1, 2);
    let mut marks = [1; 140];
    marks[139] = 0;
    let mut former_marks = [1; 140];
    former_marks[1] = 0;
    let mut harness = Harness::new(STAND_IN);
    for (lent, refusal, after) in [
        (&marks[..], 0, marks),
        (&marks[..139], 16, former_marks),
        (&[], 16, former_marks),
        (&[1; 140], 0, [1; 140]),
    ] {
        let answer = Answer {
            refusal,
            ..Answer::default()
        };
        let case = load(lent);
        for outcome in [
            expected::whole(&case, &former),
            harness.whole(&case, &former),
        ] {
            assert_eq!(outcome.said, Said::Answer(answer));
            assert_eq!(outcome.buffer("marks"), Some(&state_of(lent)[..]));
            assert_eq!(outcome.buffer("flags"), Some(&state_of(&after)[..]));
        }
    }
    for outcome in [expected::all_flags(), harness.all_flags(&former)] {
        assert_eq!(outcome.said, Said::Nothing);
        assert_eq!(outcome.buffer("flags"), Some(&state_of(&[1; 140])[..]));
    }
}

/// The tally's lines of the refusals by the table of flags.
fn by_flags(tally: &Tally) -> Vec<String> {
    let shown = tally.to_string();
    let lines = shown
        .lines()
        .skip_while(|line| !line.starts_with("by flags"));
    let section = lines.take_while(|line| !line.starts_with("CK written"));
    section.map(String::from).collect()
}

/// Only what is answered otherwise where every flag is permitted is counted.
#[test]
fn refusals_by_the_table_are_counted() {
    let mut bad_code = report_with(1);
    *bad_code.last_mut().expect("a report has bytes") ^= 0x07;
    let judge = |report: Vec<u8>| Given::Whole(Case::Judge { report });
    let call = |buffer: Vec<u8>, call| Given::Call { buffer, call };
    let mut content = vec![0; 16];
    let bare = observation_with(&[]).packing();
    content[0] = 2;
    content[15] = 2;
    let put = |content: &[u8]| Call::Put {
        id: 1,
        content: content.to_vec(),
    };
    let mut tally = Tally::default();
    let mut harness = Harness::new(STAND_IN);
    for given in [
        judge(report_with(2)),
        judge(report_with(2)),
        judge(report_with(1)),
        judge(bad_code),
        call(report_with(2), Call::ReadField { field: 1 }),
        call(report_with(1), set(1, 2)),
        call(report_with(1), set(1, 11)),
        call(report_with(1), set(1, 3)),
        call(bare.clone(), set(1, 2)),
        call(bare.clone(), put(&content)),
        call(bare, put(&content[..15])),
    ] {
        for table in [without(1, 2), FlagTable::all()] {
            let trial = given.clone().under(table);
            assert!(compare(&mut harness, &mut tally, &trial).is_none());
        }
    }
    let lines = by_flags(&tally);
    assert_eq!(
        lines,
        [
            "by flags            6        9       14",
            "judge               2        -        -",
            "unpack              0        -        -",
            "pack                0        -        -",
            "read field          1        -        -",
            "set field           0        -        -",
            "clear field         0        -        -",
            "read flag           0        -        -",
            "set flag            0        2        -",
            "clear flag          0        -        -",
            "put                 0        -        1",
            "fetch               0        -        -",
            "drop                0        -        -",
            "put text            0        -        -",
            "fetch text          0        -        -",
            "read out            0        -        -",
            "clear with          0        -        -",
            "indicators          0        -        -",
        ]
    );
    let unseen = tally.unseen();
    for name in ["unpack", "pack", "set field", "put", "fetch text"] {
        let line = format!("{name}, refusal 6 by the table of flags");
        assert!(unseen.contains(&line), "{line}");
    }
    for name in ["judge", "read field"] {
        let line = format!("{name}, refusal 6 by the table of flags");
        assert!(!unseen.contains(&line), "{line}");
    }
    assert!(!unseen.contains(&"set flag, refusal 9 by the table of flags".into()));
    assert!(!unseen.contains(&"put, refusal 14 by the table of flags".into()));
}

/// Every case with every flag permitted, and no load, meets nothing of this.
#[test]
fn a_table_never_met_fails_a_whole_run() {
    let mut tally = Tally::default();
    let mut harness = Harness::new(STAND_IN);
    for trial in (0..CASES).flat_map(|case| trials(SEED, case)) {
        if !matches!(trial.given, Given::Whole(Case::Load { .. })) {
            let plain = trial.given.under(FlagTable::all());
            assert!(compare(&mut harness, &mut tally, &plain).is_none());
        }
    }
    let unseen = tally.unseen();
    let mut due = vec![
        "load, refusal 0 (0 is accepted)".to_string(),
        "load, refusal 16 (0 is accepted)".into(),
    ];
    let judging = [
        "judge",
        "unpack",
        "pack",
        "read field",
        "set field",
        "clear field",
        "read flag",
        "set flag",
        "clear flag",
        "put",
        "fetch",
        "drop",
        "put text",
        "fetch text",
        "read out",
        "clear with",
        "indicators",
    ];
    for name in judging {
        due.push(format!("{name}, refusal 6 by the table of flags"));
        match name {
            "set flag" => due.push("set flag, refusal 9 by the table of flags".into()),
            "put" => due.push("put, refusal 14 by the table of flags".into()),
            _ => {}
        }
    }
    due.push("replay, a refusal by the table of flags".into());
    assert_eq!(unseen, due);
    assert!(!tally.passes(DEFAULT_CALLS));
    assert!(tally.passes(DEFAULT_CALLS - 1));
}

#[test]
fn fences_stop_a_call_at_the_flags() {
    assert_stopped("flag_tables::write_to_the_flags");
    assert_stopped("flag_tables::read_past_the_flags");
    assert_stopped("flag_tables::write_past_a_loaded_table");
    assert_stopped("flag_tables::read_past_the_lent_marks");
}

#[test]
#[ignore = "dies; run by fences_stop_a_call_at_the_flags"]
fn write_to_the_flags() {
    unsafe extern "C" fn wrong(report: *const u8, n: usize, flags: *const Flags) -> Answer {
        unsafe {
            flags.cast_mut().cast::<u8>().write_volatile(1);
            stand_in::judge(report, n, flags)
        }
    }
    watched();
    let mut harness = Harness::new(Library {
        judge: wrong,
        ..STAND_IN
    });
    let report = report_with(1);
    harness.whole(&Case::Judge { report }, &FlagTable::all());
}

#[test]
#[ignore = "dies; run by fences_stop_a_call_at_the_flags"]
fn read_past_the_flags() {
    unsafe extern "C" fn wrong(report: *const u8, n: usize, flags: *const Flags) -> Answer {
        unsafe {
            std::hint::black_box(flags.cast::<u8>().add(140).read_volatile());
            stand_in::judge(report, n, flags)
        }
    }
    watched();
    let mut harness = Harness::new(Library {
        judge: wrong,
        ..STAND_IN
    });
    let report = report_with(1);
    harness.whole(&Case::Judge { report }, &FlagTable::all());
}

#[test]
#[ignore = "dies; run by fences_stop_a_call_at_the_flags"]
fn write_past_a_loaded_table() {
    unsafe extern "C" fn wrong(marks: *const u8, n: usize, flags: *mut Flags) -> Answer {
        unsafe {
            flags.cast::<u8>().add(140).write_volatile(0);
            stand_in::load_flags(marks, n, flags)
        }
    }
    watched();
    let mut harness = Harness::new(Library {
        load_flags: wrong,
        ..STAND_IN
    });
    harness.whole(&load(&[1; 140]), &FlagTable::all());
}

#[test]
#[ignore = "dies; run by fences_stop_a_call_at_the_flags"]
fn read_past_the_lent_marks() {
    unsafe extern "C" fn wrong(marks: *const u8, n: usize, flags: *mut Flags) -> Answer {
        unsafe {
            std::hint::black_box(marks.add(n).read_volatile());
            stand_in::load_flags(marks, n, flags)
        }
    }
    watched();
    let mut harness = Harness::new(Library {
        load_flags: wrong,
        ..STAND_IN
    });
    harness.whole(&load(&[1; 139]), &FlagTable::all());
}
