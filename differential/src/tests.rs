//! The harness finds what it is there to find. No library is needed.

mod altered;
mod costliest;
mod flag_tables;
mod former;
mod indicators;
mod texts;

use std::process::{Command, Output};

use reference::call::Call;
use reference::cases::Case;
use reference::cases::material::{observation_with, values_and_word};
use reference::flag_table::FlagTable;
use reference::flags;
use reference::gate::log::{FRONT, HEAD};
use reference::gate::script::first_call;
use reference::gate::sizes::{observation_of_sum, required_of_sum};
use reference::text::Table;

use crate::compare::{Difference, compare};
use crate::draw::trials;
use crate::expected::{self, Said};
use crate::fault;
use crate::fence::{Fenced, MARKED, state_of};
use crate::harness::Harness;
use crate::library::{Answer, Flags, Library, Performed};
use crate::shrink::shrink;
use crate::stand_in::{self, STAND_IN};
use crate::tally::{DEFAULT_CALLS, Tally};
use crate::trial::Given;

const SEED: u64 = 7;

/// The cases of a test.
const CASES: u64 = 12_000;

/// The first difference, made smaller.
fn first_difference(library: Library, tally: &mut Tally) -> Option<Difference> {
    first_difference_in(CASES, library, tally)
}

fn first_difference_in(cases: u64, library: Library, tally: &mut Tally) -> Option<Difference> {
    let mut harness = Harness::new(library);
    for case in 0..cases {
        harness.null = case % 2 == 0;
        for trial in trials(SEED, case) {
            if let Some(found) = compare(&mut harness, tally, &trial) {
                return Some(shrink(&mut harness, found));
            }
        }
    }
    None
}

fn found(library: Library) -> Difference {
    first_difference(library, &mut Tally::default()).expect("the difference is found")
}

/// The names of the buffers that differ.
fn differing(found: &Difference) -> Vec<&'static str> {
    let pairs = found.expected.buffers.iter().zip(&found.got.buffers);
    let differing = pairs.filter(|(expected, got)| expected != got);
    differing.map(|((name, _), _)| *name).collect()
}

#[test]
fn a_right_library_passes_and_meets_every_refusal() {
    let mut tally = Tally::default();
    assert!(first_difference(STAND_IN, &mut tally).is_none());
    assert_eq!(tally.unseen(), [""; 0]);
}

/// The sum is 255 after fresh and 254 after pack, then 255, 256 and 254; the last
/// set is refused.
#[test]
fn checksums_at_an_edge_are_counted() {
    let observation = observation_of_sum(254);
    let (values, word) = values_and_word(&observation, 0);
    let set = |value| Call::SetField { field: 46, value };
    let (mut tally, mut harness) = (Tally::default(), Harness::new(STAND_IN));
    for given in [
        Given::Whole(Case::Fresh {
            required: required_of_sum(255),
            output: vec![0; 40],
        }),
        Given::Whole(Case::Pack {
            values,
            word,
            rptin: 0,
            tail: Vec::new(),
            output: vec![0; 38],
        }),
        Given::List {
            buffer: observation.packing(),
            calls: vec![set(0), set(1), Call::ClearField { field: 46 }, set(2)],
        },
    ] {
        let trial = given.under(FlagTable::all());
        assert!(compare(&mut harness, &mut tally, &trial).is_none());
    }
    let shown = tally.to_string();
    for line in [
        "CK written        254        0        1",
        "fresh               0        1        0",
        "pack                1        0        0",
        "set field           0        1        1",
        "clear field         1        0        0",
    ] {
        assert!(shown.lines().any(|shown| shown == line), "{shown}");
    }
}

#[test]
fn a_case_is_the_same_each_time() {
    for case in 0..200 {
        assert_eq!(trials(SEED, case), trials(SEED, case));
    }
    assert_ne!(trials(SEED, 1), trials(SEED, 2));
    assert_ne!(trials(SEED, 1), trials(SEED + 1, 1));
}

/// Labels and numbers worked out by hand.
#[test]
fn answers_have_the_header_s_form() {
    let flags = flags::body_of(&[0, 10, 0, 0, 0, 0, 0, 0, 0, 0, 0, 0, 0, 0]);
    let observation = observation_with(&[(1, &flags), (4, &[1, 1])]);
    let report = observation.packing();
    let (values, word) = values_and_word(&observation, 0);
    let size = report.len() as i64;
    let answer = |given, first| Answer {
        given,
        first,
        ..Answer::default()
    };
    let refused = |refusal, place| Answer {
        refusal,
        place,
        ..Answer::default()
    };
    let with_set_and_nibbles = Answer {
        given: 3 + 256 * 10 + 65536 * 9,
        first: 2,
        second: 0,
        third: 2,
        ..Answer::default()
    };
    let (mut harness, all) = (Harness::new(STAND_IN), FlagTable::all());
    for (case, answer) in [
        (
            Case::Judge {
                report: report.clone(),
            },
            answer(8, size),
        ),
        (
            Case::Fresh {
                required: [1, 1900, 1, 0, 0],
                output: vec![0; 38],
            },
            answer(0, 0),
        ),
        (
            Case::Unpack {
                report: report.clone(),
                values: vec![0; 46],
                tail: vec![0; 40],
            },
            answer(0, 0),
        ),
        (
            Case::Pack {
                values,
                word,
                rptin: 0,
                tail: Vec::new(),
                output: vec![0; 40],
            },
            answer(8, 38),
        ),
        (Case::Judge { report: Vec::new() }, refused(1, 0)),
    ] {
        assert_eq!(expected::whole(&case, &all).said, Said::Answer(answer));
        assert_eq!(harness.whole(&case, &all).said, Said::Answer(answer));
    }
    let output = || vec![0; 16];
    let set_field = |field, value| Call::SetField { field, value };
    for (call, answer) in [
        (Call::ReadField { field: 2 }, answer(1, 1900)),
        (Call::ReadField { field: 4 }, answer(129, 0)),
        (Call::ReadFlag { flag: 2 }, answer(2, 10)),
        (Call::ReadFlag { flag: 3 }, answer(130, 0)),
        (
            Call::Fetch {
                id: 1,
                output: output(),
            },
            answer(3, 16),
        ),
        (
            Call::FetchText {
                text: output(),
                origins: output(),
            },
            with_set_and_nibbles,
        ),
        (
            Call::PutText {
                text: b"9   ".to_vec(),
                origins: vec![0; 4],
            },
            answer(9, 1),
        ),
        (
            Call::Put {
                id: 4,
                content: vec![9],
            },
            answer(0, 0),
        ),
        (Call::SetFlag { flag: 2, value: 1 }, answer(2, 10)),
        (Call::SetFlag { flag: 3, value: 1 }, answer(130, 0)),
        (Call::SetFlag { flag: 2, value: 11 }, refused(9, 2)),
        (Call::ClearFlag { flag: 2 }, answer(2, 10)),
        (Call::ClearFlag { flag: 3 }, answer(130, 0)),
        (set_field(2, 1901), answer(1, 1900)),
        (set_field(4, 31), answer(129, 0)),
        (set_field(6, 3599), answer(1, 0)),
        (set_field(2, 1799), refused(9, 2)),
        (Call::ClearField { field: 4 }, answer(129, 0)),
        (Call::ClearWithIndicators { field: 4 }, answer(129, 0)),
        (Call::Drop { id: 4 }, answer(0, 0)),
        (Call::ReadField { field: 47 }, refused(8, 0)),
        (Call::ClearField { field: 3 }, refused(10, 3)),
        (Call::ClearWithIndicators { field: 47 }, refused(8, 0)),
        (Call::ClearWithIndicators { field: 3 }, refused(10, 3)),
    ] {
        let due = expected::call(&call, &mut report.clone(), &all).said;
        assert_eq!(due, Said::Answer(answer), "{call:?}");
        let got = harness.call(&call, &report, &all).said;
        assert_eq!(got, Said::Answer(answer), "{call:?}");
    }
}

/// Entries worked out by hand, in the machine's order of bytes.
#[test]
fn a_table_has_the_header_s_form() {
    let case = characters([0x5AA5; 256]);
    let mut harness = Harness::new(STAND_IN);
    let all = FlagTable::all();
    for outcome in [expected::whole(&case, &all), harness.whole(&case, &all)] {
        assert_eq!(outcome.said, Said::Nothing);
        let (name, state) = &outcome.buffers[0];
        let entries = &state[MARKED..];
        assert_eq!((*name, entries.len()), ("table", 512));
        for (byte, entry) in [
            (0, 0x3F00_u16),
            (b' ', 0x100A),
            (b'0', 0x1000),
            (b'A', 0x20C1),
            (b'a', 0x3F61),
            (255, 0x3FFF),
        ] {
            let at = 2 * usize::from(byte);
            assert_eq!(entries[at..at + 2], entry.to_ne_bytes(), "{byte}");
        }
    }
}

fn characters(table: Table) -> Case {
    Case::Characters {
        table: Box::new(table),
    }
}

/// As many calls, and as many accepted, as were drawn among the others.
#[test]
fn characters_are_counted() {
    let mut tally = Tally::default();
    let mut harness = Harness::new(STAND_IN);
    let mut drawn = 0;
    for trial in (0..1000).flat_map(|case| trials(SEED, case)) {
        let is_table = matches!(trial.given, Given::Whole(Case::Characters { .. }));
        drawn += usize::from(is_table);
        assert!(compare(&mut harness, &mut tally, &trial).is_none());
    }
    assert!(drawn > 20, "{drawn}");
    let line = format!("characters  {drawn:>9}{drawn:>9}{}", "       -".repeat(15));
    let shown = tally.to_string();
    assert!(shown.lines().any(|shown| shown == line), "{shown}");
}

#[test]
fn a_wrong_entry_is_found() {
    unsafe extern "C" fn wrong(table: *mut u16) {
        unsafe {
            stand_in::character_table(table);
            *table.add(0xF7) = 0x3FF8;
        }
    }
    let found = found(Library {
        character_table: wrong,
        ..STAND_IN
    });
    assert_eq!(differing(&found), ["table"]);
    assert_eq!(found.trial.given, Given::Whole(characters([0; 256])));
}

#[test]
fn an_entry_left_unwritten_is_found() {
    unsafe extern "C" fn wrong(table: *mut u16) {
        unsafe {
            let last = *table.add(255);
            stand_in::character_table(table);
            *table.add(255) = last;
        }
    }
    let found = found(Library {
        character_table: wrong,
        ..STAND_IN
    });
    assert_eq!(differing(&found), ["table"]);
    assert_eq!(found.trial.given, Given::Whole(characters([0; 256])));
}

/// An entry with a bit that stood there; the array is made smaller to that entry.
#[test]
fn an_entry_that_is_not_written_whole_is_found() {
    unsafe extern "C" fn wrong(table: *mut u16) {
        unsafe {
            let former = *table.add(b'&'.into());
            stand_in::character_table(table);
            *table.add(b'&'.into()) |= former & 0x8000;
        }
    }
    let found = found(Library {
        character_table: wrong,
        ..STAND_IN
    });
    assert_eq!(differing(&found), ["table"]);
    let Given::Whole(Case::Characters { table }) = found.trial.given else {
        panic!("no table: {}", found.trial);
    };
    let held = table.iter().enumerate().filter(|(_, entry)| **entry != 0);
    assert_eq!(held.map(|(at, _)| at).collect::<Vec<_>>(), [b'&'.into()]);
}

#[test]
fn an_entry_before_the_table_is_found() {
    unsafe extern "C" fn wrong(table: *mut u16) {
        unsafe {
            stand_in::character_table(table);
            *table.sub(1) = 0;
        }
    }
    let found = found(Library {
        character_table: wrong,
        ..STAND_IN
    });
    assert_eq!(differing(&found), ["table"]);
    assert_eq!(found.trial.given, Given::Whole(characters([0; 256])));
    let (expected, got) = (&found.expected.buffers[0].1, &found.got.buffers[0].1);
    assert_eq!(expected[MARKED..], got[MARKED..]);
    let shown = found.got.against(&found.expected);
    assert!(shown.contains("before table"), "{shown}");
}

#[test]
fn a_wrong_label_is_found() {
    unsafe extern "C" fn wrong(
        report: *const u8,
        n: usize,
        flag: usize,
        flags: *const Flags,
    ) -> Answer {
        let mut answer = unsafe { stand_in::read_flag(report, n, flag, flags) };
        if answer.given == 130 {
            answer.given = 129;
        }
        answer
    }
    let found = found(Library {
        read_flag: wrong,
        ..STAND_IN
    });
    assert_ne!(found.expected.said, found.got.said);
    assert_eq!(differing(&found), [""; 0]);
}

#[test]
fn a_number_that_is_not_given_is_found() {
    unsafe extern "C" fn wrong(report: *const u8, n: usize, flags: *const Flags) -> Answer {
        let mut answer = unsafe { stand_in::judge(report, n, flags) };
        if answer.refusal == 0 {
            answer.third = 1;
        }
        answer
    }
    let found = found(Library {
        judge: wrong,
        ..STAND_IN
    });
    assert_ne!(found.expected.said, found.got.said);
}

#[test]
fn a_wrong_label_in_the_log_is_found() {
    unsafe extern "C" fn wrong(
        report: *mut u8,
        n: usize,
        script: *const u8,
        script_n: usize,
        log: *mut u8,
        log_n: usize,
        flags: *const Flags,
    ) -> Performed {
        let performed = unsafe { stand_in::replay(report, n, script, script_n, log, log_n, flags) };
        if performed.calls > 0 {
            let label = unsafe { &mut *log.add(HEAD) };
            if unsafe { *script } == 4 && *label == 2 {
                *label = 1;
            }
        }
        performed
    }
    let found = found(Library {
        replay: wrong,
        ..STAND_IN
    });
    assert_eq!(differing(&found), ["log"]);
    let Given::Script { script, log, .. } = found.trial.given else {
        panic!("no script: {}", found.trial);
    };
    let (call, rest) = first_call(&script).expect("a call");
    assert!(matches!(call, Call::ReadFlag { .. }));
    assert_eq!((rest.len(), log.len()), (0, 37));
}

/// The row's bytes are 0 where there is no number.
#[test]
fn a_byte_of_a_number_that_is_not_in_the_log_is_found() {
    unsafe extern "C" fn wrong(
        report: *mut u8,
        n: usize,
        script: *const u8,
        script_n: usize,
        log: *mut u8,
        log_n: usize,
        flags: *const Flags,
    ) -> Performed {
        let performed = unsafe { stand_in::replay(report, n, script, script_n, log, log_n, flags) };
        if performed.calls > 0 {
            unsafe { *log.add(FRONT - 1) ^= 1 };
        }
        performed
    }
    let found = found(Library {
        replay: wrong,
        ..STAND_IN
    });
    assert_eq!(differing(&found), ["log"]);
    assert!(matches!(found.trial.given, Given::Script { log, .. } if log.len() == 37));
}

/// A record is not begun where only its head and a part of its row fit.
#[test]
fn a_log_that_ends_in_a_row_is_tried() {
    unsafe extern "C" fn wrong(
        report: *mut u8,
        n: usize,
        script: *const u8,
        script_n: usize,
        log: *mut u8,
        log_n: usize,
        flags: *const Flags,
    ) -> Performed {
        let performed = unsafe { stand_in::replay(report, n, script, script_n, log, log_n, flags) };
        let (taken, left) = (performed.taken as usize, log_n - performed.written as usize);
        let field_read = taken < script_n && unsafe { *script.add(taken) } == 1;
        if field_read && (HEAD + 1..FRONT).contains(&left) {
            unsafe { *log.add(log_n - 1) ^= 1 };
        }
        performed
    }
    let found = found(Library {
        replay: wrong,
        ..STAND_IN
    });
    assert_eq!(differing(&found), ["log"]);
}

/// Nor where only a part of its output fits.
#[test]
fn a_log_that_ends_in_an_output_is_tried() {
    unsafe extern "C" fn wrong(
        report: *mut u8,
        n: usize,
        script: *const u8,
        script_n: usize,
        log: *mut u8,
        log_n: usize,
        flags: *const Flags,
    ) -> Performed {
        let performed = unsafe { stand_in::replay(report, n, script, script_n, log, log_n, flags) };
        let (taken, left) = (performed.taken as usize, log_n - performed.written as usize);
        let text_fetched = taken < script_n && unsafe { *script.add(taken) } == 11;
        if text_fetched && left > FRONT {
            unsafe { *log.add(log_n - 1) ^= 1 };
        }
        performed
    }
    let found = found(Library {
        replay: wrong,
        ..STAND_IN
    });
    assert_eq!(differing(&found), ["log"]);
}

#[test]
fn a_wrong_answer_is_found() {
    unsafe extern "C" fn wrong(
        report: *mut u8,
        n: usize,
        flag: usize,
        value: usize,
        flags: *const Flags,
    ) -> Answer {
        let mut answer = unsafe { stand_in::set_flag(report, n, flag, value, flags) };
        if answer.refusal == 9 {
            answer.place = 0;
        }
        answer
    }
    let found = found(Library {
        set_flag: wrong,
        ..STAND_IN
    });
    assert_ne!(found.expected.said, found.got.said);
    assert_eq!(differing(&found), [""; 0]);
}

#[test]
fn a_refused_call_that_writes_is_found_and_made_one_call() {
    unsafe extern "C" fn wrong(
        report: *mut u8,
        n: usize,
        id: usize,
        content: *const u8,
        content_n: usize,
        flags: *const Flags,
    ) -> Answer {
        let answer = unsafe { stand_in::put(report, n, id, content, content_n, flags) };
        if answer.refusal == 13 {
            unsafe { *report.add(n - 1) ^= 1 };
        }
        answer
    }
    let found = found(Library {
        put: wrong,
        ..STAND_IN
    });
    assert!(matches!(found.trial.given, Given::Call { .. }));
    assert_eq!(found.expected.said, found.got.said);
    assert_eq!(differing(&found), ["report"]);
}

#[test]
fn a_byte_behind_the_report_is_found() {
    unsafe extern "C" fn wrong(
        report: *mut u8,
        n: usize,
        id: usize,
        flags: *const Flags,
    ) -> Answer {
        let size = unsafe { stand_in::judge(report, n, flags) }.first as usize;
        let answer = unsafe { stand_in::drop(report, n, id, flags) };
        if answer.refusal == 0 && size < n {
            unsafe { *report.add(size) = 0 };
        }
        answer
    }
    let found = found(Library {
        drop: wrong,
        ..STAND_IN
    });
    assert_eq!(differing(&found), ["report"]);
}

#[test]
fn a_byte_before_an_output_is_found() {
    unsafe extern "C" fn wrong(
        report: *const u8,
        n: usize,
        id: usize,
        out: *mut u8,
        out_n: usize,
        flags: *const Flags,
    ) -> Answer {
        if out_n == 16 {
            unsafe { *out.sub(1) = 0 };
        }
        unsafe { stand_in::fetch(report, n, id, out, out_n, flags) }
    }
    let found = found(Library {
        fetch: wrong,
        ..STAND_IN
    });
    assert_eq!(differing(&found), ["output"]);
}

#[test]
fn a_byte_behind_the_log_s_end_is_found() {
    unsafe extern "C" fn wrong(
        report: *mut u8,
        n: usize,
        script: *const u8,
        script_n: usize,
        log: *mut u8,
        log_n: usize,
        flags: *const Flags,
    ) -> Performed {
        let performed = unsafe { stand_in::replay(report, n, script, script_n, log, log_n, flags) };
        let end = performed.written as usize;
        if end < log_n {
            unsafe { *log.add(end) ^= 0x80 };
        }
        performed
    }
    let found = found(Library {
        replay: wrong,
        ..STAND_IN
    });
    assert_eq!(differing(&found), ["log"]);
    assert!(matches!(found.trial.given, Given::Script { log, .. } if log.len() == 1));
}

#[test]
fn bytes_before_a_buffer_are_part_of_its_state() {
    let mut given = Fenced::writable(100);
    let at = given.hold(&[1, 2, 3]);
    assert_eq!(given.state(), state_of(&[1, 2, 3]));
    unsafe { *at.sub(64) ^= 1 };
    assert_ne!(given.state(), state_of(&[1, 2, 3]));
}

/// Runs a test that is to die in a process of its own.
fn in_a_child(name: &str) -> Output {
    let own = std::env::current_exe().expect("the tests know their file");
    let child = Command::new(own)
        .args(["--ignored", "--exact", &format!("tests::{name}")])
        .output();
    child.expect("the tests run again")
}

fn assert_stopped(name: &str) {
    let output = in_a_child(name);
    let said = String::from_utf8_lossy(&output.stderr);
    assert_eq!(output.status.code(), Some(1), "{said}");
    assert!(said.contains("signal 11 "), "{said}");
    assert!(said.contains("make differential SEED=7 ONLY=42"), "{said}");
}

fn watched() {
    fault::watch(SEED);
    fault::enter(42);
}

#[test]
fn fences_stop_a_call() {
    assert_stopped("read_past_an_input");
    assert_stopped("write_past_a_buffer");
    assert_stopped("write_to_an_input");
    assert_stopped("read_of_an_empty_buffer");
    assert_stopped("write_past_the_table");
}

#[test]
#[ignore = "dies; run by fences_stop_a_call"]
fn read_past_an_input() {
    watched();
    let mut given = Fenced::read_only(100);
    let at = given.hold(&[1, 2, 3]);
    std::hint::black_box(unsafe { at.add(3).read_volatile() });
}

#[test]
#[ignore = "dies; run by fences_stop_a_call"]
fn write_past_a_buffer() {
    watched();
    let mut given = Fenced::writable(100);
    let at = given.hold(&[1, 2, 3]);
    unsafe { at.add(3).write_volatile(0) };
}

#[test]
#[ignore = "dies; run by fences_stop_a_call"]
fn write_to_an_input() {
    watched();
    let mut given = Fenced::read_only(100);
    let at = given.hold(&[1, 2, 3]);
    unsafe { at.write_volatile(0) };
}

#[test]
#[ignore = "dies; run by fences_stop_a_call"]
fn read_of_an_empty_buffer() {
    watched();
    let mut given = Fenced::read_only(100);
    let at = given.hold(&[]);
    std::hint::black_box(unsafe { at.read_volatile() });
}

#[test]
#[ignore = "dies; run by fences_stop_a_call"]
fn write_past_the_table() {
    unsafe extern "C" fn wrong(table: *mut u16) {
        unsafe {
            stand_in::character_table(table);
            table.add(256).write_volatile(0);
        }
    }
    watched();
    let mut harness = Harness::new(Library {
        character_table: wrong,
        ..STAND_IN
    });
    harness.whole(&characters([0; 256]), &FlagTable::all());
}
