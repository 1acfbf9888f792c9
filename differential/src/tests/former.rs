//! What set and clear give: a wrong former value is found, in an answer and in a log.

use std::cell::Cell;
use std::slice::from_raw_parts_mut;

use reference::call::Call;
use reference::cases::material::observation_with;
use reference::flag_table::FlagTable;
use reference::gate::log::{FRONT, HEAD, MARKED as NUMBER, record_size};
use reference::gate::script::first_call;
use reference::table::fields;

use super::{CASES, SEED, differing, found};
use crate::compare::{Difference, compare};
use crate::draw::trials;
use crate::expected::{self, Said};
use crate::fence::MARKED;
use crate::harness::Harness;
use crate::library::{Answer, Flags, Library, Performed};
use crate::stand_in::{self, STAND_IN, input, table};
use crate::tally::{DEFAULT_CALLS, Tally};
use crate::trial::Given;

#[derive(Clone, Copy, Debug, PartialEq, Eq)]
enum Kind {
    SetField,
    ClearField,
    SetFlag,
    ClearFlag,
    ClearWith,
}

const KINDS: [Kind; 5] = [
    Kind::SetField,
    Kind::ClearField,
    Kind::SetFlag,
    Kind::ClearFlag,
    Kind::ClearWith,
];
const OF_FIELDS: [Kind; 3] = [Kind::SetField, Kind::ClearField, Kind::ClearWith];

fn kind_of(call: &Call) -> Option<Kind> {
    match call {
        Call::SetField { .. } => Some(Kind::SetField),
        Call::ClearField { .. } => Some(Kind::ClearField),
        Call::SetFlag { .. } => Some(Kind::SetFlag),
        Call::ClearFlag { .. } => Some(Kind::ClearFlag),
        Call::ClearWithIndicators { .. } => Some(Kind::ClearWith),
        _ => None,
    }
}

/// The read of what a call changes.
fn read_of(call: &Call) -> Call {
    match *call {
        Call::SetField { field, .. }
        | Call::ClearField { field }
        | Call::ClearWithIndicators { field } => Call::ReadField { field },
        Call::SetFlag { flag, .. } | Call::ClearFlag { flag } => Call::ReadFlag { flag },
        _ => unreachable!("a set or a clear"),
    }
}

#[derive(Clone, Copy, Debug, PartialEq, Eq)]
enum Mistake {
    /// What a read gives after the write: the new value, or missing.
    After,
    MissingAsZero,
    ZeroAsMissing,
    Nothing,
    /// The former value where the call is refused and the read would not be.
    WhereRefused,
    /// Missing where the call is refused.
    MissingWhereRefused,
    /// A flag under the label of a field's value, or the other way about.
    OtherLabel,
    /// A field's code in place of its value.
    Coded,
}

thread_local! {
    /// The mistake of this test's library, and the calls in which it makes it.
    static MADE: Cell<Option<(Kind, Mistake)>> = const { Cell::new(None) };
}

/// The answer to a read of a buffer.
fn read(call: &Call, buffer: &[u8], flags: &FlagTable) -> Option<(u32, i64)> {
    let outcome = expected::call(&read_of(call), &mut buffer.to_vec(), flags);
    match outcome.said {
        Said::Answer(answer) if answer.refusal == 0 => Some((answer.given, answer.first)),
        _ => None,
    }
}

/// Makes the mistake in the answer to a call that has changed a buffer.
fn spoil(call: &Call, before: &[u8], after: &[u8], flags: &FlagTable, answer: &mut Answer) {
    let Some((kind, mistake)) = MADE.get() else {
        return;
    };
    if kind_of(call) != Some(kind) {
        return;
    }
    let accepted = answer.refusal == 0;
    let given = (answer.given, answer.first);
    let label = if OF_FIELDS.contains(&kind) { 1 } else { 2 };
    let wrong = match mistake {
        Mistake::After if accepted => read(call, after, flags),
        Mistake::MissingAsZero if answer.given > 128 => Some((label, 0)),
        Mistake::ZeroAsMissing if given == (1, 0) => Some((129, 0)),
        Mistake::Nothing => Some((0, 0)),
        Mistake::WhereRefused if !accepted => read(call, before, flags),
        Mistake::MissingWhereRefused if !accepted => Some((label + 128, 0)),
        Mistake::OtherLabel if accepted => Some((answer.given ^ 3, answer.first)),
        Mistake::Coded if answer.given == 1 => Some((1, coded(call, answer.first))),
        _ => None,
    };
    (answer.given, answer.first) = wrong.unwrap_or(given);
}

fn coded(call: &Call, value: i64) -> i64 {
    match call {
        Call::SetField { field, .. }
        | Call::ClearField { field }
        | Call::ClearWithIndicators { field } => value - fields()[*field as usize - 1].base,
        _ => value,
    }
}

/// A right call on a report, and the mistake in its answer.
unsafe fn spoiled(
    report: *mut u8,
    n: usize,
    call: Call,
    flags: *const Flags,
    right: impl Fn() -> Answer,
) -> Answer {
    let before = unsafe { input(report, n) }.to_vec();
    let mut answer = right();
    let after = unsafe { input(report, n) };
    let table = unsafe { table(flags) };
    spoil(&call, &before, after, &table, &mut answer);
    answer
}

unsafe extern "C" fn set_field(
    report: *mut u8,
    n: usize,
    field: usize,
    value: i64,
    flags: *const Flags,
) -> Answer {
    let call = Call::SetField {
        field: field as u64,
        value,
    };
    let right = || unsafe { stand_in::set_field(report, n, field, value, flags) };
    unsafe { spoiled(report, n, call, flags, right) }
}

unsafe extern "C" fn clear_field(
    report: *mut u8,
    n: usize,
    field: usize,
    flags: *const Flags,
) -> Answer {
    let call = Call::ClearField {
        field: field as u64,
    };
    let right = || unsafe { stand_in::clear_field(report, n, field, flags) };
    unsafe { spoiled(report, n, call, flags, right) }
}

unsafe extern "C" fn set_flag(
    report: *mut u8,
    n: usize,
    flag: usize,
    value: usize,
    flags: *const Flags,
) -> Answer {
    let call = Call::SetFlag {
        flag: flag as u64,
        value: value as i64,
    };
    let right = || unsafe { stand_in::set_flag(report, n, flag, value, flags) };
    unsafe { spoiled(report, n, call, flags, right) }
}

unsafe extern "C" fn clear_flag(
    report: *mut u8,
    n: usize,
    flag: usize,
    flags: *const Flags,
) -> Answer {
    let call = Call::ClearFlag { flag: flag as u64 };
    let right = || unsafe { stand_in::clear_flag(report, n, flag, flags) };
    unsafe { spoiled(report, n, call, flags, right) }
}

unsafe extern "C" fn clear_with_indicators(
    report: *mut u8,
    n: usize,
    field: usize,
    flags: *const Flags,
) -> Answer {
    let call = Call::ClearWithIndicators {
        field: field as u64,
    };
    let right = || unsafe { stand_in::clear_with_indicators(report, n, field, flags) };
    unsafe { spoiled(report, n, call, flags, right) }
}

/// A right replay whose records have the mistake.
unsafe extern "C" fn replay(
    report: *mut u8,
    n: usize,
    script: *const u8,
    script_n: usize,
    log: *mut u8,
    log_n: usize,
    flags: *const Flags,
) -> Performed {
    let mut buffer = unsafe { input(report, n) }.to_vec();
    let performed = unsafe { stand_in::replay(report, n, script, script_n, log, log_n, flags) };
    let table = unsafe { table(flags) };
    let mut rest = unsafe { input(script, script_n) };
    let mut at = log;
    for _ in 0..performed.calls {
        let (call, behind) = first_call(rest).expect("a call that was performed");
        let before = buffer.clone();
        call.run(&mut buffer, &table);
        let front = unsafe { from_raw_parts_mut(at, FRONT) };
        let mut answer = answer_in(front);
        spoil(&call, &before, &buffer, &table, &mut answer);
        front[HEAD] = answer.given as u8;
        front[HEAD + 1..HEAD + NUMBER].copy_from_slice(&answer.first.to_be_bytes());
        at = unsafe { at.add(record_size(&call)) };
        rest = behind;
    }
    performed
}

/// The refusal and the first number of a record.
fn answer_in(record: &[u8]) -> Answer {
    let first = record[HEAD + 1..HEAD + NUMBER].try_into();
    Answer {
        refusal: record[1].into(),
        given: record[HEAD].into(),
        first: i64::from_be_bytes(first.expect("a number has eight bytes")),
        ..Answer::default()
    }
}

fn library(kind: Kind) -> Library {
    match kind {
        Kind::SetField => Library {
            set_field,
            ..STAND_IN
        },
        Kind::ClearField => Library {
            clear_field,
            ..STAND_IN
        },
        Kind::SetFlag => Library {
            set_flag,
            ..STAND_IN
        },
        Kind::ClearFlag => Library {
            clear_flag,
            ..STAND_IN
        },
        Kind::ClearWith => Library {
            clear_with_indicators,
            ..STAND_IN
        },
    }
}

fn answer_of(said: Said) -> Answer {
    match said {
        Said::Answer(answer) => answer,
        _ => panic!("no answer: {said:?}"),
    }
}

/// The first call of a script whose record in the log differs, and both records.
fn differing_record(found: &Difference) -> (Call, Answer, Answer) {
    let Given::Script { script, .. } = &found.trial.given else {
        panic!("no script: {}", found.trial);
    };
    let (mut rest, mut at) = (&script[..], MARKED);
    loop {
        let (call, behind) = first_call(rest).expect("a call");
        let record = |state: Option<&[u8]>| answer_in(&state.expect("a log")[at..]);
        let expected = record(found.expected.buffer("log"));
        let got = record(found.got.buffer("log"));
        if expected != got {
            return (call, expected, got);
        }
        at += record_size(&call);
        rest = behind;
    }
}

/// The test finds the mistake in a call's answer, and in a log.
#[track_caller]
fn is_found(kind: Kind, mistake: Mistake, right: impl Fn(&Answer) -> bool) {
    MADE.set(Some((kind, mistake)));
    let in_answer = found(library(kind));
    let in_log = found(Library { replay, ..STAND_IN });
    MADE.set(None);
    let Given::Call { call, .. } = &in_answer.trial.given else {
        panic!("no call: {}", in_answer.trial);
    };
    assert_eq!(kind_of(call), Some(kind));
    assert_eq!(differing(&in_answer), [""; 0]);
    let expected = answer_of(in_answer.expected.said);
    let got = answer_of(in_answer.got.said);
    assert_eq!(
        (got.refusal, got.place, got.second, got.third),
        (expected.refusal, expected.place, 0, 0)
    );
    assert!(right(&expected), "{expected:?}");
    assert_eq!(in_log.expected.said, in_log.got.said);
    assert_eq!(differing(&in_log), ["log"]);
    let (call, expected, got) = differing_record(&in_log);
    assert_eq!(kind_of(&call), Some(kind));
    assert_eq!(expected.refusal, got.refusal);
    assert!(right(&expected), "{expected:?}");
}

#[test]
fn the_new_value_is_found() {
    for kind in KINDS {
        is_found(kind, Mistake::After, |right| right.refusal == 0);
    }
}

#[test]
fn missing_given_as_0_is_found() {
    for kind in OF_FIELDS {
        is_found(kind, Mistake::MissingAsZero, |right| right.given == 129);
    }
    for kind in [Kind::SetFlag, Kind::ClearFlag] {
        is_found(kind, Mistake::MissingAsZero, |right| right.given == 130);
    }
}

#[test]
fn a_0_given_as_missing_is_found() {
    for kind in OF_FIELDS {
        is_found(kind, Mistake::ZeroAsMissing, |right| {
            (right.given, right.first) == (1, 0)
        });
    }
}

#[test]
fn a_former_value_that_is_not_given_is_found() {
    for kind in KINDS {
        is_found(kind, Mistake::Nothing, |right| right.given != 0);
    }
}

/// A read is refused wherever clear flag is, so that gives missing alone.
#[test]
fn a_former_value_given_by_a_refused_call_is_found() {
    for (kind, refusal) in [
        (Kind::SetField, 9),
        (Kind::ClearField, 10),
        (Kind::SetFlag, 9),
        (Kind::ClearWith, 10),
    ] {
        is_found(kind, Mistake::WhereRefused, |right| {
            right.refusal == refusal && right.given == 0
        });
    }
    for kind in KINDS {
        is_found(kind, Mistake::MissingWhereRefused, |right| {
            right.refusal != 0 && right.given == 0
        });
    }
}

#[test]
fn a_former_value_under_the_other_label_is_found() {
    for kind in KINDS {
        is_found(kind, Mistake::OtherLabel, |right| right.given != 0);
    }
}

#[test]
fn a_former_code_is_found() {
    for kind in OF_FIELDS {
        is_found(kind, Mistake::Coded, |right| right.given == 1);
    }
}

fn set_of(field: u64, value: i64) -> Call {
    Call::SetField { field, value }
}

fn set_flag_of(flag: u64, value: i64) -> Call {
    Call::SetFlag { flag, value }
}

fn unseen(tally: &Tally) -> Vec<String> {
    let mut unseen = tally.unseen();
    unseen.retain(|name| name.contains(", former "));
    unseen
}

/// X is 0 on the fresh report; refused calls are not counted.
#[test]
fn former_values_are_counted() {
    let mut tally = Tally::default();
    assert_eq!(
        unseen(&tally),
        [
            "set field, former value",
            "set field, former 0",
            "set field, former missing",
            "clear field, former value",
            "clear field, former 0",
            "clear field, former missing",
            "set flag, former value",
            "set flag, former missing",
            "clear flag, former value",
            "clear flag, former missing",
            "clear with, former value",
            "clear with, former 0",
            "clear with, former missing",
        ]
    );
    let clear = |field| Call::ClearField { field };
    let clear_with = |field| Call::ClearWithIndicators { field };
    let clear_flag = |flag| Call::ClearFlag { flag };
    let mut run = |calls: &[Call]| {
        let list = Given::List {
            buffer: observation_with(&[(1, &[0; 16])]).packing(),
            calls: calls.to_vec(),
        };
        let trial = list.under(FlagTable::all());
        assert!(compare(&mut Harness::new(STAND_IN), &mut tally, &trial).is_none());
        unseen(&tally)
    };
    let refused = [
        set_of(2, 0),
        set_of(0, 1),
        clear(2),
        clear(47),
        set_flag_of(1, 0),
        set_flag_of(15, 1),
        clear_flag(0),
        clear_with(2),
        clear_with(0),
        Call::ReadField { field: 6 },
        Call::ReadFlag { flag: 1 },
    ];
    assert_eq!(run(&refused).len(), 13);
    let left = run(&[
        set_of(31, 286),
        set_of(31, -999),
        set_of(31, 0),
        clear(31),
        clear(31),
        clear(31),
        set_flag_of(1, 1),
        set_flag_of(1, 2),
        set_flag_of(1, 3),
        clear_flag(1),
        clear_with(31),
        set_of(31, 286),
        clear_with(31),
        clear_with(31),
    ]);
    assert_eq!(
        left,
        [
            "set field, former 0",
            "clear field, former value",
            "clear flag, former missing",
            "clear with, former 0",
        ]
    );
    let left = run(&[
        set_of(6, 1),
        set_of(4, 5),
        clear(4),
        clear_flag(14),
        set_of(28, 0),
        clear_with(28),
    ]);
    assert_eq!(left, [""; 0]);
    let shown = tally.to_string();
    let mut lines = shown.lines().skip_while(|line| !line.starts_with("former"));
    for line in [
        "former given    value        0  missing",
        "set field           2        1        4",
        "clear field         1        1        2",
        "set flag            2        -        1",
        "clear flag          1        -        1",
        "clear with          1        1        2",
    ] {
        assert_eq!(lines.next(), Some(line), "{shown}");
    }
}

/// A run without the calls that clear a field of 0.
#[test]
fn a_former_value_never_met_fails_a_whole_run() {
    let mut without = Tally::default();
    let mut harness = Harness::new(STAND_IN);
    for trial in (0..CASES).flat_map(|case| trials(SEED, case)) {
        if !clears_a_0(&trial.given, &trial.flags) {
            assert!(compare(&mut harness, &mut without, &trial).is_none());
        }
    }
    assert_eq!(without.unseen(), ["clear field, former 0"]);
    assert!(!without.passes(DEFAULT_CALLS));
    assert!(without.passes(DEFAULT_CALLS - 1));
}

/// Whether a list, or a call of its own, clears a field that is 0.
fn clears_a_0(given: &Given, flags: &FlagTable) -> bool {
    let (mut buffer, calls) = match given {
        Given::List { buffer, calls } => (buffer.clone(), calls.clone()),
        Given::Call { buffer, call } => (buffer.clone(), vec![call.clone()]),
        _ => return false,
    };
    calls.iter().any(|call| {
        let answer = answer_of(expected::call(call, &mut buffer, flags).said);
        kind_of(call) == Some(Kind::ClearField) && (answer.given, answer.first) == (1, 0)
    })
}
