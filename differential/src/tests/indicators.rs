//! What has to be found of indicators: which have lost their data, and which a clear takes
//! along.

use std::cell::RefCell;

use reference::gate::log::{record, record_size};
use reference::judge::judge;
use reference::line::inputs;
use reference::observation::Observation;
use reference::table::{FIELDS, REQUIRED, Scaled};

use super::*;
use crate::stand_in::{input, output, table};

const DI: usize = 17;
const D: usize = 18;
const WI: usize = 19;
const W: usize = 20;
const VI: usize = 21;
const VB: usize = 22;
const TI: usize = 27;
const A: usize = 28;
const WB: usize = 29;
const DPT: usize = 30;
const S: usize = 31;
const BI: usize = 32;
const HI: usize = 36;
const H: usize = 37;

/// Each indicator with each field on which it rests.
const PAIRS: [(usize, usize); 9] = [
    (DI, D),
    (WI, W),
    (VI, VB),
    (TI, A),
    (TI, WB),
    (TI, DPT),
    (TI, S),
    (BI, S),
    (HI, H),
];
const ALL: [usize; 6] = [DI, WI, VI, TI, BI, HI];
const DATA: [usize; 8] = [D, W, VB, A, WB, DPT, S, H];

/// The mistakes here are narrow.
const MORE_CASES: u64 = 5 * CASES;

fn found_in_more(library: Library) -> Difference {
    first_difference_in(MORE_CASES, library, &mut Tally::default()).expect("it is found")
}

fn data_of(indicator: usize) -> Vec<usize> {
    let pairs = PAIRS.iter().filter(|pair| pair.0 == indicator);
    pairs.map(|pair| pair.1).collect()
}

fn resting_on(field: usize) -> Vec<usize> {
    let pairs = PAIRS.iter().filter(|pair| pair.1 == field);
    pairs.map(|pair| pair.0).collect()
}

fn stands(observation: &Observation, field: usize) -> bool {
    observation.values[field - 1].is_some()
}

/// Whether none of the fields stands.
fn lacks(observation: &Observation, fields: &[usize]) -> bool {
    !fields.iter().any(|&field| stands(observation, field))
}

fn has(observation: &Observation, id: u64) -> bool {
    observation.content(id).is_some()
}

/// The fields that stand beside the required ones.
fn optional(observation: &Observation) -> Vec<usize> {
    let mut fields: Vec<usize> = (1..=FIELDS).collect();
    fields.retain(|field| !REQUIRED.contains(field) && stands(observation, *field));
    fields
}

fn ids(observation: &Observation) -> Vec<u8> {
    observation
        .attachments
        .iter()
        .map(|other| other.id)
        .collect()
}

/// A report of some fields and of attachments of one nibble.
fn report_of(values: &[(usize, i64)], ids: &[u8]) -> Vec<u8> {
    let attachments: Vec<(u8, &[u8])> = ids.iter().map(|&id| (id, &[3][..])).collect();
    let mut observation = observation_with(&attachments);
    for &(field, value) in values {
        observation.values[field - 1] = Some(Scaled(value));
    }
    observation.packing()
}

fn find_case(report: &[u8], room: usize) -> Case {
    Case::FindIndicators {
        report: report.to_vec(),
        output: vec![0xEE; room],
    }
}

fn clear_call(field: usize) -> Call {
    Call::ClearWithIndicators {
        field: field as u64,
    }
}

fn refused(refusal: u32, place: u64) -> Answer {
    Answer {
        refusal,
        place,
        ..Answer::default()
    }
}

fn given(label: u32, number: i64) -> Answer {
    Answer {
        given: label,
        first: number,
        ..Answer::default()
    }
}

/// Answers and outputs worked out by hand.
#[test]
fn a_find_has_the_header_s_form() {
    let lost = report_of(&[(HI, 1), (BI, 2), (TI, 0), (D, 90)], &[]);
    let beside_5 = report_of(&[(HI, 1), (BI, 2)], &[4, 5]);
    let beside_6 = report_of(&[(HI, 1), (BI, 2)], &[6]);
    let three = [27, 32, 36];
    let mut harness = Harness::new(STAND_IN);
    for (report, room, answer, written) in [
        (&lost, 3, given(3, 3), &three[..]),
        (&lost, 5, given(3, 3), &three),
        (&lost, 2, refused(13, 0), &[]),
        (&lost, 0, refused(13, 0), &[]),
        (&beside_5, 0, given(3, 0), &[]),
        (&beside_5, 4, given(3, 0), &[]),
        (&beside_6, 2, given(3, 2), &three[1..]),
        (
            &report_of(&[(TI, 1), (DPT, 0), (BI, 0)], &[]),
            1,
            given(3, 1),
            &[32],
        ),
        (
            &report_of(&[(TI, 1), (S, -999), (BI, 0)], &[]),
            0,
            given(3, 0),
            &[],
        ),
        (
            &report_of(&[(DI, 0), (WI, 0), (VI, 0)], &[]),
            4,
            given(3, 3),
            &[17, 19, 21],
        ),
        (
            &report_of(&[(DI, 0), (D, 1), (WI, 0), (W, 0), (VI, 0), (VB, 90)], &[]),
            4,
            given(3, 0),
            &[],
        ),
        (&observation_with(&[]).packing(), 0, given(3, 0), &[]),
        (&Vec::new(), 0, refused(1, 0), &[]),
    ] {
        let case = find_case(report, room);
        let all = FlagTable::all();
        let mut due = vec![0xEE; room];
        due[..written.len()].copy_from_slice(written);
        for outcome in [expected::whole(&case, &all), harness.whole(&case, &all)] {
            let names: Vec<&str> = outcome.buffers.iter().map(|(name, _)| *name).collect();
            assert_eq!(names, ["report", "output", "flags"]);
            assert_eq!(outcome.said, Said::Answer(answer), "{}", inputs(&case));
            assert_eq!(outcome.buffer("report"), Some(&state_of(report)[..]));
            assert_eq!(outcome.buffer("output"), Some(&state_of(&due)[..]));
        }
    }
}

/// What stands before, which field is cleared, and what stands then, worked out by hand.
#[test]
fn a_clear_with_indicators_has_the_header_s_form() {
    let value = |value| given(1, value);
    let missing = given(129, 0);
    let mut harness = Harness::new(STAND_IN);
    let all = FlagTable::all();
    for (before, ids, field, answer, after) in [
        (
            &[(TI, 1), (S, 286), (BI, 0)][..],
            &[][..],
            S,
            value(286),
            &[][..],
        ),
        (&[(TI, 1), (BI, 0)], &[], S, missing, &[]),
        (&[(TI, 1), (BI, 0)], &[], A, missing, &[(BI, 0)]),
        (
            &[(TI, 1), (A, 0), (S, 0), (BI, 0)],
            &[],
            S,
            value(0),
            &[(TI, 1), (A, 0)],
        ),
        (
            &[(TI, 1), (WB, -5)],
            &[],
            DPT,
            missing,
            &[(TI, 1), (WB, -5)],
        ),
        (&[(TI, 1), (WB, -5)], &[], WB, value(-5), &[]),
        (
            &[(DI, 0), (D, 361), (WI, 0)],
            &[],
            D,
            value(361),
            &[(WI, 0)],
        ),
        (&[(WI, 3), (W, 7)], &[], WI, value(3), &[(W, 7)]),
        (&[(VI, 2), (VB, 99)], &[5], VB, value(99), &[]),
        (&[(HI, 0)], &[5, 9], H, missing, &[]),
        (&[(HI, 0), (H, 0)], &[], 4, missing, &[(HI, 0), (H, 0)]),
        (&[(HI, 0)], &[], 3, refused(10, 3), &[(HI, 0)]),
        (&[(HI, 0)], &[], 256 + H, refused(8, 0), &[(HI, 0)]),
    ] {
        let (mut buffer, call) = (report_of(before, ids), clear_call(field));
        let got = harness.call(&call, &buffer, &all);
        let due = expected::call(&call, &mut buffer, &all);
        for outcome in [&due, &got] {
            assert_eq!(outcome.said, Said::Answer(answer), "{before:?} {field}");
            let after = state_of(&report_of(after, ids));
            assert_eq!(outcome.buffer("report"), Some(&after[..]));
        }
    }
}

type Find = Box<dyn Fn(&Observation, &mut [u8]) -> Answer>;

/// Changes the answer and the observation after an accepted call; takes the one before and
/// the field.
type Spoil = Box<dyn Fn(&Observation, usize, &mut Observation, &mut Answer)>;

thread_local! {
    /// How this test's library finds indicators in an accepted report.
    static FIND: RefCell<Find> = RefCell::new(Box::new(right));
    /// The mistake of this test's library in a clear.
    static SPOIL: RefCell<Spoil> = RefCell::new(Box::new(|_, _, _, _| {}));
}

fn right(observation: &Observation, out: &mut [u8]) -> Answer {
    give(&observation.lone_indicators(), out)
}

/// Writes some fields and gives their number.
fn give(found: &[u8], out: &mut [u8]) -> Answer {
    let Some(front) = out.get_mut(..found.len()) else {
        return refused(13, 0);
    };
    front.copy_from_slice(found);
    given(3, found.len() as i64)
}

unsafe extern "C" fn find_indicators(
    report: *const u8,
    n: usize,
    out: *mut u8,
    out_n: usize,
    flags: *const Flags,
) -> Answer {
    let judged = judge(unsafe { input(report, n) }, &unsafe { table(flags) });
    let Ok(judged) = judged else {
        return unsafe { stand_in::find_indicators(report, n, out, out_n, flags) };
    };
    let out = unsafe { output(out, out_n) };
    FIND.with_borrow(|find| find(&judged.observation, out))
}

/// A right clear, and the mistake in it.
fn spoiled(buffer: &mut [u8], field: u64, flags: &FlagTable) -> Answer {
    let before = judge(buffer, flags);
    let call = Call::ClearWithIndicators { field };
    let Said::Answer(mut answer) = expected::call(&call, buffer, flags).said else {
        unreachable!("a call has an answer");
    };
    let after = judge(buffer, flags);
    if let (Ok(before), Ok(after), 0) = (before, after, answer.refusal) {
        let (before, mut after) = (before.observation, after.observation);
        SPOIL.with_borrow(|spoil| spoil(&before, field as usize, &mut after, &mut answer));
        let packing = after.packing();
        buffer[..packing.len()].copy_from_slice(&packing);
    }
    answer
}

unsafe extern "C" fn clear_with_indicators(
    report: *mut u8,
    n: usize,
    field: usize,
    flags: *const Flags,
) -> Answer {
    let (buffer, flags) = unsafe { (output(report, n), table(flags)) };
    spoiled(buffer, field as u64, &flags)
}

/// A right replay but for the mistake in a clear.
unsafe extern "C" fn replay(
    report: *mut u8,
    n: usize,
    script: *const u8,
    script_n: usize,
    log: *mut u8,
    log_n: usize,
    flags: *const Flags,
) -> Performed {
    let (buffer, flags) = unsafe { (output(report, n), table(flags)) };
    let (mut rest, log) = unsafe { (input(script, script_n), output(log, log_n)) };
    let (mut calls, mut written) = (0, 0);
    while let Some((call, behind)) = first_call(rest) {
        let size = record_size(&call);
        if size > log_n - written {
            break;
        }
        let record = match call {
            Call::ClearWithIndicators { field } => record_of(&spoiled(buffer, field, &flags)),
            _ => record(&call.run(buffer, &flags)),
        };
        log[written..written + size].copy_from_slice(&record);
        (calls, written, rest) = (calls + 1, written + size, behind);
    }
    Performed {
        calls,
        taken: (script_n - rest.len()) as u64,
        written: written as u64,
    }
}

/// The record of an answer that gives one number.
fn record_of(answer: &Answer) -> Vec<u8> {
    let mut record = vec![(answer.refusal == 0).into(), answer.refusal as u8];
    record.extend(answer.place.to_be_bytes());
    record.push(answer.given as u8);
    record.extend(answer.first.to_be_bytes());
    record.resize(FRONT, 0);
    record
}

/// A difference made smaller, and what of its report is left.
struct Smallest {
    found: Difference,
    observation: Observation,
    /// The optional fields and the attachments.
    left: (Vec<usize>, Vec<u8>),
}

impl Smallest {
    fn new(found: Difference, report: &[u8]) -> Smallest {
        let judged = judge(report, &found.trial.flags);
        let observation = judged.expect("an accepted report").observation;
        let left = (optional(&observation), ids(&observation));
        Smallest {
            found,
            observation,
            left,
        }
    }
}

/// The difference that a wrong find makes, and the room of its output.
#[track_caller]
fn found_find(wrong: impl Fn(&Observation, &mut [u8]) -> Answer + 'static) -> (Smallest, usize) {
    FIND.set(Box::new(wrong));
    let found = found_in_more(Library {
        find_indicators,
        ..STAND_IN
    });
    FIND.set(Box::new(right));
    let Given::Whole(Case::FindIndicators { report, output }) = found.trial.given.clone() else {
        panic!("no find: {}", found.trial);
    };
    (Smallest::new(found, &report), output.len())
}

/// The difference that a wrong clear makes, and its field. It is found in a replay too,
/// and there made smaller to one entry.
#[track_caller]
fn found_clear(
    wrong: impl Fn(&Observation, usize, &mut Observation, &mut Answer) + 'static,
) -> (Smallest, usize) {
    SPOIL.set(Box::new(wrong));
    let in_call = found_in_more(Library {
        clear_with_indicators,
        ..STAND_IN
    });
    let in_script = found_in_more(Library { replay, ..STAND_IN });
    SPOIL.set(Box::new(|_, _, _, _| {}));
    let Given::Call {
        buffer,
        call: Call::ClearWithIndicators { field },
    } = in_call.trial.given.clone()
    else {
        panic!("no clear: {}", in_call.trial);
    };
    let Given::Script { script, log, .. } = &in_script.trial.given else {
        panic!("no script: {}", in_script.trial);
    };
    assert_eq!((script[0], script.len(), log.len()), (12, 9, FRONT));
    assert_eq!(in_script.expected.said, in_script.got.said);
    (Smallest::new(in_call, &buffer), field as usize)
}

#[test]
fn the_libraries_of_these_tests_pass_without_a_mistake() {
    let library = Library {
        find_indicators,
        clear_with_indicators,
        replay,
        ..STAND_IN
    };
    assert!(first_difference(library, &mut Tally::default()).is_none());
}

/// Each indicator in turn is never found.
#[test]
fn an_indicator_that_is_not_found_is_missed() {
    for left_out in ALL {
        let (smallest, room) = found_find(move |observation, out| {
            let mut found = observation.lone_indicators();
            found.retain(|&field| usize::from(field) != left_out);
            give(&found, out)
        });
        assert_eq!((smallest.left, room), ((vec![left_out], vec![]), 0));
        assert_eq!(smallest.found.got.said, Said::Answer(given(3, 0)));
    }
}

/// What a library finds by a rule of its own.
fn finds(
    observation: &Observation,
    out: &mut [u8],
    rule: impl Fn(&Observation, usize) -> bool,
) -> Answer {
    let mut found = ALL.to_vec();
    found.retain(|&indicator| rule(observation, indicator) && !has(observation, 5));
    let found: Vec<u8> = found.iter().map(|&indicator| indicator as u8).collect();
    give(&found, out)
}

/// Each of the data in turn is not looked at.
#[test]
fn an_indicator_found_beside_its_data_is_found() {
    for (indicator, data) in PAIRS {
        let rule = move |observation: &Observation, other: usize| {
            let mut looked_at = data_of(other);
            looked_at.retain(|&field| (other, field) != (indicator, data));
            stands(observation, other) && lacks(observation, &looked_at)
        };
        let (smallest, _) = found_find(move |observation, out| finds(observation, out, rule));
        let mut left = vec![indicator, data];
        left.sort();
        assert_eq!(smallest.left, (left, vec![]));
    }
}

/// TI is found where any of its data is missing, and not only where all are.
#[test]
fn an_indicator_that_has_lost_a_part_is_found() {
    let (smallest, _) = found_find(|observation, out| {
        finds(observation, out, |observation, indicator| {
            let data = data_of(indicator);
            let lost = data.iter().any(|&field| !stands(observation, field));
            stands(observation, indicator) && lost
        })
    });
    assert_eq!(smallest.left.0[0], TI);
    assert_eq!(smallest.left.0.len(), 2);
}

#[test]
fn a_missing_indicator_that_is_found_is_found() {
    for absent in ALL {
        let (smallest, room) = found_find(move |observation, out| {
            finds(observation, out, |observation, indicator| {
                let present = indicator == absent || stands(observation, indicator);
                present && lacks(observation, &data_of(indicator))
            })
        });
        assert_eq!((smallest.left, room), ((vec![], vec![]), 0));
    }
}

/// The value 0 of one of the data, or of the indicator, is taken for missing.
#[test]
fn a_0_taken_for_missing_is_found() {
    let is_0 =
        |observation: &Observation, field: usize| observation.values[field - 1] == Some(Scaled(0));
    // D and VB are never 0.
    for (indicator, data) in PAIRS.into_iter().filter(|pair| ![D, VB].contains(&pair.1)) {
        let (smallest, _) = found_find(move |observation, out| {
            let mut taken = observation.clone();
            if is_0(observation, data) {
                taken.values[data - 1] = None;
            }
            finds(&taken, out, |taken, other| {
                let judged = if other == indicator {
                    taken
                } else {
                    observation
                };
                stands(observation, other) && lacks(judged, &data_of(other))
            })
        });
        let mut left = vec![indicator, data];
        left.sort();
        assert_eq!(smallest.left, (left, vec![]));
        assert!(is_0(&smallest.observation, data));
    }
    for indicator in ALL {
        let (smallest, _) = found_find(move |observation, out| {
            let mut found = observation.lone_indicators();
            found.retain(|&field| usize::from(field) != indicator || !is_0(observation, indicator));
            give(&found, out)
        });
        assert_eq!(smallest.left, (vec![indicator], vec![]));
        assert!(is_0(&smallest.observation, indicator));
    }
}

fn without_5(observation: &Observation) -> Observation {
    let mut observation = observation.clone();
    observation.attachments.retain(|other| other.id != 5);
    observation
}

/// Attachment 5 is not looked for, or not behind or before another one.
#[test]
fn an_indicator_found_although_attachment_5_stands_is_found() {
    let (smallest, room) = found_find(|observation, out| right(&without_5(observation), out));
    assert_eq!(smallest.left.0.len(), 1);
    assert_eq!((smallest.left.1, room), (vec![5], 0));
    let (smallest, _) = found_find(|observation, out| match ids(observation).first() {
        Some(5) => right(observation, out),
        _ => right(&without_5(observation), out),
    });
    assert_eq!(
        (smallest.left.0.len(), smallest.left.1[1..].to_vec()),
        (1, vec![5])
    );
    let (smallest, _) = found_find(|observation, out| match ids(observation).last() {
        Some(5) => right(observation, out),
        _ => right(&without_5(observation), out),
    });
    assert_eq!(
        (smallest.left.0.len(), smallest.left.1[..1].to_vec()),
        (1, vec![5])
    );
}

/// Nothing is given, but the fields are written; or the output has to have room for them.
#[test]
fn an_output_looked_at_although_attachment_5_stands_is_found() {
    let (smallest, _) = found_find(|observation, out| {
        let answer = right(observation, out);
        if has(observation, 5) {
            right(&without_5(observation), out);
        }
        answer
    });
    assert_eq!(smallest.left.1, [5]);
    assert_eq!(differing(&smallest.found), ["output"]);
    let (smallest, room) = found_find(|observation, out| {
        let needed = without_5(observation).lone_indicators().len();
        if out.len() < needed {
            return refused(13, 0);
        }
        right(observation, out)
    });
    assert_eq!(
        (smallest.left.0.len(), &smallest.left.1[..], room),
        (1, &[5][..], 0)
    );
}

/// Any attachment hides what is to be found, or the one beside attachment 5.
#[test]
fn an_indicator_hidden_by_another_attachment_is_found() {
    let (smallest, _) = found_find(|observation, out| match ids(observation)[..] {
        [] => right(observation, out),
        _ => give(&[], out),
    });
    assert_eq!((smallest.left.0.len(), smallest.left.1.len()), (1, 1));
    for id in [4, 6] {
        let (smallest, _) = found_find(move |observation, out| match has(observation, id) {
            true => give(&[], out),
            false => right(observation, out),
        });
        assert_eq!(
            (smallest.left.0.len(), smallest.left.1),
            (1, vec![id as u8])
        );
    }
}

#[test]
fn a_descending_order_is_found() {
    let (smallest, room) = found_find(|observation, out| {
        let mut found = observation.lone_indicators();
        found.reverse();
        give(&found, out)
    });
    assert_eq!(smallest.found.expected.said, smallest.found.got.said);
    assert_eq!(differing(&smallest.found), ["output"]);
    assert_eq!((smallest.left.0.len(), room), (2, 2));
}

/// Numbers from 0, and the data in place of the indicators.
#[test]
fn another_field_s_number_is_found() {
    let by_one = |field: u8| field - 1;
    let data = |field: u8| data_of(field.into())[0] as u8;
    for change in [by_one, data] {
        let (smallest, room) = found_find(move |observation, out| {
            let found = observation.lone_indicators();
            give(&found.into_iter().map(change).collect::<Vec<u8>>(), out)
        });
        assert_eq!(differing(&smallest.found), ["output"]);
        assert_eq!((smallest.left.0.len(), room), (1, 1));
    }
}

/// The next byte, or all bytes up to the end.
#[test]
fn a_byte_behind_what_was_found_is_found() {
    let next: fn(&mut [u8]) = |behind| {
        if let Some(byte) = behind.first_mut() {
            *byte ^= 1;
        }
    };
    let last: fn(&mut [u8]) = |behind| {
        if let [_, .., byte] = behind {
            *byte ^= 1;
        }
    };
    for (change, least) in [(next, 1), (last, 2), (|behind| behind.fill(0), 1)] {
        let (smallest, room) = found_find(move |observation, out| {
            let answer = right(observation, out);
            if answer.refusal == 0 {
                change(&mut out[answer.first as usize..]);
            }
            answer
        });
        assert_eq!(smallest.found.expected.said, smallest.found.got.said);
        assert_eq!(differing(&smallest.found), ["output"]);
        assert_eq!((smallest.left, room), ((vec![], vec![]), least));
    }
    let (smallest, _) = found_find(|observation, out| {
        let answer = right(observation, out);
        if answer.first > 0 && out.len() > answer.first as usize {
            out[answer.first as usize] = 0;
        }
        answer
    });
    assert_eq!(smallest.left.0.len(), 1);
}

#[test]
fn a_byte_in_front_of_what_was_found_is_found() {
    unsafe extern "C" fn wrong(
        report: *const u8,
        n: usize,
        out: *mut u8,
        out_n: usize,
        flags: *const Flags,
    ) -> Answer {
        let answer = unsafe { stand_in::find_indicators(report, n, out, out_n, flags) };
        if answer.first > 0 {
            unsafe { *out.sub(1) = 0 };
        }
        answer
    }
    let found = found(Library {
        find_indicators: wrong,
        ..STAND_IN
    });
    assert_eq!(differing(&found), ["output"]);
    let shown = found.got.against(&found.expected);
    assert!(shown.contains("before output"), "{shown}");
}

/// Just enough room is refused, where something or where nothing is found, and so is any
/// room for fewer than six.
#[test]
fn a_room_that_is_refused_is_found() {
    let (smallest, room) = found_find(|observation, out| {
        let found = observation.lone_indicators().len();
        match found > 0 && out.len() == found {
            true => refused(13, 0),
            false => right(observation, out),
        }
    });
    assert_eq!(smallest.left.0.len(), room);
    assert_eq!(smallest.found.got.refusal(), 13);
    for least in [1, 6] {
        let (smallest, room) = found_find(move |observation, out| match out.len() < least {
            true => refused(13, 0),
            false => right(observation, out),
        });
        assert_eq!((smallest.left, room), ((vec![], vec![]), 0));
    }
}

/// A byte too little room is taken: what fits is given, or the whole number.
#[test]
fn a_short_room_that_is_taken_is_found() {
    let fitting = |observation: &Observation, out: &mut [u8]| {
        let mut found = observation.lone_indicators();
        if out.len() + 1 == found.len() {
            found.pop();
        }
        give(&found, out)
    };
    let whole = move |observation: &Observation, out: &mut [u8]| {
        let mut answer = fitting(observation, out);
        if answer.refusal == 0 {
            answer.first = observation.lone_indicators().len() as i64;
        }
        answer
    };
    let is_due = |smallest: Smallest, room: usize| {
        assert_eq!(smallest.left.0.len(), room + 1);
        assert_eq!(smallest.found.expected.said, Said::Answer(refused(13, 0)));
        assert_eq!(smallest.found.got.refusal(), 0);
    };
    let (smallest, room) = found_find(fitting);
    is_due(smallest, room);
    let (smallest, room) = found_find(whole);
    is_due(smallest, room);
}

/// What fits is written by a find that is refused.
#[test]
fn an_output_of_a_refused_find_that_is_written_is_found() {
    let (smallest, room) = found_find(|observation, out| {
        let answer = right(observation, out);
        if answer.refusal == 13 {
            let found = observation.lone_indicators();
            out.copy_from_slice(&found[..out.len()]);
        }
        answer
    });
    assert_eq!(smallest.found.expected.said, smallest.found.got.said);
    assert_eq!(differing(&smallest.found), ["output"]);
    assert_eq!((smallest.left.0.len(), room), (2, 1));
}

/// The number needed as the place of 13, another label, no number, and a second one.
#[test]
fn a_wrong_answer_of_a_find_is_found() {
    type Change = fn(&mut Answer, usize);
    let changes: [(Change, u32); 4] = [
        (|answer, found| answer.place = found as u64, 13),
        (|answer, _| answer.given = 5, 0),
        (|answer, _| (answer.given, answer.first) = (0, 0), 0),
        (|answer, _| answer.second = 5, 0),
    ];
    for (change, refusal) in changes {
        let (smallest, _) = found_find(move |observation, out| {
            let mut answer = right(observation, out);
            if answer.refusal == refusal {
                change(&mut answer, observation.lone_indicators().len());
            }
            answer
        });
        assert_ne!(smallest.found.expected.said, smallest.found.got.said);
        assert_eq!(smallest.found.expected.refusal(), refusal as usize);
        assert_eq!(differing(&smallest.found), [""; 0]);
    }
}

/// An output without room is refused before the report is.
#[test]
fn an_order_of_13_before_the_report_is_found() {
    unsafe extern "C" fn wrong(
        report: *const u8,
        n: usize,
        out: *mut u8,
        out_n: usize,
        flags: *const Flags,
    ) -> Answer {
        let mut answer = unsafe { stand_in::find_indicators(report, n, out, out_n, flags) };
        if answer.refusal != 0 && out_n == 0 {
            answer = refused(13, 0);
        }
        answer
    }
    let found = found(Library {
        find_indicators: wrong,
        ..STAND_IN
    });
    assert!((1..8).contains(&found.expected.refusal()));
    assert_eq!(found.got.refusal(), 13);
}

/// Each of TI's data in turn is not looked at when another one is cleared.
#[test]
fn ti_cleared_while_one_of_its_data_stands_is_found() {
    for ignored in data_of(TI) {
        let (smallest, field) = found_clear(move |_, field, after, _| {
            let mut looked_at = data_of(TI);
            looked_at.retain(|&data| data != ignored);
            if looked_at.contains(&field) && lacks(after, &looked_at) {
                after.values[TI - 1] = None;
            }
        });
        assert_eq!(smallest.left, (vec![TI, ignored], vec![]));
        assert!(field != ignored && data_of(TI).contains(&field));
        assert_eq!(differing(&smallest.found), ["report"]);
    }
    let (smallest, field) = found_clear(|_, field, after, _| {
        if data_of(TI).contains(&field) {
            after.values[TI - 1] = None;
        }
    });
    assert_eq!((smallest.left.0[0], smallest.left.0.len()), (TI, 2));
    assert!(!smallest.left.0.contains(&field));
}

/// Each indicator in turn is left when one of its data is cleared, BI with S among them.
#[test]
fn an_indicator_that_is_left_is_found() {
    for (indicator, data) in PAIRS {
        let (smallest, field) = found_clear(move |before, field, after, _| {
            if field == data {
                after.values[indicator - 1] = before.values[indicator - 1];
            }
        });
        assert_eq!((smallest.left, field), ((vec![indicator], vec![]), data));
        assert_eq!(differing(&smallest.found), ["report"]);
    }
}

/// Of TI and BI, both resting on S, one alone is taken.
#[test]
fn a_second_indicator_that_is_left_is_found() {
    for left in [TI, BI] {
        let (smallest, field) = found_clear(move |before, _, after, _| {
            if [TI, BI].map(|other| stands(before, other) && !stands(after, other)) == [true; 2] {
                after.values[left - 1] = before.values[left - 1];
            }
        });
        assert_eq!((smallest.left, field), ((vec![TI, BI], vec![]), S));
    }
}

/// The data are looked at before the field is cleared.
#[test]
fn data_judged_before_the_clear_are_found() {
    let (smallest, field) = found_clear(|before, field, after, _| {
        for indicator in resting_on(field) {
            if !lacks(before, &data_of(indicator)) {
                after.values[indicator - 1] = before.values[indicator - 1];
            }
        }
    });
    let mut left = smallest.left.0;
    left.retain(|&other| other != field);
    assert_eq!(left.len(), 1);
    assert!(resting_on(field).contains(&left[0]));
    assert!(stands(&smallest.observation, field));
}

/// Nothing is taken along where the field was missing already.
#[test]
fn an_indicator_kept_because_the_field_was_missing_is_found() {
    let (smallest, field) = found_clear(|before, field, after, _| {
        if !stands(before, field) {
            *after = before.clone();
        }
    });
    assert_eq!(smallest.left.0.len(), 1);
    assert!(resting_on(field).contains(&smallest.left.0[0]));
    assert_eq!(smallest.found.expected.said, Said::Answer(given(129, 0)));
}

/// TI is kept where others of its data were lost before.
#[test]
fn ti_kept_because_other_data_were_lost_before_is_found() {
    let (smallest, field) = found_clear(|before, field, after, _| {
        let lost = data_of(TI).iter().any(|&data| !stands(before, data));
        if data_of(TI).contains(&field) && stands(before, field) && lost {
            after.values[TI - 1] = before.values[TI - 1];
        }
    });
    let mut left = vec![TI, field];
    left.sort();
    assert_eq!(smallest.left, (left, vec![]));
}

#[test]
fn an_indicator_kept_because_attachment_5_stands_is_found() {
    let (smallest, field) = found_clear(|before, field, after, _| {
        if has(before, 5) {
            *after = before.clone();
            after.values[field - 1] = None;
        }
    });
    assert_eq!((smallest.left.0.len(), &smallest.left.1[..]), (1, &[5][..]));
    assert!(resting_on(field).contains(&smallest.left.0[0]));
    assert_eq!(differing(&smallest.found), ["report"]);
}

/// Every indicator that had lost its data is cleared, or those of one family: BI with A,
/// WB or DPT, on which only TI rests.
#[test]
fn an_indicator_of_other_data_that_is_cleared_is_found() {
    let (smallest, field) = found_clear(|before, _, after, _| {
        for field in before.lone_indicators() {
            after.values[usize::from(field) - 1] = None;
        }
    });
    let [indicator] = smallest.left.0[..] else {
        panic!("no single indicator: {:?}", smallest.left);
    };
    assert!(!resting_on(field).contains(&indicator) && field != indicator);
    for other in [A, WB, DPT] {
        let (smallest, field) = found_clear(move |_, field, after, _| {
            if field == other && lacks(after, &[S]) {
                after.values[BI - 1] = None;
            }
        });
        assert_eq!((smallest.left, field), ((vec![BI], vec![]), other));
    }
    // A missing indicator that is named takes others along.
    let (_, field) = found_clear(|before, field, after, _| {
        if ALL.contains(&field) {
            for lone in before.lone_indicators() {
                after.values[usize::from(lone) - 1] = None;
            }
        }
    });
    assert!(ALL.contains(&field));
}

/// An indicator is cleared alone.
#[test]
fn data_cleared_with_their_indicator_are_found() {
    let (smallest, field) = found_clear(|_, field, after, _| {
        for data in data_of(field) {
            after.values[data - 1] = None;
        }
    });
    assert_eq!(smallest.left.0.len(), 1);
    assert!(data_of(field).contains(&smallest.left.0[0]));
}

/// A neighbour is cleared in place of the indicator, or beside it.
#[test]
fn another_field_that_is_cleared_is_found() {
    let (smallest, field) = found_clear(|before, field, after, _| {
        for indicator in resting_on(field) {
            if stands(before, indicator) && !stands(after, indicator) {
                after.values[indicator] = None;
            }
        }
    });
    assert_eq!(smallest.left.0.len(), 2);
    assert!(
        resting_on(field)
            .iter()
            .any(|&indicator| smallest.left.0.contains(&indicator))
    );
}

/// The value 0 is not missing; of one field among one's data this can only be TI's.
#[test]
fn a_0_that_does_not_keep_ti_is_found() {
    for data in data_of(TI) {
        let (smallest, _) = found_clear(move |_, field, after, _| {
            let mut taken = after.clone();
            if taken.values[data - 1] == Some(Scaled(0)) {
                taken.values[data - 1] = None;
            }
            if data_of(TI).contains(&field) && lacks(&taken, &data_of(TI)) {
                after.values[TI - 1] = None;
            }
        });
        assert_eq!(smallest.left, (vec![TI, data], vec![]));
        assert_eq!(smallest.observation.values[data - 1], Some(Scaled(0)));
    }
}

/// The indicator gets the value 0.
#[test]
fn an_indicator_set_to_0_is_found() {
    let (smallest, _) = found_clear(|before, field, after, _| {
        for indicator in resting_on(field) {
            if stands(before, indicator) && !stands(after, indicator) {
                after.values[indicator - 1] = Some(Scaled(0));
            }
        }
    });
    assert_eq!(smallest.left.0.len(), 1);
}

#[test]
fn a_field_that_is_kept_is_found() {
    let (smallest, field) = found_clear(|before, field, after, _| {
        if before.values != after.values && !lacks(before, &resting_on(field)) {
            after.values[field - 1] = before.values[field - 1];
        }
    });
    assert_eq!(smallest.left.0.len(), 2);
    assert!(smallest.left.0.contains(&field));
}

/// The former value of the first indicator taken along, or of the last one.
#[test]
fn the_former_value_of_an_indicator_is_found() {
    let first: fn(&[usize]) -> Option<&usize> = |taken| taken.first();
    for pick in [first, |taken| taken.last()] {
        let (smallest, field) = found_clear(move |before, field, after, answer| {
            let mut taken = resting_on(field);
            taken.retain(|&other| stands(before, other) && !stands(after, other));
            let value = pick(&taken).and_then(|&other| before.values[other - 1]);
            if let Some(Scaled(value)) = value {
                (answer.given, answer.first) = (1, value);
            }
        });
        assert_eq!(differing(&smallest.found), [""; 0]);
        assert_eq!(smallest.left.0.len(), 1);
        assert!(resting_on(field).contains(&smallest.left.0[0]));
        assert_eq!(smallest.found.expected.said, Said::Answer(given(129, 0)));
    }
}

/// The former value of an indicator as a second number.
#[test]
fn a_second_former_value_is_found() {
    unsafe extern "C" fn wrong(
        report: *mut u8,
        n: usize,
        field: usize,
        flags: *const Flags,
    ) -> Answer {
        let before = judge(unsafe { input(report, n) }, &unsafe { table(flags) });
        let mut answer = unsafe { stand_in::clear_with_indicators(report, n, field, flags) };
        if let (Ok(before), 0, D) = (before, answer.refusal, field) {
            answer.given |= 129 << 8;
            if let Some(Scaled(value)) = before.observation.values[DI - 1] {
                answer.given ^= 128 << 8;
                answer.second = value;
            }
        }
        answer
    }
    let found = found(Library {
        clear_with_indicators: wrong,
        ..STAND_IN
    });
    assert_ne!(found.expected.said, found.got.said);
    assert_eq!(differing(&found), [""; 0]);
}

/// A clear is refused only as clear field is: not because attachment 5 stands, nothing
/// rests on the field, it is missing, or TI keeps other data.
#[test]
fn a_clear_that_is_refused_is_found() {
    type Rule = fn(&Observation, usize) -> bool;
    let rules: [(Rule, u32); 5] = [
        (|before, _| has(before, 5), 11),
        (|_, field| !DATA.contains(&field), 8),
        (|_, field| ALL.contains(&field), 8),
        (|before, field| !stands(before, field), 11),
        (
            |before, field| {
                let mut others = data_of(TI);
                others.retain(|&data| data != field);
                data_of(TI).contains(&field) && stands(before, TI) && !lacks(before, &others)
            },
            10,
        ),
    ];
    for (rule, refusal) in rules {
        let (smallest, field) = found_clear(move |before, field, after, answer| {
            if rule(before, field) {
                *after = before.clone();
                *answer = refused(refusal, 0);
            }
        });
        assert!(rule(&smallest.observation, field));
        assert_eq!(smallest.found.expected.refusal(), 0);
        assert_eq!(smallest.found.got.refusal(), refusal as usize);
        assert!(smallest.left.0.len() <= 2 && smallest.left.1.len() <= 1);
    }
}

type Clear = unsafe extern "C" fn(*mut u8, usize, usize, *const Flags) -> Answer;

fn found_wrong(clear_with_indicators: Clear) -> (Difference, u64) {
    let found = found(Library {
        clear_with_indicators,
        ..STAND_IN
    });
    let Given::Call {
        call: Call::ClearWithIndicators { field },
        ..
    } = found.trial.given
    else {
        panic!("no clear: {}", found.trial);
    };
    (found, field)
}

/// A number of which only the low bits are looked at, and 10 without its place.
#[test]
fn a_wrong_refusal_of_a_clear_is_found() {
    unsafe extern "C" fn cut(
        report: *mut u8,
        n: usize,
        field: usize,
        flags: *const Flags,
    ) -> Answer {
        unsafe { stand_in::clear_with_indicators(report, n, field % 256, flags) }
    }
    unsafe extern "C" fn placeless(
        report: *mut u8,
        n: usize,
        field: usize,
        flags: *const Flags,
    ) -> Answer {
        let mut answer = unsafe { stand_in::clear_with_indicators(report, n, field, flags) };
        if answer.refusal == 10 {
            answer.place = 0;
        }
        answer
    }
    let (found, field) = found_wrong(cut);
    assert_eq!(found.expected.refusal(), 8);
    assert!(field > 255);
    let (found, field) = found_wrong(placeless);
    assert_eq!(found.expected.said, Said::Answer(refused(10, field)));
}

/// CK is that of the report in which the indicator still stands.
#[test]
fn a_checksum_worked_out_too_early_is_found() {
    unsafe extern "C" fn wrong(
        report: *mut u8,
        n: usize,
        field: usize,
        flags: *const Flags,
    ) -> Answer {
        let mut cleared = unsafe { input(report, n) }.to_vec();
        unsafe {
            stand_in::clear_field(cleared.as_mut_ptr(), n, field, flags);
            let answer = stand_in::clear_with_indicators(report, n, field, flags);
            if answer.refusal == 0 {
                // CK is bits 282 to 295.
                let buffer = output(report, n);
                buffer[35] = buffer[35] & 0xC0 | cleared[35] & 0x3F;
                buffer[36] = cleared[36];
            }
            answer
        }
    }
    let (found, field) = found_wrong(wrong);
    assert_eq!(differing(&found), ["report"]);
    assert!(DATA.contains(&(field as usize)));
}

#[test]
fn a_byte_behind_the_report_of_a_clear_is_found() {
    unsafe extern "C" fn wrong(
        report: *mut u8,
        n: usize,
        field: usize,
        flags: *const Flags,
    ) -> Answer {
        unsafe {
            let size = stand_in::judge(report, n, flags).first as usize;
            let answer = stand_in::clear_with_indicators(report, n, field, flags);
            if answer.refusal == 0 && size < n {
                *report.add(size) = 0;
            }
            answer
        }
    }
    let (found, _) = found_wrong(wrong);
    assert_eq!(differing(&found), ["report"]);
}

type Replay = unsafe extern "C" fn(
    *mut u8,
    usize,
    *const u8,
    usize,
    *mut u8,
    usize,
    *const Flags,
) -> Performed;

/// Kind 12 ends the replay, is taken for a plain clear, or kind 13 is taken for it.
#[test]
fn a_wrong_kind_in_a_script_is_found() {
    /// Replays with kinds exchanged.
    unsafe fn exchanged(
        lent: (
            *mut u8,
            usize,
            *const u8,
            usize,
            *mut u8,
            usize,
            *const Flags,
        ),
        from: u8,
        to: u8,
    ) -> Performed {
        let (report, n, script, script_n, log, log_n, flags) = lent;
        let mut exchanged = unsafe { input(script, script_n) }.to_vec();
        let mut at = 0;
        while at < script_n {
            if exchanged[at] == from {
                exchanged[at] = to;
            }
            match first_call(&exchanged[at..]) {
                Some((_, rest)) => at = script_n - rest.len(),
                None => break,
            }
        }
        let at = exchanged.as_ptr();
        unsafe { stand_in::replay(report, n, at, script_n, log, log_n, flags) }
    }
    macro_rules! exchanging {
        ($from:expr, $to:expr) => {{
            unsafe extern "C" fn wrong(
                report: *mut u8,
                n: usize,
                script: *const u8,
                script_n: usize,
                log: *mut u8,
                log_n: usize,
                flags: *const Flags,
            ) -> Performed {
                let lent = (report, n, script, script_n, log, log_n, flags);
                unsafe { exchanged(lent, $from, $to) }
            }
            wrong as Replay
        }};
    }
    for (replay, kind, length) in [
        (exchanging!(12, 0), 12, 9),
        (exchanging!(12, 3), 12, 9),
        (exchanging!(13, 12), 13, 9),
    ] {
        let found = found(Library { replay, ..STAND_IN });
        let Given::Script { script, .. } = &found.trial.given else {
            panic!("no script: {}", found.trial);
        };
        assert_eq!((script[0], script.len()), (kind, length));
    }
}

/// What the tally has never seen, of the lines that begin so and are no refusals.
fn unseen(tally: &Tally, front: &str) -> Vec<String> {
    let mut unseen = tally.unseen();
    unseen.retain(|name| name.starts_with(front));
    unseen.retain(|name| !name.contains(", refusal ") && !name.contains(", former "));
    unseen
}

fn run(tally: &mut Tally, given: Given) {
    let trial = given.under(FlagTable::all());
    assert!(compare(&mut Harness::new(STAND_IN), tally, &trial).is_none());
}

#[test]
fn what_is_found_is_counted() {
    let mut tally = Tally::default();
    let names = [
        "indicators, none found",
        "indicators, one found",
        "indicators, more than one found",
        "indicators, some found with just enough room",
        "indicators, room for all but one",
        "indicators, none found because attachment 5 stands",
    ];
    let left = |tally: &Tally| unseen(tally, "indicators");
    run(&mut tally, Given::Whole(find_case(&[0; 9], 0)));
    assert_eq!(left(&tally), names);
    let mut find = |values: &[(usize, i64)], ids: &[u8], room: usize| {
        let case = find_case(&report_of(values, ids), room);
        run(&mut tally, Given::Whole(case));
        left(&tally)
    };
    let (one, two) = (&[(DI, 0), (S, 0)][..], &[(WI, 0), (BI, 0)][..]);
    // Room for none of two.
    assert_eq!(find(two, &[], 0), names);
    assert_eq!(find(&[(DI, 0), (D, 1)], &[5], 0), names[1..]);
    assert_eq!(find(one, &[], 2), names[2..]);
    assert_eq!(find(two, &[9], 3), names[3..]);
    assert_eq!(find(two, &[], 2), names[4..]);
    assert_eq!(find(two, &[], 1), names[5..]);
    assert_eq!(find(two, &[5], 1), [""; 0]);
    assert_eq!(find(one, &[], 0), [""; 0]);
    let shown = tally.to_string();
    let none = |times: usize| "       -".repeat(times);
    let row = format!(
        "indicators          9        5       1{}{}       3{}",
        "       0".repeat(6),
        none(5),
        none(2)
    );
    for line in [
        &row[..],
        "found               0        1     more    exact    short  by id 5",
        "                    2        1        2        1        2        1",
    ] {
        assert!(shown.lines().any(|shown| shown == line), "{shown}");
    }
}

#[test]
fn what_is_taken_along_is_counted() {
    let mut tally = Tally::default();
    let names = [
        "clear with, none taken along",
        "clear with, one taken along",
        "clear with, two taken along",
        "clear with, some taken along with a field that was missing",
        "clear with, TI left beside its data",
        "clear with, some taken along where attachment 5 stands",
    ];
    let left = |tally: &Tally| unseen(tally, "clear with");
    assert_eq!(left(&tally), names);
    let mut clear = |values: &[(usize, i64)], ids: &[u8], field: usize| {
        let buffer = report_of(values, ids);
        let call = clear_call(field);
        run(&mut tally, Given::Call { buffer, call });
        left(&tally)
    };
    let both = [(TI, 0), (S, 0), (BI, 0)];
    // Refused, then an indicator that is named, and one whose data were lost before.
    assert_eq!(clear(&both, &[5], 3), names);
    assert_eq!(clear(&[(WI, 0)], &[5], WI), names[1..]);
    assert_eq!(clear(&[(WI, 0)], &[5], D), names[1..]);
    assert_eq!(clear(&both[1..], &[], S), names[2..]);
    assert_eq!(clear(&both, &[4], S), names[3..]);
    assert_eq!(clear(&[(HI, 0)], &[], H), names[4..]);
    assert_eq!(clear(&both, &[], A), names[5..]);
    assert_eq!(clear(&both, &[5], A), names[5..]);
    assert_eq!(clear(&both, &[5], S), [""; 0]);
    let shown = tally.to_string();
    let none = |times: usize| "       -".repeat(times);
    let row = format!(
        "clear with          9        8{}       0       -       1{}",
        "       0".repeat(7),
        none(5)
    );
    for line in [
        &row[..],
        "taken along         0        1        2  missing  TI left     id 5",
        "                    4        2        2        1        2        1",
    ] {
        assert!(shown.lines().any(|shown| shown == line), "{shown}");
    }
}

/// A tally of all cases but those that are left out.
fn tally_without(left_out: impl Fn(&Given, &FlagTable) -> bool) -> Tally {
    let mut tally = Tally::default();
    let mut harness = Harness::new(STAND_IN);
    for trial in (0..CASES).flat_map(|case| trials(SEED, case)) {
        if !left_out(&trial.given, &trial.flags) {
            assert!(compare(&mut harness, &mut tally, &trial).is_none());
        }
    }
    assert!(!tally.passes(DEFAULT_CALLS));
    assert!(tally.passes(DEFAULT_CALLS - 1));
    tally
}

/// A whole run fails without a find that is a byte short, and without a clear that takes
/// two indicators along.
#[test]
fn what_indicators_never_came_to_fails_a_whole_run() {
    let tally = tally_without(|given, _| match given {
        Given::Whole(Case::FindIndicators { report, output }) => {
            let judged = judge(report, &FlagTable::all());
            judged
                .is_ok_and(|report| report.observation.lone_indicators().len() == output.len() + 1)
        }
        _ => false,
    });
    assert_eq!(tally.unseen(), ["indicators, room for all but one"]);
    let tally = tally_without(takes_two);
    assert_eq!(tally.unseen(), ["clear with, two taken along"]);
}

/// Whether a list, or a call of its own, takes TI and BI along.
fn takes_two(given: &Given, flags: &FlagTable) -> bool {
    let (mut buffer, calls) = match given {
        Given::List { buffer, calls } => (buffer.clone(), calls.clone()),
        Given::Call { buffer, call } => (buffer.clone(), vec![call.clone()]),
        _ => return false,
    };
    calls.iter().any(|call| {
        let before = judge(&buffer, flags);
        call.run(&mut buffer, flags);
        let (Ok(before), Ok(after)) = (before, judge(&buffer, flags)) else {
            return false;
        };
        let lost =
            |field: usize| stands(&before.observation, field) && !stands(&after.observation, field);
        *call == clear_call(S) && lost(TI) && lost(BI)
    })
}

/// Every indicator without its data, TI beside each choice of its own, and attachment 5
/// with and without something to be found.
#[test]
fn indicators_are_drawn() {
    let mut found = [0; 6];
    let mut beside = [0; 16];
    let mut by_5 = [0; 2];
    for trial in (0..CASES).flat_map(|case| trials(SEED, case)) {
        let Given::Whole(Case::FindIndicators { report, .. }) = &trial.given else {
            continue;
        };
        let Ok(judged) = judge(report, &trial.flags) else {
            continue;
        };
        let observation = judged.observation;
        for (count, indicator) in found.iter_mut().zip(ALL) {
            *count += usize::from(observation.lone_indicators().contains(&(indicator as u8)));
        }
        if stands(&observation, TI) {
            let choice = data_of(TI)
                .into_iter()
                .map(|data| stands(&observation, data));
            let choice = choice.fold(0, |choice, stands| 2 * choice + usize::from(stands));
            beside[choice] += 1;
        }
        if has(&observation, 5) {
            let hidden = !without_5(&observation).lone_indicators().is_empty();
            by_5[usize::from(hidden)] += 1;
        }
    }
    assert!(found.iter().all(|&count| count >= 30), "{found:?}");
    assert!(beside.iter().all(|&count| count > 0), "{beside:?}");
    assert!(
        [1, 2, 4, 8].iter().all(|&one| beside[one] >= 8),
        "{beside:?}"
    );
    assert!(by_5.iter().all(|&count| count >= 30), "{by_5:?}");
}

/// Every field on which an indicator rests, the indicators, required fields and others.
#[test]
fn clears_with_indicators_are_drawn() {
    let mut counts = [0; 1 + FIELDS];
    for trial in (0..CASES).flat_map(|case| trials(SEED, case)) {
        let calls = match trial.given {
            Given::List { calls, .. } => calls,
            Given::Call { call, .. } => vec![call],
            _ => continue,
        };
        for call in calls {
            if let Call::ClearWithIndicators { field } = call {
                let known = (1..=FIELDS as u64).contains(&field);
                counts[if known { field as usize } else { 0 }] += 1;
            }
        }
    }
    let least = |fields: &[usize], least: usize| {
        assert!(
            fields.iter().all(|&field| counts[field] >= least),
            "{counts:?}"
        );
    };
    least(&DATA, 25);
    least(&[0], 40);
    least(&ALL, 5);
    least(&REQUIRED, 5);
    let others =
        (1..=FIELDS).filter(|field| ![&DATA[..], &ALL, &REQUIRED].concat().contains(field));
    let others: usize = others.map(|field| counts[field]).sum();
    assert!(others >= 40, "{counts:?}");
}

#[test]
fn indicators_are_shown() {
    let given = Given::Whole(find_case(&[0x12], 2));
    assert_eq!(given.to_string(), "find-indicators 12 EEEE");
    let given = Given::Call {
        buffer: vec![0x12],
        call: clear_call(S),
    };
    assert_eq!(given.to_string(), "calls 12 ; clear-with-indicators 31");
}

#[test]
fn fences_stop_a_call_at_indicators() {
    assert_stopped("indicators::write_past_what_was_found");
    assert_stopped("indicators::write_to_an_empty_output");
    assert_stopped("indicators::write_to_the_report_of_a_find");
    assert_stopped("indicators::write_past_the_report_of_a_clear");
}

type FindCall = unsafe extern "C" fn(*const u8, usize, *mut u8, usize, *const Flags) -> Answer;

fn find_in_one(find_indicators: FindCall, room: usize) {
    watched();
    let mut harness = Harness::new(Library {
        find_indicators,
        ..STAND_IN
    });
    let case = find_case(&report_of(&[(DI, 0)], &[]), room);
    harness.whole(&case, &FlagTable::all());
}

#[test]
#[ignore = "dies; run by fences_stop_a_call_at_indicators"]
fn write_past_what_was_found() {
    unsafe extern "C" fn wrong(
        report: *const u8,
        n: usize,
        out: *mut u8,
        out_n: usize,
        flags: *const Flags,
    ) -> Answer {
        unsafe {
            let answer = stand_in::find_indicators(report, n, out, out_n, flags);
            out.add(answer.first as usize).write_volatile(0);
            answer
        }
    }
    find_in_one(wrong, 1);
}

#[test]
#[ignore = "dies; run by fences_stop_a_call_at_indicators"]
fn write_to_an_empty_output() {
    unsafe extern "C" fn wrong(
        report: *const u8,
        n: usize,
        out: *mut u8,
        out_n: usize,
        flags: *const Flags,
    ) -> Answer {
        unsafe {
            out.write_volatile(17);
            stand_in::find_indicators(report, n, out, out_n, flags)
        }
    }
    find_in_one(wrong, 0);
}

#[test]
#[ignore = "dies; run by fences_stop_a_call_at_indicators"]
fn write_to_the_report_of_a_find() {
    unsafe extern "C" fn wrong(
        report: *const u8,
        n: usize,
        out: *mut u8,
        out_n: usize,
        flags: *const Flags,
    ) -> Answer {
        unsafe {
            report.cast_mut().write_volatile(0);
            stand_in::find_indicators(report, n, out, out_n, flags)
        }
    }
    find_in_one(wrong, 1);
}

#[test]
#[ignore = "dies; run by fences_stop_a_call_at_indicators"]
fn write_past_the_report_of_a_clear() {
    unsafe extern "C" fn wrong(
        report: *mut u8,
        n: usize,
        field: usize,
        flags: *const Flags,
    ) -> Answer {
        unsafe {
            report.add(n).write_volatile(0);
            stand_in::clear_with_indicators(report, n, field, flags)
        }
    }
    watched();
    let mut harness = Harness::new(Library {
        clear_with_indicators: wrong,
        ..STAND_IN
    });
    let report = report_of(&[(DI, 0)], &[]);
    harness.call(&clear_call(D), &report, &FlagTable::all());
}
