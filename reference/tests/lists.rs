//! Lists of calls on a buffer beside the same on an observation.

use std::collections::BTreeMap;

use reference::call::Call;
use reference::cases::material::{permit_flags, random_flag_table, random_observation};
use reference::cases::random::random_call;
use reference::cases::{Case, fixed};
use reference::flag_table::FlagTable;
use reference::flags;
use reference::gate::list::Item;
use reference::gate::script::first_call;
use reference::gate::{SEED, list_cases};
use reference::judge::judge;
use reference::observation::Observation;
use reference::prng::Prng;
use reference::step::step;

/// The buffer that a list leaves: the packing, zeros up to the longest end
/// reached, and the starting bytes behind that.
fn expected_buffer(start: &[u8], observation: &Observation, longest: usize) -> Vec<u8> {
    let mut buffer = observation.packing();
    buffer.resize(longest, 0);
    buffer.extend(&start[longest..]);
    buffer
}

/// Counts what the calls of a list came to: refusal number, or 0.
type Met = BTreeMap<(&'static str, u8), usize>;

fn name(call: &Call) -> &'static str {
    match call {
        Call::ReadField { .. } => "read field",
        Call::SetField { .. } => "set field",
        Call::ClearField { .. } => "clear field",
        Call::ReadFlag { .. } => "read flag",
        Call::SetFlag { .. } => "set flag",
        Call::ClearFlag { .. } => "clear flag",
        Call::Put { .. } => "put",
        Call::Fetch { .. } => "fetch",
        Call::Drop { .. } => "drop",
        Call::PutText { .. } => "put text",
        Call::FetchText { .. } => "fetch text",
        Call::ClearWithIndicators { .. } => "clear with indicators",
    }
}

/// Runs one list on the buffer and on the observation, under one table of flags.
fn compare(
    start: &[u8],
    observation: Observation,
    calls: &[Call],
    flags: &FlagTable,
    met: &mut Met,
) {
    let n = start.len();
    let mut buffer = start.to_vec();
    let mut observation = observation;
    let mut longest = observation.size();
    for call in calls {
        let (after, answer) = step(&observation, n, call, flags);
        assert_eq!(call.run(&mut buffer, flags), answer, "{call:?}");
        longest = longest.max(after.size());
        assert_eq!(buffer, expected_buffer(start, &after, longest), "{call:?}");
        assert_eq!(judge(&buffer, flags).unwrap().observation, after);
        let number = answer.result.err().map_or(0, |refusal| refusal.number);
        *met.entry((name(call), number)).or_default() += 1;
        observation = after;
    }
}

#[test]
fn random_lists_agree() {
    let mut prng = Prng::new(20);
    let mut met = Met::new();
    for _ in 0..600 {
        let observation = random_observation(&mut prng);
        let mut start = observation.packing();
        let room = prng.pick(&[0, 1, 3, 10, 100, 400, 2000]);
        start.extend(prng.bytes(room));
        let mut calls = Vec::new();
        let mut current = observation.clone();
        for _ in 0..30 {
            let call = random_call(&mut prng, &current, start.len());
            current = step(&current, start.len(), &call, &FlagTable::all()).0;
            calls.push(call);
        }
        compare(&start, observation, &calls, &FlagTable::all(), &mut met);
    }
    let reached: Vec<(&str, &[u8])> = vec![
        ("read field", &[0, 8]),
        ("set field", &[0, 8, 9]),
        ("clear field", &[0, 8, 10]),
        ("read flag", &[0, 8, 11]),
        ("set flag", &[0, 8, 9, 11]),
        ("clear flag", &[0, 8, 11]),
        ("put", &[0, 8, 12, 14, 13]),
        ("fetch", &[0, 8, 11, 13]),
        ("drop", &[0, 8, 11]),
        ("put text", &[0, 12, 13, 14]),
        ("fetch text", &[0, 11, 13]),
        ("clear with indicators", &[0, 8, 10]),
    ];
    for (call, numbers) in reached {
        for &number in numbers {
            let count = met.remove(&(call, number)).unwrap_or(0);
            assert!(count >= 10, "{call} came to {number} only {count} times");
        }
    }
    assert!(met.is_empty(), "no call should come to {met:?}");
}

/// Lists under drawn tables, in which set flag comes to 9 and put to 14 more often.
#[test]
fn random_lists_agree_under_tables_of_flags() {
    let mut prng = Prng::new(21);
    let mut met = Met::new();
    for _ in 0..300 {
        let table = random_flag_table(&mut prng);
        let mut observation = random_observation(&mut prng);
        for attachment in &mut observation.attachments {
            if attachment.id == flags::ID {
                let row = &mut attachment.nibbles[..flags::FLAGS];
                permit_flags(&mut prng, &table, row);
                attachment.nibbles = flags::body_of(row);
            }
        }
        let mut start = observation.packing();
        start.extend(prng.bytes(40));
        let mut calls = Vec::new();
        for _ in 0..20 {
            calls.push(random_call(&mut prng, &observation, start.len()));
            let (flag, value) = (1 + prng.below(14) as u64, 1 + prng.below(10) as i64);
            calls.push(Call::SetFlag { flag, value });
        }
        compare(&start, observation, &calls, &table, &mut met);
    }
    assert!(met[&("set flag", 9)] > 500, "{met:?}");
    assert!(met[&("put", 14)] > 100, "{met:?}");
}

#[test]
fn fixed_lists_agree() {
    let mut met = Met::new();
    let mut flags = FlagTable::all();
    for case in fixed() {
        if let Case::Calls { buffer, calls } = &case
            && let Ok(report) = judge(buffer, &flags)
        {
            compare(buffer, report.observation, calls, &flags, &mut met);
        }
        case.run(&mut flags);
    }
    assert!(met.len() >= 35, "{met:?}");
}

/// The calls of a script up to its end or the first entry that is none.
fn calls_of(script: &[u8]) -> Vec<Call> {
    let mut calls = Vec::new();
    let mut rest = script;
    while let Some((call, behind)) = first_call(rest) {
        calls.push(call);
        rest = behind;
    }
    calls
}

#[test]
fn gate_lists_agree() {
    let mut met = Met::new();
    let mut flags = FlagTable::all();
    for item in list_cases::items(SEED) {
        match item {
            Item::List(list) => {
                if let Ok(report) = judge(&list.buffer, &flags) {
                    let calls = calls_of(&list.script);
                    compare(&list.buffer, report.observation, &calls, &flags, &mut met);
                }
            }
            Item::Load(marks) => {
                let former = flags;
                if flags.load(&marks).is_err() {
                    assert_eq!(flags, former);
                }
            }
        }
    }
    assert_eq!(met.len(), 40, "{met:?}");
}
