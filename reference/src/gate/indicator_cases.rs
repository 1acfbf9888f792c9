//! Records in which indicators are found, and lists in which fields are cleared with them.

use std::collections::BTreeSet;

use crate::call::Call;
use crate::cases::Case;
use crate::cases::indicators::{self, of_fields};
use crate::cases::material::{random_indicators, with_bytes_after};
use crate::cases::pairs;
use crate::cases::random::{call_without_indicators, indicator_call};
use crate::flag_table::FlagTable;
use crate::gate::flag_cases::item;
use crate::gate::list::{Item, List};
use crate::gate::list_cases::cuts;
use crate::gate::log::{HEAD, MARKED, record_size};
use crate::gate::record;
use crate::gate::script::{entry, script};
use crate::gate::whole_cases::room;
use crate::observation::Observation;
use crate::prng::Prng;
use crate::step::step;

/// Drawn records.
const DRAWN: usize = 60;

/// Drawn lists and their calls.
const LISTS: usize = 16;
const CALLS: usize = 40;

/// Records from a seed, none of them twice between two loads. They end with every flag
/// permitted.
pub fn records(seed: u64) -> Vec<Case> {
    let mut prng = Prng::new(seed);
    let mut cases = indicators::cases();
    cases.retain(record::fits);
    for pair in pairs::pairs() {
        let both = [pair.both, pair.mended];
        cases.extend(both.into_iter().filter(finds_indicators));
    }
    cases.extend(behind_lists(seed));
    cases.extend((0..DRAWN).map(|_| drawn_record(&mut prng)));
    let mut seen = BTreeSet::new();
    cases.retain(|case| {
        if !finds_indicators(case) {
            seen.clear();
        }
        seen.insert(record::input(case))
    });
    cases
}

fn finds_indicators(case: &Case) -> bool {
    matches!(case, Case::FindIndicators { .. })
}

/// Lists and loads from a seed. They end with every flag permitted.
pub fn items(seed: u64) -> Vec<Item> {
    let mut items: Vec<Item> = indicators::cases().into_iter().filter_map(item).collect();
    let mut lists = refused_pair_lists();
    lists.extend(ended_lists());
    lists.extend(drawn_lists(seed));
    items.extend(lists.into_iter().map(Item::List));
    items
}

/// What is found in the reports that lists leave: behind each clear with indicators, and
/// where a list ends.
fn behind_lists(seed: u64) -> Vec<Case> {
    let mut cases = Vec::new();
    for case in indicators::lists() {
        if let Case::Calls { mut buffer, calls } = case {
            cases.extend(behind_clears(&mut buffer, &calls));
        }
    }
    for list in drawn_lists(seed) {
        let (after, _) = list.run(&FlagTable::all());
        cases.push(indicators::find(&after, 6));
    }
    cases
}

fn behind_clears(buffer: &mut [u8], calls: &[Call]) -> Vec<Case> {
    let mut cases = Vec::new();
    for call in calls {
        let accepted = call.run(buffer, &FlagTable::all()).result.is_ok();
        if accepted && matches!(call, Call::ClearWithIndicators { .. }) {
            cases.push(indicators::find(buffer, 2));
        }
    }
    cases
}

/// A small observation in which indicators often stand without their data.
fn small(prng: &mut Prng) -> Observation {
    loop {
        let observation = random_indicators(prng);
        if observation.size() < 70 {
            return observation;
        }
    }
}

fn drawn_record(prng: &mut Prng) -> Case {
    let observation = small(prng);
    let room = room(prng, observation.lone_indicators().len());
    Case::FindIndicators {
        report: observation.packing(),
        output: prng.bytes(room),
    }
}

/// The report's refusal with each of the call's own.
fn refused_pair_lists() -> Vec<List> {
    let mut lists: Vec<(Vec<u8>, Vec<Call>)> = Vec::new();
    for pair in pairs::pairs() {
        if let Case::Calls { buffer, calls } = pair.both
            && matches!(calls[0], Call::ClearWithIndicators { .. })
        {
            match lists.last_mut() {
                Some((last, together)) if *last == buffer => together.extend(calls),
                _ => lists.push((buffer, calls)),
            }
        }
    }
    let list = |(buffer, calls): (Vec<u8>, Vec<Call>)| List::of(buffer, &calls);
    lists.into_iter().map(list).collect()
}

/// Lists that end before or behind a clear with indicators: its entry is cut off, or the
/// log ends in its record or with it.
fn ended_lists() -> Vec<List> {
    let observation = of_fields(&[17, 18, 36], true);
    let buffer = with_bytes_after(observation.packing(), &[0xA5, 0x5A]);
    let clear = |field| Call::ClearWithIndicators { field };
    let calls = [clear(37), clear(18), Call::ReadField { field: 17 }];
    let whole = script(&calls);
    let before = entry(&calls[0]).len();
    let mut lists = Vec::new();
    for length in [0, 1, 2, 8, 9, 10] {
        lists.push(List {
            script: whole[..before + length].to_vec(),
            ..List::of(buffer.clone(), &calls)
        });
    }
    let written = record_size(&calls[0]);
    for cut in cuts(&calls[1], &[0, 1, HEAD - 1, HEAD + 1, HEAD + MARKED]) {
        lists.push(List {
            room: written + cut,
            ..List::of(buffer.clone(), &calls)
        });
    }
    lists
}

/// Calls that know indicators, and at times any other.
fn drawn_lists(seed: u64) -> Vec<List> {
    let mut prng = Prng::new(seed);
    let mut lists = Vec::new();
    for _ in 0..LISTS {
        let mut observation = small(&mut prng);
        let room = prng.pick(&[0, 2, 5]);
        let buffer = with_bytes_after(observation.packing(), &prng.bytes(room));
        let mut calls = Vec::new();
        for _ in 0..CALLS {
            let call = drawn_call(&mut prng, &observation, buffer.len());
            observation = step(&observation, buffer.len(), &call, &FlagTable::all()).0;
            calls.push(call);
        }
        lists.push(List::of(buffer, &calls));
    }
    lists
}

fn drawn_call(prng: &mut Prng, observation: &Observation, n: usize) -> Call {
    if !prng.one_in(4) {
        return indicator_call(prng);
    }
    loop {
        let call = call_without_indicators(prng, observation, n);
        if entry(&call).len() < 40 {
            return call;
        }
    }
}
