//! What both sides are tried on: cases, each with the table of flags that it runs under.

use std::array::from_fn;

use reference::call::Call;
use reference::cases::material::{
    Draft, forbid_flag, permit_flags, random_flag_table, random_flags, random_observation, tail_of,
    values_and_word,
};
use reference::cases::random::{damage, indicator_call, random_call};
use reference::cases::{Case, fixed, random};
use reference::flag_table::FlagTable as Permitted;
use reference::flags::{self, FLAGS};
use reference::gate::former_cases;
use reference::gate::list::Item;
use reference::gate::script::first_call;
use reference::indicator::{ERRONEOUS_ID, INDICATORS};
use reference::observation::Observation;
use reference::prng::Prng;
use reference::step::step;

use crate::FlagTable;
use crate::reports::{SIZES, lone_observations};

/// A case, and the table that it runs under. A load begins with it.
#[derive(Clone, Debug)]
pub struct Trial {
    pub table: FlagTable,
    pub case: Case,
}

/// The table that permits everything.
pub const ALL: FlagTable = [[1; 10]; 14];

/// A table as the independent implementation has it.
pub fn permitted_of(table: &FlagTable) -> Permitted {
    let marks = table.as_flattened().try_into();
    Permitted::of(marks.expect("a table has 140 marks"))
}

fn rows_of(table: &Permitted) -> FlagTable {
    let marks = table.marks();
    from_fn(|row| from_fn(|column| marks[10 * row + column]))
}

/// A table that permits everything or most of it, often with a few marks that no load gives.
pub fn random_table(prng: &mut Prng) -> FlagTable {
    let sound = rows_of(&random_flag_table(prng));
    let mut table = prng.pick(&[ALL, sound]);
    for _ in 0..prng.pick(&[0, 0, 1, 2, 5, 40]) {
        let byte = prng.next_u64() as u8;
        table[prng.below(14)][prng.below(10)] = prng.pick(&[0, 0, 2, 255, byte]);
    }
    table
}

/// Random flags that a table permits. One time in four it forbids one of them, if it forbids any.
fn random_body(prng: &mut Prng, table: &FlagTable) -> Vec<u8> {
    let permitted = permitted_of(table);
    let mut flags = random_flags(prng)[..FLAGS].to_vec();
    permit_flags(prng, &permitted, &mut flags);
    if prng.one_in(4) {
        forbid_flag(prng, &permitted, &mut flags);
    }
    flags::body_of(&flags)
}

/// A call of any kind, often one on flags.
fn call_on(prng: &mut Prng, observation: &Observation, n: usize, table: &FlagTable) -> Call {
    match prng.below(8) {
        0 => Call::Put {
            id: flags::ID.into(),
            content: random_body(prng, table),
        },
        1 => Call::SetFlag {
            flag: 1 + prng.below(14) as u64,
            value: prng.below(12) as i64,
        },
        _ => random_call(prng, observation, n),
    }
}

/// Random calls on a report, behind which the buffer has room.
fn calls_on(observation: &Observation, prng: &mut Prng, table: &FlagTable) -> Case {
    let room = prng.pick(&[0, 1, 20, 300]);
    let mut buffer = observation.packing();
    buffer.extend(prng.bytes(room));
    let mut observation = observation.clone();
    let mut calls = Vec::new();
    for _ in 0..12 {
        let call = call_on(prng, &observation, buffer.len(), table);
        observation = step(&observation, buffer.len(), &call, &permitted_of(table)).0;
        calls.push(call);
    }
    Case::Calls { buffer, calls }
}

/// A report with a bit changed or its end cut.
fn damaged(report: &[u8], prng: &mut Prng) -> Vec<u8> {
    let mut report = report.to_vec();
    if prng.one_in(4) {
        report.truncate(prng.below(report.len() + 1));
    } else {
        let index = prng.below(report.len());
        report[index] ^= 1 << prng.below(8);
    }
    report
}

fn unpack_of(report: Vec<u8>) -> Case {
    Case::Unpack {
        report,
        values: vec![-77; 48],
        tail: vec![0xA5; 4000],
    }
}

fn pack_of(observation: &Observation) -> Case {
    let (values, word) = values_and_word(observation, 0);
    Case::Pack {
        values,
        word,
        rptin: observation.rptin,
        tail: tail_of(observation),
        output: vec![0xA5; 1900],
    }
}

/// The fixed cases. A load among them is in force for those behind it.
fn fixed_trials() -> Vec<Trial> {
    let mut permitted = Permitted::all();
    let trial = |case| {
        let table = rows_of(&permitted);
        if let Case::Load { marks } = &case {
            permitted.load(marks).ok();
        }
        Trial { table, case }
    };
    fixed().into_iter().map(trial).collect()
}

fn calls_of(mut script: &[u8]) -> Vec<Call> {
    let mut calls = Vec::new();
    while let Some((call, rest)) = first_call(script) {
        calls.push(call);
        script = rest;
    }
    calls
}

/// Sets and clears over what stood before: a value, the value 0, or nothing. A load among them
/// is in force for those behind it.
fn former_trials(seed: u64) -> Vec<Trial> {
    let mut permitted = Permitted::all();
    let mut trials = Vec::new();
    for item in former_cases::items(seed) {
        match item {
            Item::Load(marks) => {
                permitted.load(&marks).ok();
            }
            Item::List(list) => {
                let calls = calls_of(&list.script);
                let buffer = list.buffer;
                let case = Case::Calls { buffer, calls };
                let table = rows_of(&permitted);
                trials.push(Trial { table, case });
            }
        }
    }
    trials
}

/// Mostly the indicators keep their values and lose their data. One time in four attachment 5
/// stands, if it stood.
fn with_lost_data(observation: &Observation, prng: &mut Prng) -> Observation {
    let mut observation = observation.clone();
    let (lost, kept) = prng.pick(&[(2, 2), (8, 2), (8, 8)]);
    for indicator in INDICATORS {
        if prng.one_in(lost) {
            observation.values[indicator.field - 1] = None;
        }
        for &field in indicator.data {
            if !prng.one_in(kept) {
                observation.values[field - 1] = None;
            }
        }
    }
    if !prng.one_in(4) {
        let attachments = &mut observation.attachments;
        attachments.retain(|attachment| attachment.id != ERRONEOUS_ID);
    }
    observation
}

/// Calls about indicators, mostly clears with them, on a report or a damaged one.
fn indicator_calls_on(report: &[u8], prng: &mut Prng) -> Case {
    let mut buffer = report.to_vec();
    buffer.extend(prng.bytes(5));
    let calls = (0..12).map(|_| indicator_call(prng));
    let calls = calls.collect();
    Case::Calls { buffer, calls }
}

fn find_of(report: Vec<u8>, prng: &mut Prng) -> Case {
    let output = vec![prng.next_u64() as u8; prng.pick(&[6, 6, 9, 7, 5, 3, 2, 1, 0])];
    Case::FindIndicators { report, output }
}

/// Both calls on an observation whose indicators have lost data, sound and damaged.
fn indicator_cases(observation: &Observation, prng: &mut Prng) -> [Case; 4] {
    let lone = with_lost_data(observation, prng);
    let damaged = if prng.one_in(2) {
        damaged(&lone.packing(), prng)
    } else {
        let mut draft = Draft::of(&lone);
        damage(prng, &mut draft);
        draft.bytes()
    };
    [
        find_of(lone.packing(), prng),
        find_of(damaged.clone(), prng),
        indicator_calls_on(&lone.packing(), prng),
        indicator_calls_on(&damaged, prng),
    ]
}

/// The reports on which finding is measured, with each output up to 7 bytes; on each every field
/// is cleared with its indicators.
fn lone_trials() -> Vec<Trial> {
    let mut cases = Vec::new();
    for observation in SIZES.into_iter().flat_map(lone_observations) {
        let report = observation.packing();
        cases.extend((0..8).map(|room| Case::FindIndicators {
            report: report.clone(),
            output: vec![0xA5; room],
        }));
        let calls = (0..48).map(|field| Call::ClearWithIndicators { field });
        cases.push(Case::Calls {
            buffer: report,
            calls: calls.collect(),
        });
    }
    let trial = |case| Trial { table: ALL, case };
    cases.into_iter().map(trial).collect()
}

/// A text read out to outputs that mostly have room for it.
fn read_out_of(report: Vec<u8>, prng: &mut Prng) -> Case {
    let mut output = || vec![prng.next_u64() as u8; prng.pick(&[2295, 2295, 300, 40, 0])];
    Case::ReadOut {
        report,
        text: output(),
        origins: output(),
    }
}

/// Calls on an observation, and its report damaged.
fn trials_on(observation: &Observation, prng: &mut Prng) -> Vec<Trial> {
    let damaged = damaged(&observation.packing(), prng);
    let cases = [
        calls_on(observation, prng, &ALL),
        unpack_of(damaged.clone()),
        read_out_of(observation.packing(), prng),
        read_out_of(damaged.clone(), prng),
        find_of(observation.packing(), prng),
        Case::Judge { report: damaged },
    ];
    let trial = |case| Trial { table: ALL, case };
    let cases = cases.into_iter().chain(indicator_cases(observation, prng));
    cases.map(trial).collect()
}

/// An observation under a table: judged, unpacked, packed, calls on it, and indicators found.
fn trials_under(table: FlagTable, prng: &mut Prng) -> Vec<Trial> {
    let mut observation = random_observation(prng);
    for attachment in &mut observation.attachments {
        if attachment.id == flags::ID {
            attachment.nibbles = random_body(prng, &table);
        }
    }
    let report = observation.packing();
    let cases = [
        calls_on(&observation, prng, &table),
        pack_of(&observation),
        unpack_of(report.clone()),
        read_out_of(report.clone(), prng),
        Case::Judge { report },
    ];
    let trial = |case| Trial { table, case };
    let cases = cases.into_iter().chain(indicator_cases(&observation, prng));
    cases.map(trial).collect()
}

/// A lent table, beside a former one: sound, of another length, with another byte or an empty row.
fn load_trial(prng: &mut Prng) -> Trial {
    let table = random_table(prng);
    let mut marks = random_flag_table(prng).marks().to_vec();
    match prng.below(6) {
        0 => marks.resize(prng.pick(&[0, 10, 139, 141, 150, 280]), 1),
        1 => marks[prng.below(140)] = 2 + prng.below(254) as u8,
        2 => marks[10 * prng.below(14)..][..10].fill(0),
        _ => {}
    }
    let case = Case::Load { marks };
    Trial { table, case }
}

/// Fixed trials, those of former values and of lost data, random ones, some of them under random
/// tables, and those on these observations.
pub fn trials(seed: u64, count: usize, observations: &[Observation]) -> Vec<Trial> {
    let mut prng = Prng::new(seed);
    let mut all = fixed_trials();
    all.extend(former_trials(seed));
    all.extend(lone_trials());
    all.extend(random::cases(seed, count).map(|case| Trial { table: ALL, case }));
    for _ in 0..count / 10 {
        let table = random_table(&mut prng);
        all.extend(trials_under(table, &mut prng));
        all.push(load_trial(&mut prng));
    }
    for observation in observations {
        for _ in 0..count / 40 {
            all.extend(trials_on(observation, &mut prng));
        }
    }
    all
}
