//! The calls outside the list that are compared: every field at its edges,
//! every refusal with the pairs that an order decides, and reports of all sizes.

use std::collections::BTreeSet;

use crate::cases::material::*;
use crate::cases::outside::{edge_values, tails};
use crate::cases::{self, Case, characters, pairs, random, reports};
use crate::gate::sizes::{LONGEST_TAIL, observation_of_sum, observation_of_tail};
use crate::gate::{
    costliest_cases, flag_cases, indicator_cases, record, same_cases, sum_cases, symbol_cases,
    trip_cases,
};
use crate::observation::Observation;
use crate::prng::Prng;
use crate::table::{FIELDS, fields};

/// Cases from a seed, those of a library's own table of flags, those of symbols, those of
/// the costliest text and those of indicators last.
pub fn cases(seed: u64) -> Vec<Case> {
    let mut cases = before_loads(seed);
    cases.extend(flag_cases::records(seed));
    cases.extend(symbol_cases::records(seed));
    cases.extend(costliest_cases::records(seed));
    cases.extend(indicator_cases::records(seed));
    cases
}

/// The cases before the first load, none of them twice.
pub fn before_loads(seed: u64) -> Vec<Case> {
    let mut prng = Prng::new(seed);
    let mut cases = field_cases(&mut prng);
    cases.extend(sound_reports());
    cases.extend(damaged_reports());
    cases.extend(checksums());
    cases.extend(report_pairs());
    cases.extend(fresh_cases());
    cases.extend(unpack_outputs(&mut prng));
    cases.extend(pack_words());
    cases.extend(pack_tails());
    cases.extend(pack_outputs(&mut prng));
    cases.extend(pack_value_counts());
    cases.extend(caller_pairs());
    cases.extend(sizes(&mut prng));
    cases.extend(drawn(&mut prng));
    cases.extend(same_cases::cases());
    cases.extend(trip_cases::cases(&mut prng));
    cases.extend(sum_cases::cases());
    cases.extend(characters::cases());
    let mut seen = BTreeSet::new();
    cases.retain(|case| record::fits(case) && seen.insert(record::input(case)));
    cases
}

/// Values as given to unpack, each its own.
pub fn lent_values(count: usize) -> Vec<i64> {
    (0..count as i64)
        .map(|index| -7_000_000_000 - index)
        .collect()
}

fn unpack(report: &[u8], values: usize, tail: usize) -> Case {
    Case::Unpack {
        report: report.to_vec(),
        values: lent_values(values),
        tail: vec![0xEE; tail],
    }
}

/// An observation as pack takes it, values of missing fields absurd.
pub fn pack(observation: &Observation, room: usize) -> Case {
    let (values, word) = values_and_word(observation, i64::MIN);
    Case::Pack {
        values,
        word,
        rptin: observation.rptin,
        tail: tail_of(observation),
        output: vec![0xEE; room],
    }
}

pub fn judge(report: &[u8]) -> Case {
    Case::Judge {
        report: report.to_vec(),
    }
}

pub fn lister(report: &[u8]) -> Case {
    Case::Lister {
        input: report.to_vec(),
    }
}

/// An observation with random values and no attachments.
fn plain_observation(prng: &mut Prng) -> Observation {
    let mut observation = random_observation(prng);
    observation.attachments.clear();
    observation
}

/// Each field at its lowest, its highest and missing, and out of range in pack.
fn field_cases(prng: &mut Prng) -> Vec<Case> {
    let mut cases = Vec::new();
    for observation in [
        fresh_observation(),
        full_observation(false),
        full_observation(true),
    ] {
        cases.extend([
            judge(&observation.packing()),
            lister(&observation.packing()),
        ]);
        cases.extend([
            unpack(&observation.packing(), 46, 0),
            pack(&observation, 38),
        ]);
    }
    for field in fields() {
        let (lowest, highest) = (field.lowest_value(), field.highest_value());
        for value in [Some(lowest), Some(highest), None] {
            let mut observation = plain_observation(prng);
            observation.values[field.number - 1] = value;
            let report = observation.packing();
            cases.extend([
                pack(&observation, 38),
                lister(&report),
                unpack(&report, 46, 0),
            ]);
        }
        let edges = edge_values(lowest, highest);
        for value in [lowest.0 - 1, highest.0 + 1, prng.pick(&edges)] {
            let (mut values, word) = values_and_word(&plain_observation(prng), 0);
            values[field.number - 1] = value;
            cases.push(Case::Pack {
                values,
                word: word | 1 << field.number,
                rptin: 0x1234,
                tail: Vec::new(),
                output: vec![0xEE; 38],
            });
        }
    }
    cases
}

/// The sound reports that all comparisons share.
fn sound_reports() -> Vec<Case> {
    let mut cases = Vec::new();
    for report in reports::sound() {
        cases.extend([judge(&report), lister(&report)]);
        if report.len() < 200 {
            cases.push(unpack(&report, 46, 2 * report.len() - 74));
        }
    }
    let largest = largest_observation().packing();
    let whole_buffer = with_bytes_after(largest, &[0xFF; 147]);
    cases.extend([judge(&whole_buffer), lister(&whole_buffer)]);
    cases
}

/// A refused report: at times with outputs that would do, so that it is seen
/// that nothing is written.
pub fn refused(report: &[u8], outputs: bool) -> [Case; 3] {
    let (values, tail) = if outputs { (FIELDS, 60) } else { (2, 3) };
    [judge(report), lister(report), unpack(report, values, tail)]
}

fn damaged_reports() -> Vec<Case> {
    let mut cases = Vec::new();
    for (index, report) in reports::damaged().iter().enumerate() {
        cases.extend(refused(report, index % 7 == 0));
    }
    cases
}

/// CK around 0, where 255 and every upper bit are refused.
fn checksums() -> Vec<Case> {
    let mut cases = Vec::new();
    for sum in [5, 254, 255, 256, 509, 510, 511, 4080, 19635, 19643] {
        let observation = observation_of_sum(sum);
        let sound = Draft::of(&observation);
        cases.extend([judge(&sound.bytes()), lister(&sound.bytes())]);
        cases.extend([unpack(&sound.bytes(), 46, 0), pack(&observation, 38)]);
        let ck = sound.card.ck;
        let mut stored: Vec<u64> = (8..14).map(|bit| ck | (1 << bit)).collect();
        stored.extend([ck + 255, ck ^ 1, ck ^ 255, sum & 0x3FFF, 0x3FFF]);
        for other in stored {
            if other != ck {
                let mut draft = sound.clone();
                draft.card.ck = other;
                cases.extend([judge(&draft.bytes()), lister(&draft.bytes())]);
            }
        }
    }
    cases
}

/// Two refusals in one report.
fn report_pairs() -> Vec<Case> {
    let mut cases = Vec::new();
    for (index, pair) in pairs::pairs().into_iter().enumerate() {
        if let (Case::Judge { report: both }, Case::Judge { report: mended }) =
            (pair.both, pair.mended)
        {
            cases.extend(refused(&both, index % 16 == 0));
            cases.extend(refused(&mended, false));
        }
    }
    cases
}

/// Two refusals in unpack, pack and fresh, with outputs cut to what would do.
fn caller_pairs() -> Vec<Case> {
    let mut cases = Vec::new();
    for pair in pairs::pairs() {
        for mut case in [pair.both, pair.mended] {
            match &mut case {
                Case::Unpack { tail, .. } => tail.truncate(20),
                Case::Pack { output, .. } => output.truncate(42),
                Case::Fresh { .. } => {}
                _ => continue,
            }
            cases.push(case);
        }
    }
    cases
}

fn fresh_cases() -> Vec<Case> {
    let is_fresh = |case: &Case| matches!(case, Case::Fresh { .. });
    cases::outside::cases()
        .into_iter()
        .filter(is_fresh)
        .collect()
}

/// Observations with an odd and an even number of nibbles.
fn odd_and_even(prng: &mut Prng) -> Vec<Observation> {
    [0, 4, 5, 22, 23, 60]
        .map(|tail| observation_of_tail(prng, tail))
        .to_vec()
}

/// Outputs of unpack that just fit, are one short, and are longer.
fn unpack_outputs(prng: &mut Prng) -> Vec<Case> {
    let mut cases = Vec::new();
    for observation in odd_and_even(prng) {
        let report = observation.packing();
        let tail = tail_of(&observation).len();
        for (values, tail) in [
            (45, tail),
            (46, tail.saturating_sub(1)),
            (45, tail.saturating_sub(1)),
            (46, tail),
            (47, tail),
            (60, tail + 1),
            (0, tail + 1),
        ] {
            cases.push(unpack(&report, values, tail));
        }
    }
    let largest = largest_observation().packing();
    cases.push(unpack(&largest, 46, LONGEST_TAIL - 1));
    cases.push(unpack(&largest, 46, LONGEST_TAIL));
    cases.push(unpack(&largest, 46, 4000));
    cases
}

/// Outputs of pack that just fit, are one short, and are longer.
fn pack_outputs(prng: &mut Prng) -> Vec<Case> {
    let mut cases = Vec::new();
    for observation in odd_and_even(prng) {
        for room in [
            0,
            observation.size() - 1,
            observation.size(),
            observation.size() + 1,
        ] {
            cases.push(pack(&observation, room));
        }
    }
    let largest = largest_observation();
    cases.extend([1852, 1853, 2000].map(|room| pack(&largest, room)));
    cases
}

/// Each bit of the word flipped.
fn pack_words() -> Vec<Case> {
    let (values, sound) = values_and_word(&fresh_observation(), 0);
    let mut words: Vec<u64> = (0..64).map(|bit| sound ^ (1 << bit)).collect();
    words.extend([0, u64::MAX]);
    let case = |word| Case::Pack {
        values: values.clone(),
        word,
        rptin: 0xFFFF,
        tail: Vec::new(),
        output: vec![0xEE; 38],
    };
    words.into_iter().map(case).collect()
}

/// Tails sound and refused, with an output that would do.
fn pack_tails() -> Vec<Case> {
    let (values, word) = values_and_word(&fresh_observation(), 5);
    let case = |tail: Vec<u8>| Case::Pack {
        values: values.clone(),
        word,
        rptin: 0x00FF,
        output: vec![0xEE; (76 + tail.len()).div_ceil(2)],
        tail,
    };
    tails().into_iter().map(case).collect()
}

/// Too few values, and more than are read.
fn pack_value_counts() -> Vec<Case> {
    let (values, word) = values_and_word(&full_observation(true), 0);
    let case = |count| {
        let mut values = values.clone();
        values.resize(count, i64::MAX);
        Case::Pack {
            values,
            word,
            rptin: 0x8001,
            tail: Vec::new(),
            output: vec![0xEE; 38],
        }
    };
    [0, 1, 45, 46, 47, 60].map(case).to_vec()
}

/// Lengths of tails: the short ones one by one, then ever wider apart.
fn tail_lengths() -> Vec<usize> {
    let mut lengths = vec![0];
    let mut length = 4;
    while length < LONGEST_TAIL - 3 {
        lengths.push(length);
        length += 1 + length / 14;
    }
    lengths.extend(LONGEST_TAIL - 3..=LONGEST_TAIL);
    lengths
}

/// Reports of all sizes, some with bytes after them. Those up to 400 bytes go
/// through every call, and the larger ones through unpack or pack.
fn sizes(prng: &mut Prng) -> Vec<Case> {
    let mut cases = Vec::new();
    for (index, length) in tail_lengths().into_iter().enumerate() {
        let observation = observation_of_tail(prng, length);
        let after = prng.pick(&[0, 0, 1, 7]);
        let report = with_bytes_after(observation.packing(), &prng.bytes(after));
        let small = report.len() <= 400;
        cases.push(judge(&report));
        if small || index % 2 == 0 {
            cases.push(lister(&report));
            cases.push(unpack_with_room(prng, &report, length));
        }
        if small || index % 2 == 1 {
            cases.push(pack_with_room(prng, &observation));
        }
    }
    cases
}

/// Outputs mostly just fitting, at times longer, now and then one short.
pub fn room(prng: &mut Prng, needed: usize) -> usize {
    let rooms = [needed, needed, needed, needed + 1, needed + 6];
    if prng.one_in(12) {
        needed.saturating_sub(1)
    } else {
        prng.pick(&rooms)
    }
}

fn unpack_with_room(prng: &mut Prng, report: &[u8], tail: usize) -> Case {
    let tail = room(prng, tail);
    Case::Unpack {
        report: report.to_vec(),
        values: lent_values(prng.pick(&[46, 46, 46, 47, 60])),
        tail: prng.bytes(tail),
    }
}

fn pack_with_room(prng: &mut Prng, observation: &Observation) -> Case {
    let room = room(prng, observation.size());
    let mut case = pack(observation, room);
    if let Case::Pack { output, .. } = &mut case {
        *output = prng.bytes(room);
    }
    case
}

/// Cases drawn at random, sound and damaged.
fn drawn(prng: &mut Prng) -> Vec<Case> {
    let seed = prng.next_u64();
    random::without_indicators(seed, 1000)
        .filter(record::fits)
        .filter(|case| record::input(case).len() < 900)
        .take(100)
        .collect()
}
