//! Cases drawn from a seed.

use super::Case;
use super::material::*;
use super::outside::edge_values;
use crate::attachment::Attachment;
use crate::call::Call;
use crate::flag_table::FlagTable;
use crate::flags;
use crate::indicator::{ERRONEOUS_ID, INDICATORS};
use crate::judge::judge;
use crate::observation::Observation;
use crate::prng::Prng;
use crate::step;
use crate::table::{FIELDS, REQUIRED, Scaled, fields};
use crate::text;

/// So many cases from a seed.
pub fn cases(seed: u64, count: usize) -> impl Iterator<Item = Case> {
    let mut prng = Prng::new(seed);
    (0..count).map(move |_| case(&mut prng))
}

/// So many cases from a seed, drawn without the calls that know indicators.
pub fn without_indicators(seed: u64, count: usize) -> impl Iterator<Item = Case> {
    let mut prng = Prng::new(seed);
    (0..count).map(move |_| case_without_indicators(&mut prng))
}

fn case(prng: &mut Prng) -> Case {
    match prng.below(12) {
        0 => find_indicators_case(prng),
        1..4 => {
            let start = random_indicators(prng);
            calls_case(prng, start, random_call)
        }
        _ => case_without_indicators(prng),
    }
}

fn case_without_indicators(prng: &mut Prng) -> Case {
    match prng.below(22) {
        0..4 => Case::Judge {
            report: report(prng),
        },
        4..6 => Case::Lister {
            input: report(prng),
        },
        6..8 => unpack_case(prng),
        8..11 => pack_case(prng),
        11 => fresh_case(prng),
        12..14 => read_out_case(prng),
        _ => {
            let start = random_observation(prng);
            calls_case(prng, start, call_without_indicators)
        }
    }
}

/// A report, sound or damaged, with bytes after it or cut.
fn report(prng: &mut Prng) -> Vec<u8> {
    let observation = random_observation(prng);
    report_of(prng, &observation)
}

fn report_of(prng: &mut Prng, observation: &Observation) -> Vec<u8> {
    let mut draft = Draft::of(observation);
    for _ in 0..prng.pick(&[0, 0, 1, 1, 1, 2]) {
        damage(prng, &mut draft);
    }
    let mut report = draft.bytes();
    match prng.below(8) {
        0 => {
            let length = prng.below(report.len() + 1);
            report.truncate(length);
        }
        1 => {
            let index = prng.below(report.len());
            report[index] ^= 1 << prng.below(8);
        }
        2..5 => {
            let after = prng.below(20);
            report.extend(prng.bytes(after));
        }
        _ => {}
    }
    report
}

/// Damages a draft in one of the ways that a refusal names.
pub fn damage(prng: &mut Prng, draft: &mut Draft) {
    match prng.below(8) {
        0 => {
            let field = prng.pick(&fields());
            let largest = (1 << field.bits) - 1;
            let code = prng.pick(&[largest, (field.highest + 1).min(largest)]);
            draft.set_code(field.number, code);
        }
        1 => draft.set_code(prng.pick(&REQUIRED), 0),
        2 => draft.card.ck ^= 1 << prng.below(14),
        3 => draft.card.ac = prng.below(16),
        4 => draft.last = 1 + prng.below(15) as u8,
        _ => damage_tail(prng, draft),
    }
}

/// Changes a nibble, a header's nibble or the length of the tail, or adds an
/// attachment that may be invalid or repeated.
pub fn damage_tail(prng: &mut Prng, draft: &mut Draft) {
    let length = draft.tail.len();
    match prng.below(4) {
        0 if length > 0 => draft.tail[prng.below(length)] = prng.below(16) as u8,
        1 if length > 0 => draft.tail[prng.below(length.min(3))] = prng.pick(&[0, 1, 4, 15]),
        2 if length > 0 => draft.tail.truncate(prng.below(length)),
        _ => {
            let id = prng.pick(&[0, 1, 4, 5, 7]);
            let nibbles = random_nibbles(prng, id);
            if draft.card.ac < 15 && nibbles.len() < 256 {
                draft.attach(id as u8, &nibbles);
            }
        }
    }
}

fn unpack_case(prng: &mut Prng) -> Case {
    let report = report(prng);
    let room =
        judge(&report, &FlagTable::all()).map_or(5, |report| tail_of(&report.observation).len());
    let tail = prng.pick(&[room, room, room + 7, room.saturating_sub(1)]);
    Case::Unpack {
        report,
        values: vec![-77; prng.pick(&[46, 46, 46, 50, 45])],
        tail: prng.bytes(tail),
    }
}

/// Most often the text stands.
fn read_out_case(prng: &mut Prng) -> Case {
    let mut observation = random_observation(prng);
    if observation.content(u64::from(text::ID)).is_none() && !prng.one_in(4) {
        let body = random_body(prng, text::ID);
        let attachment = Attachment::new(text::ID, body);
        observation.attachments.insert(0, attachment);
        observation.attachments.truncate(15);
    }
    let report = report_of(prng, &observation);
    let judged = judge(&report, &FlagTable::all());
    let length = judged.map_or(5, |report| symbol_count(&report.observation));
    Case::ReadOut {
        report,
        text: random_output(prng, length),
        origins: random_output(prng, length),
    }
}

fn pack_case(prng: &mut Prng) -> Case {
    let observation = random_observation(prng);
    let (mut values, mut word) = values_and_word(&observation, 0);
    let mut draft = Draft::of(&observation);
    for _ in 0..prng.pick(&[0, 0, 1, 1, 2]) {
        match prng.below(7) {
            0 => word ^= 1 << prng.below(64),
            1 => {
                let field = prng.pick(&fields());
                let edges = edge_values(field.lowest_value(), field.highest_value());
                values[field.number - 1] = prng.pick(&edges);
            }
            2 => word &= !(1 << prng.pick(&REQUIRED)),
            3 => {
                if let Some(last) = draft.tail.last_mut() {
                    *last = 16 + prng.below(240) as u8;
                }
            }
            _ => damage_tail(prng, &mut draft),
        }
    }
    values.resize(prng.pick(&[46, 46, 46, 46, 47, 60, 45]), 0);
    let size = (75 + draft.tail.len()).div_ceil(2);
    let room = prng.pick(&[size, size, size + 9, size - 1]);
    Case::Pack {
        values,
        word,
        rptin: observation.rptin,
        tail: draft.tail,
        output: prng.bytes(room),
    }
}

fn fresh_case(prng: &mut Prng) -> Case {
    let mut required = REQUIRED.map(|number| random_value(prng, number).0);
    for (index, number) in REQUIRED.into_iter().enumerate() {
        if prng.one_in(8) {
            let field = fields()[number - 1];
            let edges = edge_values(field.lowest_value(), field.highest_value());
            required[index] = prng.pick(&edges);
        }
    }
    let room = prng.pick(&[38, 38, 45, 37]);
    Case::Fresh {
        required,
        output: prng.bytes(room),
    }
}

/// Most often some indicators stand without their data.
fn find_indicators_case(prng: &mut Prng) -> Case {
    let observation = random_indicators(prng);
    let report = if prng.one_in(3) {
        report_of(prng, &observation)
    } else {
        observation.packing()
    };
    let judged = judge(&report, &FlagTable::all());
    let count = judged.map_or(3, |report| report.observation.lone_indicators().len());
    Case::FindIndicators {
        report,
        output: random_output(prng, count),
    }
}

/// Draws a call for an observation in a buffer of a length.
type DrawCall = fn(&mut Prng, &Observation, usize) -> Call;

/// A list of calls; the observation is stepped along so that arguments can be fitted.
fn calls_case(prng: &mut Prng, start: Observation, draw: DrawCall) -> Case {
    let room = prng.pick(&[0, 0, 1, 2, 8, 30, 200, 1000]);
    let mut buffer = start.packing();
    buffer.extend(prng.bytes(room));
    let mut observation = start;
    let mut calls = Vec::new();
    for _ in 0..1 + prng.below(16) {
        let call = draw(prng, &observation, buffer.len());
        observation = step::step(&observation, buffer.len(), &call, &FlagTable::all()).0;
        calls.push(call);
    }
    Case::Calls { buffer, calls }
}

/// A call whose arguments often stand at an edge of what the observation allows.
pub fn random_call(prng: &mut Prng, observation: &Observation, n: usize) -> Call {
    match prng.below(5) {
        0 => indicator_call(prng),
        _ => call_without_indicators(prng, observation, n),
    }
}

/// Most often a clear with indicators, else one of the calls that bring an indicator, its
/// data or attachment 5 about or take it away.
pub fn indicator_call(prng: &mut Prng) -> Call {
    let indicator = prng.pick(&INDICATORS);
    let data = prng.pick(indicator.data);
    let either = prng.pick(&[indicator.field, data]);
    let id = u64::from(ERRONEOUS_ID);
    match prng.below(12) {
        0..4 => Call::ClearWithIndicators { field: data as u64 },
        4 => Call::ClearWithIndicators {
            field: either as u64,
        },
        5 | 6 => Call::ClearWithIndicators {
            field: random_number(prng, FIELDS as u64),
        },
        7..9 => Call::SetField {
            field: either as u64,
            value: random_value(prng, either).0,
        },
        9 => Call::ClearField {
            field: either as u64,
        },
        10 => {
            let length = 1 + prng.below(4);
            let content = prng.nibbles(length);
            Call::Put { id, content }
        }
        _ => Call::Drop { id },
    }
}

/// One of the calls that do not know indicators.
pub fn call_without_indicators(prng: &mut Prng, observation: &Observation, n: usize) -> Call {
    match prng.below(14) {
        0 => Call::ReadField {
            field: random_number(prng, FIELDS as u64),
        },
        1 | 2 => random_set(prng),
        3 => Call::ClearField {
            field: random_number(prng, FIELDS as u64),
        },
        4 => Call::ReadFlag {
            flag: random_number(prng, 14),
        },
        5 => Call::SetFlag {
            flag: random_number(prng, 14),
            value: random_flag_value(prng),
        },
        6 => Call::ClearFlag {
            flag: random_number(prng, 14),
        },
        7..10 => random_put(prng, observation, n),
        10 => {
            let id = random_standing(prng, observation);
            let length = observation.content(id).map_or(0, <[u8]>::len);
            Call::Fetch {
                id,
                output: random_output(prng, length),
            }
        }
        11 => Call::Drop {
            id: random_standing(prng, observation),
        },
        12 => random_put_text(prng),
        _ => {
            let length = symbol_count(observation);
            Call::FetchText {
                text: random_output(prng, length),
                origins: random_output(prng, length),
            }
        }
    }
}

/// How many symbols the text has, if it stands.
pub fn symbol_count(observation: &Observation) -> usize {
    let content = observation.content(u64::from(text::ID));
    content.and_then(text::read).map_or(0, |text| text.len())
}

fn random_put_text(prng: &mut Prng) -> Call {
    let pieces = prng.pick(&[0, 1, 3, 10, 40, 120]);
    let symbols = random_text(prng, pieces);
    let (mut text, mut origins) = (text::bytes(&symbols), text::origins(&symbols));
    if prng.one_in(4) {
        damage_text(prng, &mut text, &mut origins);
    }
    Call::PutText { text, origins }
}

/// A number from 1 to the highest, now and then one that is not.
fn random_number(prng: &mut Prng, highest: u64) -> u64 {
    match prng.below(12) {
        0 => prng.pick(&[0, highest + 1, u64::MAX, highest + 256, (1 << 32) + highest]),
        1 => highest,
        2 => 1,
        _ => 1 + prng.next_u64() % highest,
    }
}

fn random_set(prng: &mut Prng) -> Call {
    let number = random_number(prng, FIELDS as u64);
    let value = match fields()
        .into_iter()
        .find(|field| field.number as u64 == number)
    {
        Some(field) if prng.one_in(3) => {
            prng.pick(&edge_values(field.lowest_value(), field.highest_value()))
        }
        Some(field) => random_value(prng, field.number).0,
        None => prng.pick(&[0, 1, i64::MAX]),
    };
    Call::SetField {
        field: number,
        value,
    }
}

fn random_flag_value(prng: &mut Prng) -> i64 {
    if prng.one_in(6) {
        prng.pick(&edge_values(Scaled(1), Scaled(10)))
    } else {
        1 + prng.below(10) as i64
    }
}

/// Often an id that stands.
fn random_standing(prng: &mut Prng, observation: &Observation) -> u64 {
    if observation.attachments.is_empty() || prng.one_in(3) {
        random_number(prng, 15)
    } else {
        u64::from(prng.pick(&observation.attachments).id)
    }
}

fn random_output(prng: &mut Prng, length: usize) -> Vec<u8> {
    let room = prng.pick(&[length, length, length + 5, length.saturating_sub(1)]);
    prng.bytes(room)
}

/// Nibbles for an id, sound or not.
fn random_nibbles(prng: &mut Prng, id: u64) -> Vec<u8> {
    match prng.below(6) {
        0 => {
            let length = prng.pick(&[0, 1, 15, 16, 17, 254, 255, 256]);
            prng.nibbles(length)
        }
        1 if id == u64::from(flags::ID) => prng.pick(&bad_flag_bodies()),
        1 if id == u64::from(text::ID) => prng.pick(&bad_text_bodies()),
        _ => random_body(prng, id as u8),
    }
}

/// A content for a put, now and then with a byte that is no nibble.
fn random_content(prng: &mut Prng, id: u64) -> Vec<u8> {
    let mut content = random_nibbles(prng, id);
    if prng.one_in(12)
        && let Some(first) = content.first_mut()
    {
        *first = prng.pick(&[16, 17, 255]);
    }
    content
}

/// A put, at times with a content that just fills the buffer or just does not.
fn random_put(prng: &mut Prng, observation: &Observation, n: usize) -> Call {
    let id = random_standing(prng, observation);
    let free = prng.one_in(3) && id != u64::from(flags::ID) && id != u64::from(text::ID);
    let content = if free {
        let others: usize = observation
            .attachments
            .iter()
            .filter(|attachment| u64::from(attachment.id) != id)
            .map(|attachment| attachment.size())
            .sum();
        let room = (2 * n).saturating_sub(75 + others + 3);
        let length = (room + prng.below(3)).saturating_sub(1).min(256);
        prng.nibbles(length)
    } else {
        random_content(prng, id)
    };
    Call::Put { id, content }
}
