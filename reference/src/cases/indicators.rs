//! Indicators with and without their data: what is found, to which outputs, beside which
//! attachments; and fields cleared with their indicators, alone and amid other calls.

use super::Case;
use super::calls::WIDE_NUMBERS;
use super::flag_tables::{A, load, one_flag, without};
use super::material::*;
use super::reports::two_of_each_refusal;
use crate::attachment::Attachment;
use crate::call::Call;
use crate::flag_table::FlagTable;
use crate::flags;
use crate::indicator::{ERRONEOUS_ID, INDICATORS, Indicator};
use crate::observation::Observation;
use crate::table::{REQUIRED, Scaled, fields};
use crate::text;

/// The fields of the indicators.
const ALL: [usize; 6] = [17, 19, 21, 27, 32, 36];

const TI: usize = 27;
const BI: usize = 32;

/// Ends with every flag permitted.
pub fn cases() -> Vec<Case> {
    let mut cases = finds();
    cases.extend(single_clears());
    cases.extend(lists());
    cases.extend(under_a_table());
    cases
}

/// What is found in a report, with an output of a length.
pub fn find(report: &[u8], room: usize) -> Case {
    Case::FindIndicators {
        report: report.to_vec(),
        output: vec![0xEE; room],
    }
}

/// The fresh observation with some fields at their highest or lowest value.
pub fn of_fields(present: &[usize], highest: bool) -> Observation {
    let mut observation = fresh_observation();
    let full = full_observation(highest);
    for &field in present {
        observation.values[field - 1] = full.values[field - 1];
    }
    observation
}

fn found(observation: &Observation, room: usize) -> Case {
    find(&observation.packing(), room)
}

/// The fields that are not required.
fn optional() -> Vec<usize> {
    let fields = fields().into_iter().filter(|field| !field.is_required());
    fields.map(|field| field.number).collect()
}

/// All combinations of A, WB, DPT and S.
fn temperatures() -> Vec<Vec<usize>> {
    let with = |mask: usize| (28..=31).filter(move |field| (mask >> (field - 28)) & 1 == 1);
    (0..16).map(|mask| with(mask).collect()).collect()
}

fn finds() -> Vec<Case> {
    let mut cases = subsets();
    cases.extend(codes());
    cases.extend(beside_fields());
    cases.extend(outputs());
    cases.extend(beside_attachments());
    cases.extend(largest());
    for report in two_of_each_refusal() {
        cases.extend([find(&report, 0), find(&report, 7)]);
    }
    cases
}

/// Each subset of the indicators without any data, to an output that just takes it.
fn subsets() -> Vec<Case> {
    let subset = |mask: usize| -> Vec<usize> {
        let places = (0..ALL.len()).filter(|place| (mask >> place) & 1 == 1);
        places.map(|place| ALL[place]).collect()
    };
    let case = |mask: usize| {
        let present = subset(mask);
        found(&of_fields(&present, mask.is_multiple_of(2)), present.len())
    };
    (0..1 << ALL.len()).map(case).collect()
}

/// Each value of each indicator alone, and each of its data beside it at both ends of the
/// range and at 0.
fn codes() -> Vec<Case> {
    let mut cases = Vec::new();
    for Indicator { field, data } in INDICATORS {
        let (lowest, highest) = ends(field);
        for value in lowest..=highest {
            let mut observation = fresh_observation();
            observation.values[field - 1] = Some(Scaled(value));
            cases.push(found(&observation, 2));
        }
        for &other in data {
            let (lowest, highest) = ends(other);
            let mut values = vec![lowest, highest];
            values.extend((lowest + 1..highest).contains(&0).then_some(0));
            for value in values {
                let mut observation = of_fields(&[field], true);
                observation.values[other - 1] = Some(Scaled(value));
                cases.push(found(&observation, 1));
            }
        }
    }
    cases
}

/// The lowest and the highest value of a field.
fn ends(field: usize) -> (i64, i64) {
    let field = fields()[field - 1];
    (field.lowest_value().0, field.highest_value().0)
}

/// All indicators beside one other field; all fields without an indicator's data; and TI,
/// with BI and without, beside each combination of its data.
fn beside_fields() -> Vec<Case> {
    let mut cases = Vec::new();
    for field in optional() {
        let present = [&ALL[..], &[field]].concat();
        cases.push(found(&of_fields(&present, field % 2 == 0), 6));
    }
    for highest in [false, true] {
        cases.push(found(&full_observation(highest), 1));
        for indicator in INDICATORS {
            let mut observation = full_observation(highest);
            for &field in indicator.data {
                observation.values[field - 1] = None;
            }
            cases.push(found(&observation, 3));
        }
    }
    for data in temperatures() {
        let both = [&[TI, BI], &data[..]].concat();
        let alone = [&[TI], &data[..]].concat();
        cases.extend([&both, &alone].map(|present| found(&of_fields(present, true), 2)));
    }
    cases
}

/// For each number of indicators, every length up to two more and one much longer.
fn outputs() -> Vec<Case> {
    let mut cases = Vec::new();
    for count in 0..=ALL.len() {
        let observation = of_fields(&ALL[..count], true);
        for room in 0..=count + 2 {
            cases.push(found(&observation, room));
        }
    }
    cases.push(found(&of_fields(&ALL, false), 200));
    cases
}

fn with_attachments(mut observation: Observation, attachments: &[(u8, &[u8])]) -> Observation {
    observation.attachments = observation_with(attachments).attachments;
    observation
}

/// Attachment 5 in each position, short and long; every other one; RPTIN, and bytes after
/// the report that would be attachment 5 if AC said so.
fn beside_attachments() -> Vec<Case> {
    let all = of_fields(&ALL, true);
    let mut cases = Vec::new();
    for body in [&[5][..], &[0, 0], &[15; 255]] {
        for attachments in [
            &[(ERRONEOUS_ID, body)][..],
            &[(ERRONEOUS_ID, body), (6, &[1])],
            &[(15, &[1, 2]), (ERRONEOUS_ID, body)],
            &[(4, &[5]), (ERRONEOUS_ID, body), (14, &[5; 3])],
        ] {
            let observation = with_attachments(all.clone(), attachments);
            let rooms = [0, 6, 7];
            cases.push(found(&observation, rooms[cases.len() % 3]));
        }
    }
    for id in (1..=15).filter(|&id| id != ERRONEOUS_ID) {
        let body = if id == flags::ID {
            vec![0; 16]
        } else {
            vec![5; 5]
        };
        let observation = with_attachments(all.clone(), &[(id, &body)]);
        cases.extend([found(&observation, 6), found(&observation, 5)]);
    }
    let mut rptin = of_fields(&[17, 36], true);
    rptin.rptin = 0xFFFF;
    cases.push(found(&rptin, 2));
    for after in [&[0x15, 0x90][..], &[0xFF; 9]] {
        let report = with_bytes_after(of_fields(&[19], true).packing(), after);
        cases.extend([find(&report, 1), find(&report, 0)]);
    }
    cases
}

/// The largest report with attachment 5 and without it, in which no data stand.
fn largest() -> Vec<Case> {
    let mut observation = largest_observation();
    for indicator in INDICATORS {
        for &field in indicator.data {
            observation.values[field - 1] = None;
        }
    }
    let mut without = observation.clone();
    without
        .attachments
        .retain(|attachment| attachment.id != ERRONEOUS_ID);
    vec![found(&observation, 0), found(&without, 6)]
}

fn clear_with(field: usize) -> Call {
    let field = field as u64;
    Call::ClearWithIndicators { field }
}

fn clear(field: usize) -> Call {
    let field = field as u64;
    Call::ClearField { field }
}

fn read(field: usize) -> Call {
    let field = field as u64;
    Call::ReadField { field }
}

fn set(field: usize, value: i64) -> Call {
    let field = field as u64;
    Call::SetField { field, value }
}

fn put_5(content: &[u8]) -> Call {
    Call::Put {
        id: u64::from(ERRONEOUS_ID),
        content: content.to_vec(),
    }
}

fn drop_5() -> Call {
    let id = u64::from(ERRONEOUS_ID);
    Call::Drop { id }
}

/// A list of one call, after which the buffer shows what went.
fn single(observation: &Observation, field: usize) -> Case {
    Case::Calls {
        buffer: observation.packing(),
        calls: vec![clear_with(field)],
    }
}

/// Each field among all fields, and beside all indicators without other data; each
/// combination of TI's data; missing data; and attachment 5.
pub fn single_clears() -> Vec<Case> {
    let mut cases = Vec::new();
    for field in optional() {
        cases.push(single(&full_observation(field % 2 == 0), field));
        let beside = [&ALL[..], &[field]].concat();
        cases.push(single(&of_fields(&beside, field % 2 == 1), field));
    }
    for data in temperatures() {
        let present = [&[TI, BI], &data[..]].concat();
        let observation = of_fields(&present, true);
        cases.extend((28..=31).map(|field| single(&observation, field)));
    }
    for indicator in INDICATORS {
        for &field in indicator.data {
            cases.push(single(&of_fields(&ALL, true), field));
            for present in [vec![indicator.field], vec![indicator.field, field]] {
                let five = [(ERRONEOUS_ID, &[9][..])];
                let observation = with_attachments(of_fields(&present, false), &five);
                cases.push(single(&observation, field));
            }
        }
    }
    cases
}

/// Lists of many calls.
pub fn lists() -> Vec<Case> {
    let mut cases = refused_lists();
    cases.extend(INDICATORS.into_iter().flat_map(in_turn));
    cases.push(amid_others());
    cases.push(shared_data());
    cases
}

/// Numbers that are no field and required fields, with calls between that show that
/// nothing went; and every call on refused reports.
fn refused_lists() -> Vec<Case> {
    let mut calls = vec![read(17)];
    let numbers = [47, 48, 64, 127, 128, 256 + 18, 256 + 31, (1 << 32) + 18];
    for field in numbers.into_iter().chain(WIDE_NUMBERS) {
        calls.extend([
            Call::ClearWithIndicators { field },
            Call::ClearField { field },
        ]);
    }
    for field in REQUIRED {
        calls.extend([clear_with(field), clear(field), read(field)]);
    }
    calls.extend([read(17), clear_with(18), read(17)]);
    let buffer = with_bytes_after(of_fields(&ALL, true).packing(), &[0xA5; 3]);
    let mut cases = vec![Case::Calls { buffer, calls }];
    for buffer in two_of_each_refusal() {
        let calls = [18, 31, 17, 4, 3, 0, 47].map(clear_with).to_vec();
        cases.push(Case::Calls { buffer, calls });
    }
    cases
}

/// For each field of an indicator's data: both set and cleared in turn, by either clear,
/// with attachment 5 and without it, and with refused calls between.
fn in_turn(indicator: Indicator) -> Vec<Case> {
    let Indicator { field, data } = indicator;
    let (lowest, highest) = ends(field);
    let list = |&other: &usize| {
        let (low, high) = ends(other);
        let calls = vec![
            clear_with(other),
            set(field, highest),
            clear_with(field),
            set(field, lowest),
            clear_with(other),
            read(field),
            set(field, highest),
            set(other, high),
            clear_with(field),
            read(other),
            set(field, lowest),
            set(other, low - 1),
            clear_with(other),
            read(field),
            read(other),
            set(field, highest),
            set(other, low),
            clear(other),
            read(field),
            clear_with(3),
            clear_with(other),
            read(field),
            put_5(&[1]),
            set(field, lowest),
            set(other, high),
            clear_with(other),
            read(field),
            put_5(&[]),
            set(field, highest),
            clear_with(other),
            read(field),
            clear_with(0),
            drop_5(),
            drop_5(),
            set(field, lowest),
            set(other, high),
        ];
        let mut buffer = of_fields(&[], true).packing();
        buffer.resize(44, 0xA5);
        Case::Calls { buffer, calls }
    };
    data.iter().map(list).collect()
}

/// All twelve calls on a report with flags and a text.
fn amid_others() -> Case {
    let flags = flags::body_of(&one_flag(2, A));
    let attachments = [(flags::ID, &flags[..]), (9, &[3, 3])];
    let observation = with_attachments(of_fields(&ALL, true), &attachments);
    let fetch_5 = || Call::Fetch {
        id: u64::from(ERRONEOUS_ID),
        output: vec![0xEE; 3],
    };
    let calls = vec![
        fetch_5(),
        put_5(&[7, 7]),
        fetch_5(),
        clear_with(18),
        Call::SetFlag { flag: 1, value: 3 },
        clear_with(20),
        put_text(&symbols_of(b"W LOST")),
        read(19),
        clear(22),
        clear_with(22),
        fetch_text(8),
        drop_5(),
        set(37, 0),
        clear_with(36),
        Call::ClearFlag { flag: 2 },
        clear_with(37),
        set(31, 1000),
        set(31, 999),
        clear_with(6),
        clear_with(31),
        Call::ReadFlag { flag: 1 },
        Call::Drop { id: 9 },
        set(2, 1901),
        clear_with(2),
        put_5(&[16]),
        read(27),
        read(32),
    ];
    Case::Calls {
        buffer: with_bytes_after(observation.packing(), &[0xA5; 12]),
        calls,
    }
}

/// TI and BI over A, WB, DPT and S, which go one by one in several orders.
fn shared_data() -> Case {
    let mut calls = Vec::new();
    for order in [
        [28, 29, 30, 31],
        [31, 30, 29, 28],
        [29, 31, 28, 30],
        [30, 28, 31, 29],
    ] {
        calls.extend([set(TI, 5), set(BI, 0)]);
        calls.extend((28..=31).map(|field| set(field, field as i64 - 30)));
        for field in order {
            calls.extend([clear_with(field), read(TI), read(BI)]);
        }
    }
    Case::Calls {
        buffer: with_bytes_after(fresh_observation().packing(), &[0x5A]),
        calls,
    }
}

/// A forbidden flag beside indicators, and beside attachment 5.
fn under_a_table() -> Vec<Case> {
    let mut cases = vec![load(&without(1, A))];
    for value in [A, 1] {
        let body = flags::body_of(&one_flag(1, value));
        let mut observation = of_fields(&ALL, true);
        let attachments = [(text::ID, &[7][..]), (flags::ID, &body)];
        observation = with_attachments(observation, &attachments);
        cases.extend([found(&observation, 6), found(&observation, 0)]);
        cases.push(Case::Calls {
            buffer: with_bytes_after(observation.packing(), &[0xA5; 3]),
            calls: [18, 31, 17, 3, 0].map(clear_with).to_vec(),
        });
        let five = Attachment::new(ERRONEOUS_ID, vec![9]);
        observation.attachments.push(five);
        cases.push(found(&observation, 0));
    }
    cases.push(Case::Load {
        marks: vec![1; 139],
    });
    let body = flags::body_of(&one_flag(1, A));
    let observation = with_attachments(of_fields(&[BI], false), &[(flags::ID, &body)]);
    cases.push(found(&observation, 1));
    cases.push(load(&FlagTable::all()));
    cases.push(found(&observation, 1));
    cases
}
