//! Reports, sound and damaged in each way that a refusal names.

use super::Case;
use super::material::*;
use crate::flag_table::FlagTable;
use crate::flags;
use crate::judge::judge;
use crate::observation::Observation;
use crate::table::{REQUIRED, Scaled, fields};
use crate::text;

/// Every report judged, listed and unpacked.
pub fn cases() -> Vec<Case> {
    let mut cases = Vec::new();
    let mut reports = sound();
    reports.extend(damaged());
    for report in reports {
        cases.push(Case::Lister {
            input: report.clone(),
        });
        cases.push(Case::Unpack {
            report: report.clone(),
            values: vec![-7; 48],
            tail: vec![0xEE; 2 * report.len()],
        });
        cases.push(Case::Judge { report });
    }
    cases
}

pub fn sound() -> Vec<Vec<u8>> {
    let mut reports: Vec<Vec<u8>> = sound_observations()
        .iter()
        .map(Observation::packing)
        .collect();
    for observation in [
        fresh_observation(),
        observation_with(&[(5, &[1, 2, 3])]),
        observation_with(&[(5, &[1, 2])]),
    ] {
        for after in [&[0xFF][..], &[0; 5], &[0xA5; 9]] {
            reports.push(with_bytes_after(observation.packing(), after));
        }
    }
    reports.push(with_bytes_after(
        largest_observation().packing(),
        &[0xFF; 200],
    ));
    reports
}

fn sound_observations() -> Vec<Observation> {
    let mut with_s = fresh_observation();
    with_s.values[30] = Some(Scaled(286));
    let mut with_zero_air = fresh_observation();
    with_zero_air.values[27] = Some(Scaled(0));
    let mut observations = vec![
        fresh_observation(),
        with_s,
        with_zero_air,
        full_observation(false),
        full_observation(true),
        observation_with_ck_0(),
        largest_observation(),
        observation_with(&[(4, &text::write(&symbols_of(b"A1")))]),
        observation_with(&[(1, &[0; 16])]),
        observation_with(&[(1, &flags::body_of(&[1; 14]))]),
        observation_with(&[(1, &flags::body_of(&[10; 14]))]),
        observation_with(&[(
            1,
            &flags::body_of(&[0, 1, 2, 3, 4, 5, 6, 7, 8, 9, 10, 0, 0, 1]),
        )]),
        observation_with(&[(15, &[15]), (1, &[0; 16]), (4, &[9]), (2, &[0, 0])]),
    ];
    for rptin in [1, 0x8000, 0xABCD, 0xFFFF] {
        let mut observation = fresh_observation();
        observation.rptin = rptin;
        observations.push(observation);
    }
    for length in [1, 2, 16, 254, 255] {
        observations.push(observation_with(&[(5, &vec![13; length])]));
    }
    for body in good_text_bodies() {
        observations.push(observation_with(&[(4, &body)]));
    }
    observations
}

pub fn damaged() -> Vec<Vec<u8>> {
    let mut reports = short();
    reports.extend(bad_codes());
    reports.extend(bad_checksums());
    reports.extend(bad_attachments());
    reports.extend(bad_bodies());
    reports.extend(bad_last_nibbles());
    reports.extend([22, 23, 255].map(beyond_the_lister));
    reports
}

/// Of each refusal, ascending, the first of the damaged reports under 100 bytes
/// and one amid them.
pub fn two_of_each_refusal() -> Vec<Vec<u8>> {
    let mut damaged = damaged();
    damaged.retain(|report| report.len() < 100);
    let mut chosen = Vec::new();
    for number in 1..=7 {
        let refused: Vec<&Vec<u8>> = damaged
            .iter()
            .filter(|report| {
                judge(report, &FlagTable::all()).is_err_and(|refusal| refusal.number == number)
            })
            .collect();
        chosen.extend([refused[0].clone(), refused[refused.len() / 2].clone()]);
    }
    chosen
}

fn short() -> Vec<Vec<u8>> {
    let fresh = fresh_observation().packing();
    [0, 1, 36, 37]
        .iter()
        .map(|&length| fresh[..length].to_vec())
        .collect()
}

/// Refusals 2 and 3.
fn bad_codes() -> Vec<Vec<u8>> {
    let mut reports = Vec::new();
    for field in fields() {
        let largest = (1 << field.bits) - 1;
        for code in [field.highest + 1, largest] {
            // Some fields use every code that their bits hold.
            if code > field.highest && code <= largest {
                let mut draft = Draft::of(&full_observation(true));
                draft.set_code(field.number, code);
                reports.push(draft.bytes());
            }
        }
    }
    for number in REQUIRED {
        let mut draft = Draft::of(&full_observation(false));
        draft.set_code(number, 0);
        reports.push(draft.bytes());
    }
    reports.push(vec![0; 38]);
    reports.push(vec![0xFF; 60]);
    reports
}

/// Refusal 4: a neighbour, each of the upper six bits, 255 for 0, AC added.
fn bad_checksums() -> Vec<Vec<u8>> {
    let observations = [
        fresh_observation(),
        full_observation(true),
        observation_with_ck_0(),
        observation_with(&[(5, &[1]), (6, &[2])]),
    ];
    let mut reports = Vec::new();
    for observation in observations {
        let sound = Draft::of(&observation);
        let ck = sound.card.ck;
        let mut stored = vec![ck + 1, (ck + 254) % 255, ck + 255, ck | 0x3F00, ck + 2];
        stored.extend((8..14).map(|bit| ck | (1 << bit)));
        for ck in stored {
            let mut draft = sound.clone();
            draft.card.ck = ck;
            reports.push(draft.bytes());
        }
    }
    reports
}

/// Refusals 1 and 5 of attachments.
fn bad_attachments() -> Vec<Vec<u8>> {
    let mut reports = Vec::new();
    for ac in [1, 2, 15] {
        let mut draft = Draft::of(&fresh_observation());
        draft.card.ac = ac;
        reports.push(draft.bytes());
        reports.push(with_bytes_after(draft.bytes(), &[0; 20]));
        reports.push(with_bytes_after(draft.bytes(), &[0xFF; 20]));
    }
    for (id, nibbles) in [(0, &[1, 2][..]), (5, &[]), (0, &[])] {
        let mut draft = Draft::of(&observation_with(&[(2, &[7, 7])]));
        draft.attach(id, nibbles);
        reports.push(draft.bytes());
    }
    let mut repeated = Draft::of(&observation_with(&[(2, &[7]), (3, &[8]), (2, &[9])]));
    reports.push(repeated.bytes());
    repeated.attach(5, &[1; 30]);
    reports.push(repeated.bytes());
    let whole = observation_with(&[(7, &[1; 20]), (9, &[2; 30])]).packing();
    for length in 38..whole.len() {
        reports.push(whole[..length].to_vec());
    }
    reports
}

/// Refusal 6.
fn bad_bodies() -> Vec<Vec<u8>> {
    let mut reports = Vec::new();
    for (id, bodies) in [(1, bad_flag_bodies()), (4, bad_text_bodies())] {
        for body in bodies {
            let mut draft = Draft::of(&observation_with(&[(8, &[1])]));
            draft.attach(id, &body);
            draft.attach(9, &[2, 2]);
            reports.push(draft.bytes());
        }
    }
    reports
}

/// Refusal 7.
fn bad_last_nibbles() -> Vec<Vec<u8>> {
    let mut reports = Vec::new();
    for observation in [
        fresh_observation(),
        observation_with(&[(5, &[1, 2, 3, 4, 5])]),
        observation_with(&[(5, &[6; 255])]),
    ] {
        for last in [1, 8, 15] {
            let mut draft = Draft::of(&observation);
            draft.last = last;
            reports.push(draft.bytes());
        }
    }
    reports
}

/// Id 1 last of fifteen, the others of 255 nibbles. Its data end at byte 1856
/// if they are 22 nibbles, and behind it if they are more.
pub fn beyond_the_lister(length: usize) -> Vec<u8> {
    let mut draft = Draft::of(&fresh_observation());
    for id in 2..=15 {
        let nibble = if id == text::ID { 1 } else { id };
        draft.attach(id, &[nibble; 255]);
    }
    draft.attach(flags::ID, &vec![0; length]);
    draft.bytes()
}
