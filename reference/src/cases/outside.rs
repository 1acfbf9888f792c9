//! Fresh, unpack and pack at their edges.

use super::Case;
use super::material::*;
use crate::observation::Observation;
use crate::table::{REQUIRED, Scaled, fields};

pub fn cases() -> Vec<Case> {
    let mut cases = fresh_cases();
    cases.extend(unpack_cases());
    cases.extend(pack_values());
    cases.extend(pack_words());
    cases.extend(pack_tails());
    cases.extend(pack_outputs());
    cases
}

/// Values below, at and above a field's ends, and at the ends of number types.
pub fn edge_values(lowest: Scaled, highest: Scaled) -> Vec<i64> {
    let mut values = vec![lowest.0 - 1, lowest.0, highest.0, highest.0 + 1];
    for width in [8, 16, 32] {
        values.push(lowest.0 + (1 << width));
        values.push(lowest.0 - (1 << width));
    }
    values.extend([i64::MIN, i64::MAX]);
    values.extend([i32::MIN, i32::MAX].map(i64::from));
    values
}

fn fresh_cases() -> Vec<Case> {
    let sound = [1, 1900, 1, 0, 0];
    let mut cases = Vec::new();
    for length in [0, 37, 38, 39, 60] {
        cases.push(Case::Fresh {
            required: sound,
            output: vec![0xEE; length],
        });
    }
    for (index, number) in REQUIRED.into_iter().enumerate() {
        let field = fields()[number - 1];
        for value in edge_values(field.lowest_value(), field.highest_value()) {
            let mut required = sound;
            required[index] = value;
            cases.push(Case::Fresh {
                required,
                output: vec![0xEE; 40],
            });
        }
    }
    cases
}

fn unpack_cases() -> Vec<Case> {
    let mut cases = Vec::new();
    for observation in [
        fresh_observation(),
        observation_with(&[(5, &[1, 2, 3]), (6, &[4])]),
        observation_with(&[(5, &[1, 2])]),
        largest_observation(),
    ] {
        let tail = tail_of(&observation).len();
        for values in [0, 45, 46, 47] {
            for tail in [tail.saturating_sub(1), tail, tail + 1] {
                cases.push(Case::Unpack {
                    report: observation.packing(),
                    values: vec![-9; values],
                    tail: vec![0xEE; tail],
                });
            }
        }
    }
    cases
}

/// An observation as pack takes it, missing values absurd, with an output of a length.
pub fn pack_case(observation: &Observation, length: usize) -> Case {
    let (values, word) = values_and_word(observation, i64::MIN);
    Case::Pack {
        values,
        word,
        rptin: observation.rptin,
        tail: tail_of(observation),
        output: vec![0xEE; length],
    }
}

fn pack_values() -> Vec<Case> {
    let mut cases = Vec::new();
    for observation in [
        full_observation(false),
        full_observation(true),
        largest_observation(),
    ] {
        cases.push(pack_case(&observation, observation.size()));
    }
    for field in fields() {
        for value in edge_values(field.lowest_value(), field.highest_value()) {
            let (mut values, word) = values_and_word(&full_observation(false), 0);
            values[field.number - 1] = value;
            for word in [word, word & !(1 << field.number)] {
                cases.push(Case::Pack {
                    values: values.clone(),
                    word,
                    rptin: 0x1234,
                    tail: Vec::new(),
                    output: vec![0xEE; 39],
                });
            }
        }
    }
    for count in [0, 45, 46, 47, 60] {
        let (mut values, word) = values_and_word(&full_observation(true), 0);
        values.resize(count, i64::MAX);
        cases.push(Case::Pack {
            values,
            word,
            rptin: 0xFFFF,
            tail: Vec::new(),
            output: vec![0xEE; 38],
        });
    }
    cases
}

fn pack_words() -> Vec<Case> {
    let (values, sound) = values_and_word(&fresh_observation(), 0);
    let mut words: Vec<u64> = (0..64).map(|bit| sound ^ (1 << bit)).collect();
    words.extend([0, u64::MAX, sound]);
    let case = |word| Case::Pack {
        values: values.clone(),
        word,
        rptin: 7,
        tail: Vec::new(),
        output: vec![0xEE; 38],
    };
    words.into_iter().map(case).collect()
}

/// Tails sound, cut, repeated, too many and with bytes that are no nibbles.
pub fn tails() -> Vec<Vec<u8>> {
    let mut tails = vec![
        vec![0],
        vec![0, 1],
        vec![0, 0, 0],
        vec![0, 0, 5],
        vec![0, 1, 0],
        vec![0, 1, 5],
        vec![0, 1, 5, 9],
        vec![0, 1, 5, 9, 0],
        vec![0, 1, 5, 9, 0, 1, 5, 9],
        vec![0, 1, 5, 16],
        vec![0, 1, 5, 255],
        vec![16],
        vec![0, 1, 16, 9],
        vec![15, 15, 5, 1],
    ];
    let mut sixteen = tail_of(&largest_observation());
    tails.push(sixteen.clone());
    sixteen.extend([0, 1, 15, 0]);
    tails.push(sixteen);
    for (id, bodies) in [
        (1, bad_flag_bodies()),
        (4, bad_text_bodies()),
        (4, good_text_bodies()),
        (5, vec![vec![3; 254], vec![3; 255]]),
    ] {
        for body in bodies {
            tails.push(tail_of(&observation_with(&[
                (2, &[1]),
                (id, &body),
                (3, &[2]),
            ])));
        }
    }
    tails
}

fn pack_tails() -> Vec<Case> {
    let (values, word) = values_and_word(&fresh_observation(), 5);
    let case = |tail| Case::Pack {
        values: values.clone(),
        word,
        rptin: 0,
        tail,
        output: vec![0xEE; 1860],
    };
    tails().into_iter().map(case).collect()
}

fn pack_outputs() -> Vec<Case> {
    let mut cases = Vec::new();
    for observation in [
        fresh_observation(),
        observation_with(&[(5, &[1, 2, 3])]),
        observation_with(&[(5, &[1, 2])]),
        largest_observation(),
    ] {
        let size = observation.size();
        for length in [0, size - 1, size, size + 1] {
            cases.push(pack_case(&observation, length));
        }
    }
    cases
}
