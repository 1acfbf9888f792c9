//! Both trips: reports of all sizes, every refusal, and outputs that just fit, are
//! one short and are longer.

use crate::cases::material::*;
use crate::cases::{Case, pairs, reports};
use crate::flags;
use crate::gate::record;
use crate::gate::sizes::observation_of_tail;
use crate::gate::whole_cases::{lent_values, room};
use crate::observation::Observation;
use crate::prng::Prng;
use crate::refusal::refusal;
use crate::table::FIELDS;
use crate::text;

pub fn cases(prng: &mut Prng) -> Vec<Case> {
    let mut cases = fitting_outputs();
    cases.extend(sizes(prng));
    cases.extend(largest());
    cases.extend(refused_restores());
    cases.extend(refused_recovers());
    cases.extend(given_values());
    cases.extend(drawn(prng));
    cases
}

/// How much is lent: values, bytes for the tail, bytes for the report.
#[derive(Clone, Copy)]
struct Room {
    values: usize,
    tail: usize,
    output: usize,
}

impl Room {
    /// What an observation needs.
    fn of(observation: &Observation) -> Room {
        Room {
            values: FIELDS,
            tail: tail_of(observation).len(),
            output: observation.size(),
        }
    }
}

fn restore(report: &[u8], room: Room) -> Case {
    Case::Restore {
        report: report.to_vec(),
        values: lent_values(room.values),
        tail: vec![0xEE; room.tail],
        output: vec![0xEE; room.output],
    }
}

/// An observation as pack takes it, values of missing fields absurd.
fn recover(observation: &Observation, room: Room) -> Case {
    let (values, word) = values_and_word(observation, i64::MIN);
    Case::Recover {
        values,
        word,
        rptin: observation.rptin,
        tail: tail_of(observation),
        output: vec![0xEE; room.output],
        values_out: lent_values(room.values),
        tail_out: vec![0xEE; room.tail],
    }
}

fn both(observation: &Observation, room: Room) -> [Case; 2] {
    [
        restore(&observation.packing(), room),
        recover(observation, room),
    ]
}

/// A report with ids 1 and 4 among others, and all fields.
fn held() -> Observation {
    let mut observation = full_observation(true);
    observation.rptin = 0xABCD;
    let row = [1, 0, 3, 4, 5, 6, 7, 8, 9, 10, 0, 2, 1, 0];
    observation.attachments = observation_with(&[
        (15, &[15, 0]),
        (text::ID, &text::write(&symbols_of(b"SHIP 1"))),
        (flags::ID, &flags::body_of(&row)),
        (2, &[0, 8, 0, 0]),
    ])
    .attachments;
    observation
}

/// Each output just fitting, longer, and short, alone and together.
fn rooms(needed: Room) -> Vec<Room> {
    let more = |values, tail, output| Room {
        values: needed.values + values,
        tail: needed.tail + tail,
        output: needed.output + output,
    };
    let less = |values, tail, output| Room {
        values: needed.values - values,
        tail: needed.tail.saturating_sub(tail),
        output: needed.output - output,
    };
    let (tail, output) = (needed.tail, needed.output);
    vec![
        more(0, 0, 0),
        more(1, 0, 0),
        more(0, 1, 0),
        more(0, 0, 1),
        more(14, 9, 7),
        less(1, 0, 0),
        less(0, 1, 0),
        less(0, 0, 1),
        less(1, 1, 0),
        less(1, 0, 1),
        less(0, 1, 1),
        less(1, 1, 1),
        less(FIELDS, 0, 0),
        less(0, tail, 0),
        less(0, 0, output),
        less(FIELDS, tail, output),
    ]
}

fn fitting_outputs() -> Vec<Case> {
    let mut cases = Vec::new();
    for observation in [fresh_observation(), held()] {
        for room in rooms(Room::of(&observation)) {
            cases.extend(both(&observation, room));
        }
    }
    cases
}

/// Reports of all sizes. A restored one has bytes after it, and its output has
/// room for as many.
fn sizes(prng: &mut Prng) -> Vec<Case> {
    let mut cases = Vec::new();
    for observation in [
        full_observation(false),
        observation_with_ck_0(),
        observation_of_tail(prng, 0),
        observation_of_tail(prng, 4),
        observation_of_tail(prng, 5),
        observation_of_tail(prng, 22),
        observation_of_tail(prng, 61),
        observation_of_tail(prng, 250),
        observation_of_tail(prng, 701),
        observation_of_tail(prng, 1600),
    ] {
        let needed = Room::of(&observation);
        let after = 1 + prng.below(4);
        let report = with_bytes_after(observation.packing(), &prng.bytes(after));
        let longer = Room {
            output: needed.output + after,
            ..needed
        };
        cases.extend([restore(&report, longer), recover(&observation, needed)]);
    }
    cases
}

fn largest() -> Vec<Case> {
    let observation = largest_observation();
    let needed = Room::of(&observation);
    let longest = Room {
        values: record::MOST_VALUES,
        tail: record::MOST_UNPACK_TAIL,
        output: record::MOST_BYTES,
    };
    let short_tail = Room {
        tail: needed.tail - 1,
        ..needed
    };
    let short_output = Room {
        output: needed.output - 1,
        ..needed
    };
    [needed, longest, short_tail, short_output]
        .iter()
        .flat_map(|room| both(&observation, *room))
        .collect()
}

const AMPLE: Room = Room {
    values: FIELDS,
    tail: 60,
    output: 70,
};
const SHORT: Room = Room {
    values: FIELDS - 1,
    tail: 0,
    output: 37,
};

/// Refused reports, with outputs that would do and with outputs all short.
fn refused_restores() -> Vec<Case> {
    let mut cases = Vec::new();
    for report in reports::two_of_each_refusal() {
        cases.extend([restore(&report, AMPLE), restore(&report, SHORT)]);
    }
    cases
}

/// Each of pack's refusals alone, with an output that would be one short, and
/// with outputs all short.
fn refused_recovers() -> Vec<Case> {
    let mut cases = Vec::new();
    for pair in pairs::pairs() {
        if let Case::Pack {
            values,
            word,
            rptin,
            tail,
            output,
        } = pair.both
            && pair.second == refusal(13, 0)
        {
            let one_short = Room {
                output: output.len(),
                ..AMPLE
            };
            for room in [AMPLE, one_short, SHORT] {
                cases.push(Case::Recover {
                    values: values.clone(),
                    word,
                    rptin,
                    tail: tail.clone(),
                    output: vec![0xEE; room.output],
                    values_out: lent_values(room.values),
                    tail_out: vec![0xEE; room.tail],
                });
            }
        }
    }
    cases
}

/// Too few values given, and more than are read.
fn given_values() -> Vec<Case> {
    let mut cases = Vec::new();
    for (count, room) in [(0, AMPLE), (45, AMPLE), (45, SHORT), (47, AMPLE)] {
        let mut case = recover(&held(), room);
        if let Case::Recover { values, .. } = &mut case {
            values.resize(count, i64::MAX);
        }
        cases.push(case);
    }
    cases
}

/// Drawn observations, and outputs of drawn lengths and bytes.
fn drawn(prng: &mut Prng) -> Vec<Case> {
    let mut cases = Vec::new();
    for _ in 0..6 {
        let observation = random_observation(prng);
        let needed = Room::of(&observation);
        let lent = Room {
            values: prng.pick(&[46, 46, 46, 47, 60]),
            tail: room(prng, needed.tail),
            output: room(prng, needed.output),
        };
        for mut case in both(&observation, lent) {
            if let Case::Restore { tail, output, .. }
            | Case::Recover {
                tail_out: tail,
                output,
                ..
            } = &mut case
            {
                *tail = prng.bytes(lent.tail);
                *output = prng.bytes(lent.output);
            }
            cases.push(case);
        }
    }
    cases
}
