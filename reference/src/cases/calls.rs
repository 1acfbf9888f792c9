//! Lists of calls with arguments at their edges.

use super::Case;
use super::material::*;
use super::outside::edge_values;
use super::reports;
use crate::call::Call;
use crate::flags;
use crate::observation::Observation;
use crate::table::{Scaled, fields};
use crate::text::{self, Symbol};

/// Numbers of fields, flags and ids that would pass if they were cut short.
pub const WIDE_NUMBERS: [u64; 11] = [
    0,
    255,
    256,
    257,
    260,
    65_537,
    0x1_0000_0001,
    0x1_0000_0004,
    1 << 63,
    u64::MAX - 1,
    u64::MAX,
];

pub fn cases() -> Vec<Case> {
    let mut cases = examples();
    cases.extend(field_lists());
    cases.extend(number_lists());
    cases.extend(flag_lists());
    cases.extend(put_lists());
    cases.extend(fitting_buffers());
    cases.extend(fitting_outputs());
    cases.extend(text_lists());
    cases.extend(drop_lists());
    cases.extend(refused_reports());
    cases
}

/// A list on the packing of an observation in a buffer of a length.
fn list(observation: &Observation, length: usize, calls: Vec<Call>) -> Case {
    let mut buffer = observation.packing();
    buffer.resize(length, 0xA5);
    Case::Calls { buffer, calls }
}

/// The chain of docs/FORMAT.md, section 12.
fn examples() -> Vec<Case> {
    let set = |field, value| Call::SetField { field, value };
    vec![
        list(
            &fresh_observation(),
            60,
            vec![
                set(31, 286),
                put_text(&symbols_of(b"A1")),
                set(31, -1000),
                set(31, -999),
                set(28, 0),
                Call::ReadField { field: 28 },
                Call::ClearField { field: 4 },
                Call::ClearField { field: 3 },
                Call::Put {
                    id: 4,
                    content: vec![10, 10, 10, 1],
                },
                fetch_text(4),
            ],
        ),
        list(
            &observation_with(&[(1, &[0; 16])]),
            50,
            vec![
                Call::SetFlag { flag: 1, value: 1 },
                Call::SetFlag { flag: 6, value: 6 },
                Call::Fetch {
                    id: 1,
                    output: vec![0xEE; 16],
                },
                Call::ClearFlag { flag: 6 },
                Call::ClearFlag { flag: 1 },
                Call::ClearFlag { flag: 1 },
                Call::ReadFlag { flag: 1 },
            ],
        ),
    ]
}

/// Each field set, read and cleared at its edges.
fn field_lists() -> Vec<Case> {
    let mut cases = Vec::new();
    for field in fields() {
        let number = field.number as u64;
        let mut calls = Vec::new();
        for value in edge_values(field.lowest_value(), field.highest_value()) {
            calls.push(Call::SetField {
                field: number,
                value,
            });
            calls.push(Call::ReadField { field: number });
        }
        calls.push(Call::ClearField { field: number });
        calls.push(Call::ReadField { field: number });
        cases.push(list(&full_observation(true), 38, calls));
    }
    cases
}

/// Every numbered call with numbers at their edges.
fn number_lists() -> Vec<Case> {
    let mut numbers = vec![1, 4, 5, 14, 15, 16, 46, 47, 48];
    numbers.extend(WIDE_NUMBERS);
    let mut cases = Vec::new();
    for observation in [
        fresh_observation(),
        observation_with(&[(4, &[1]), (1, &[0; 16]), (15, &[2, 3])]),
    ] {
        for &number in &numbers {
            let calls = vec![
                Call::ReadField { field: number },
                Call::SetField {
                    field: number,
                    value: 1,
                },
                Call::ClearField { field: number },
                Call::SetFlag {
                    flag: number,
                    value: 2,
                },
                Call::ReadFlag { flag: number },
                Call::ClearFlag { flag: number },
                Call::Fetch {
                    id: number,
                    output: vec![0xEE; 16],
                },
                Call::Drop { id: number },
                Call::Put {
                    id: number,
                    content: vec![1],
                },
            ];
            cases.push(list(&observation, 60, calls));
        }
    }
    cases
}

fn flag_lists() -> Vec<Case> {
    let mut cases = Vec::new();
    for flag in 1..=14 {
        let mut calls = Vec::new();
        for value in edge_values(Scaled(1), Scaled(10)) {
            calls.push(Call::SetFlag { flag, value });
        }
        for value in 1..=10 {
            calls.push(Call::SetFlag { flag, value });
            calls.push(Call::ReadFlag { flag });
        }
        calls.push(Call::ClearFlag { flag });
        calls.push(Call::ReadFlag { flag });
        for body in [vec![0; 16], flags::body_of(&[10; 14])] {
            cases.push(list(
                &observation_with(&[(9, &[1]), (1, &body)]),
                50,
                calls.clone(),
            ));
        }
    }
    cases
}

/// Ids and content lengths at their edges, and bytes that are no nibbles.
fn put_lists() -> Vec<Case> {
    let mut cases = Vec::new();
    let observation = observation_with(&[(2, &[1, 2, 3]), (5, &[9; 40])]);
    for id in [0, 1, 4, 5, 15, 16, 256 + 5, 0x1_0000_0005, u64::MAX] {
        let mut calls = Vec::new();
        for length in [1, 255, 16, 254, 0, 256, 1000] {
            calls.push(Call::Put {
                id,
                content: vec![0; length],
            });
        }
        for bad in [16, 17, 128, 255] {
            let mut content = vec![0; 16];
            content[15] = bad;
            calls.push(Call::Put {
                id,
                content: content.clone(),
            });
            content.reverse();
            calls.push(Call::Put { id, content });
        }
        cases.push(list(&observation, 200, calls));
    }
    for (id, bodies) in [
        (1, bad_flag_bodies()),
        (4, bad_text_bodies()),
        (4, good_text_bodies()),
        (1, vec![flags::body_of(&[7; 14]), vec![0; 16]]),
    ] {
        for content in bodies {
            let calls = vec![
                Call::Put {
                    id,
                    content: content.clone(),
                },
                Call::Fetch {
                    id,
                    output: vec![0xEE; content.len()],
                },
            ];
            cases.push(list(&observation, 200, calls));
        }
    }
    cases
}

/// Puts into buffers that just fit and buffers one byte short.
fn fitting_buffers() -> Vec<Case> {
    let mut cases = Vec::new();
    for length in [1, 2, 3, 15, 16, 254, 255] {
        let content = vec![7; length];
        let put = |id| Call::Put {
            id,
            content: content.clone(),
        };
        let appended = observation_with(&[(9, &[1, 1]), (8, &content)]);
        let replaced = observation_with(&[(9, &content)]);
        let start = observation_with(&[(9, &[1, 1])]);
        for (after, id) in [(&appended, 8), (&replaced, 9)] {
            for n in [after.size() - 1, after.size(), after.size() + 1] {
                if n >= start.size() {
                    cases.push(list(&start, n, vec![put(id), put(id)]));
                }
            }
        }
    }
    let largest = largest_observation();
    let mut one_less = largest.clone();
    let last = one_less.attachments.pop().expect("fifteen stand");
    let put = Call::Put {
        id: 15,
        content: last.nibbles,
    };
    for n in [1852, 1853, 1856] {
        cases.push(list(&one_less, n, vec![put.clone(), Call::Drop { id: 2 }]));
    }
    cases
}

/// Fetches to outputs that just fit, one byte short, longer and empty.
fn fitting_outputs() -> Vec<Case> {
    let mut cases = Vec::new();
    for (id, nibbles, text_length) in [
        (5, vec![3], 0_usize),
        (5, vec![3; 255], 0),
        (4, text::write(&symbols_of(&[b'1'; 40])), 40),
        (4, text::write(&[Symbol::original(b'a'); 85]), 85),
        (4, vec![11, 15, 11, 15, 1], 37),
    ] {
        let observation = observation_with(&[(id, &nibbles)]);
        let mut calls = Vec::new();
        for length in [0, nibbles.len() - 1, nibbles.len(), nibbles.len() + 3] {
            calls.push(Call::Fetch {
                id: u64::from(id),
                output: vec![0xEE; length],
            });
        }
        for length in [
            0,
            text_length.saturating_sub(1),
            text_length,
            text_length + 3,
        ] {
            calls.push(fetch_text(length));
        }
        cases.push(list(&observation, observation.size(), calls));
    }
    cases
}

/// Texts put and fetched back.
fn text_lists() -> Vec<Case> {
    let mut cases = Vec::new();
    for text in texts() {
        let calls = vec![
            put_text(&text),
            Call::Fetch {
                id: 4,
                output: vec![0xEE; 256],
            },
            fetch_text(text.len() + 1),
        ];
        cases.push(list(&observation_with(&[(6, &[1])]), 180, calls));
    }
    cases
}

/// Single bytes, runs of 0 to 40 spaces, trailing spaces and the longest. Bytes
/// without a short code are original symbols.
pub fn texts() -> Vec<Vec<Symbol>> {
    byte_texts().iter().map(|text| symbols_of(text)).collect()
}

fn byte_texts() -> Vec<Vec<u8>> {
    let mut texts: Vec<Vec<u8>> = (0..=255).map(|byte| vec![byte]).collect();
    for spaces in 0..=40 {
        let run = vec![b' '; spaces];
        texts.push([b"12", &run[..], b"3"].concat());
        texts.push([&run[..], b"B"].concat());
        texts.push([b"a", &run[..]].concat());
        texts.push(run);
    }
    for escaped in [84, 85, 86] {
        texts.push(vec![b'a'; escaped]);
        texts.push([vec![b'a'; escaped], vec![b' '; 30]].concat());
    }
    texts.push([vec![b'a'; 84], vec![b'1'; 3]].concat());
    texts.push([vec![b'a'; 84], vec![b'1'; 4]].concat());
    texts.push(vec![b'7'; 255]);
    texts.push(vec![b'7'; 256]);
    texts.push(vec![b'Z'; 127]);
    texts.push(vec![b'Z'; 128]);
    texts.push([vec![b' '; 18 * 127], vec![b'1']].concat());
    texts.push([vec![b' '; 18 * 127 + 1], vec![b'1']].concat());
    texts.push([vec![b' '; 18 * 126 + 17], vec![b'1']].concat());
    texts.push(b"THE SHIP {} &+-/ 0123456789 (lower) \xFF\x00\x80".to_vec());
    texts
}

/// Attachments dropped and shortened in each position.
fn drop_lists() -> Vec<Case> {
    let start = observation_with(&[(3, &[1; 5]), (1, &[0; 16]), (12, &[2; 8]), (4, &[1, 10, 2])]);
    let mut cases = Vec::new();
    for id in [3, 1, 12, 4, 2] {
        let calls = vec![
            Call::Drop { id },
            Call::Drop { id },
            Call::Put {
                id: 12,
                content: vec![4],
            },
            put_text(&symbols_of(b"LONGER TEXT")),
            Call::Drop { id: 4 },
            Call::Drop { id: 12 },
            Call::Drop { id: 3 },
            Call::Drop { id: 1 },
        ];
        cases.push(list(&start, start.size() + 20, calls));
    }
    cases
}

/// Every call, with sound and with bad arguments, on a spread of refused reports.
fn refused_reports() -> Vec<Case> {
    let mut cases = Vec::new();
    let all = reports::damaged();
    for report in all.iter().step_by(7) {
        cases.push(Case::Calls {
            buffer: report.clone(),
            calls: vec![
                Call::ReadField { field: 1 },
                Call::SetField { field: 0, value: 0 },
                Call::ClearField { field: 1 },
                Call::ReadFlag { flag: 1 },
                Call::SetFlag { flag: 1, value: 11 },
                Call::ClearFlag { flag: 15 },
                Call::Put {
                    id: 5,
                    content: vec![1],
                },
                Call::Fetch {
                    id: 5,
                    output: vec![0xEE; 3],
                },
                Call::Drop { id: 5 },
                put_text(&[]),
                fetch_text(0),
            ],
        });
    }
    cases
}
