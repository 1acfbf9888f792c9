//! Sums about multiples of 255, in each call that works CK out or compares it.

use crate::call::Call;
use crate::cases::Case;
use crate::cases::material::{Draft, observation_with, put_text, symbols_of};
use crate::gate::list::List;
use crate::gate::list_cases::one_of_each;
use crate::gate::sizes::{observation_of_sum, required_of_sum};
use crate::gate::whole_cases::{judge, lister, pack, refused};

/// The least and the greatest sum of a card, and the greatest of a fresh one.
const LEAST: u64 = 5;
const MOST: u64 = 19643;
const MOST_FRESH: u64 = 6316;

/// CK 254, 0 and 1, of small sums and of large ones.
const EDGES: [u64; 9] = [254, 255, 256, 509, 510, 511, 19634, 19635, 19636];

/// Sums whose low byte is 0 or 255; of all sums, 19455 is the one whose two bytes
/// add up to the most.
const ROUND: [u64; 6] = [512, 767, 16384, 16639, 19455, 19456];

/// Sums of CK 0.
const MULTIPLES: [u64; 3] = [255, 510, 19635];

/// A6, which no sum under 19642 takes up.
const LAST: u64 = 46;

pub fn cases() -> Vec<Case> {
    let mut cases = Vec::new();
    for sum in [254, 255, 256, 509, 510, 511, 6119, 6120, 6121] {
        cases.push(fresh(sum));
    }
    cases.extend([fresh(LEAST), fresh(MOST_FRESH)]);
    for sum in [&EDGES[..], &ROUND, &[LEAST, MOST]].concat() {
        let observation = observation_of_sum(sum);
        let report = observation.packing();
        cases.extend([judge(&report), lister(&report), pack(&observation, 38)]);
    }
    for report in MULTIPLES.map(with_255_for_0) {
        cases.extend(refused(&report, false));
    }
    cases
}

fn fresh(sum: u64) -> Case {
    Case::Fresh {
        required: required_of_sum(sum),
        output: vec![0xEE; 38],
    }
}

/// A card of CK 0 that has 255 in its place.
fn with_255_for_0(sum: u64) -> Vec<u8> {
    let mut draft = Draft::of(&observation_of_sum(sum));
    draft.card.ck = 255;
    draft.bytes()
}

/// The buffer is seen where a list ends, so each sum has lists that end with it.
pub fn lists() -> Vec<List> {
    let mut lists: Vec<List> = EDGES.into_iter().flat_map(lists_to).collect();
    lists.push(list(LEAST, &[set(LAST, 1), clear(LAST)]));
    lists.push(list(MOST, &[clear(LAST), set(LAST, 1)]));
    lists.push(through_the_edges());
    for report in MULTIPLES.map(with_255_for_0) {
        lists.push(List::of(report, &one_of_each()));
    }
    lists
}

/// Up to a sum and down to it by set, and down to it by clear.
fn lists_to(sum: u64) -> [List; 3] {
    [
        list(sum - 1, &[set(LAST, 0)]),
        list(sum - 1, &[set(LAST, 1), set(LAST, 0)]),
        list(sum, &[set(LAST, 1), clear(LAST)]),
    ]
}

fn list(sum: u64, calls: &[Call]) -> List {
    List::of(observation_of_sum(sum).packing(), calls)
}

fn set(field: u64, value: i64) -> Call {
    Call::SetField { field, value }
}

fn clear(field: u64) -> Call {
    Call::ClearField { field }
}

/// CK in turn by DAY and HOUR, with calls between that leave it as it is. Without
/// the two it is 240.
fn through_the_edges() -> List {
    let (day, hour) = (4, 5);
    let calls = [
        set(day, 14), // 254
        Call::ReadField { field: day },
        set(hour, 0), // 0
        Call::Drop { id: 5 },
        set(day, 15), // 1
        clear(hour),  // 0
        put_text(&symbols_of(b"A1")),
        set(day, 16),  // 1
        set(hour, 0),  // 2
        clear(hour),   // 1
        set(day, 13),  // 253
        set(hour, 1),  // 0
        set(hour, 0),  // 254
        clear(day),    // 241
        set(hour, 14), // 0
    ];
    let mut buffer = observation_with(&[(5, &[1, 2, 3])]).packing();
    buffer.extend([0xA5; 4]);
    List::of(buffer, &calls)
}
