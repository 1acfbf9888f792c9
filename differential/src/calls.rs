//! Calls drawn at random, their arguments often at an edge.

use reference::attachment::Attachment;
use reference::call::Call;
use reference::card::CARD_NIBBLES;
use reference::cases::calls::WIDE_NUMBERS;
use reference::cases::material::{
    all_symbols, damage_text, put_text, random_body, random_text, symbols_of,
};
use reference::cases::random::{random_call, symbol_count};
use reference::flag_table::FlagTable;
use reference::observation::Observation;
use reference::prng::Prng;
use reference::step;
use reference::table::field;
use reference::text::{self, Symbol};

use crate::flag_tables;
use crate::indicators;
use crate::reports::{changed_body, near_edge};

/// Some calls in turn on an observation under a table of flags; n is the buffer's length.
pub fn list(prng: &mut Prng, observation: &Observation, n: usize, flags: &FlagTable) -> Vec<Call> {
    let mut observation = observation.clone();
    let mut calls = Vec::new();
    for _ in 0..prng.pick(&[1, 2, 3, 5, 8, 13, 21]) {
        let call = match calls.last() {
            Some(last) if prng.one_in(3) => follow(prng, last, &observation, n),
            _ => call(prng, &observation, n, flags),
        };
        observation = step::step(&observation, n, &call, flags).0;
        calls.push(call);
    }
    calls
}

/// A call on what the last call was on.
fn follow(prng: &mut Prng, last: &Call, observation: &Observation, n: usize) -> Call {
    let output = prng.bytes(255);
    match *last {
        Call::ClearField { field } if prng.one_in(3) => Call::ClearWithIndicators { field },
        Call::SetField { field, .. } | Call::ClearField { field } => Call::ReadField { field },
        Call::SetFlag { flag, .. } | Call::ClearFlag { flag } => Call::ReadFlag { flag },
        Call::ReadField { field } if prng.one_in(2) => Call::ClearWithIndicators { field },
        Call::ReadField { field } => Call::ClearField { field },
        Call::ClearWithIndicators { field } => Call::ReadField {
            field: indicators::beside(prng, field),
        },
        Call::ReadFlag { flag } => Call::ClearFlag { flag },
        Call::Put { id, .. } if prng.one_in(3) => Call::Drop { id },
        Call::Put { id, .. } | Call::Drop { id } => Call::Fetch { id, output },
        Call::Fetch { id, .. } => Call::Drop { id },
        Call::PutText { .. } => Call::FetchText {
            text: output,
            origins: prng.bytes(255),
        },
        Call::FetchText { .. } => put_text(&any_symbols(prng, observation, n)),
    }
}

/// A text of symbols of which each is as likely as the others; most often it fits.
fn any_symbols(prng: &mut Prng, observation: &Observation, n: usize) -> Vec<Symbol> {
    let symbols = all_symbols();
    let length = 1 + prng.below(1 + text_room(observation, n) / 3);
    (0..length).map(|_| prng.pick(&symbols)).collect()
}

/// A call that fits an observation and a table of flags or just does not.
pub fn call(prng: &mut Prng, observation: &Observation, n: usize, flags: &FlagTable) -> Call {
    if prng.one_in(6) {
        return flag_tables::call(prng, flags);
    }
    if prng.one_in(6) {
        return text_call(prng, observation, n);
    }
    if prng.one_in(12) {
        return indicators::call(prng, observation);
    }
    let mut call = random_call(prng, observation, n);
    if prng.one_in(4) {
        vary(prng, &mut call, observation, n);
    }
    call
}

/// A text that is put, once in three times a damaged one, or fetched.
fn text_call(prng: &mut Prng, observation: &Observation, n: usize) -> Call {
    let symbols = match prng.below(6) {
        0 => return edge_fetch_text(prng, observation),
        1 | 2 => edge_text(prng, observation, n),
        _ => any_symbols(prng, observation, n),
    };
    let (mut text, mut origins) = (text::bytes(&symbols), text::origins(&symbols));
    if prng.one_in(3) {
        damage_text(prng, &mut text, &mut origins);
    }
    Call::PutText { text, origins }
}

fn edge_fetch_text(prng: &mut Prng, observation: &Observation) -> Call {
    let length = symbol_count(observation);
    Call::FetchText {
        text: edge_output(prng, length),
        origins: edge_output(prng, length),
    }
}

/// Moves one argument to an edge.
fn vary(prng: &mut Prng, call: &mut Call, observation: &Observation, n: usize) {
    match call {
        Call::SetField {
            field: number,
            value,
        } if prng.one_in(2) => {
            let near = field(*number).and_then(|field| near_edge(prng, field));
            *value = near.unwrap_or_else(|| edge_value(prng));
        }
        Call::SetField { value, .. } | Call::SetFlag { value, .. } if prng.one_in(2) => {
            *value = edge_value(prng);
        }
        Call::ReadField { field: number }
        | Call::SetField { field: number, .. }
        | Call::ClearField { field: number }
        | Call::ClearWithIndicators { field: number }
        | Call::ReadFlag { flag: number }
        | Call::SetFlag { flag: number, .. }
        | Call::ClearFlag { flag: number }
        | Call::Drop { id: number } => *number = edge_number(prng),
        Call::Put { id, content } => vary_put(prng, id, content),
        Call::Fetch { id, output } => {
            if prng.one_in(4) {
                *id = edge_number(prng);
            } else {
                let length = observation.content(*id).map_or(0, <[u8]>::len);
                *output = edge_output(prng, length);
            }
        }
        Call::FetchText { .. } => *call = edge_fetch_text(prng, observation),
        Call::PutText { .. } => *call = text_call(prng, observation, n),
    }
}

pub fn edge_number(prng: &mut Prng) -> u64 {
    let number = prng.pick(&[0, 1, 2, 4, 5, 14, 15, 16, 46, 47, 48]);
    match prng.below(4) {
        0 => prng.pick(&WIDE_NUMBERS),
        1 => number,
        _ => widened(prng, number),
    }
}

/// A number with one or two of its upper bits set.
pub fn widened(prng: &mut Prng, number: u64) -> u64 {
    let mut bit = || 1 << (8 + prng.below(56));
    number | bit() | bit()
}

fn edge_value(prng: &mut Prng) -> i64 {
    let ends = [i64::MIN, i64::MIN + 1, -1, 0, 1, 10, 11, i64::MAX];
    let value = prng.pick(&ends);
    match prng.below(3) {
        0 => value,
        1 => widened(prng, value as u64) as i64,
        _ => prng.next_u64() as i64,
    }
}

fn edge_output(prng: &mut Prng, length: usize) -> Vec<u8> {
    let room = prng.pick(&[0, length.saturating_sub(1), length, length + 1, 255, 300]);
    prng.bytes(room)
}

fn vary_put(prng: &mut Prng, id: &mut u64, content: &mut Vec<u8>) {
    match prng.below(6) {
        0 => *id = edge_number(prng),
        1 => {
            let length = prng.pick(&[0, 1, 2, 15, 16, 17, 254, 255, 256, 257, 300, 1000]);
            *content = prng.nibbles(length);
        }
        2 if !content.is_empty() => {
            let place = prng.below(content.len());
            content[place] = 16 + prng.below(240) as u8;
        }
        3 => {
            let length = prng.pick(&[254, 255, 256]);
            *content = prng.bytes(length);
        }
        _ => {
            *id = prng.pick(&[1, 4]);
            let body = random_body(prng, *id as u8);
            *content = changed_body(prng, *id as u8, &body);
        }
    }
}

fn edge_text(prng: &mut Prng, observation: &Observation, n: usize) -> Vec<Symbol> {
    let run = |spaces: usize| vec![Symbol::SPACE; spaces];
    let text = match prng.below(7) {
        0 => text_of_length(prng, 252, 258),
        1 => run(prng.below(41)),
        2 => {
            let spaces = 18 * prng.pick(&[1, 2, 126, 127, 128]) + prng.below(4);
            [run(spaces), symbols_of(b"1")].concat()
        }
        3 => {
            let original = vec![Symbol::original(b' '); 1 + prng.below(4)];
            [run(prng.below(41)), original, run(prng.below(41))].concat()
        }
        4 => vec![Symbol::original(prng.next_u64() as u8); 84 + prng.below(4)],
        _ => filling_text(prng, observation, n),
    };
    let trailing = prng.pick(&[0, 0, 0, 1, 17, 18, 19, 40]);
    [text, run(trailing)].concat()
}

/// A text whose nibbles just fill the buffer, or are one or two off.
fn filling_text(prng: &mut Prng, observation: &Observation, n: usize) -> Vec<Symbol> {
    let room = text_room(observation, n);
    text_of_length(prng, room - 2, room + 2)
}

/// The nibbles that a text can have in a buffer, and at least 3.
fn text_room(observation: &Observation, n: usize) -> usize {
    let others = observation
        .attachments
        .iter()
        .filter(|other| other.id != text::ID);
    let taken = CARD_NIBBLES + others.map(Attachment::size).sum::<usize>() + 3;
    (2 * n).saturating_sub(taken).clamp(3, 256)
}

/// A text of so many nibbles, filled up with symbols of all code lengths.
fn text_of_length(prng: &mut Prng, least: usize, most: usize) -> Vec<Symbol> {
    let wanted = least + prng.below(most - least + 1);
    let mut text = random_text(prng, wanted / 4);
    while text::write(&text).len() > wanted {
        text.pop();
    }
    let mut missing = wanted - text::write(&text).len();
    if text.last() == Some(&Symbol::SPACE) && missing > 0 {
        text.extend(symbols_of(b"0"));
        missing = wanted.saturating_sub(text::write(&text).len());
    }
    while missing > 0 {
        let nibbles = 1 + prng.below(missing.min(3));
        text.push(symbol_of_length(prng, nibbles));
        missing -= nibbles;
    }
    text
}

/// A symbol that is no plain space, of one, two or three nibbles.
fn symbol_of_length(prng: &mut Prng, nibbles: usize) -> Symbol {
    let plain = match nibbles {
        1 => prng.pick(b"0123456789"),
        2 => prng.pick(b"{ABCDEFGHI&+}JKLMNOPQR-/STUVWXYZ"),
        _ => return Symbol::original(prng.next_u64() as u8),
    };
    Symbol::plain(plain).expect("it has a short code")
}
