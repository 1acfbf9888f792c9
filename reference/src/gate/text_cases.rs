//! Texts that take every symbol through the writer: alone, beside a space, beside a
//! symbol of another code length, and last where the nibbles are the most or one more.

use crate::attachment::LONGEST;
use crate::call::Call;
use crate::cases::material::{
    all_symbols, fetch_text, fresh_observation, observation_with, put_text, symbols_of,
    with_bytes_after,
};
use crate::gate::list::List;
use crate::gate::list_cases::fetch;
use crate::text::{self, Symbol};

/// Symbols of one nibble, of two and of three; those of three are original.
const BY_LENGTH: [&[u8]; 3] = [b"09", b"{AI&+}JR-/SZ", b"\x00*a\x80\xFF"];

pub fn lists() -> Vec<List> {
    let mut lists = in_lists(&alone(), 48, 6);
    lists.extend(in_lists(&beside_a_space(), 48, 6));
    lists.extend(in_lists(&pairs(), 48, 6));
    lists.extend(in_lists(&at_the_most(), 12, 131));
    lists
}

/// Calls in lists of so many, with so much room behind the report. The text is the
/// only attachment, begins amid a byte, or has an attachment behind it.
fn in_lists(calls: &[Call], size: usize, room: usize) -> Vec<List> {
    let observations = [
        fresh_observation(),
        observation_with(&[(6, &[1, 2])]),
        observation_with(&[(text::ID, &[7]), (9, &[8, 8, 8])]),
    ];
    let mut lists = Vec::new();
    for (calls, observation) in calls.chunks(size).zip(observations.iter().cycle()) {
        let buffer = with_bytes_after(observation.packing(), &vec![0xA5; room]);
        lists.push(List::of(buffer, calls));
    }
    lists
}

/// Each symbol, its nibbles and its text; a plain space alone comes to no nibbles.
fn alone() -> Vec<Call> {
    let calls = |symbol| [put_text(&[symbol]), fetch(4, 3), fetch_text(1)];
    all_symbols().into_iter().flat_map(calls).collect()
}

/// Each symbol behind a space, and in front of one that another symbol follows.
fn beside_a_space() -> Vec<Call> {
    let digit = symbols_of(b"0")[0];
    let behind = |symbol| [put_text(&[Symbol::SPACE, symbol]), fetch_text(2)];
    let in_front = |symbol| [put_text(&[symbol, Symbol::SPACE, digit]), fetch_text(3)];
    let behind = all_symbols().into_iter().flat_map(behind);
    let in_front = all_symbols().into_iter().flat_map(in_front);
    behind.chain(in_front).collect()
}

/// Two symbols of different code lengths, in each order.
fn pairs() -> Vec<Call> {
    let mut calls = Vec::new();
    for (index, firsts) in BY_LENGTH.iter().enumerate() {
        for (other, seconds) in BY_LENGTH.iter().enumerate() {
            if index == other {
                continue;
            }
            for first in symbols_of(firsts) {
                for second in symbols_of(seconds) {
                    calls.extend([put_text(&[first, second]), fetch(4, 5), fetch_text(2)]);
                }
            }
        }
    }
    calls
}

/// Texts of 255 nibbles and, refused, of 256, whose last symbol has one, two or three
/// of them.
fn at_the_most() -> Vec<Call> {
    let mut calls = Vec::new();
    for filler in [(&b"5"[..], 1), (b"E", 2), (b"e", 3), (b"5 ", 2)] {
        for last in [(b'7', 1), (b'Q', 2), (b'q', 3)] {
            let most = symbols_of(&ending(LONGEST, filler, last));
            let over = symbols_of(&ending(LONGEST + 1, filler, last));
            let length = most.len();
            calls.extend([put_text(&most), put_text(&over)]);
            calls.extend([fetch(4, LONGEST), fetch_text(length)]);
        }
    }
    calls
}

/// A text of so many nibbles: some digits, the filler time and again, the last byte.
fn ending(nibbles: usize, filler: (&[u8], usize), last: (u8, usize)) -> Vec<u8> {
    let before = nibbles - last.1;
    let digits = vec![b'0'; before % filler.1];
    [digits, filler.0.repeat(before / filler.1), vec![last.0]].concat()
}
