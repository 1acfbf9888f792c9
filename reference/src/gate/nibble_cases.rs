//! Lists of texts of every number of nibbles.

use crate::attachment::LONGEST;
use crate::call::Call;
use crate::cases::material::{
    fetch_text, observation_with, put_text, symbols_of, with_bytes_after,
};
use crate::gate::list::List;
use crate::text::{self, Symbol};

/// The calls of a list.
const CALLS: usize = 48;

/// With room for every text, and bytes behind.
pub fn lists() -> Vec<List> {
    let report = observation_with(&[(6, &[1])]).packing();
    let buffer = with_bytes_after(report, &[0xA5; 140]);
    let calls: Vec<Call> = (1..=LONGEST).flat_map(calls).collect();
    let lists = calls.chunks(CALLS);
    lists.map(|calls| List::of(buffer.clone(), calls)).collect()
}

/// A text of so many nibbles, some with plain spaces behind them, put and now and then
/// fetched.
fn calls(nibbles: usize) -> Vec<Call> {
    let first = [&b""[..], b"7", b"E"][nibbles % 3];
    let text = [symbols_of(first), text::costliest(nibbles / 3)].concat();
    let spaces = vec![Symbol::SPACE; nibbles % 4];
    let mut calls = vec![put_text(&[&text[..], &spaces].concat())];
    if nibbles.is_multiple_of(5) {
        calls.push(fetch_text(text.len()));
    }
    calls
}
