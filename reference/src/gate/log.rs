//! The log's record of a call.

use crate::call::{Answer, Call};
use crate::number::Number;

/// Whether the call is accepted, the refusal's number and its place.
pub const HEAD: usize = 10;

/// A label and a number.
pub const MARKED: usize = 9;

/// How many numbers a record has room for.
pub const NUMBERS: usize = 3;

/// A record without outputs: the head and a row of numbers.
pub const FRONT: usize = HEAD + NUMBERS * MARKED;

const REFUSED: u8 = 0;
const ACCEPTED: u8 = 1;

/// The bytes that a call's record takes, refused or not.
pub fn record_size(call: &Call) -> usize {
    FRONT + call.outputs().iter().map(Vec::len).sum::<usize>()
}

/// The head, the numbers and zeros up to the row's end, and the outputs.
pub fn record(answer: &Answer) -> Vec<u8> {
    let mut record = Vec::new();
    match &answer.result {
        Err(refusal) => {
            record.extend([REFUSED, refusal.number]);
            record.extend((refusal.place as u64).to_be_bytes());
        }
        Ok(numbers) => {
            assert!(numbers.len() <= NUMBERS, "a row has room for three numbers");
            record.extend([ACCEPTED, 0]);
            record.extend([0; 8]);
            record.extend(numbers.iter().flat_map(marked));
        }
    }
    record.resize(FRONT, 0);
    record.extend(answer.outputs.iter().flatten());
    record
}

fn marked(number: &Number) -> Vec<u8> {
    let mut bytes = vec![number.label()];
    bytes.extend(number.value.unwrap_or(0).to_be_bytes());
    bytes
}
