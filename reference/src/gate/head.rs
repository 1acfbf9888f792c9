//! The head of the answer to a call outside the list: a tag, a refusal's number,
//! and eight bytes.

use crate::flag_table::FlagTable;
use crate::refusal::Refusal;

const REFUSED: u8 = 0;
const NOTHING: u8 = 1;
const NUMBER: u8 = 2;

/// The head of a refusal, or of the number that is given, if there is one.
pub fn head(result: Result<Option<usize>, Refusal>) -> Vec<u8> {
    match result {
        Err(refusal) => joined(REFUSED, refusal.number, refusal.place),
        Ok(None) => joined(NOTHING, 0, 0),
        Ok(Some(number)) => joined(NUMBER, 0, number),
    }
}

/// The answer to a load: the head, and the table of flags in force after it.
pub fn loaded(result: Result<(), Refusal>, flags: &FlagTable) -> Vec<u8> {
    [head(result.map(|()| None)), flags.marks().to_vec()].concat()
}

fn joined(tag: u8, refusal: u8, number: usize) -> Vec<u8> {
    let mut head = vec![tag, refusal];
    head.extend((number as u64).to_be_bytes());
    head
}
