//! Scripts: the calls of a list as bytes, and what comes of them.

use crate::call::{Answer, Call};
use crate::flag_table::FlagTable;
use crate::gate::log::{record, record_size};

const READ_FIELD: u8 = 1;
const SET_FIELD: u8 = 2;
const CLEAR_FIELD: u8 = 3;
const READ_FLAG: u8 = 4;
const SET_FLAG: u8 = 5;
const CLEAR_FLAG: u8 = 6;
const PUT: u8 = 7;
const FETCH: u8 = 8;
const DROP: u8 = 9;
const PUT_TEXT: u8 = 10;
const FETCH_TEXT: u8 = 11;
const CLEAR_WITH_INDICATORS: u8 = 12;

/// The entry of a call: its kind, its numbers and its bytes.
pub fn entry(call: &Call) -> Vec<u8> {
    match call {
        Call::ReadField { field } => joined(READ_FIELD, &[*field], &[]),
        Call::SetField { field, value } => joined(SET_FIELD, &[*field, *value as u64], &[]),
        Call::ClearField { field } => joined(CLEAR_FIELD, &[*field], &[]),
        Call::ReadFlag { flag } => joined(READ_FLAG, &[*flag], &[]),
        Call::SetFlag { flag, value } => joined(SET_FLAG, &[*flag, *value as u64], &[]),
        Call::ClearFlag { flag } => joined(CLEAR_FLAG, &[*flag], &[]),
        Call::Put { id, content } => joined(PUT, &[*id, content.len() as u64], content),
        Call::Fetch { id, output } => joined(FETCH, &[*id, output.len() as u64], output),
        Call::Drop { id } => joined(DROP, &[*id], &[]),
        Call::PutText { text, origins } => text_entry(PUT_TEXT, text, origins),
        Call::FetchText { text, origins } => text_entry(FETCH_TEXT, text, origins),
        Call::ClearWithIndicators { field } => joined(CLEAR_WITH_INDICATORS, &[*field], &[]),
    }
}

fn joined(kind: u8, numbers: &[u64], bytes: &[u8]) -> Vec<u8> {
    let mut entry = vec![kind];
    for number in numbers {
        entry.extend(number.to_be_bytes());
    }
    entry.extend(bytes);
    entry
}

/// The kind, and the bytes and the origins each behind their number.
fn text_entry(kind: u8, text: &[u8], origins: &[u8]) -> Vec<u8> {
    let mut entry = joined(kind, &[text.len() as u64], text);
    entry.extend((origins.len() as u64).to_be_bytes());
    entry.extend(origins);
    entry
}

pub fn script(calls: &[Call]) -> Vec<u8> {
    calls.iter().flat_map(entry).collect()
}

/// The call that a script begins with and the bytes behind it, or none if it is
/// cut off or of an unknown kind.
pub fn first_call(script: &[u8]) -> Option<(Call, &[u8])> {
    let (&kind, rest) = script.split_first()?;
    let call = match kind {
        READ_FIELD => {
            let (field, rest) = number(rest)?;
            (Call::ReadField { field }, rest)
        }
        SET_FIELD => {
            let (field, rest) = number(rest)?;
            let (value, rest) = number(rest)?;
            let value = value as i64;
            (Call::SetField { field, value }, rest)
        }
        CLEAR_FIELD => {
            let (field, rest) = number(rest)?;
            (Call::ClearField { field }, rest)
        }
        READ_FLAG => {
            let (flag, rest) = number(rest)?;
            (Call::ReadFlag { flag }, rest)
        }
        SET_FLAG => {
            let (flag, rest) = number(rest)?;
            let (value, rest) = number(rest)?;
            // A value of 2^63 and more is out of range with a sign as without.
            let value = value as i64;
            (Call::SetFlag { flag, value }, rest)
        }
        CLEAR_FLAG => {
            let (flag, rest) = number(rest)?;
            (Call::ClearFlag { flag }, rest)
        }
        PUT => {
            let (id, rest) = number(rest)?;
            let (content, rest) = counted(rest)?;
            (Call::Put { id, content }, rest)
        }
        FETCH => {
            let (id, rest) = number(rest)?;
            let (output, rest) = counted(rest)?;
            (Call::Fetch { id, output }, rest)
        }
        DROP => {
            let (id, rest) = number(rest)?;
            (Call::Drop { id }, rest)
        }
        PUT_TEXT => {
            let (text, rest) = counted(rest)?;
            let (origins, rest) = counted(rest)?;
            (Call::PutText { text, origins }, rest)
        }
        FETCH_TEXT => {
            let (text, rest) = counted(rest)?;
            let (origins, rest) = counted(rest)?;
            (Call::FetchText { text, origins }, rest)
        }
        CLEAR_WITH_INDICATORS => {
            let (field, rest) = number(rest)?;
            (Call::ClearWithIndicators { field }, rest)
        }
        _ => return None,
    };
    Some(call)
}

fn number(script: &[u8]) -> Option<(u64, &[u8])> {
    let (bytes, rest) = script.split_first_chunk()?;
    Some((u64::from_be_bytes(*bytes), rest))
}

/// A count and as many bytes.
fn counted(script: &[u8]) -> Option<(Vec<u8>, &[u8])> {
    let (count, rest) = number(script)?;
    let (bytes, rest) = rest.split_at_checked(usize::try_from(count).ok()?)?;
    Some((bytes.to_vec(), rest))
}

/// What comes of a script beside the buffer.
#[derive(Clone, Debug, PartialEq, Eq)]
pub struct Ran {
    /// The calls performed, with their answers.
    pub calls: Vec<(Call, Answer)>,
    /// Script bytes taken.
    pub taken: usize,
    pub log: Vec<u8>,
}

/// Runs a script on a buffer with a log of some room, under one table of flags, up to
/// the first entry that is cut off, of an unknown kind, or too long for what is left
/// of the log.
pub fn run(buffer: &mut [u8], script: &[u8], room: usize, flags: &FlagTable) -> Ran {
    let mut ran = Ran {
        calls: Vec::new(),
        taken: 0,
        log: Vec::new(),
    };
    while let Some((call, rest)) = first_call(&script[ran.taken..]) {
        if record_size(&call) > room - ran.log.len() {
            break;
        }
        let answer = call.run(buffer, flags);
        ran.log.extend(record(&answer));
        ran.taken = script.len() - rest.len();
        ran.calls.push((call, answer));
    }
    ran
}
