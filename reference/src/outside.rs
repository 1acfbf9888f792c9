//! The calls outside the list: fresh, unpack, pack, same, characters, costliest and find
//! indicators.

use crate::attachment::{Attachment, next_attachment};
use crate::card::{CARD_BYTES, CARD_NIBBLES};
use crate::flag_table::FlagTable;
use crate::judge::judge;
use crate::observation::Observation;
use crate::refusal::{Refusal, refusal};
use crate::table::{FIELDS, REQUIRED, Scaled, field, fields};
use crate::text;

/// Writes a report of BOX10, YEAR, MONTH, X and Y to the first 38 bytes.
pub fn fresh(required: [i64; 5], output: &mut [u8]) -> Result<(), Refusal> {
    for (number, value) in REQUIRED.into_iter().zip(required) {
        let field = field(number as u64).expect("a required field is a field");
        if field.coded(Scaled(value)).is_none() {
            return Err(refusal(9, number));
        }
    }
    if output.len() < CARD_BYTES {
        return Err(refusal(13, 0));
    }
    let observation = Observation::fresh(required.map(Scaled));
    output[..CARD_BYTES].copy_from_slice(&observation.packing());
    Ok(())
}

/// What unpack gives beside the two outputs.
#[derive(Clone, Copy, Debug, PartialEq, Eq)]
pub struct Unpacked {
    /// Bit k says that field k is present.
    pub word: u64,
    pub present: usize,
    pub rptin: u16,
    pub ac: usize,
    pub bytes: usize,
    pub tail: usize,
}

/// Writes 46 values, 0 where missing, and the tail, one nibble a byte.
pub fn unpack(
    buffer: &[u8],
    values: &mut [i64],
    tail: &mut [u8],
    table: &FlagTable,
) -> Result<Unpacked, Refusal> {
    let report = judge(buffer, table)?;
    let nibbles = report.observation.nibbles()[CARD_NIBBLES..].to_vec();
    if values.len() < FIELDS || tail.len() < nibbles.len() {
        return Err(refusal(13, 0));
    }
    let mut word = 0;
    let mut present = 0;
    for (index, value) in report.observation.values.iter().enumerate() {
        values[index] = value.map_or(0, |value| value.0);
        if value.is_some() {
            word |= 1 << (index + 1);
            present += 1;
        }
    }
    tail[..nibbles.len()].copy_from_slice(&nibbles);
    Ok(Unpacked {
        word,
        present,
        rptin: report.observation.rptin,
        ac: report.ac,
        bytes: report.bytes,
        tail: nibbles.len(),
    })
}

/// Writes the report of values, presence word, RPTIN and tail, and gives its length.
pub fn pack(
    values: &[i64],
    word: u64,
    rptin: u16,
    tail: &[u8],
    output: &mut [u8],
    table: &FlagTable,
) -> Result<usize, Refusal> {
    if values.len() < FIELDS {
        return Err(refusal(13, 0));
    }
    if (0..64).any(|bit| has_bit(word, bit) && !(1..=FIELDS).contains(&bit)) {
        return Err(refusal(8, 0));
    }
    let observation = Observation {
        rptin,
        values: judge_values(values, word)?,
        attachments: judge_tail(tail, table)?,
    };
    let report = observation.packing();
    if output.len() < report.len() {
        return Err(refusal(13, 0));
    }
    output[..report.len()].copy_from_slice(&report);
    Ok(report.len())
}

/// Whether two reports, judged in this order, have the same bytes.
pub fn same(first: &[u8], second: &[u8], table: &FlagTable) -> Result<bool, Refusal> {
    let first_bytes = judge(first, table)?.bytes;
    let second_bytes = judge(second, table)?.bytes;
    Ok(first[..first_bytes] == second[..second_bytes])
}

/// Writes the table of the characters over all that stood there.
pub fn characters(table: &mut text::Table) {
    *table = text::table();
}

/// Writes a text of so many symbols that takes the most nibbles: its bytes to one
/// output and its origins to another.
pub fn costliest(symbols: u64, text: &mut [u8], origins: &mut [u8]) -> Result<(), Refusal> {
    if symbols > text::MOST_SYMBOLS as u64 {
        return Err(refusal(9, 0));
    }
    let n = symbols as usize;
    if text.len() < n || origins.len() < n {
        return Err(refusal(13, 0));
    }
    let chosen = text::costliest(n);
    text[..n].copy_from_slice(&text::bytes(&chosen));
    origins[..n].copy_from_slice(&text::origins(&chosen));
    Ok(())
}

/// Writes the fields of the indicators that are present and whose data are all missing,
/// in ascending order, one byte for each, and gives their number.
pub fn find_indicators(
    buffer: &[u8],
    output: &mut [u8],
    table: &FlagTable,
) -> Result<usize, Refusal> {
    let report = judge(buffer, table)?;
    let found = report.observation.lone_indicators();
    if output.len() < found.len() {
        return Err(refusal(13, 0));
    }
    output[..found.len()].copy_from_slice(&found);
    Ok(found.len())
}

fn has_bit(word: u64, bit: usize) -> bool {
    (word >> bit) & 1 == 1
}

/// Refusals 10 and 9 by ascending field.
fn judge_values(values: &[i64], word: u64) -> Result<[Option<Scaled>; FIELDS], Refusal> {
    let mut judged = [None; FIELDS];
    for field in fields() {
        let value = Scaled(values[field.number - 1]);
        if !has_bit(word, field.number) {
            if field.is_required() {
                return Err(refusal(10, field.number));
            }
        } else if field.coded(value).is_none() {
            return Err(refusal(9, field.number));
        } else {
            judged[field.number - 1] = Some(value);
        }
    }
    Ok(judged)
}

/// Refusal 14 for the bytes, then 1, 5 and 6 for each attachment.
fn judge_tail(tail: &[u8], table: &FlagTable) -> Result<Vec<Attachment>, Refusal> {
    if tail.iter().any(|&byte| byte > 15) {
        return Err(refusal(14, 0));
    }
    let mut attachments = Vec::new();
    let mut place = 0;
    while place < tail.len() {
        let (attachment, next) = next_attachment(tail, place, &attachments, table)?;
        attachments.push(attachment);
        place = next;
    }
    Ok(attachments)
}
