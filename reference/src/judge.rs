//! Judging a report's bytes: refusals 1 to 7.

use crate::attachment::next_attachment;
use crate::bits::{bits_of, nibbles_of};
use crate::card::{CARD_BYTES, CARD_NIBBLES, Card, checksum};
use crate::flag_table::FlagTable;
use crate::observation::Observation;
use crate::refusal::{Refusal, refusal};
use crate::table::{FIELDS, fields};

/// An accepted report.
#[derive(Clone, Debug, PartialEq, Eq)]
pub struct Report {
    pub observation: Observation,
    pub ck: u64,
    pub ac: usize,
    /// Nibbles without the padding.
    pub nibbles: usize,
    pub bytes: usize,
}

/// Judges the report at the head of a buffer under a table of flags.
pub fn judge(buffer: &[u8], table: &FlagTable) -> Result<Report, Refusal> {
    if buffer.len() < CARD_BYTES {
        return Err(refusal(1, 0));
    }
    let card = Card::read(&bits_of(&buffer[..CARD_BYTES]));
    judge_codes(&card)?;
    if card.ck != checksum(&card.codes) {
        return Err(refusal(4, 0));
    }
    let nibbles = nibbles_of(buffer);
    let mut attachments = Vec::new();
    let mut place = CARD_NIBBLES;
    for _ in 0..card.ac {
        let (attachment, next) = next_attachment(&nibbles, place, &attachments, table)?;
        attachments.push(attachment);
        place = next;
    }
    if place % 2 == 1 && nibbles[place] != 0 {
        return Err(refusal(7, 0));
    }
    let mut values = [None; FIELDS];
    for field in fields() {
        values[field.number - 1] = field.scaled(card.codes[field.number - 1]);
    }
    Ok(Report {
        observation: Observation {
            rptin: card.rptin,
            values,
            attachments,
        },
        ck: card.ck,
        ac: card.ac,
        nibbles: place,
        bytes: place.div_ceil(2),
    })
}

/// Refusals 2 and 3 by ascending field.
fn judge_codes(card: &Card) -> Result<(), Refusal> {
    for field in fields() {
        let code = card.codes[field.number - 1];
        if code.0 > field.highest {
            return Err(refusal(2, field.number));
        }
        if code.0 == 0 && field.is_required() {
            return Err(refusal(3, field.number));
        }
    }
    Ok(())
}
