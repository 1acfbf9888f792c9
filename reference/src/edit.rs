//! The twelve calls on a buffer under a table of flags. Each works on the report's bits and
//! nibbles where they stand; a refused call changes nothing.

use std::ops::Range;

use crate::attachment::{self, HEADER, HIGHEST_ID, LONGEST};
use crate::bits::{bits_of, bytes_of, bytes_of_nibbles, nibbles_of, store_number};
use crate::card::{CARD_BYTES, CARD_NIBBLES, Card, checksum};
use crate::deck::CharacterSet;
use crate::flag_table::FlagTable;
use crate::flags::{self, FLAGS, HIGHEST_FLAG, quality_code};
use crate::indicator::INDICATORS;
use crate::judge::{Report, judge};
use crate::number::Number;
use crate::refusal::{Refusal, refusal};
use crate::table::{CK, Coded, Field, Scaled, field, place_on_card};
use crate::text;

pub fn read_field(
    buffer: &[u8],
    number: u64,
    table: &FlagTable,
) -> Result<Option<Scaled>, Refusal> {
    judge(buffer, table)?;
    let field = known_field(number)?;
    let card = Card::read(&bits_of(&buffer[..CARD_BYTES]));
    Ok(field.scaled(card.codes[field.number - 1]))
}

/// Gives the former value.
pub fn set_field(
    buffer: &mut [u8],
    number: u64,
    value: Scaled,
    table: &FlagTable,
) -> Result<Option<Scaled>, Refusal> {
    judge(buffer, table)?;
    let field = known_field(number)?;
    let code = field.coded(value).ok_or(refusal(9, field.number))?;
    let former = store_code(buffer, field, code);
    Ok(field.scaled(former))
}

/// Gives the former value.
pub fn clear_field(
    buffer: &mut [u8],
    number: u64,
    table: &FlagTable,
) -> Result<Option<Scaled>, Refusal> {
    judge(buffer, table)?;
    let field = known_field(number)?;
    if field.is_required() {
        return Err(refusal(10, field.number));
    }
    let former = store_code(buffer, field, Coded(0));
    Ok(field.scaled(former))
}

/// Clears a field, and every indicator that rests on it and has then lost all its data.
/// Gives the field's former value.
pub fn clear_with_indicators(
    buffer: &mut [u8],
    number: u64,
    table: &FlagTable,
) -> Result<Option<Scaled>, Refusal> {
    let former = clear_field(buffer, number, table)?;
    let codes = Card::read(&bits_of(&buffer[..CARD_BYTES])).codes;
    let is_present = |field: usize| codes[field - 1] != Coded(0);
    for indicator in INDICATORS {
        if indicator.rests_on(number as usize) && indicator.has_lost_its_data(is_present) {
            let field = known_field(indicator.field as u64)?;
            store_code(buffer, field, Coded(0));
        }
    }
    Ok(former)
}

pub fn read_flag(buffer: &[u8], number: u64, table: &FlagTable) -> Result<Option<u8>, Refusal> {
    let report = judge(buffer, table)?;
    let flag = known_flag(number)?;
    let data = standing(&report, u64::from(flags::ID))?;
    Ok(shown(nibbles_of(buffer)[data.start + flag - 1]))
}

/// Gives the former value.
pub fn set_flag(
    buffer: &mut [u8],
    number: u64,
    value: i64,
    table: &FlagTable,
) -> Result<Option<u8>, Refusal> {
    let report = judge(buffer, table)?;
    let flag = known_flag(number)?;
    let in_range = (1..=i64::from(HIGHEST_FLAG)).contains(&value);
    if !in_range || !table.permits(flag, value as u8) {
        return Err(refusal(9, flag));
    }
    let data = standing(&report, u64::from(flags::ID))?;
    let former = store_flag(buffer, data.start, flag, value as u8);
    Ok(shown(former))
}

/// Gives the former value.
pub fn clear_flag(
    buffer: &mut [u8],
    number: u64,
    table: &FlagTable,
) -> Result<Option<u8>, Refusal> {
    let report = judge(buffer, table)?;
    let flag = known_flag(number)?;
    let data = standing(&report, u64::from(flags::ID))?;
    let former = store_flag(buffer, data.start, flag, 0);
    Ok(shown(former))
}

/// Puts an attachment, content one nibble a byte.
pub fn put(buffer: &mut [u8], id: u64, content: &[u8], table: &FlagTable) -> Result<(), Refusal> {
    let report = judge(buffer, table)?;
    let id = known_id(id)?;
    if content.is_empty() || content.len() > LONGEST {
        return Err(refusal(12, 0));
    }
    if content.iter().any(|&byte| byte > 15) || !attachment::is_valid_body(id, content, table) {
        return Err(refusal(14, 0));
    }
    put_nibbles(buffer, &report, id, content)
}

/// Writes an attachment's nibbles to the output, one a byte, and gives their count.
pub fn fetch(
    buffer: &[u8],
    id: u64,
    output: &mut [u8],
    table: &FlagTable,
) -> Result<usize, Refusal> {
    let report = judge(buffer, table)?;
    let id = known_id(id)?;
    let data = standing(&report, u64::from(id))?;
    hold(&nibbles_of(buffer)[data], output)
}

pub fn drop_attachment(buffer: &mut [u8], id: u64, table: &FlagTable) -> Result<(), Refusal> {
    let report = judge(buffer, table)?;
    let id = known_id(id)?;
    let data = standing(&report, u64::from(id))?;
    let whole = data.start - HEADER..data.end;
    replace(buffer, &report, whole, &[], report.ac - 1)
}

/// Puts a text: its bytes, and an origin for each. Gives how many nibbles are written
/// behind the header.
pub fn put_text(
    buffer: &mut [u8],
    text: &[u8],
    origins: &[u8],
    table: &FlagTable,
) -> Result<usize, Refusal> {
    let report = judge(buffer, table)?;
    if text.len() != origins.len() {
        return Err(refusal(13, 0));
    }
    let symbols = text::symbols(text, origins).ok_or(refusal(14, 0))?;
    let nibbles = text::write(&symbols);
    if nibbles.is_empty() || nibbles.len() > LONGEST {
        return Err(refusal(12, 0));
    }
    put_nibbles(buffer, &report, text::ID, &nibbles)?;
    Ok(nibbles.len())
}

/// What fetch text gives beside the two outputs.
#[derive(Clone, Copy, Debug, PartialEq, Eq)]
pub struct Fetched {
    pub symbols: usize,
    pub set: CharacterSet,
    /// Those that are read behind the header.
    pub nibbles: usize,
}

impl Fetched {
    pub fn numbers(self) -> Vec<Number> {
        vec![
            Number::count(self.symbols),
            Number::set(self.set),
            Number::nibbles(self.nibbles),
        ]
    }
}

/// Writes the bytes of the ship text to one output and its origins to another.
pub fn fetch_text(
    buffer: &[u8],
    text: &mut [u8],
    origins: &mut [u8],
    table: &FlagTable,
) -> Result<Fetched, Refusal> {
    let report = judge(buffer, table)?;
    let data = standing(&report, u64::from(text::ID))?;
    let nibbles = data.len();
    let symbols = text::read(&nibbles_of(buffer)[data]).expect("an accepted body has a text");
    if text.len().min(origins.len()) < symbols.len() {
        return Err(refusal(13, 0));
    }
    hold(&text::bytes(&symbols), text)?;
    hold(&text::origins(&symbols), origins)?;
    Ok(Fetched {
        symbols: symbols.len(),
        set: report.observation.set(),
        nibbles,
    })
}

fn known_field(number: u64) -> Result<Field, Refusal> {
    field(number).ok_or(refusal(8, 0))
}

fn known_flag(number: u64) -> Result<usize, Refusal> {
    if (1..=FLAGS as u64).contains(&number) {
        Ok(number as usize)
    } else {
        Err(refusal(8, 0))
    }
}

fn known_id(id: u64) -> Result<u8, Refusal> {
    if (1..=u64::from(HIGHEST_ID)).contains(&id) {
        Ok(id as u8)
    } else {
        Err(refusal(8, 0))
    }
}

/// The places of an id's data nibbles in the report.
pub fn standing(report: &Report, id: u64) -> Result<Range<usize>, Refusal> {
    let mut place = CARD_NIBBLES;
    for attachment in &report.observation.attachments {
        let end = place + attachment.size();
        if u64::from(attachment.id) == id {
            return Ok(place + HEADER..end);
        }
        place = end;
    }
    Err(refusal(11, 0))
}

/// A flag's nibble as it is read: 0 is missing.
fn shown(flag: u8) -> Option<u8> {
    (flag != 0).then_some(flag)
}

/// Stores a field's code on the card, works CK out again, and gives the former code.
fn store_code(buffer: &mut [u8], field: Field, code: Coded) -> Coded {
    let mut bits = bits_of(&buffer[..CARD_BYTES]);
    let former = Card::read(&bits).codes[field.number - 1];
    store_number(&mut bits[place_on_card(field.number)], code.0);
    let ck = checksum(&Card::read(&bits).codes);
    store_number(&mut bits[place_on_card(CK)], ck);
    buffer[..CARD_BYTES].copy_from_slice(&bytes_of(&bits));
    former
}

/// Stores a flag in id 1's data, works the quality code out again, and gives the former
/// flag.
fn store_flag(buffer: &mut [u8], start: usize, flag: usize, value: u8) -> u8 {
    let former = nibbles_of(buffer)[start + flag - 1];
    store_nibble(buffer, start + flag - 1, value);
    let flags = nibbles_of(buffer)[start..start + FLAGS].to_vec();
    let code = quality_code(&flags);
    store_nibble(buffer, start + FLAGS, code >> 4);
    store_nibble(buffer, start + FLAGS + 1, code & 15);
    former
}

fn store_nibble(buffer: &mut [u8], place: usize, nibble: u8) {
    let byte = &mut buffer[place / 2];
    *byte = if place.is_multiple_of(2) {
        (nibble << 4) | (*byte & 15)
    } else {
        (*byte & 0xF0) | nibble
    };
}

/// Replaces an id's data, or appends the attachment if the id does not stand.
fn put_nibbles(buffer: &mut [u8], report: &Report, id: u8, content: &[u8]) -> Result<(), Refusal> {
    let attachment = attachment::with_header(id, content);
    match standing(report, u64::from(id)) {
        Ok(data) => {
            let whole = data.start - HEADER..data.end;
            replace(buffer, report, whole, &attachment, report.ac)
        }
        Err(_) => {
            let end = report.nibbles..report.nibbles;
            replace(buffer, report, end, &attachment, report.ac + 1)
        }
    }
}

/// Replaces some of the report's nibbles and AC, then zeroes up to the old end.
fn replace(
    buffer: &mut [u8],
    report: &Report,
    places: Range<usize>,
    by: &[u8],
    ac: usize,
) -> Result<(), Refusal> {
    let mut nibbles = nibbles_of(buffer)[..report.nibbles].to_vec();
    nibbles.splice(places, by.iter().copied());
    nibbles[CARD_NIBBLES - 1] = ac as u8;
    let bytes = bytes_of_nibbles(&nibbles);
    if bytes.len() > buffer.len() {
        return Err(refusal(13, 0));
    }
    buffer[..bytes.len()].copy_from_slice(&bytes);
    if bytes.len() < report.bytes {
        buffer[bytes.len()..report.bytes].fill(0);
    }
    Ok(())
}

/// Writes what a fetch gives to the head of its output.
fn hold(given: &[u8], output: &mut [u8]) -> Result<usize, Refusal> {
    if output.len() < given.len() {
        return Err(refusal(13, 0));
    }
    output[..given.len()].copy_from_slice(given);
    Ok(given.len())
}
