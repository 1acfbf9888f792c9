//! Attachments: AL, AID and data nibbles.

use crate::flag_table::FlagTable;
use crate::refusal::{Refusal, refusal};
use crate::{flags, text};

pub const HEADER: usize = 3;
pub const LONGEST: usize = 255;
pub const HIGHEST_ID: u8 = 15;

#[derive(Clone, Debug, PartialEq, Eq)]
pub struct Attachment {
    pub id: u8,
    pub nibbles: Vec<u8>,
}

impl Attachment {
    pub fn new(id: u8, nibbles: Vec<u8>) -> Attachment {
        Attachment { id, nibbles }
    }

    /// Nibbles of header and data together.
    pub fn size(&self) -> usize {
        HEADER + self.nibbles.len()
    }

    pub fn with_header(&self) -> Vec<u8> {
        with_header(self.id, &self.nibbles)
    }
}

/// Data nibbles behind their AL and AID.
pub fn with_header(id: u8, nibbles: &[u8]) -> Vec<u8> {
    let length = nibbles.len() as u8;
    let mut whole = vec![length >> 4, length & 15, id];
    whole.extend(nibbles);
    whole
}

/// Whether refusal 6 passes a body of nibbles.
pub fn is_valid_body(id: u8, nibbles: &[u8], table: &FlagTable) -> bool {
    match id {
        flags::ID => flags::is_valid(nibbles, table),
        text::ID => text::read(nibbles).is_some(),
        _ => true,
    }
}

/// Judges the attachment that begins at a place in a row of nibbles, behind
/// those already judged, and hands it back with the new place.
pub fn next_attachment(
    nibbles: &[u8],
    place: usize,
    before: &[Attachment],
    table: &FlagTable,
) -> Result<(Attachment, usize), Refusal> {
    let position = before.len() + 1;
    let data = place + HEADER;
    if data > nibbles.len() {
        return Err(refusal(1, position));
    }
    let length = 16 * usize::from(nibbles[place]) + usize::from(nibbles[place + 1]);
    let id = nibbles[place + 2];
    if length == 0 || id == 0 || before.iter().any(|other| other.id == id) {
        return Err(refusal(5, position));
    }
    let end = data + length;
    if end > nibbles.len() {
        return Err(refusal(1, position));
    }
    let body = &nibbles[data..end];
    if !is_valid_body(id, body, table) {
        return Err(refusal(6, position));
    }
    Ok((Attachment::new(id, body.to_vec()), end))
}
