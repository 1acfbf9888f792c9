//! The observation: what a report says, free of bytes.

use crate::attachment::Attachment;
use crate::bits::bytes_of_nibbles;
use crate::card::{CARD_NIBBLES, Card, checksum};
use crate::deck::{CharacterSet, character_set};
use crate::indicator::{ERRONEOUS_ID, INDICATORS, Indicator};
use crate::table::{Coded, FIELDS, REQUIRED, SID, Scaled, fields};

#[derive(Clone, Debug, PartialEq, Eq)]
pub struct Observation {
    pub rptin: u16,
    pub values: [Option<Scaled>; FIELDS],
    pub attachments: Vec<Attachment>,
}

impl Observation {
    /// An observation of the required fields alone: BOX10, YEAR, MONTH, X and Y.
    pub fn fresh(required: [Scaled; 5]) -> Observation {
        let mut values = [None; FIELDS];
        for (number, value) in REQUIRED.into_iter().zip(required) {
            values[number - 1] = Some(value);
        }
        Observation {
            rptin: 0,
            values,
            attachments: Vec::new(),
        }
    }

    /// The coded values; every present value is in its range.
    pub fn codes(&self) -> [Coded; FIELDS] {
        let mut codes = [Coded(0); FIELDS];
        for field in fields() {
            let index = field.number - 1;
            if let Some(value) = self.values[index] {
                codes[index] = field
                    .coded(value)
                    .expect("an observation's value is in range");
            }
        }
        codes
    }

    /// Nibbles of the card and the attachments, without the padding.
    pub fn nibbles(&self) -> Vec<u8> {
        let codes = self.codes();
        let card = Card {
            rptin: self.rptin,
            codes,
            ck: checksum(&codes),
            ac: self.attachments.len(),
        };
        let mut nibbles = card.nibbles();
        for attachment in &self.attachments {
            nibbles.extend(attachment.with_header());
        }
        nibbles
    }

    pub fn packing(&self) -> Vec<u8> {
        bytes_of_nibbles(&self.nibbles())
    }

    /// The packing's length in bytes.
    pub fn size(&self) -> usize {
        let tail: usize = self.attachments.iter().map(Attachment::size).sum();
        (CARD_NIBBLES + tail).div_ceil(2)
    }

    /// The character set of the input deck.
    pub fn set(&self) -> CharacterSet {
        character_set(self.values[SID - 1])
    }

    /// Whether all data of an indicator are missing.
    pub fn lacks_data_of(&self, indicator: Indicator) -> bool {
        indicator.has_lost_its_data(|field| self.values[field - 1].is_some())
    }

    /// The fields of the indicators that are present without their data, ascending. There
    /// are none where attachment 5 stands.
    pub fn lone_indicators(&self) -> Vec<u8> {
        if self.content(u64::from(ERRONEOUS_ID)).is_some() {
            return Vec::new();
        }
        let is_present = |indicator: &Indicator| self.values[indicator.field - 1].is_some();
        let present = INDICATORS.into_iter().filter(is_present);
        let lone = present.filter(|&indicator| self.lacks_data_of(indicator));
        lone.map(|indicator| indicator.field as u8).collect()
    }

    /// The nibbles of an id, if it stands.
    pub fn content(&self, id: u64) -> Option<&[u8]> {
        self.attachments
            .iter()
            .find(|attachment| u64::from(attachment.id) == id)
            .map(|attachment| attachment.nibbles.as_slice())
    }
}
