//! The card of 300 bits, 75 nibbles.

use crate::bits::{number, store_number};
use crate::table::{AC, CK, Coded, FIELDS, RPTIN, fields, place_on_card};

pub const CARD_BITS: usize = 300;
pub const CARD_NIBBLES: usize = 75;
pub const CARD_BYTES: usize = 38;

/// What stands on a card, sound or not.
#[derive(Clone, Debug, PartialEq, Eq)]
pub struct Card {
    pub rptin: u16,
    pub codes: [Coded; FIELDS],
    pub ck: u64,
    pub ac: usize,
}

impl Card {
    pub fn read(bits: &[bool]) -> Card {
        let line = |k: usize| number(&bits[place_on_card(k)]);
        let mut codes = [Coded(0); FIELDS];
        for field in fields() {
            codes[field.number - 1] = Coded(line(field.number));
        }
        Card {
            rptin: line(RPTIN) as u16,
            codes,
            ck: line(CK),
            ac: line(AC) as usize,
        }
    }

    pub fn bits(&self) -> Vec<bool> {
        let mut bits = vec![false; CARD_BITS];
        let mut store = |k: usize, number: u64| store_number(&mut bits[place_on_card(k)], number);
        store(RPTIN, u64::from(self.rptin));
        for field in fields() {
            store(field.number, self.codes[field.number - 1].0);
        }
        store(CK, self.ck);
        store(AC, self.ac as u64);
        bits
    }

    pub fn nibbles(&self) -> Vec<u8> {
        self.bits()
            .chunks(4)
            .map(|chunk| number(chunk) as u8)
            .collect()
    }
}

/// The sum of coded fields 1 to 46 modulo 255.
pub fn checksum(codes: &[Coded; FIELDS]) -> u64 {
    codes.iter().map(|code| code.0).sum::<u64>() % 255
}
