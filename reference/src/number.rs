//! The numbers that an accepted call gives.

use crate::deck::CharacterSet;

/// What a number is. Each has a label.
#[derive(Clone, Copy, Debug, PartialEq, Eq)]
#[repr(u8)]
pub enum Quantity {
    /// A field's value.
    Value = 1,
    /// A flag's value.
    Flag = 2,
    /// How many bytes a call wrote to an output.
    Count = 3,
    /// The presence word.
    Word = 4,
    /// How many fields are present.
    Present = 5,
    Rptin = 6,
    /// AC.
    Attachments = 7,
    /// A report's size in bytes.
    Bytes = 8,
    /// How many nibbles a tail or a text has.
    Nibbles = 9,
    /// The character set of the input deck.
    Set = 10,
}

/// Added to the label of a number that is missing.
pub const MISSING: u8 = 128;

#[derive(Clone, Copy, Debug, PartialEq, Eq)]
pub struct Number {
    pub quantity: Quantity,
    /// None where it is missing.
    pub value: Option<i64>,
}

impl Number {
    pub fn value(value: Option<i64>) -> Number {
        Number {
            quantity: Quantity::Value,
            value,
        }
    }

    pub fn flag(value: Option<i64>) -> Number {
        Number {
            quantity: Quantity::Flag,
            value,
        }
    }

    pub fn count(count: usize) -> Number {
        Number {
            quantity: Quantity::Count,
            value: Some(count as i64),
        }
    }

    pub fn set(set: CharacterSet) -> Number {
        Number {
            quantity: Quantity::Set,
            value: Some(set as i64),
        }
    }

    pub fn bytes(bytes: usize) -> Number {
        Number {
            quantity: Quantity::Bytes,
            value: Some(bytes as i64),
        }
    }

    pub fn nibbles(nibbles: usize) -> Number {
        Number {
            quantity: Quantity::Nibbles,
            value: Some(nibbles as i64),
        }
    }

    /// The quantity's label, and whether the number is missing.
    pub fn label(self) -> u8 {
        let label = self.quantity as u8;
        match self.value {
            Some(_) => label,
            None => label + MISSING,
        }
    }
}
