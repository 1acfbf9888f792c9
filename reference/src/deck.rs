//! The character set of an input deck (Table F1-2).

use crate::table::Scaled;

#[derive(Clone, Copy, Debug, PartialEq, Eq)]
pub enum CharacterSet {
    Unknown = 0,
    Ebcdic = 1,
    Ascii = 2,
}

/// The set of a source ID. It is unknown where SID is missing.
pub fn character_set(sid: Option<Scaled>) -> CharacterSet {
    match sid {
        Some(Scaled(1..=3 | 5..=17 | 19..=21 | 23 | 24)) => CharacterSet::Ebcdic,
        Some(Scaled(4 | 18)) => CharacterSet::Ascii,
        _ => CharacterSet::Unknown,
    }
}
