//! The calls in plain safe Rust, written for speed: the same checks in the same
//! order, the same answers, the same bytes.
#![forbid(unsafe_code)]

pub mod calls;
mod card;
pub mod flags;
mod indicators;
mod nibbles;
pub mod reader;
mod report;
pub mod script;
mod text;
pub mod whole;

/// A refusal's number and place.
#[derive(Clone, Copy, Debug, PartialEq, Eq)]
pub struct Refusal {
    pub number: u8,
    pub place: u8,
}

/// The byte that says what a number is.
#[derive(Clone, Copy, Debug, PartialEq, Eq)]
#[repr(u8)]
pub enum Label {
    /// There is no number.
    Nothing = 0,
    Value = 1,
    Flag = 2,
    Count = 3,
    Bytes = 8,
    Nibbles = 9,
    Deck = 10,
    MissingValue = 129,
    MissingFlag = 130,
}

/// What an accepted call gives: a number and its label. It is 0 where it is missing
/// or there is none.
#[derive(Clone, Copy, Debug, PartialEq, Eq)]
pub struct Given {
    pub label: Label,
    pub number: i64,
}

impl Given {
    pub const NOTHING: Given = given(Label::Nothing, 0);
}

#[inline(always)]
const fn given(label: Label, number: i64) -> Given {
    Given { label, number }
}

pub type Answer = Result<Given, Refusal>;

/// The character set of the input deck.
#[derive(Clone, Copy, Debug, PartialEq, Eq)]
#[repr(u8)]
pub enum Set {
    Unknown = 0,
    Ebcdic = 1,
    Ascii = 2,
}

/// What fetch text gives: how many symbols it wrote, the deck's set, and how many nibbles of
/// content it read.
#[derive(Clone, Copy, Debug, PartialEq, Eq)]
pub struct Fetched {
    pub symbols: usize,
    pub set: Set,
    pub nibbles: u8,
}

#[cold]
fn cold() {}

#[inline(always)]
fn refused<T>(number: u8, place: usize) -> Result<T, Refusal> {
    cold();
    Err(Refusal {
        number,
        place: place as u8,
    })
}
