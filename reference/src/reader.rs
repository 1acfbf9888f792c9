//! The ship text for display, a symbol at a time.

use std::iter::FusedIterator;

use crate::bits::nibbles_of;
use crate::edit::{Fetched, standing};
use crate::flag_table::FlagTable;
use crate::judge::judge;
use crate::refusal::{Refusal, refusal};
use crate::text::{self, Symbol, next_code};

/// Keeps the report's slice, and how far the text in it has been handed out.
#[derive(Clone, Debug, PartialEq, Eq)]
pub struct Reader<'a> {
    pub report: &'a [u8],
    /// The text's next nibble in the report and the one behind its last.
    pub place: usize,
    pub end: usize,
    /// Spaces of a run that are still to come.
    pub spaces: usize,
    /// A refused reader is at its end from the start.
    pub refusal: Option<Refusal>,
}

impl<'a> Reader<'a> {
    pub fn open(report: &'a [u8], table: &FlagTable) -> Reader<'a> {
        let judged = judge(report, table);
        let text = judged.and_then(|report| standing(&report, u64::from(text::ID)));
        let places = text.clone().unwrap_or_default();
        Reader {
            report,
            place: places.start,
            end: places.end,
            spaces: 0,
            refusal: text.err(),
        }
    }

    /// Whether the reader was opened or refused.
    pub fn opened(&self) -> Result<(), Refusal> {
        self.refusal.map_or(Ok(()), Err)
    }
}

impl Iterator for Reader<'_> {
    type Item = Symbol;

    fn next(&mut self) -> Option<Symbol> {
        if self.spaces > 0 {
            self.spaces -= 1;
            return Some(Symbol::SPACE);
        }
        let nibbles = nibbles_of(self.report);
        let mut rest = nibbles.get(self.place..self.end)?.iter().copied();
        let (symbol, times) = next_code(&mut rest)?;
        self.place = self.end - rest.len();
        self.spaces = times - 1;
        Some(symbol)
    }
}

impl FusedIterator for Reader<'_> {}

/// How a reader was opened, and its first steps; none is the end.
#[derive(Clone, Copy, Debug, PartialEq, Eq)]
pub struct FirstSteps {
    pub opened: Result<(), Refusal>,
    pub steps: [Option<Symbol>; 3],
}

pub fn first_steps(report: &[u8], table: &FlagTable) -> FirstSteps {
    let mut reader = Reader::open(report, table);
    FirstSteps {
        opened: reader.opened(),
        steps: std::array::from_fn(|_| reader.next()),
    }
}

/// Fetches the text by reading it out: its bytes to one output, its origins to another.
pub fn read_out(
    report: &[u8],
    text: &mut [u8],
    origins: &mut [u8],
    table: &FlagTable,
) -> Result<Fetched, Refusal> {
    let mut reader = Reader::open(report, table);
    reader.opened()?;
    let start = reader.place;
    let symbols = reader.clone().count();
    if text.len().min(origins.len()) < symbols {
        return Err(refusal(13, 0));
    }
    for ((symbol, byte), origin) in reader.by_ref().zip(text).zip(origins) {
        (*byte, *origin) = (symbol.byte(), symbol.origin());
    }
    let set = judge(report, table)?.observation.set();
    let nibbles = reader.place - start;
    Ok(Fetched {
        symbols,
        set,
        nibbles,
    })
}
