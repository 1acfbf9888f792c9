//! The ship text for display, a symbol at a time.

use super::report::inspect;
use super::{Refusal, nibbles, text};
use crate::FlagTable;

#[derive(Clone, Copy, Debug, PartialEq, Eq)]
pub enum Symbol {
    Plain(u8),
    Original(u8),
}

/// Keeps the report's slice, the next place and the end in nibbles, and the spaces of a run that
/// are still to come. Where opening was refused it is at its end.
#[derive(Clone, Debug)]
pub struct Reader<'a> {
    report: &'a [u8],
    at: usize,
    end: usize,
    spaces: usize,
    pub refusal: Option<Refusal>,
}

impl<'a> Reader<'a> {
    #[inline(never)]
    pub fn open(s: &'a [u8], table: &FlagTable) -> Reader<'a> {
        let (at, end, refusal) = match inspect(s, 4, table) {
            Err(refusal) => (0, 0, Some(refusal)),
            Ok(r) if r.place == 0 => {
                let (number, place) = (11, 0);
                (0, 0, Some(Refusal { number, place }))
            }
            Ok(r) => (r.place + 3, r.place + 3 + r.al, None),
        };
        Reader {
            report: s,
            at,
            end,
            spaces: 0,
            refusal,
        }
    }
}

impl Iterator for Reader<'_> {
    type Item = Symbol;

    /// Not inlined: a step of the library is a call too.
    #[inline(never)]
    fn next(&mut self) -> Option<Symbol> {
        if self.spaces > 0 {
            self.spaces -= 1;
            return Some(Symbol::Plain(b' '));
        }
        let at = self.at;
        if at >= self.end {
            return None;
        }
        let n = nibbles::nibble(self.report, at);
        if n < 11 {
            self.at = at + 1;
            return Some(Symbol::Plain(text::single(n)));
        }
        let m = nibbles::nibble(self.report, at + 1);
        if n == 15 {
            self.at = at + 3;
            let low = nibbles::nibble(self.report, at + 2);
            return Some(Symbol::Original(m << 4 | low));
        }
        self.at = at + 2;
        if n == 11 {
            self.spaces = m as usize + 2;
            return Some(Symbol::Plain(b' '));
        }
        Some(Symbol::Plain(text::pair(n, m)))
    }
}
