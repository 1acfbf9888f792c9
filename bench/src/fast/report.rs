//! A report judged in one walk.

use super::card::{CARD, check, words};
use super::{Refusal, flags, nibbles, refused, text};
use crate::FlagTable;

/// What an accepted report shows: its checksum, AC, its end in nibbles, and the
/// place and AL of the id asked for, both 0 where it does not stand.
pub struct Report {
    pub words: [u64; 5],
    pub ck: u32,
    pub count: usize,
    pub end: usize,
    pub place: usize,
    pub al: usize,
}

impl Report {
    #[inline(always)]
    pub fn size(&self) -> usize {
        self.end.div_ceil(2)
    }
}

#[inline(always)]
pub fn card_of(s: &[u8]) -> &[u8; CARD] {
    s.first_chunk().unwrap()
}

/// The sixteen nibbles from a place on.
#[inline(always)]
pub fn sixteen(s: &[u8], at: usize) -> u64 {
    let i = at / 2;
    let high = u64::from_be_bytes(s[i..i + 8].try_into().unwrap());
    if at.is_multiple_of(2) {
        high
    } else {
        high << 4 | u64::from(s[i + 8] >> 4)
    }
}

/// The walk's body check.
#[inline(always)]
fn body_valid(s: &[u8], at: usize, al: usize, id: usize, table: &FlagTable) -> bool {
    match id {
        1 => al == 16 && flags::valid(sixteen(s, at), table),
        4 => text::valid(s, at, al),
        _ => true,
    }
}

/// Whether nibbles, one a byte and each under 16, may stand under an id and a table.
#[inline(always)]
pub fn content_valid(id: usize, ns: &[u8], table: &FlagTable) -> bool {
    match id {
        1 => {
            ns.len() == 16 && {
                let word = ns.iter().fold(0, |a, &n| a << 4 | u64::from(n));
                flags::valid(word, table)
            }
        }
        4 => text::valid_nibbles(ns),
        _ => true,
    }
}

/// Judges the report under a table, and says where an id stands in it.
#[inline(always)]
pub fn inspect(s: &[u8], want: usize, table: &FlagTable) -> Result<Report, Refusal> {
    let Some(card) = s.first_chunk::<CARD>() else {
        return refused(1, 0);
    };
    let words = words(card);
    let ck = check(&words)?;
    let count = (card[37] >> 4) as usize;
    let mut r = Report {
        words,
        ck,
        count,
        end: 75,
        place: 0,
        al: 0,
    };
    // Id 0 counts as seen.
    let mut seen = 1u32;
    let mut position = 0;
    while position < count {
        position += 1;
        let at = r.end;
        let i = at / 2;
        let Some(head) = s.get(i..i + 2) else {
            return refused(1, position);
        };
        let head = u16::from_be_bytes([head[0], head[1]]) as usize;
        let head = head >> (4 * (!at & 1)) & 0xfff;
        let (al, id) = (head >> 4, head & 15);
        if al == 0 || seen >> id & 1 == 1 {
            return refused(5, position);
        }
        seen |= 1 << id;
        let end = at + 3 + al;
        if end.div_ceil(2) > s.len() {
            return refused(1, position);
        }
        if !body_valid(s, at + 3, al, id, table) {
            return refused(6, position);
        }
        if want != 0 && id == want {
            r.place = at;
            r.al = al;
        }
        r.end = end;
    }
    if r.end % 2 == 1 && nibbles::nibble(s, r.end) != 0 {
        return refused(7, 0);
    }
    Ok(r)
}

/// Checks a tail, one nibble a byte and each under 16, under a table; gives the number of
/// attachments.
#[inline(always)]
pub fn walk_nibbles(ns: &[u8], table: &FlagTable) -> Result<usize, Refusal> {
    let mut seen = 1u32;
    let mut position = 0;
    let mut rest = ns;
    while !rest.is_empty() {
        position += 1;
        let Some((head, body)) = rest.split_first_chunk::<3>() else {
            return refused(1, position);
        };
        let al = (head[0] as usize & 15) << 4 | head[1] as usize & 15;
        let id = head[2] as usize & 15;
        if al == 0 || seen >> id & 1 == 1 {
            return refused(5, position);
        }
        seen |= 1 << id;
        let Some((body, behind)) = body.split_at_checked(al) else {
            return refused(1, position);
        };
        if !content_valid(id, body, table) {
            return refused(6, position);
        }
        rest = behind;
    }
    Ok(position)
}
