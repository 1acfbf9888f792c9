//! The flags of id 1, and the table of those that are permitted.

use super::{Answer, Given, refused};
use crate::FlagTable;

const ONES: u64 = 0x0101_0101_0101_0101;

/// In each byte, which is under 16: bit 7 where it is at least n.
#[inline(always)]
fn reach(x: u64, n: u64) -> u64 {
    (x + ONES * (128 - n)) & (ONES << 7)
}

/// The quality code of fourteen flags, the high nibbles of a word; none if a
/// flag is over 10.
#[inline(always)]
pub fn quality(flags: u64) -> Option<u64> {
    const NIBBLES: u64 = ONES * 15;
    let flags = flags & !0xff;
    let a = flags & NIBBLES;
    let b = flags >> 4 & NIBBLES;
    if reach(a, 11) | reach(b, 11) != 0 {
        return None;
    }
    if flags == 0 {
        return Some(0);
    }
    let weights = (reach(a, 2) >> 7)
        + (reach(a, 4) >> 7)
        + (reach(a, 7) >> 7)
        + (reach(b, 2) >> 7)
        + (reach(b, 4) >> 7)
        + (reach(b, 7) >> 7);
    Some(1 + (weights.wrapping_mul(ONES) >> 56))
}

/// Whether the sixteen nibbles of a word are a body of id 1 under a table.
#[inline(always)]
pub fn valid(body: u64, table: &FlagTable) -> bool {
    quality(body) == Some(body & 0xff) && (body == 0 || permitted(body, table))
}

/// Whether a table permits everything, by pieces of 16 marks; the last overlaps.
#[inline(always)]
fn all_yes(table: &FlagTable) -> bool {
    const YES: u128 = u128::from_ne_bytes([1; 16]);
    let marks = table.as_flattened();
    let (pieces, _) = marks.as_chunks::<16>();
    let pieces = pieces.iter().chain(marks.last_chunk());
    pieces.fold(0, |no, piece| no | u128::from_ne_bytes(*piece) ^ YES) == 0
}

/// Whether a table permits each flag of a body. Kept out of line, since it takes registers from
/// the walk that it is called in.
#[inline(never)]
fn permitted(body: u64, table: &FlagTable) -> bool {
    if all_yes(table) {
        return true;
    }
    let mut left = body;
    let mut no = 0;
    for row in table {
        let v = (left >> 60) as usize;
        no |= row.get(v.wrapping_sub(1)).map_or(0, |mark| mark ^ 1);
        left <<= 4;
    }
    no == 0
}

/// Whether flag j, 1 to 14, may be set to v.
#[inline(always)]
pub fn in_range(j: usize, v: usize, table: &FlagTable) -> bool {
    table[j - 1].get(v.wrapping_sub(1)) == Some(&1)
}

#[inline(never)]
pub fn all_flags(table: &mut FlagTable) {
    *table = [[1; 10]; 14];
}

/// Two words of a row, which overlap, or-ed: 0 only where every mark is 0.
#[inline(always)]
fn some(row: &[u8; 10]) -> u64 {
    let [low, high] = [row.first_chunk(), row.last_chunk()];
    u64::from_ne_bytes(*low.unwrap()) | u64::from_ne_bytes(*high.unwrap())
}

#[inline(never)]
pub fn load_flags(marks: &[u8], table: &mut FlagTable) -> Answer {
    let Ok(marks) = <&[u8; 140]>::try_from(marks) else {
        return refused(16, 0);
    };
    let (mut any, mut least) = (0, u64::MAX);
    for row in marks.as_chunks().0 {
        any |= some(row);
        least = least.min(some(row));
    }
    if any & !ONES != 0 || least == 0 {
        return refused(16, 0);
    }
    // Halves are copied in place, the whole would be by a call.
    let (front, behind) = table.as_flattened_mut().split_at_mut(70);
    front.copy_from_slice(&marks[..70]);
    behind.copy_from_slice(&marks[70..]);
    Ok(Given::NOTHING)
}
