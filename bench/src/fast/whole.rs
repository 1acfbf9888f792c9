//! Fresh, unpack and pack.

use super::card::{
    CARD, REQUIRED, base_of, each_field, highest_of, is_required, mask_of, shift_of, word_of,
};
use super::report::{inspect, walk_nibbles};
use super::{Answer, Given, Label, Refusal, given, nibbles, refused};
use crate::FlagTable;

/// What unpack gives beside the values and the tail.
#[derive(Clone, Copy, Debug, Default, PartialEq, Eq)]
pub struct Contents {
    pub word: u64,
    pub present: u32,
    pub rptin: u16,
    pub count: u32,
    pub size: u32,
    pub tail: u32,
}

#[inline(never)]
pub fn unpack(
    s: &[u8],
    values: &mut [i64],
    tail: &mut [u8],
    contents: &mut Contents,
    table: &FlagTable,
) -> Result<(), Refusal> {
    let r = inspect(s, 0, table)?;
    let n = r.end - 75;
    let Some(values) = values.first_chunk_mut::<46>() else {
        return refused(13, 0);
    };
    let Some(tail) = tail.get_mut(..n) else {
        return refused(13, 0);
    };
    let w = r.words;
    let mut word = 0u64;
    let mut low = 0u64;
    macro_rules! value {
        ($k:literal) => {
            let c =
                w[const { word_of($k) }] >> const { shift_of($k) } & const { mask_of($k) as u64 };
            // All ones from bit 12 on if the field is present.
            let here = c.wrapping_neg();
            let base = const { base_of($k) };
            values[$k - 1] = if base == -1 {
                c as i64 + (here as i64 >> 63)
            } else {
                c as i64 + (here as i64 >> 63 & base)
            };
            if $k < 12 {
                low |= here & 1 << ($k + 12);
            } else {
                word |= here & 1 << $k;
            }
        };
    }
    each_field!(value);
    let word = word | low >> 12;
    nibbles::fetch(s, 75, tail);
    *contents = Contents {
        word,
        present: word.count_ones(),
        rptin: u16::from_be_bytes([s[0], s[1]]),
        count: r.count as u32,
        size: r.size() as u32,
        tail: n as u32,
    };
    Ok(())
}

/// The card as five words of 64 bits from bytes 0, 8, 16, 24 and 30 on.
struct Writer([u64; 5]);

impl Writer {
    #[inline(always)]
    fn add<const AT: usize, const WIDTH: usize>(&mut self, v: u64) {
        let (i, start) = if AT >= 240 {
            (4, 240)
        } else {
            (AT / 64, AT / 64 * 64)
        };
        let end = AT + WIDTH - start;
        if end <= 64 {
            self.0[i] |= v << (64 - end);
        } else {
            self.0[i] |= v >> (end - 64);
            self.0[i + 1] |= v << (128 - end);
        }
    }

    /// Writes the first 37 bytes, and the high half of the next one.
    #[inline(always)]
    fn store(&self, card: &mut [u8; CARD], last: u8) {
        card[..8].copy_from_slice(&self.0[0].to_be_bytes());
        card[8..16].copy_from_slice(&self.0[1].to_be_bytes());
        card[16..24].copy_from_slice(&self.0[2].to_be_bytes());
        card[24..32].copy_from_slice(&self.0[3].to_be_bytes());
        let e = self.0[4].to_be_bytes();
        card[30] |= e[0];
        card[31] |= e[1];
        card[32..38].copy_from_slice(&e[2..]);
        card[37] = card[37] & 0xf0 | last;
    }
}

const AT: [usize; 47] = {
    let mut t = [0; 47];
    let mut k = 0;
    while k < 47 {
        t[k] = super::card::at_of(k);
        k += 1;
    }
    t
};

const WIDTH: [usize; 47] = {
    let mut t = [0; 47];
    let mut k = 0;
    while k < 47 {
        t[k] = super::card::width_of(k);
        k += 1;
    }
    t
};

#[cold]
#[inline(never)]
fn first_fault(values: &[i64; 46], word: u64) -> Refusal {
    for k in 1..=46 {
        if word >> k & 1 == 0 {
            if is_required(k) {
                return Refusal {
                    number: 10,
                    place: k as u8,
                };
            }
        } else {
            let c = values[k - 1].wrapping_sub(base_of(k)) as u64;
            if c.wrapping_sub(1) >= u64::from(highest_of(k)) {
                return Refusal {
                    number: 9,
                    place: k as u8,
                };
            }
        }
    }
    Refusal {
        number: 0,
        place: 0,
    }
}

#[inline(never)]
pub fn pack(
    values: &[i64],
    word: u64,
    rptin: u16,
    tail: &[u8],
    out: &mut [u8],
    table: &FlagTable,
) -> Answer {
    let Some(values) = values.first_chunk::<46>() else {
        return refused(13, 0);
    };
    if word & !0x7fff_ffff_fffe != 0 {
        return refused(8, 0);
    }
    let mut w = Writer([u64::from(rptin) << 48, 0, 0, 0, 0]);
    let mut sum = 0u64;
    let mut fault = !word & REQUIRED;
    macro_rules! value {
        ($k:literal) => {
            let on = (word >> $k & 1).wrapping_neg();
            let c = values[$k - 1].wrapping_sub(const { base_of($k) }) as u64;
            fault |= u64::from(c.wrapping_sub(1) >= const { highest_of($k) as u64 }) & on;
            let c = c & on;
            sum = sum.wrapping_add(c);
            w.add::<{ AT[$k] }, { WIDTH[$k] }>(c);
        };
    }
    each_field!(value);
    if fault != 0 {
        return Err(first_fault(values, word));
    }
    if !nibbles::all(tail) {
        return refused(14, 0);
    }
    let count = walk_nibbles(tail, table)?;
    let n = 75 + tail.len();
    let size = n.div_ceil(2);
    let Some(out) = out.get_mut(..size) else {
        return refused(13, 0);
    };
    w.add::<282, 14>(sum % 255);
    w.add::<296, 4>(count as u64);
    if n % 2 == 1 {
        out[size - 1] = 0;
    }
    nibbles::lay(out, 75, tail);
    let last = out[37] & 15;
    w.store(out.first_chunk_mut().unwrap(), last);
    Ok(given(Label::Bytes, size as i64))
}

#[inline(never)]
pub fn fresh(required: [i64; 5], out: &mut [u8]) -> Answer {
    let mut w = Writer([0; 5]);
    let mut sum = 0;
    macro_rules! value {
        ($i:literal, $k:literal) => {
            let c = required[$i].wrapping_sub(const { base_of($k) }) as u64;
            if c.wrapping_sub(1) >= const { highest_of($k) as u64 } {
                return refused(9, $k);
            }
            sum += c;
            w.add::<{ AT[$k] }, { WIDTH[$k] }>(c);
        };
    }
    value!(0, 1);
    value!(1, 2);
    value!(2, 3);
    value!(3, 6);
    value!(4, 7);
    let Some(card) = out.first_chunk_mut::<CARD>() else {
        return refused(13, 0);
    };
    w.add::<282, 14>(sum % 255);
    w.store(card, 0);
    Ok(Given::NOTHING)
}
