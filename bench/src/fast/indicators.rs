//! Indicators and the data that they rest on.

use super::card::{CARD, at_of, mask_of, shift_of, width_of, word_of};

/// Each indicator and its data, ascending.
const INDICATORS: [(usize, &[usize]); 6] = [
    (17, &[18]),
    (19, &[20]),
    (21, &[22]),
    (27, &[28, 29, 30, 31]),
    (32, &[31]),
    (36, &[37]),
];

/// For each word the bits of some fields.
const fn words_of(fields: &[usize]) -> [u64; 5] {
    let mut words = [0; 5];
    let mut i = 0;
    while i < fields.len() {
        let k = fields[i];
        words[word_of(k)] |= (mask_of(k) as u64) << shift_of(k);
        i += 1;
    }
    words
}

#[inline(always)]
fn any(w: &[u64; 5], bits: [u64; 5]) -> bool {
    let [a, b, c, d, e] = bits;
    (w[0] & a) | (w[1] & b) | (w[2] & c) | (w[3] & d) | (w[4] & e) != 0
}

/// The fields of some indicators, ascending from the lowest byte on.
#[derive(Clone, Copy)]
pub struct List {
    pub fields: u64,
    pub count: usize,
}

pub const NONE: List = List {
    fields: 0,
    count: 0,
};

/// For each set of indicators, a bit for each, their list.
static LISTS: [List; 64] = lists();

const fn lists() -> [List; 64] {
    let mut lists = [NONE; 64];
    let mut set = 0;
    while set < 64 {
        let mut i = 0;
        while i < 6 {
            if set >> i & 1 == 1 {
                let list = &mut lists[set];
                list.fields |= (INDICATORS[i].0 as u64) << (8 * list.count);
                list.count += 1;
            }
            i += 1;
        }
        set += 1;
    }
    lists
}

/// The indicators that are present and whose data are all missing.
#[inline(always)]
pub fn lone(w: &[u64; 5]) -> List {
    let mut set = 0;
    macro_rules! indicator {
        ($i:literal) => {
            let field = any(w, const { words_of(&[INDICATORS[$i].0]) });
            let data = any(w, const { words_of(INDICATORS[$i].1) });
            set |= usize::from(field & !data) << $i;
        };
    }
    indicator!(0);
    indicator!(1);
    indicator!(2);
    indicator!(3);
    indicator!(4);
    indicator!(5);
    LISTS[set]
}

/// Where a field stands in eight bytes.
#[derive(Clone, Copy)]
struct Part {
    bits: u64,
    shift: u32,
}

const NO_PART: Part = Part { bits: 0, shift: 0 };

const fn part_of(k: usize, from: usize) -> Part {
    let shift = 8 * from + 64 - at_of(k) - width_of(k);
    Part {
        bits: (mask_of(k) as u64) << shift,
        shift: shift as u32,
    }
}

/// A field in the eight bytes from a place on, and the indicators that rest on it, each with the
/// bits of its other data.
#[derive(Clone, Copy)]
struct Group {
    from: usize,
    field: Part,
    indicators: [(Part, u64); 2],
}

static GROUPS: [Group; 47] = groups();

const fn groups() -> [Group; 47] {
    let mut groups = [Group {
        from: 0,
        field: NO_PART,
        indicators: [(NO_PART, 0); 2],
    }; 47];
    let mut k = 1;
    while k <= 46 {
        groups[k] = group_of(k);
        k += 1;
    }
    groups
}

const fn group_of(k: usize) -> Group {
    let mut from = at_of(k) / 8;
    let mut i = 0;
    while i < 6 {
        let (indicator, data) = INDICATORS[i];
        if contains(data, k) && at_of(indicator) / 8 < from {
            from = at_of(indicator) / 8;
        }
        i += 1;
    }
    if from > CARD - 8 {
        from = CARD - 8;
    }
    let mut group = Group {
        from,
        field: part_of(k, from),
        indicators: [(NO_PART, 0); 2],
    };
    let mut count = 0;
    let mut i = 0;
    while i < 6 {
        let (indicator, data) = INDICATORS[i];
        if contains(data, k) {
            let others = bits_of(data, from) & !group.field.bits;
            group.indicators[count] = (part_of(indicator, from), others);
            count += 1;
        }
        i += 1;
    }
    group
}

const fn contains(fields: &[usize], k: usize) -> bool {
    let mut i = 0;
    while i < fields.len() {
        if fields[i] == k {
            return true;
        }
        i += 1;
    }
    false
}

const fn bits_of(fields: &[usize], from: usize) -> u64 {
    let mut bits = 0;
    let mut i = 0;
    while i < fields.len() {
        bits |= part_of(fields[i], from).bits;
        i += 1;
    }
    bits
}

/// Clears a field and the indicators on it whose data are then all missing, and stores the
/// checksum, which was ck; gives the field's former code. Without a branch on what is present.
#[inline(always)]
pub fn clear(card: &mut [u8; CARD], k: usize, ck: u32) -> u32 {
    let group = &GROUPS[k];
    let bytes = &mut card[group.from..group.from + 8];
    let bytes: &mut [u8; 8] = bytes.try_into().unwrap();
    let v = u64::from_be_bytes(*bytes);
    let old = (v & group.field.bits) >> group.field.shift;
    let (mut left, mut gone) = (v & !group.field.bits, old);
    for (indicator, others) in &group.indicators {
        let lost = indicator.bits & u64::from(v & others != 0).wrapping_sub(1);
        left &= !lost;
        gone += (v & lost) >> indicator.shift;
    }
    *bytes = left.to_be_bytes();
    // The six higher bits of CK are 0 and stay so.
    card[36] = ((ck + 255 * 16 - gone as u32) % 255) as u8;
    old as u32
}
