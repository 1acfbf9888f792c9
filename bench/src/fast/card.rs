//! The card in five words of 64 bits, each field within one of them.

use super::{Refusal, refused};

pub struct Row {
    pub at: u32,
    pub width: u32,
    pub highest: u32,
    pub base: i32,
}

const fn row(at: u32, width: u32, highest: u32, base: i32) -> Row {
    Row {
        at,
        width,
        highest,
        base,
    }
}

pub static ROWS: [Row; 47] = TABLE;

const TABLE: [Row; 47] = [
    row(0, 16, 65535, 0),
    row(16, 10, 648, 0),
    row(26, 8, 255, 1799),
    row(34, 4, 12, 0),
    row(38, 5, 31, 0),
    row(43, 5, 24, -1),
    row(48, 12, 3600, -1),
    row(60, 11, 1801, -901),
    row(71, 3, 4, -1),
    row(74, 10, 1000, -1),
    row(84, 8, 255, -1),
    row(92, 4, 8, -1),
    row(96, 2, 3, -1),
    row(98, 3, 6, -1),
    row(101, 2, 3, -1),
    row(103, 3, 2, -1),
    row(106, 2, 3, -1),
    row(108, 3, 6, -1),
    row(111, 9, 362, 0),
    row(120, 4, 4, -1),
    row(124, 10, 1023, -1),
    row(134, 2, 3, -1),
    row(136, 4, 10, 89),
    row(140, 7, 100, -1),
    row(147, 4, 10, -1),
    row(151, 4, 10, -1),
    row(155, 11, 2047, 8699),
    row(166, 4, 6, -1),
    row(170, 11, 1999, -1000),
    row(181, 11, 1999, -1000),
    row(192, 11, 1999, -1000),
    row(203, 11, 1999, -1000),
    row(214, 4, 3, -1),
    row(218, 4, 10, -1),
    row(222, 4, 10, -1),
    row(226, 4, 11, -1),
    row(230, 2, 2, -1),
    row(232, 4, 11, -1),
    row(236, 4, 11, -1),
    row(240, 4, 11, -1),
    row(244, 6, 39, -1),
    row(250, 5, 31, -1),
    row(255, 7, 100, -1),
    row(262, 6, 39, -1),
    row(268, 5, 31, -1),
    row(273, 7, 100, -1),
    row(280, 2, 2, -1),
];

pub const CARD: usize = 38;
/// Bits of fields 1, 2, 3, 6 and 7.
pub const REQUIRED: u64 = 0b1100_1110;

/// The byte at which each word begins.
const STARTS: [usize; 5] = [2, 9, 17, 24, 30];

pub const fn word_of(k: usize) -> usize {
    match k {
        1..=8 => 0,
        9..=21 => 1,
        22..=29 => 2,
        30..=41 => 3,
        _ => 4,
    }
}

pub const fn shift_of(k: usize) -> u32 {
    let end = STARTS[word_of(k)] as u32 * 8 + 64;
    end - TABLE[k].at - TABLE[k].width
}

pub const fn mask_of(k: usize) -> u32 {
    (1 << TABLE[k].width) - 1
}

pub const fn highest_of(k: usize) -> u32 {
    TABLE[k].highest
}

pub const fn at_of(k: usize) -> usize {
    TABLE[k].at as usize
}

pub const fn width_of(k: usize) -> usize {
    TABLE[k].width as usize
}

pub const fn base_of(k: usize) -> i64 {
    TABLE[k].base as i64
}

pub const fn is_required(k: usize) -> bool {
    REQUIRED >> k & 1 == 1
}

macro_rules! each_field {
    ($m:ident) => {
        $m!(1);
        $m!(2);
        $m!(3);
        $m!(4);
        $m!(5);
        $m!(6);
        $m!(7);
        $m!(8);
        $m!(9);
        $m!(10);
        $m!(11);
        $m!(12);
        $m!(13);
        $m!(14);
        $m!(15);
        $m!(16);
        $m!(17);
        $m!(18);
        $m!(19);
        $m!(20);
        $m!(21);
        $m!(22);
        $m!(23);
        $m!(24);
        $m!(25);
        $m!(26);
        $m!(27);
        $m!(28);
        $m!(29);
        $m!(30);
        $m!(31);
        $m!(32);
        $m!(33);
        $m!(34);
        $m!(35);
        $m!(36);
        $m!(37);
        $m!(38);
        $m!(39);
        $m!(40);
        $m!(41);
        $m!(42);
        $m!(43);
        $m!(44);
        $m!(45);
        $m!(46);
    };
}
pub(super) use each_field;

#[inline(always)]
fn word(card: &[u8; CARD], i: usize) -> u64 {
    let at = STARTS[i];
    u64::from_be_bytes(card[at..at + 8].try_into().unwrap())
}

#[inline(always)]
pub fn words(card: &[u8; CARD]) -> [u64; 5] {
    [
        word(card, 0),
        word(card, 1),
        word(card, 2),
        word(card, 3),
        word(card, 4),
    ]
}

/// A word whose highest field ends at bit 63 is shifted down by one, so that
/// there is a bit above it for the carry.
const LOWERED: [u32; 5] = [1, 0, 1, 1, 0];

/// Every other field of a word: their bits, what carries out of a field that is
/// above its highest when added, and the bits of those carries.
#[derive(Clone, Copy)]
struct Half {
    mask: u64,
    add: u64,
    carry: u64,
}

const HALVES: [[Half; 2]; 5] = halves();

const fn halves() -> [[Half; 2]; 5] {
    let mut halves = [[Half {
        mask: 0,
        add: 0,
        carry: 0,
    }; 2]; 5];
    let mut k = 1;
    while k <= 46 {
        let w = word_of(k);
        let at = shift_of(k) - LOWERED[w];
        let half = &mut halves[w][k % 2];
        half.mask |= (mask_of(k) as u64) << at;
        half.add |= ((mask_of(k) - highest_of(k)) as u64) << at;
        half.carry |= 1 << (at + TABLE[k].width);
        k += 1;
    }
    halves
}

/// The required fields, which are all in the first word: all ones in each, so
/// that what is not 0 carries.
const PRESENT: [Half; 2] = present();

const fn present() -> [Half; 2] {
    let mut halves = HALVES[0];
    halves[0].add = 0;
    halves[0].carry = 0;
    halves[1].add = 0;
    halves[1].carry = 0;
    let mut k = 1;
    while k <= 8 {
        if is_required(k) {
            let at = shift_of(k) - LOWERED[0];
            let half = &mut halves[k % 2];
            half.add |= (mask_of(k) as u64) << at;
            half.carry |= 1 << (at + TABLE[k].width);
        }
        k += 1;
    }
    halves
}

/// For each place modulo 8 and each word the fields that begin there, but for
/// those at the top of a word. Modulo 255 a byte's place does not matter, so
/// these are summed where they stand.
const PLACES: [[u64; 5]; 8] = places();

const fn places() -> [[u64; 5]; 8] {
    let mut masks = [[0; 5]; 8];
    let mut k = 1;
    while k <= 46 {
        let at = shift_of(k);
        if at + TABLE[k].width < 64 {
            masks[at as usize % 8][word_of(k)] |= (mask_of(k) as u64) << at;
        }
        k += 1;
    }
    masks
}

/// BOX10, VB and DPT, which are at the top of their words.
#[inline(always)]
fn tops(w: &[u64; 5]) -> u64 {
    (w[0] >> shift_of(1)) + (w[2] >> shift_of(22)) + (w[3] >> shift_of(30))
}

/// The sum of the codes modulo 255.
#[inline(always)]
fn checksum(w: &[u64; 5]) -> u32 {
    let mut sum = tops(w);
    macro_rules! place {
        ($r:literal) => {
            let t = (w[0] & PLACES[$r][0])
                + (w[1] & PLACES[$r][1])
                + (w[2] & PLACES[$r][2])
                + (w[3] & PLACES[$r][3])
                + (w[4] & PLACES[$r][4]);
            sum += t >> $r;
        };
    }
    place!(0);
    place!(1);
    place!(2);
    place!(3);
    place!(4);
    place!(5);
    place!(6);
    place!(7);
    (sum % 255) as u32
}

/// Whether a field is above its highest, or a required one is missing.
#[inline(always)]
fn at_fault(w: &[u64; 5]) -> bool {
    let mut fault = 0;
    macro_rules! half {
        ($w:literal, $h:literal) => {
            let half = const { HALVES[$w][$h] };
            fault |= (((w[$w] >> LOWERED[$w]) & half.mask) + half.add) & half.carry;
        };
    }
    half!(0, 0);
    half!(0, 1);
    half!(1, 0);
    half!(1, 1);
    half!(2, 0);
    half!(2, 1);
    half!(3, 0);
    half!(3, 1);
    half!(4, 0);
    half!(4, 1);
    macro_rules! present {
        ($h:literal) => {
            let half = const { PRESENT[$h] };
            fault |= !(((w[0] >> LOWERED[0]) & half.mask) + half.add) & half.carry;
        };
    }
    present!(0);
    present!(1);
    fault != 0
}

/// The first fault of a card that has one.
#[cold]
#[inline(never)]
pub fn first_fault(w: &[u64; 5]) -> Refusal {
    for k in 1..=46 {
        let c = (w[word_of(k)] >> shift_of(k)) as u32 & mask_of(k);
        if c > ROWS[k].highest {
            return Refusal {
                number: 2,
                place: k as u8,
            };
        }
        if c == 0 && is_required(k) {
            return Refusal {
                number: 3,
                place: k as u8,
            };
        }
    }
    Refusal {
        number: 0,
        place: 0,
    }
}

/// Checks fields and checksum; gives the checksum.
#[inline(always)]
pub fn check(w: &[u64; 5]) -> Result<u32, Refusal> {
    if at_fault(w) {
        return Err(first_fault(w));
    }
    let ck = checksum(w);
    if (w[4] >> 8) as u32 & 0x3fff != ck {
        return refused(4, 0);
    }
    Ok(ck)
}

/// The code of a field from 1 to 46.
#[inline(always)]
pub fn code(card: &[u8; CARD], k: usize) -> u32 {
    let r = &ROWS[k];
    let i = r.at as usize / 8;
    let v = u32::from(u16::from_be_bytes(card[i..i + 2].try_into().unwrap()));
    v >> (16 - r.at % 8 - r.width) & ((1 << r.width) - 1)
}

/// Stores a field's code and the checksum, which was ck; gives the former code.
#[inline(always)]
pub fn replace(card: &mut [u8; CARD], k: usize, c: u32, ck: u32) -> u32 {
    let r = &ROWS[k];
    let i = r.at as usize / 8;
    let z = 16 - r.at % 8 - r.width;
    let mask = (1 << r.width) - 1;
    let v = u32::from(u16::from_be_bytes(card[i..i + 2].try_into().unwrap()));
    let old = v >> z & mask;
    let v = v & !(mask << z) | c << z;
    card[i..i + 2].copy_from_slice(&(v as u16).to_be_bytes());
    let ck = (ck + 255 * 16 + c - old) % 255;
    card[35] &= 0xc0;
    card[36] = ck as u8;
    old
}
