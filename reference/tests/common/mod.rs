//! Bytes and codes worked out by hand, and a plain way to alter bytes.
#![allow(dead_code)]

pub mod all_flags;

use reference::refusal::{Refusal, refusal};
use reference::table::Scaled;
use reference::text::{Symbol, Table};

/// Bytes from hex digits; spaces are for the eye.
pub fn hex(digits: &str) -> Vec<u8> {
    let digits: Vec<u8> = digits
        .chars()
        .filter_map(|digit| digit.to_digit(16))
        .map(|digit| digit as u8)
        .collect();
    digits
        .chunks(2)
        .map(|pair| 16 * pair[0] + pair[1])
        .collect()
}

/// Fresh, values 1, 1900, 1, 0, 0, in a buffer of a length filled with A5.
pub fn fresh_buffer(length: usize) -> Vec<u8> {
    let mut buffer = vec![0xA5; length];
    buffer[..38].fill(0);
    buffer[..9].copy_from_slice(&[0, 0, 0, 0x59, 0x44, 0, 0, 0x17, 0x0A]);
    buffer[36] = 0xF0;
    buffer
}

/// A field of that report: 1, 1900, 1, 0, 0 in the required ones, and the others missing.
pub fn fresh_value(field: usize) -> Option<Scaled> {
    match field {
        1 | 3 => Some(Scaled(1)),
        2 => Some(Scaled(1900)),
        6 | 7 => Some(Scaled(0)),
        _ => None,
    }
}

/// Writes a number over some bits, the highest bit of byte 0 being bit 0.
pub fn set_bits(bytes: &mut [u8], start: usize, width: usize, number: u64) {
    for index in 0..width {
        let bit = start + index;
        let mask = 0x80 >> (bit % 8);
        if (number >> (width - 1 - index)) & 1 == 1 {
            bytes[bit / 8] |= mask;
        } else {
            bytes[bit / 8] &= !mask;
        }
    }
}

/// CK stands at bits 282 to 295.
pub fn set_ck(bytes: &mut [u8], ck: u64) {
    set_bits(bytes, 282, 14, ck);
}

/// A fresh report with AC and the nibbles behind the card.
pub fn fresh_with_tail(ac: u8, tail: &[u8]) -> Vec<u8> {
    let mut nibbles = vec![ac];
    nibbles.extend(tail);
    if nibbles.len() % 2 == 1 {
        nibbles.push(0);
    }
    let mut buffer = fresh_buffer(38);
    buffer.truncate(37);
    buffer.extend(nibbles.chunks(2).map(|pair| 16 * pair[0] + pair[1]));
    buffer
}

pub fn refused<T>(number: u8, place: usize) -> Result<T, Refusal> {
    Err(refusal(number, place))
}

/// Bytes as plain symbols; each has a short code.
pub fn plain(bytes: &[u8]) -> Vec<Symbol> {
    let symbols = bytes.iter().map(|&byte| Symbol::plain(byte));
    symbols.map(|symbol| symbol.unwrap()).collect()
}

pub fn originals(bytes: &[u8]) -> Vec<Symbol> {
    bytes.iter().map(|&byte| Symbol::original(byte)).collect()
}

/// The short codes, from the requirements and Table F4-3.
pub const SHORT: [(u8, u16); 43] = [
    (b'0', 0x1000),
    (b'1', 0x1001),
    (b'2', 0x1002),
    (b'3', 0x1003),
    (b'4', 0x1004),
    (b'5', 0x1005),
    (b'6', 0x1006),
    (b'7', 0x1007),
    (b'8', 0x1008),
    (b'9', 0x1009),
    (b' ', 0x100A),
    (b'{', 0x20C0),
    (b'A', 0x20C1),
    (b'B', 0x20C2),
    (b'C', 0x20C3),
    (b'D', 0x20C4),
    (b'E', 0x20C5),
    (b'F', 0x20C6),
    (b'G', 0x20C7),
    (b'H', 0x20C8),
    (b'I', 0x20C9),
    (b'&', 0x20CA),
    (b'+', 0x20CB),
    (b'}', 0x20D0),
    (b'J', 0x20D1),
    (b'K', 0x20D2),
    (b'L', 0x20D3),
    (b'M', 0x20D4),
    (b'N', 0x20D5),
    (b'O', 0x20D6),
    (b'P', 0x20D7),
    (b'Q', 0x20D8),
    (b'R', 0x20D9),
    (b'-', 0x20DA),
    (b'/', 0x20E1),
    (b'S', 0x20E2),
    (b'T', 0x20E3),
    (b'U', 0x20E4),
    (b'V', 0x20E5),
    (b'W', 0x20E6),
    (b'X', 0x20E7),
    (b'Y', 0x20E8),
    (b'Z', 0x20E9),
];

/// The short codes, and 15 and the byte for all others.
pub fn table_by_hand() -> Table {
    let mut table = std::array::from_fn(|byte| 0x3F00 + byte as u16);
    for (byte, entry) in SHORT {
        table[usize::from(byte)] = entry;
    }
    table
}
