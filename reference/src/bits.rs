//! Bytes as bits and as nibbles, the high bit and the high half of a byte first.

pub fn bits_of(bytes: &[u8]) -> Vec<bool> {
    let mut bits = Vec::new();
    for byte in bytes {
        for shift in (0..8).rev() {
            bits.push((byte >> shift) & 1 == 1);
        }
    }
    bits
}

/// Bytes of a whole number of bytes' bits.
pub fn bytes_of(bits: &[bool]) -> Vec<u8> {
    bits.chunks(8).map(|chunk| number(chunk) as u8).collect()
}

/// The number that a row of bits makes, high bit first.
pub fn number(bits: &[bool]) -> u64 {
    bits.iter().fold(0, |sum, &bit| 2 * sum + u64::from(bit))
}

/// Writes a number over a row of bits, right-justified.
pub fn store_number(bits: &mut [bool], number: u64) {
    let width = bits.len();
    for (index, bit) in bits.iter_mut().enumerate() {
        *bit = (number >> (width - 1 - index)) & 1 == 1;
    }
}

/// The two nibbles of each byte, one a byte.
pub fn nibbles_of(bytes: &[u8]) -> Vec<u8> {
    bytes
        .iter()
        .flat_map(|byte| [byte >> 4, byte & 15])
        .collect()
}

/// Bytes of two nibbles each; an odd number of nibbles is padded with 0.
pub fn bytes_of_nibbles(nibbles: &[u8]) -> Vec<u8> {
    nibbles
        .chunks(2)
        .map(|pair| (pair[0] << 4) | pair.get(1).unwrap_or(&0))
        .collect()
}
