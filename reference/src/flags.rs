//! Attachment 1: fourteen flags and the quality code.

use crate::flag_table::FlagTable;

pub const ID: u8 = 1;
pub const FLAGS: usize = 14;
pub const HIGHEST_FLAG: u8 = 10;
pub const LENGTH: usize = 16;

/// Weights of missing and of R A B J K L M N Q S.
const WEIGHTS: [u8; 11] = [0, 0, 1, 1, 2, 2, 2, 3, 3, 3, 3];

/// The quality code of fourteen flags, each 0 to 10.
pub fn quality_code(flags: &[u8]) -> u8 {
    if flags.iter().all(|&flag| flag == 0) {
        return 0;
    }
    let weights: u8 = flags.iter().map(|&flag| WEIGHTS[usize::from(flag)]).sum();
    1 + weights
}

/// The body of fourteen flags, each 0 to 10.
pub fn body_of(flags: &[u8]) -> Vec<u8> {
    let code = quality_code(flags);
    let mut body = flags.to_vec();
    body.extend([code >> 4, code & 15]);
    body
}

pub fn is_valid(body: &[u8], table: &FlagTable) -> bool {
    if body.len() != LENGTH {
        return false;
    }
    let flags = &body[..FLAGS];
    flags.iter().all(|&flag| flag <= HIGHEST_FLAG)
        && body == body_of(flags)
        && (1..=FLAGS).all(|number| table.permits(number, flags[number - 1]))
}
