//! The costliest text: every number of symbols with outputs that just fit or are longer,
//! numbers that are too large, and outputs that are too short.

use super::Case;
use crate::text::MOST_SYMBOLS;

/// What outputs hold before the call.
const HELD: [u8; 8] = [0x00, 0x01, 0x02, 0x20, 0x41, 0x61, 0x80, 0xFF];

/// Numbers of symbols that are too large.
pub const TOO_MANY: [u64; 13] = [
    86,
    87,
    128,
    170,
    255,
    256,
    256 + 85,
    1 << 16,
    1 << 32,
    (1 << 32) + 85,
    1 << 63,
    (1 << 63) + 1,
    u64::MAX,
];

pub fn cases() -> Vec<Case> {
    let mut cases = every_number();
    cases.extend(too_many());
    cases.extend(too_short());
    cases.extend(unequal());
    cases.extend(held());
    cases
}

/// So many symbols to two outputs of given lengths.
pub fn costliest(symbols: u64, text: usize, origins: usize) -> Case {
    Case::Costliest {
        symbols,
        text: vec![0xEE; text],
        origins: vec![0xDD; origins],
    }
}

/// A byte that outputs hold, another one for each index.
fn held_at(index: usize) -> u8 {
    HELD[index % HELD.len()]
}

fn every_number() -> Vec<Case> {
    let mut cases = Vec::new();
    for n in 0..=MOST_SYMBOLS {
        let with_room = |text: usize, origins: usize| Case::Costliest {
            symbols: n as u64,
            text: vec![held_at(n); text],
            origins: vec![held_at(n / 3 + 1); origins],
        };
        cases.push(with_room(n, n));
        cases.push(with_room(n + 1 + n % 5, n + 1 + n % 7));
    }
    cases
}

/// With outputs that have room for 86 symbols, for 85, and for none.
fn too_many() -> Vec<Case> {
    let mut cases = Vec::new();
    for symbols in TOO_MANY {
        for room in [86, 85, 0] {
            cases.push(costliest(symbols, room, room));
        }
    }
    cases.push(costliest(200, 200, 200));
    cases
}

fn too_short() -> Vec<Case> {
    let mut cases = Vec::new();
    for n in [1, 2, 3, 42, 84, 85] {
        for (text, origins) in [
            (n - 1, n),
            (n, n - 1),
            (n - 1, n - 1),
            (0, n),
            (n, 0),
            (0, 0),
            (n - 1, n + 4),
            (n + 4, n - 1),
        ] {
            cases.push(costliest(n as u64, text, origins));
        }
    }
    cases
}

fn unequal() -> Vec<Case> {
    let mut cases = Vec::new();
    for n in [0, 1, 2, 43, 84, 85] {
        for (text, origins) in [(n, n + 1), (n + 1, n), (n, n + 9), (n + 9, n)] {
            cases.push(costliest(n as u64, text, origins));
        }
    }
    for (text, origins) in [(200, 200), (200, 85), (85, 200)] {
        cases.push(costliest(85, text, origins));
    }
    cases
}

/// Outputs that hold one byte, or bytes in turn.
fn held() -> Vec<Case> {
    let mut cases = Vec::new();
    for symbols in [0, 1, 7] {
        for (index, byte) in HELD.into_iter().enumerate() {
            cases.push(Case::Costliest {
                symbols,
                text: vec![byte; 9],
                origins: vec![held_at(index + 3); 9],
            });
        }
        cases.push(Case::Costliest {
            symbols,
            text: (0..9).collect(),
            origins: (100..109).collect(),
        });
    }
    cases
}
