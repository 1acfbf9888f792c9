//! The table of the characters over arrays that held something else, or itself.

use super::Case;
use crate::prng::Prng;
use crate::text::{Table, table};

pub fn cases() -> Vec<Case> {
    let mut arrays: Vec<Table> = [0, 1, 0x00FF, 0x1000, 0xFF00, u16::MAX]
        .map(|entry| [entry; 256])
        .to_vec();
    arrays.push(std::array::from_fn(|index| index as u16));
    arrays.push(std::array::from_fn(|index| u16::MAX - index as u16));
    arrays.push(table());
    arrays.push(table().map(u16::swap_bytes));
    arrays.push(table().map(|entry| !entry));
    arrays.extend([1, 2, 3].map(drawn));
    arrays.into_iter().map(case).collect()
}

fn drawn(seed: u64) -> Table {
    let mut prng = Prng::new(seed);
    std::array::from_fn(|_| prng.next_u64() as u16)
}

fn case(table: Table) -> Case {
    Case::Characters {
        table: Box::new(table),
    }
}
