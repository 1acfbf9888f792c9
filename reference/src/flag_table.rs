//! A library's own table of flags.

use crate::flags::{FLAGS, HIGHEST_FLAG};
use crate::refusal::{Refusal, refusal};

/// The marks of a row, for R A B J K L M N Q S.
pub const VALUES: usize = HIGHEST_FLAG as usize;

/// The marks of a table.
pub const MARKS: usize = FLAGS * VALUES;

pub const NO: u8 = 0;
pub const YES: u8 = 1;

/// Fourteen rows of ten marks. A mark that is not 1 is a no.
#[derive(Clone, Copy, Debug, PartialEq, Eq)]
pub struct FlagTable {
    rows: [[u8; VALUES]; FLAGS],
}

impl FlagTable {
    /// The table before any is loaded: all marks are yes.
    pub fn all() -> FlagTable {
        FlagTable {
            rows: [[YES; VALUES]; FLAGS],
        }
    }

    /// A table of any marks, row after row.
    pub fn of(marks: &[u8; MARKS]) -> FlagTable {
        let mut table = FlagTable::all();
        for (row, marks) in table.rows.iter_mut().zip(marks.chunks(VALUES)) {
            row.copy_from_slice(marks);
        }
        table
    }

    /// The marks, row after row.
    pub fn marks(&self) -> [u8; MARKS] {
        let marks = self.rows.concat();
        marks.try_into().expect("a table has 140 marks")
    }

    pub fn mark(&mut self, flag: usize, value: u8, mark: u8) {
        self.rows[flag - 1][usize::from(value) - 1] = mark;
    }

    /// Whether flag 1 to 14 may have a value of 0 to 10. Missing is always permitted.
    pub fn permits(&self, flag: usize, value: u8) -> bool {
        value == 0 || self.rows[flag - 1][usize::from(value) - 1] == YES
    }

    /// The values from 1 to 10 that a flag may have.
    pub fn permitted(&self, flag: usize) -> Vec<u8> {
        let permits = |value: &u8| self.permits(flag, *value);
        (1..=HIGHEST_FLAG).filter(permits).collect()
    }

    /// The values from 1 to 10 that a flag may not have.
    pub fn forbidden(&self, flag: usize) -> Vec<u8> {
        let forbids = |value: &u8| !self.permits(flag, *value);
        (1..=HIGHEST_FLAG).filter(forbids).collect()
    }

    /// Puts a lent table in force. If it is refused, the former one stays.
    pub fn load(&mut self, lent: &[u8]) -> Result<(), Refusal> {
        let refused = refusal(16, 0);
        let marks: &[u8; MARKS] = lent.try_into().map_err(|_| refused)?;
        let sound_row = |row: &[u8]| row.iter().all(|&mark| mark <= YES) && row.contains(&YES);
        if !marks.chunks(VALUES).all(sound_row) {
            return Err(refused);
        }
        *self = FlagTable::of(marks);
        Ok(())
    }
}
