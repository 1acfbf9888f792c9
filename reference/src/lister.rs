//! The lister's lines.

use crate::flag_table::FlagTable;
use crate::judge::judge;

/// The lister reads no further than this.
pub const READ_AT_MOST: usize = 1856;

/// The lines for an input, from its first 1856 bytes. Every flag is permitted.
pub fn lines(input: &[u8]) -> Vec<String> {
    let read = input.len().min(READ_AT_MOST);
    let report = match judge(&input[..read], &FlagTable::all()) {
        Ok(report) => report,
        Err(refusal) => return vec![format!("R {} {}", refusal.number, refusal.place)],
    };
    let mut lines = Vec::new();
    for (index, value) in report.observation.values.iter().enumerate() {
        if let Some(value) = value {
            lines.push(format!("{} {}", index + 1, value.0));
        }
    }
    lines.push(format!("C {}", report.ck));
    lines.push(format!("A {}", report.ac));
    lines
}
