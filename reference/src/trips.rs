//! Two calls in one, there and back, under one table of flags. The first call writes to copies, so that a
//! trip whose second call is refused changes nothing.

use crate::flag_table::FlagTable;
use crate::outside::{Unpacked, pack, unpack};
use crate::refusal::Refusal;

/// Unpacks a report, packs what that gives, and gives the packed length.
pub fn restore(
    report: &[u8],
    values: &mut [i64],
    tail: &mut [u8],
    output: &mut [u8],
    table: &FlagTable,
) -> Result<usize, Refusal> {
    let mut new_values = values.to_vec();
    let mut new_tail = tail.to_vec();
    let given = unpack(report, &mut new_values, &mut new_tail, table)?;
    let unpacked_tail = &new_tail[..given.tail];
    let length = pack(
        &new_values,
        given.word,
        given.rptin,
        unpacked_tail,
        output,
        table,
    )?;
    values.copy_from_slice(&new_values);
    tail.copy_from_slice(&new_tail);
    Ok(length)
}

/// Packs to an output, unpacks from there, and gives what unpack gives.
#[allow(clippy::too_many_arguments)]
pub fn recover(
    values: &[i64],
    word: u64,
    rptin: u16,
    tail: &[u8],
    output: &mut [u8],
    values_out: &mut [i64],
    tail_out: &mut [u8],
    table: &FlagTable,
) -> Result<Unpacked, Refusal> {
    let mut new_output = output.to_vec();
    pack(values, word, rptin, tail, &mut new_output, table)?;
    let given = unpack(&new_output, values_out, tail_out, table)?;
    output.copy_from_slice(&new_output);
    Ok(given)
}
