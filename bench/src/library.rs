//! The archive's calls.

use crate::FlagTable;

/// What a call answers: the refusal's number and place, both 0 where it is
/// accepted; the labels of the numbers that are given, the first one's in the lowest
/// byte; the numbers.
#[repr(C)]
#[derive(Clone, Copy, Debug, Default, PartialEq, Eq)]
pub struct Answer {
    pub refusal: u32,
    pub given: u32,
    pub place: u64,
    pub first: i64,
    pub second: i64,
    pub third: i64,
}

#[repr(C)]
#[derive(Clone, Copy, Debug, Default, PartialEq, Eq)]
pub struct Performed {
    pub calls: u64,
    pub taken: u64,
    pub written: u64,
}

/// What a step of a reader gives: 0 at the end, 1 plain, 2 original; and its byte.
#[repr(C)]
#[derive(Clone, Copy, Debug, PartialEq, Eq)]
pub struct Symbol {
    pub kind: u32,
    pub byte: u32,
}

/// The five numbers of a reader.
pub type Reader = [u64; 5];

mod symbols {
    use super::{Answer, FlagTable, Performed, Reader, Symbol};

    unsafe extern "C" {
        pub fn lmr5_all_flags(table: *mut FlagTable);
        pub fn lmr5_load_flags(marks: *const u8, n: usize, table: *mut FlagTable) -> Answer;
        pub fn lmr5_judge(report: *const u8, n: usize, table: *const FlagTable) -> Answer;
        pub fn lmr5_fresh(b: i64, y: i64, m: i64, x: i64, z: i64, out: *mut u8, n: usize)
        -> Answer;
        pub fn lmr5_unpack(
            report: *const u8,
            n: usize,
            values: *mut i64,
            values_n: usize,
            tail: *mut u8,
            tail_n: usize,
            contents: *mut u64,
            table: *const FlagTable,
        ) -> Answer;
        pub fn lmr5_pack(
            values: *const i64,
            values_n: usize,
            word: u64,
            rptin: u16,
            tail: *const u8,
            tail_n: usize,
            out: *mut u8,
            n: usize,
            table: *const FlagTable,
        ) -> Answer;
        pub fn lmr5_read_field(
            report: *const u8,
            n: usize,
            field: usize,
            table: *const FlagTable,
        ) -> Answer;
        pub fn lmr5_set_field(
            report: *mut u8,
            n: usize,
            field: usize,
            value: i64,
            table: *const FlagTable,
        ) -> Answer;
        pub fn lmr5_clear_field(
            report: *mut u8,
            n: usize,
            field: usize,
            table: *const FlagTable,
        ) -> Answer;
        pub fn lmr5_clear_with_indicators(
            report: *mut u8,
            n: usize,
            field: usize,
            table: *const FlagTable,
        ) -> Answer;
        pub fn lmr5_read_flag(
            report: *const u8,
            n: usize,
            flag: usize,
            table: *const FlagTable,
        ) -> Answer;
        pub fn lmr5_set_flag(
            report: *mut u8,
            n: usize,
            flag: usize,
            value: usize,
            table: *const FlagTable,
        ) -> Answer;
        pub fn lmr5_clear_flag(
            report: *mut u8,
            n: usize,
            flag: usize,
            table: *const FlagTable,
        ) -> Answer;
        pub fn lmr5_put(
            report: *mut u8,
            n: usize,
            id: usize,
            content: *const u8,
            content_n: usize,
            table: *const FlagTable,
        ) -> Answer;
        pub fn lmr5_fetch(
            report: *const u8,
            n: usize,
            id: usize,
            out: *mut u8,
            out_n: usize,
            table: *const FlagTable,
        ) -> Answer;
        pub fn lmr5_drop(report: *mut u8, n: usize, id: usize, table: *const FlagTable) -> Answer;
        pub fn lmr5_put_text(
            report: *mut u8,
            n: usize,
            text: *const u8,
            text_n: usize,
            origins: *const u8,
            origins_n: usize,
            table: *const FlagTable,
        ) -> Answer;
        pub fn lmr5_fetch_text(
            report: *const u8,
            n: usize,
            text: *mut u8,
            text_n: usize,
            origins: *mut u8,
            origins_n: usize,
            table: *const FlagTable,
        ) -> Answer;
        pub fn lmr5_costliest_text(
            symbols: usize,
            text: *mut u8,
            text_n: usize,
            origins: *mut u8,
            origins_n: usize,
        ) -> Answer;
        pub fn lmr5_open_text(
            report: *const u8,
            n: usize,
            reader: *mut Reader,
            table: *const FlagTable,
        ) -> Answer;
        pub fn lmr5_next_symbol(report: *const u8, n: usize, reader: *mut Reader) -> Symbol;
        pub fn lmr5_find_indicators(
            report: *const u8,
            n: usize,
            out: *mut u8,
            out_n: usize,
            table: *const FlagTable,
        ) -> Answer;
        pub fn lmr5_character_table(table: *mut u16);
        pub fn lmr5_replay(
            report: *mut u8,
            n: usize,
            script: *const u8,
            script_n: usize,
            log: *mut u8,
            log_n: usize,
            table: *const FlagTable,
        ) -> Performed;
    }
}

// SAFETY of every call below: a slice's pointer is given with its length, an array's
// has the length that is asked for, and the archive reads and writes within them only.

#[inline(always)]
pub fn all_flags(table: &mut FlagTable) {
    unsafe { symbols::lmr5_all_flags(table) }
}

#[inline(always)]
pub fn load_flags(marks: &[u8], table: &mut FlagTable) -> Answer {
    unsafe { symbols::lmr5_load_flags(marks.as_ptr(), marks.len(), table) }
}

#[inline(always)]
pub fn judge(s: &[u8], table: &FlagTable) -> Answer {
    unsafe { symbols::lmr5_judge(s.as_ptr(), s.len(), table) }
}

#[inline(always)]
pub fn fresh(v: [i64; 5], out: &mut [u8]) -> Answer {
    unsafe { symbols::lmr5_fresh(v[0], v[1], v[2], v[3], v[4], out.as_mut_ptr(), out.len()) }
}

#[inline(always)]
pub fn unpack(
    s: &[u8],
    values: &mut [i64],
    tail: &mut [u8],
    contents: &mut [u64; 6],
    table: &FlagTable,
) -> Answer {
    unsafe {
        symbols::lmr5_unpack(
            s.as_ptr(),
            s.len(),
            values.as_mut_ptr(),
            values.len(),
            tail.as_mut_ptr(),
            tail.len(),
            contents.as_mut_ptr(),
            table,
        )
    }
}

#[inline(always)]
pub fn pack(
    values: &[i64],
    word: u64,
    rptin: u16,
    tail: &[u8],
    out: &mut [u8],
    table: &FlagTable,
) -> Answer {
    unsafe {
        symbols::lmr5_pack(
            values.as_ptr(),
            values.len(),
            word,
            rptin,
            tail.as_ptr(),
            tail.len(),
            out.as_mut_ptr(),
            out.len(),
            table,
        )
    }
}

#[inline(always)]
pub fn read_field(s: &[u8], k: usize, table: &FlagTable) -> Answer {
    unsafe { symbols::lmr5_read_field(s.as_ptr(), s.len(), k, table) }
}

#[inline(always)]
pub fn set_field(s: &mut [u8], k: usize, v: i64, table: &FlagTable) -> Answer {
    unsafe { symbols::lmr5_set_field(s.as_mut_ptr(), s.len(), k, v, table) }
}

#[inline(always)]
pub fn clear_field(s: &mut [u8], k: usize, table: &FlagTable) -> Answer {
    unsafe { symbols::lmr5_clear_field(s.as_mut_ptr(), s.len(), k, table) }
}

#[inline(always)]
pub fn clear_with_indicators(s: &mut [u8], k: usize, table: &FlagTable) -> Answer {
    unsafe { symbols::lmr5_clear_with_indicators(s.as_mut_ptr(), s.len(), k, table) }
}

#[inline(always)]
pub fn read_flag(s: &[u8], j: usize, table: &FlagTable) -> Answer {
    unsafe { symbols::lmr5_read_flag(s.as_ptr(), s.len(), j, table) }
}

#[inline(always)]
pub fn set_flag(s: &mut [u8], j: usize, v: usize, table: &FlagTable) -> Answer {
    unsafe { symbols::lmr5_set_flag(s.as_mut_ptr(), s.len(), j, v, table) }
}

#[inline(always)]
pub fn clear_flag(s: &mut [u8], j: usize, table: &FlagTable) -> Answer {
    unsafe { symbols::lmr5_clear_flag(s.as_mut_ptr(), s.len(), j, table) }
}

#[inline(always)]
pub fn put(s: &mut [u8], id: usize, content: &[u8], table: &FlagTable) -> Answer {
    unsafe {
        symbols::lmr5_put(
            s.as_mut_ptr(),
            s.len(),
            id,
            content.as_ptr(),
            content.len(),
            table,
        )
    }
}

#[inline(always)]
pub fn fetch(s: &[u8], id: usize, out: &mut [u8], table: &FlagTable) -> Answer {
    unsafe { symbols::lmr5_fetch(s.as_ptr(), s.len(), id, out.as_mut_ptr(), out.len(), table) }
}

#[inline(always)]
pub fn remove(s: &mut [u8], id: usize, table: &FlagTable) -> Answer {
    unsafe { symbols::lmr5_drop(s.as_mut_ptr(), s.len(), id, table) }
}

#[inline(always)]
pub fn put_text(s: &mut [u8], text: &[u8], origins: &[u8], table: &FlagTable) -> Answer {
    unsafe {
        symbols::lmr5_put_text(
            s.as_mut_ptr(),
            s.len(),
            text.as_ptr(),
            text.len(),
            origins.as_ptr(),
            origins.len(),
            table,
        )
    }
}

#[inline(always)]
pub fn fetch_text(s: &[u8], text: &mut [u8], origins: &mut [u8], table: &FlagTable) -> Answer {
    unsafe {
        symbols::lmr5_fetch_text(
            s.as_ptr(),
            s.len(),
            text.as_mut_ptr(),
            text.len(),
            origins.as_mut_ptr(),
            origins.len(),
            table,
        )
    }
}

#[inline(always)]
pub fn costliest_text(symbols: usize, text: &mut [u8], origins: &mut [u8]) -> Answer {
    unsafe {
        symbols::lmr5_costliest_text(
            symbols,
            text.as_mut_ptr(),
            text.len(),
            origins.as_mut_ptr(),
            origins.len(),
        )
    }
}

#[inline(always)]
pub fn open_text(s: &[u8], reader: &mut Reader, table: &FlagTable) -> Answer {
    unsafe { symbols::lmr5_open_text(s.as_ptr(), s.len(), reader, table) }
}

#[inline(always)]
pub fn next_symbol(s: &[u8], reader: &mut Reader) -> Symbol {
    unsafe { symbols::lmr5_next_symbol(s.as_ptr(), s.len(), reader) }
}

#[inline(always)]
pub fn find_indicators(s: &[u8], out: &mut [u8], table: &FlagTable) -> Answer {
    unsafe {
        symbols::lmr5_find_indicators(s.as_ptr(), s.len(), out.as_mut_ptr(), out.len(), table)
    }
}

#[inline(always)]
pub fn characters(table: &mut [u16; 256]) {
    unsafe { symbols::lmr5_character_table(table.as_mut_ptr()) }
}

#[inline(always)]
pub fn replay(s: &mut [u8], script: &[u8], log: &mut [u8], table: &FlagTable) -> Performed {
    unsafe {
        symbols::lmr5_replay(
            s.as_mut_ptr(),
            s.len(),
            script.as_ptr(),
            script.len(),
            log.as_mut_ptr(),
            log.len(),
            table,
        )
    }
}
