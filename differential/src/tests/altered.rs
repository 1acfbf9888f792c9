//! The stand-in with a table of flags that is altered on its way.

use std::cell::Cell;

use crate::library::{Answer, Flags, Library, Performed, Reader};
use crate::stand_in::{self, STAND_IN};

pub type Change = fn(&mut Flags);

thread_local! {
    static CHANGE: Cell<Change> = const { Cell::new(|_| {}) };
}

/// What is done to the table from now on, in this test.
pub fn change(change: Change) {
    CHANGE.set(change);
}

unsafe fn altered(flags: *const Flags) -> Flags {
    let mut flags = unsafe { *flags };
    CHANGE.get()(&mut flags);
    flags
}

/// A library for each call, the name as in the tally, in which that call's table is
/// altered and no other's.
pub fn libraries() -> Vec<(&'static str, Library)> {
    let own = STAND_IN;
    vec![
        ("judge", Library { judge, ..own }),
        ("unpack", Library { unpack, ..own }),
        ("pack", Library { pack, ..own }),
        ("read field", Library { read_field, ..own }),
        ("set field", Library { set_field, ..own }),
        ("clear field", Library { clear_field, ..own }),
        ("read flag", Library { read_flag, ..own }),
        ("set flag", Library { set_flag, ..own }),
        ("clear flag", Library { clear_flag, ..own }),
        ("put", Library { put, ..own }),
        ("fetch", Library { fetch, ..own }),
        ("drop", Library { drop, ..own }),
        ("put text", Library { put_text, ..own }),
        ("fetch text", Library { fetch_text, ..own }),
        ("read out", Library { open_text, ..own }),
        (
            "clear with",
            Library {
                clear_with_indicators,
                ..own
            },
        ),
        (
            "indicators",
            Library {
                find_indicators,
                ..own
            },
        ),
        ("replay", Library { replay, ..own }),
    ]
}

unsafe extern "C" fn judge(report: *const u8, n: usize, flags: *const Flags) -> Answer {
    unsafe { stand_in::judge(report, n, &altered(flags)) }
}

unsafe extern "C" fn unpack(
    report: *const u8,
    n: usize,
    values: *mut i64,
    values_n: usize,
    tail: *mut u8,
    tail_n: usize,
    numbers: *mut u64,
    flags: *const Flags,
) -> Answer {
    unsafe {
        let flags = altered(flags);
        stand_in::unpack(report, n, values, values_n, tail, tail_n, numbers, &flags)
    }
}

unsafe extern "C" fn pack(
    values: *const i64,
    values_n: usize,
    word: u64,
    rptin: u16,
    tail: *const u8,
    tail_n: usize,
    out: *mut u8,
    n: usize,
    flags: *const Flags,
) -> Answer {
    unsafe {
        let flags = altered(flags);
        stand_in::pack(values, values_n, word, rptin, tail, tail_n, out, n, &flags)
    }
}

unsafe extern "C" fn read_field(
    report: *const u8,
    n: usize,
    field: usize,
    flags: *const Flags,
) -> Answer {
    unsafe { stand_in::read_field(report, n, field, &altered(flags)) }
}

unsafe extern "C" fn set_field(
    report: *mut u8,
    n: usize,
    field: usize,
    value: i64,
    flags: *const Flags,
) -> Answer {
    unsafe { stand_in::set_field(report, n, field, value, &altered(flags)) }
}

unsafe extern "C" fn clear_field(
    report: *mut u8,
    n: usize,
    field: usize,
    flags: *const Flags,
) -> Answer {
    unsafe { stand_in::clear_field(report, n, field, &altered(flags)) }
}

unsafe extern "C" fn read_flag(
    report: *const u8,
    n: usize,
    flag: usize,
    flags: *const Flags,
) -> Answer {
    unsafe { stand_in::read_flag(report, n, flag, &altered(flags)) }
}

unsafe extern "C" fn set_flag(
    report: *mut u8,
    n: usize,
    flag: usize,
    value: usize,
    flags: *const Flags,
) -> Answer {
    unsafe { stand_in::set_flag(report, n, flag, value, &altered(flags)) }
}

unsafe extern "C" fn clear_flag(
    report: *mut u8,
    n: usize,
    flag: usize,
    flags: *const Flags,
) -> Answer {
    unsafe { stand_in::clear_flag(report, n, flag, &altered(flags)) }
}

unsafe extern "C" fn put(
    report: *mut u8,
    n: usize,
    id: usize,
    content: *const u8,
    content_n: usize,
    flags: *const Flags,
) -> Answer {
    unsafe { stand_in::put(report, n, id, content, content_n, &altered(flags)) }
}

unsafe extern "C" fn fetch(
    report: *const u8,
    n: usize,
    id: usize,
    out: *mut u8,
    out_n: usize,
    flags: *const Flags,
) -> Answer {
    unsafe { stand_in::fetch(report, n, id, out, out_n, &altered(flags)) }
}

unsafe extern "C" fn drop(report: *mut u8, n: usize, id: usize, flags: *const Flags) -> Answer {
    unsafe { stand_in::drop(report, n, id, &altered(flags)) }
}

unsafe extern "C" fn put_text(
    report: *mut u8,
    n: usize,
    text: *const u8,
    text_n: usize,
    origins: *const u8,
    origins_n: usize,
    flags: *const Flags,
) -> Answer {
    unsafe {
        let flags = altered(flags);
        stand_in::put_text(report, n, text, text_n, origins, origins_n, &flags)
    }
}

unsafe extern "C" fn fetch_text(
    report: *const u8,
    n: usize,
    text: *mut u8,
    text_n: usize,
    origins: *mut u8,
    origins_n: usize,
    flags: *const Flags,
) -> Answer {
    unsafe {
        let flags = altered(flags);
        stand_in::fetch_text(report, n, text, text_n, origins, origins_n, &flags)
    }
}

unsafe extern "C" fn clear_with_indicators(
    report: *mut u8,
    n: usize,
    field: usize,
    flags: *const Flags,
) -> Answer {
    unsafe { stand_in::clear_with_indicators(report, n, field, &altered(flags)) }
}

unsafe extern "C" fn find_indicators(
    report: *const u8,
    n: usize,
    out: *mut u8,
    out_n: usize,
    flags: *const Flags,
) -> Answer {
    unsafe { stand_in::find_indicators(report, n, out, out_n, &altered(flags)) }
}

unsafe extern "C" fn open_text(
    report: *const u8,
    n: usize,
    reader: *mut Reader,
    flags: *const Flags,
) -> Answer {
    unsafe { stand_in::open_text(report, n, reader, &altered(flags)) }
}

unsafe extern "C" fn replay(
    report: *mut u8,
    n: usize,
    script: *const u8,
    script_n: usize,
    log: *mut u8,
    log_n: usize,
    flags: *const Flags,
) -> Performed {
    unsafe {
        let flags = altered(flags);
        stand_in::replay(report, n, script, script_n, log, log_n, &flags)
    }
}
