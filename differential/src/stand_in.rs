//! The independent implementation behind the twenty-four calls, in place of a library.

use std::slice::{from_raw_parts, from_raw_parts_mut};

use reference::call::Call;
use reference::flag_table::FlagTable;
use reference::gate::script;
use reference::judge;
use reference::number::Number;
use reference::outside;
use reference::reader;
use reference::refusal::Refusal;

use crate::library::{Answer, END, Flags, Library, ORIGINAL, PLAIN, Performed, Reader, Symbol};

pub const STAND_IN: Library = Library {
    judge,
    fresh,
    unpack,
    pack,
    read_field,
    set_field,
    clear_field,
    read_flag,
    set_flag,
    clear_flag,
    put,
    fetch,
    drop,
    put_text,
    fetch_text,
    clear_with_indicators,
    find_indicators,
    open_text,
    next_symbol,
    costliest_text,
    replay,
    character_table,
    all_flags,
    load_flags,
};

pub unsafe fn input<'a, T>(at: *const T, n: usize) -> &'a [T] {
    if n == 0 {
        return &[];
    }
    unsafe { from_raw_parts(at, n) }
}

pub unsafe fn output<'a, T>(at: *mut T, n: usize) -> &'a mut [T] {
    if n == 0 {
        return &mut [];
    }
    unsafe { from_raw_parts_mut(at, n) }
}

/// The table of flags that a call is lent.
pub unsafe fn table(flags: *const Flags) -> FlagTable {
    let marks = unsafe { (*flags).marks };
    let marks = marks.as_flattened().try_into();
    FlagTable::of(marks.expect("a table has 140 marks"))
}

fn answer(result: Result<Vec<Number>, Refusal>) -> Answer {
    let mut answer = Answer::default();
    match result {
        Err(refusal) => {
            answer.refusal = refusal.number.into();
            answer.place = refusal.place as u64;
        }
        Ok(numbers) => {
            let places = [&mut answer.first, &mut answer.second, &mut answer.third];
            for ((number, place), shift) in numbers.iter().zip(places).zip([0, 8, 16]) {
                answer.given |= u32::from(number.label()) << shift;
                *place = number.value.unwrap_or(0);
            }
        }
    }
    answer
}

pub unsafe extern "C" fn judge(report: *const u8, n: usize, flags: *const Flags) -> Answer {
    let judged = judge::judge(unsafe { input(report, n) }, &unsafe { table(flags) });
    answer(judged.map(|report| vec![Number::bytes(report.bytes)]))
}

pub unsafe extern "C" fn fresh(
    box10: i64,
    year: i64,
    month: i64,
    x: i64,
    y: i64,
    out: *mut u8,
    n: usize,
) -> Answer {
    let written = outside::fresh([box10, year, month, x, y], unsafe { output(out, n) });
    answer(written.map(|()| Vec::new()))
}

pub unsafe extern "C" fn unpack(
    report: *const u8,
    n: usize,
    values: *mut i64,
    values_n: usize,
    tail: *mut u8,
    tail_n: usize,
    numbers: *mut u64,
    flags: *const Flags,
) -> Answer {
    let (values, tail) = unsafe { (output(values, values_n), output(tail, tail_n)) };
    let (report, flags) = unsafe { (input(report, n), table(flags)) };
    let unpacked = outside::unpack(report, values, tail, &flags);
    if let Ok(given) = unpacked {
        let counts = [
            given.present,
            given.rptin.into(),
            given.ac,
            given.bytes,
            given.tail,
        ];
        let numbers = unsafe { output(numbers, 6) };
        numbers[0] = given.word;
        numbers[1..].copy_from_slice(&counts.map(|count| count as u64));
    }
    answer(unpacked.map(|_| Vec::new()))
}

pub unsafe extern "C" fn pack(
    values: *const i64,
    values_n: usize,
    word: u64,
    rptin: u16,
    tail: *const u8,
    tail_n: usize,
    out: *mut u8,
    n: usize,
    flags: *const Flags,
) -> Answer {
    let (values, tail) = unsafe { (input(values, values_n), input(tail, tail_n)) };
    let (out, flags) = unsafe { (output(out, n), table(flags)) };
    let packed = outside::pack(values, word, rptin, tail, out, &flags);
    answer(packed.map(|bytes| vec![Number::bytes(bytes)]))
}

/// A call on a report that may be read-only: what does not change is not stored.
unsafe fn perform(
    report: *const u8,
    n: usize,
    call: Call,
    outs: &[*mut u8],
    flags: *const Flags,
) -> Answer {
    let mut buffer = unsafe { input(report, n) }.to_vec();
    let before = buffer.clone();
    let done = call.run(&mut buffer, &unsafe { table(flags) });
    if buffer != before {
        unsafe { output(report.cast_mut(), n) }.copy_from_slice(&buffer);
    }
    for (&out, written) in outs.iter().zip(done.outputs) {
        unsafe { output(out, written.len()) }.copy_from_slice(&written);
    }
    answer(done.result)
}

unsafe fn plain(report: *const u8, n: usize, call: Call, flags: *const Flags) -> Answer {
    unsafe { perform(report, n, call, &[], flags) }
}

pub unsafe extern "C" fn read_field(
    report: *const u8,
    n: usize,
    field: usize,
    flags: *const Flags,
) -> Answer {
    let field = field as u64;
    unsafe { plain(report, n, Call::ReadField { field }, flags) }
}

pub unsafe extern "C" fn set_field(
    report: *mut u8,
    n: usize,
    field: usize,
    value: i64,
    flags: *const Flags,
) -> Answer {
    let field = field as u64;
    unsafe { plain(report, n, Call::SetField { field, value }, flags) }
}

pub unsafe extern "C" fn clear_field(
    report: *mut u8,
    n: usize,
    field: usize,
    flags: *const Flags,
) -> Answer {
    let field = field as u64;
    unsafe { plain(report, n, Call::ClearField { field }, flags) }
}

pub unsafe extern "C" fn read_flag(
    report: *const u8,
    n: usize,
    flag: usize,
    flags: *const Flags,
) -> Answer {
    let flag = flag as u64;
    unsafe { plain(report, n, Call::ReadFlag { flag }, flags) }
}

pub unsafe extern "C" fn set_flag(
    report: *mut u8,
    n: usize,
    flag: usize,
    value: usize,
    flags: *const Flags,
) -> Answer {
    let (flag, value) = (flag as u64, value as i64);
    unsafe { plain(report, n, Call::SetFlag { flag, value }, flags) }
}

pub unsafe extern "C" fn clear_flag(
    report: *mut u8,
    n: usize,
    flag: usize,
    flags: *const Flags,
) -> Answer {
    let flag = flag as u64;
    unsafe { plain(report, n, Call::ClearFlag { flag }, flags) }
}

pub unsafe extern "C" fn put(
    report: *mut u8,
    n: usize,
    id: usize,
    content: *const u8,
    content_n: usize,
    flags: *const Flags,
) -> Answer {
    let id = id as u64;
    let content = unsafe { input(content, content_n) }.to_vec();
    unsafe { plain(report, n, Call::Put { id, content }, flags) }
}

pub unsafe extern "C" fn fetch(
    report: *const u8,
    n: usize,
    id: usize,
    out: *mut u8,
    out_n: usize,
    flags: *const Flags,
) -> Answer {
    let id = id as u64;
    let output = unsafe { input(out, out_n) }.to_vec();
    unsafe { perform(report, n, Call::Fetch { id, output }, &[out], flags) }
}

pub unsafe extern "C" fn drop(report: *mut u8, n: usize, id: usize, flags: *const Flags) -> Answer {
    let id = id as u64;
    unsafe { plain(report, n, Call::Drop { id }, flags) }
}

pub unsafe extern "C" fn put_text(
    report: *mut u8,
    n: usize,
    text: *const u8,
    text_n: usize,
    origins: *const u8,
    origins_n: usize,
    flags: *const Flags,
) -> Answer {
    let text = unsafe { input(text, text_n) }.to_vec();
    let origins = unsafe { input(origins, origins_n) }.to_vec();
    unsafe { plain(report, n, Call::PutText { text, origins }, flags) }
}

pub unsafe extern "C" fn fetch_text(
    report: *const u8,
    n: usize,
    text_out: *mut u8,
    text_n: usize,
    origins_out: *mut u8,
    origins_n: usize,
    flags: *const Flags,
) -> Answer {
    let text = unsafe { input(text_out, text_n) }.to_vec();
    let origins = unsafe { input(origins_out, origins_n) }.to_vec();
    let call = Call::FetchText { text, origins };
    unsafe { perform(report, n, call, &[text_out, origins_out], flags) }
}

pub unsafe extern "C" fn clear_with_indicators(
    report: *mut u8,
    n: usize,
    field: usize,
    flags: *const Flags,
) -> Answer {
    let field = field as u64;
    unsafe { plain(report, n, Call::ClearWithIndicators { field }, flags) }
}

pub unsafe extern "C" fn find_indicators(
    report: *const u8,
    n: usize,
    out: *mut u8,
    out_n: usize,
    flags: *const Flags,
) -> Answer {
    let (report, out, flags) = unsafe { (input(report, n), output(out, out_n), table(flags)) };
    let found = outside::find_indicators(report, out, &flags);
    answer(found.map(|count| vec![Number::count(count)]))
}

pub unsafe extern "C" fn open_text(
    report: *const u8,
    n: usize,
    numbers: *mut Reader,
    flags: *const Flags,
) -> Answer {
    let (report, flags) = unsafe { (input(report, n), table(flags)) };
    let reader = reader::Reader::open(report, &flags);
    let (number, place) = reader
        .refusal
        .map_or((0, 0), |refusal| (refusal.number, refusal.place));
    let places = [reader.place, reader.end, reader.spaces].map(|place| place as u64);
    let [start, end, spaces] = places;
    unsafe { *numbers = [start, end, spaces, number.into(), place as u64] };
    answer(reader.opened().map(|()| Vec::new()))
}

/// The reader may be forged.
pub unsafe extern "C" fn next_symbol(report: *const u8, n: usize, numbers: *mut Reader) -> Symbol {
    let numbers = unsafe { &mut *numbers };
    let [place, end, spaces] = [0, 1, 2].map(|index| numbers[index] as usize);
    let mut reader = reader::Reader {
        report: unsafe { input(report, n) },
        place,
        end,
        spaces,
        refusal: None,
    };
    let Some(symbol) = reader.next() else {
        return Symbol { kind: END, byte: 0 };
    };
    numbers[0] = reader.place as u64;
    numbers[2] = reader.spaces as u64;
    let kind = if symbol.origin() == 0 {
        PLAIN
    } else {
        ORIGINAL
    };
    let byte = symbol.byte().into();
    Symbol { kind, byte }
}

pub unsafe extern "C" fn costliest_text(
    symbols: usize,
    text: *mut u8,
    text_n: usize,
    origins: *mut u8,
    origins_n: usize,
) -> Answer {
    let (text, origins) = unsafe { (output(text, text_n), output(origins, origins_n)) };
    let written = outside::costliest(symbols as u64, text, origins);
    answer(written.map(|()| Vec::new()))
}

pub unsafe extern "C" fn replay(
    report: *mut u8,
    n: usize,
    script: *const u8,
    script_n: usize,
    log: *mut u8,
    log_n: usize,
    flags: *const Flags,
) -> Performed {
    let (report, script, log) = unsafe {
        (
            output(report, n),
            input(script, script_n),
            output(log, log_n),
        )
    };
    let ran = script::run(report, script, log.len(), &unsafe { table(flags) });
    log[..ran.log.len()].copy_from_slice(&ran.log);
    Performed {
        calls: ran.calls.len() as u64,
        taken: ran.taken as u64,
        written: ran.log.len() as u64,
    }
}

pub unsafe extern "C" fn character_table(table: *mut u16) {
    outside::characters(unsafe { &mut *table.cast() });
}

pub unsafe extern "C" fn all_flags(flags: *mut Flags) {
    unsafe { store(flags, &FlagTable::all()) };
}

pub unsafe extern "C" fn load_flags(marks: *const u8, n: usize, flags: *mut Flags) -> Answer {
    let mut held = unsafe { table(flags) };
    let loaded = held.load(unsafe { input(marks, n) });
    unsafe { store(flags, &held) };
    answer(loaded.map(|()| Vec::new()))
}

unsafe fn store(flags: *mut Flags, table: &FlagTable) {
    unsafe { flags.cast::<[u8; 140]>().write(table.marks()) };
}
