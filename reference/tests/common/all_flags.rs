//! The calls with every flag permitted, as before any table of flags is loaded.

use reference::cases::{Case, Outcome};
use reference::edit::Fetched;
use reference::flag_table::FlagTable;
use reference::gate::list::List;
use reference::gate::script::{self, Ran};
use reference::judge::{self, Report};
use reference::outside::{self, Unpacked};
use reference::reader::Reader;
use reference::refusal::Refusal;
use reference::table::Scaled;
use reference::{edit, flags, line, reader, trips};

type Answer<T> = Result<T, Refusal>;

pub fn judge(buffer: &[u8]) -> Answer<Report> {
    judge::judge(buffer, &FlagTable::all())
}

pub fn is_valid(body: &[u8]) -> bool {
    flags::is_valid(body, &FlagTable::all())
}

pub fn unpack(buffer: &[u8], values: &mut [i64], tail: &mut [u8]) -> Answer<Unpacked> {
    outside::unpack(buffer, values, tail, &FlagTable::all())
}

pub fn pack(
    values: &[i64],
    word: u64,
    rptin: u16,
    tail: &[u8],
    output: &mut [u8],
) -> Answer<usize> {
    outside::pack(values, word, rptin, tail, output, &FlagTable::all())
}

pub fn same(first: &[u8], second: &[u8]) -> Answer<bool> {
    outside::same(first, second, &FlagTable::all())
}

pub fn restore(
    report: &[u8],
    values: &mut [i64],
    tail: &mut [u8],
    output: &mut [u8],
) -> Answer<usize> {
    trips::restore(report, values, tail, output, &FlagTable::all())
}

pub fn recover(
    values: &[i64],
    word: u64,
    rptin: u16,
    tail: &[u8],
    output: &mut [u8],
    values_out: &mut [i64],
    tail_out: &mut [u8],
) -> Answer<Unpacked> {
    let flags = FlagTable::all();
    trips::recover(
        values, word, rptin, tail, output, values_out, tail_out, &flags,
    )
}

pub fn read_field(buffer: &[u8], field: u64) -> Answer<Option<Scaled>> {
    edit::read_field(buffer, field, &FlagTable::all())
}

pub fn set_field(buffer: &mut [u8], field: u64, value: Scaled) -> Answer<Option<Scaled>> {
    edit::set_field(buffer, field, value, &FlagTable::all())
}

pub fn clear_field(buffer: &mut [u8], field: u64) -> Answer<Option<Scaled>> {
    edit::clear_field(buffer, field, &FlagTable::all())
}

pub fn read_flag(buffer: &[u8], flag: u64) -> Answer<Option<u8>> {
    edit::read_flag(buffer, flag, &FlagTable::all())
}

pub fn set_flag(buffer: &mut [u8], flag: u64, value: i64) -> Answer<Option<u8>> {
    edit::set_flag(buffer, flag, value, &FlagTable::all())
}

pub fn clear_flag(buffer: &mut [u8], flag: u64) -> Answer<Option<u8>> {
    edit::clear_flag(buffer, flag, &FlagTable::all())
}

pub fn put(buffer: &mut [u8], id: u64, content: &[u8]) -> Answer<()> {
    edit::put(buffer, id, content, &FlagTable::all())
}

pub fn fetch(buffer: &[u8], id: u64, output: &mut [u8]) -> Answer<usize> {
    edit::fetch(buffer, id, output, &FlagTable::all())
}

pub fn drop_attachment(buffer: &mut [u8], id: u64) -> Answer<()> {
    edit::drop_attachment(buffer, id, &FlagTable::all())
}

pub fn put_text(buffer: &mut [u8], text: &[u8], origins: &[u8]) -> Answer<usize> {
    edit::put_text(buffer, text, origins, &FlagTable::all())
}

pub fn fetch_text(buffer: &[u8], text: &mut [u8], origins: &mut [u8]) -> Answer<Fetched> {
    edit::fetch_text(buffer, text, origins, &FlagTable::all())
}

pub fn clear_with_indicators(buffer: &mut [u8], field: u64) -> Answer<Option<Scaled>> {
    edit::clear_with_indicators(buffer, field, &FlagTable::all())
}

pub fn find_indicators(report: &[u8], output: &mut [u8]) -> Answer<usize> {
    outside::find_indicators(report, output, &FlagTable::all())
}

pub fn open(report: &[u8]) -> Reader<'_> {
    Reader::open(report, &FlagTable::all())
}

pub fn read_out(report: &[u8], text: &mut [u8], origins: &mut [u8]) -> Answer<Fetched> {
    reader::read_out(report, text, origins, &FlagTable::all())
}

pub fn run(buffer: &mut [u8], script: &[u8], room: usize) -> Ran {
    script::run(buffer, script, room, &FlagTable::all())
}

pub fn run_list(list: &List) -> (Vec<u8>, Ran) {
    list.run(&FlagTable::all())
}

pub fn run_case(case: &Case) -> Outcome {
    case.run(&mut FlagTable::all())
}

pub fn line(case: &Case) -> String {
    line::line(case, &mut FlagTable::all())
}
