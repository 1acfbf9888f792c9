//! The twelve calls on a buffer.

use super::card::{CARD, REQUIRED, ROWS, code, replace};
use super::report::{Report, card_of, content_valid, inspect, sixteen};
use super::{
    Answer, Fetched, Given, Label, Refusal, Set, flags, given, indicators, nibbles, refused, text,
};
use crate::FlagTable;

#[inline(always)]
fn card_mut(s: &mut [u8]) -> &mut [u8; CARD] {
    s.first_chunk_mut().unwrap()
}

#[inline(never)]
pub fn judge(s: &[u8], table: &FlagTable) -> Answer {
    let r = inspect(s, 0, table)?;
    Ok(given(Label::Bytes, r.size() as i64))
}

/// The value that a field's code shows. Without a branch, since it is hard to predict which
/// fields are missing.
#[inline(always)]
fn value_of(k: usize, c: u32) -> Given {
    let label = match c {
        0 => Label::MissingValue,
        _ => Label::Value,
    };
    let present = -i64::from(c != 0);
    given(label, i64::from(c as i32 + ROWS[k].base) & present)
}

#[inline(never)]
pub fn read_field(s: &[u8], k: usize, table: &FlagTable) -> Answer {
    inspect(s, 0, table)?;
    if k.wrapping_sub(1) >= 46 {
        return refused(8, 0);
    }
    Ok(value_of(k, code(card_of(s), k)))
}

#[inline(never)]
pub fn set_field(s: &mut [u8], k: usize, v: i64, table: &FlagTable) -> Answer {
    let r = inspect(s, 0, table)?;
    if k.wrapping_sub(1) >= 46 {
        return refused(8, 0);
    }
    let row = &ROWS[k];
    let c = v.wrapping_sub(i64::from(row.base)) as u64;
    if c.wrapping_sub(1) >= u64::from(row.highest) {
        return refused(9, k);
    }
    Ok(value_of(k, replace(card_mut(s), k, c as u32, r.ck)))
}

#[inline(never)]
pub fn clear_field(s: &mut [u8], k: usize, table: &FlagTable) -> Answer {
    let r = inspect(s, 0, table)?;
    if k.wrapping_sub(1) >= 46 {
        return refused(8, 0);
    }
    if REQUIRED >> k & 1 == 1 {
        return refused(10, k);
    }
    Ok(value_of(k, replace(card_mut(s), k, 0, r.ck)))
}

#[inline(never)]
pub fn clear_with_indicators(s: &mut [u8], k: usize, table: &FlagTable) -> Answer {
    let r = inspect(s, 0, table)?;
    if k.wrapping_sub(1) >= 46 {
        return refused(8, 0);
    }
    if REQUIRED >> k & 1 == 1 {
        return refused(10, k);
    }
    Ok(value_of(k, indicators::clear(card_mut(s), k, r.ck)))
}

/// The flag that a nibble shows.
#[inline(always)]
fn flag_of(v: u8) -> Given {
    let label = match v {
        0 => Label::MissingFlag,
        _ => Label::Flag,
    };
    given(label, i64::from(v))
}

#[inline(never)]
pub fn read_flag(s: &[u8], j: usize, table: &FlagTable) -> Answer {
    let r = inspect(s, 1, table)?;
    if j.wrapping_sub(1) >= 14 {
        return refused(8, 0);
    }
    if r.place == 0 {
        return refused(11, 0);
    }
    Ok(flag_of(nibbles::nibble(s, r.place + 2 + j)))
}

/// Stores a flag of the body at a place, and the quality code; gives the former flag.
#[inline(always)]
fn store_flag(s: &mut [u8], at: usize, j: usize, v: u8) -> u8 {
    let z = 64 - 4 * j as u32;
    let body = sixteen(s, at);
    let old = body >> z & 15;
    let body = body & !(15 << z) | u64::from(v) << z;
    let q = flags::quality(body).unwrap_or(0) as u8;
    nibbles::put(s, at + j - 1, v);
    nibbles::put(s, at + 14, q >> 4);
    nibbles::put(s, at + 15, q & 15);
    old as u8
}

#[inline(never)]
pub fn set_flag(s: &mut [u8], j: usize, v: usize, table: &FlagTable) -> Answer {
    let r = inspect(s, 1, table)?;
    if j.wrapping_sub(1) >= 14 {
        return refused(8, 0);
    }
    if !flags::in_range(j, v, table) {
        return refused(9, j);
    }
    if r.place == 0 {
        return refused(11, 0);
    }
    Ok(flag_of(store_flag(s, r.place + 3, j, v as u8)))
}

#[inline(never)]
pub fn clear_flag(s: &mut [u8], j: usize, table: &FlagTable) -> Answer {
    let r = inspect(s, 1, table)?;
    if j.wrapping_sub(1) >= 14 {
        return refused(8, 0);
    }
    if r.place == 0 {
        return refused(11, 0);
    }
    Ok(flag_of(store_flag(s, r.place + 3, j, 0)))
}

/// Makes room for new nibbles in place of old ones, and clears behind the end.
#[inline(always)]
fn resize(s: &mut [u8], at: usize, old: usize, new: usize, end: usize) {
    let last = end - old + new;
    nibbles::shift(s, at + old, at + new, end - at - old);
    if last % 2 == 1 {
        s[last / 2] &= 0xf0;
    }
    if last < end {
        s[last.div_ceil(2)..end.div_ceil(2)].fill(0);
    }
}

#[inline(always)]
fn set_count(s: &mut [u8], n: usize) {
    s[37] = s[37] & 15 | (n as u8) << 4;
}

#[inline(always)]
fn put_nibbles(s: &mut [u8], r: &Report, id: usize, content: &[u8]) -> Answer {
    let new = 3 + content.len();
    let (at, old, count) = if r.place == 0 {
        (r.end, 0, r.count + 1)
    } else {
        (r.place, 3 + r.al, r.count)
    };
    if (r.end - old + new).div_ceil(2) > s.len() {
        return refused(13, 0);
    }
    resize(s, at, old, new, r.end);
    nibbles::put(s, at, (content.len() >> 4) as u8);
    nibbles::put(s, at + 1, (content.len() & 15) as u8);
    nibbles::put(s, at + 2, id as u8);
    nibbles::lay(s, at + 3, content);
    set_count(s, count);
    Ok(Given::NOTHING)
}

#[inline(never)]
pub fn put(s: &mut [u8], id: usize, content: &[u8], table: &FlagTable) -> Answer {
    let r = inspect(s, id, table)?;
    if id.wrapping_sub(1) >= 15 {
        return refused(8, 0);
    }
    if content.len().wrapping_sub(1) >= 255 {
        return refused(12, 0);
    }
    if !nibbles::all(content) || !content_valid(id, content, table) {
        return refused(14, 0);
    }
    put_nibbles(s, &r, id, content)
}

#[inline(never)]
pub fn fetch(s: &[u8], id: usize, out: &mut [u8], table: &FlagTable) -> Answer {
    let r = inspect(s, id, table)?;
    if id.wrapping_sub(1) >= 15 {
        return refused(8, 0);
    }
    if r.place == 0 {
        return refused(11, 0);
    }
    let Some(out) = out.get_mut(..r.al) else {
        return refused(13, 0);
    };
    nibbles::fetch(s, r.place + 3, out);
    Ok(given(Label::Count, r.al as i64))
}

#[inline(never)]
pub fn remove(s: &mut [u8], id: usize, table: &FlagTable) -> Answer {
    let r = inspect(s, id, table)?;
    if id.wrapping_sub(1) >= 15 {
        return refused(8, 0);
    }
    if r.place == 0 {
        return refused(11, 0);
    }
    resize(s, r.place, 3 + r.al, 0, r.end);
    set_count(s, r.count - 1);
    Ok(Given::NOTHING)
}

#[inline(never)]
pub fn put_text(s: &mut [u8], t: &[u8], origins: &[u8], table: &FlagTable) -> Answer {
    let r = inspect(s, 4, table)?;
    if t.len() != origins.len() {
        return refused(13, 0);
    }
    let mut ns = [0; text::ROOM];
    match text::write(t, origins, &mut ns) {
        Ok(0) => refused(12, 0),
        Ok(n) => {
            put_nibbles(s, &r, 4, &ns[..n])?;
            Ok(given(Label::Nibbles, n as i64))
        }
        Err(number) => refused(number, 0),
    }
}

/// The deck's set, by a coded SID: one more than the scaled one, 0 where it is missing. A bit
/// for each: ASCII has 4 and 18, EBCDIC the others of 1 to 24 but 22.
#[inline(always)]
fn set_of(sid: u32) -> Set {
    const ASCII: u32 = 1 << 5 | 1 << 19;
    const EBCDIC: u32 = 0x03FF_FFFC & !ASCII & !(1 << 23);
    if sid < 32 && EBCDIC >> sid & 1 == 1 {
        Set::Ebcdic
    } else if sid < 32 && ASCII >> sid & 1 == 1 {
        Set::Ascii
    } else {
        Set::Unknown
    }
}

#[inline(never)]
pub fn fetch_text(
    s: &[u8],
    out: &mut [u8],
    origins: &mut [u8],
    table: &FlagTable,
) -> Result<Fetched, Refusal> {
    let r = inspect(s, 4, table)?;
    if r.place == 0 {
        return refused(11, 0);
    }
    let mut ns = [0; 255];
    let ns = &mut ns[..r.al];
    nibbles::fetch(s, r.place + 3, ns);
    let room = out.len().min(origins.len());
    // No two nibbles give more than 18 symbols.
    if room < 9 * ns.len() && room < text::length(ns) {
        return refused(13, 0);
    }
    Ok(Fetched {
        symbols: text::read(ns, &mut out[..room], &mut origins[..room]),
        set: set_of(code(card_of(s), 10)),
        nibbles: r.al as u8,
    })
}

/// Any byte will do.
#[inline(never)]
pub fn costliest_text(symbols: usize, out: &mut [u8], origins: &mut [u8]) -> Answer {
    if symbols > 85 {
        return refused(9, 0);
    }
    let (Some(out), Some(origins)) = (out.get_mut(..symbols), origins.get_mut(..symbols)) else {
        return refused(13, 0);
    };
    out.fill(b'a');
    origins.fill(1);
    Ok(Given::NOTHING)
}

/// None where attachment 5 stands.
#[inline(never)]
pub fn find_indicators(s: &[u8], out: &mut [u8], table: &FlagTable) -> Answer {
    let r = inspect(s, 5, table)?;
    let list = if r.place == 0 {
        indicators::lone(&r.words)
    } else {
        indicators::NONE
    };
    let Some(out) = out.get_mut(..list.count) else {
        return refused(13, 0);
    };
    for (i, b) in out.iter_mut().enumerate() {
        *b = (list.fields >> (8 * i)) as u8;
    }
    Ok(given(Label::Count, list.count as i64))
}

#[inline(never)]
pub fn characters(table: &mut [u16; 256]) {
    text::characters(table);
}
