//! Ship text: validity by a table of states, reading and writing by codes.

/// The nibbles of each byte as one number: under 16 one, under 256 two, else three.
const CODE_TABLE: [u16; 256] = codes();

const fn codes() -> [u16; 256] {
    let mut t = [0; 256];
    let mut b = 0;
    while b < 256 {
        let v = b as u16;
        t[b] = match b as u8 {
            b' ' => 10,
            b'&' => 202,
            b'+' => 203,
            b'-' => 218,
            b'{' => 192,
            b'}' => 208,
            b'/' => 225,
            b'0'..=b'9' => v - 48,
            b'A'..=b'I' => v + 128,
            b'J'..=b'R' => v + 135,
            b'S'..=b'Z' => v + 143,
            _ => v + 3840,
        };
        b += 1;
    }
    t
}

/// By origin and byte: the nibbles of a symbol in three places, and how many there are; SPACE
/// for a plain space and 0 where there is no such symbol.
static CODES: [[u8; 4]; 512] = spelled();

const SPACE: u8 = 4;

const fn spelled() -> [[u8; 4]; 512] {
    let mut t = [[0; 4]; 512];
    let mut b = 0;
    while b < 256 {
        let c = CODE_TABLE[b];
        let (high, low) = ((c >> 4 & 15) as u8, (c & 15) as u8);
        t[b] = if c < 10 {
            [low, 0, 0, 1]
        } else if c == 10 {
            [0, 0, 0, SPACE]
        } else if c < 256 {
            [high, low, 0, 2]
        } else {
            [0, 0, 0, 0]
        };
        t[256 + b] = [15, (b / 16) as u8, (b % 16) as u8, 3];
        b += 1;
    }
    t
}

/// The byte of each nibble from 0 to 10.
static SINGLES: [u8; 11] = *b"0123456789 ";

/// The byte of each pair from 12,0 to 14,15; 0 where undefined.
static PAIRS: [u8; 256] = PAIR_TABLE;
const PAIR_TABLE: [u8; 256] = pairs();

const fn pairs() -> [u8; 256] {
    let mut t = [0; 256];
    let mut b = 0;
    while b < 256 {
        let c = CODE_TABLE[b] as usize;
        if c >= 192 && c < 256 {
            t[c] = b as u8;
        }
        b += 1;
    }
    t
}

// States of a reader of nibbles.
const INVALID: usize = 0;
/// Between codes, and no space waits.
const CLEAR: usize = 1;
/// Full eighteens wait.
const FULL: usize = 2;
/// One space waits behind full eighteens.
const ONE: usize = 3;
/// Spaces wait that no other code of spaces may follow.
const SPACES: usize = 4;
/// After an 11.
const RUN: usize = 5;
/// After a 12; 13 and 14 follow.
const PAIR: usize = 6;
/// After 15 and a high half.
const HALF: usize = 9;
const ESCAPE: usize = 10;

const fn next(state: usize, n: usize) -> usize {
    match state {
        CLEAR | FULL | ONE | SPACES => match n {
            0..=9 => CLEAR,
            10 => match state {
                ONE => SPACES,
                SPACES => INVALID,
                _ => ONE,
            },
            11 => {
                if state <= FULL {
                    RUN
                } else {
                    INVALID
                }
            }
            12..=14 => PAIR + n - 12,
            _ => ESCAPE,
        },
        RUN => {
            if n == 15 {
                FULL
            } else {
                SPACES
            }
        }
        6..=8 => {
            if PAIR_TABLE[(12 + state - PAIR) * 16 + n] == 0 {
                INVALID
            } else {
                CLEAR
            }
        }
        HALF => CLEAR,
        ESCAPE => HALF,
        _ => INVALID,
    }
}

// A state is kept as the place of its six bits in a row, and a row has the next state's place
// there. So a step is one shift: of a distance it takes the low six bits alone. Four bits are
// left for the eleventh state, which is enough: an escape's next two nibbles lead to CLEAR.
const PLACE: usize = 6;
const START: u64 = (PLACE * CLEAR) as u64;

/// For two nibbles the place after them, by the state before.
static BY_BYTE: [u64; 256] = by_byte();
/// For a first nibble the place after it.
static FIRST: [u64; 16] = first();
/// For a last nibble START if a text may end with it, else 0, by the state before.
static LAST: [u64; 16] = last();

const fn by_byte() -> [u64; 256] {
    let mut t = [0; 256];
    let mut b = 0;
    while b < 256 {
        let mut s = 0;
        while s <= ESCAPE {
            let place = (PLACE * next(next(s, b / 16), b % 16)) as u64;
            assert!(s < ESCAPE || place == START);
            t[b] |= place << (PLACE * s);
            s += 1;
        }
        b += 1;
    }
    t
}

const fn first() -> [u64; 16] {
    let mut t = [0; 16];
    let mut n = 0;
    while n < 16 {
        t[n] = (PLACE * next(CLEAR, n)) as u64;
        n += 1;
    }
    t
}

const fn last() -> [u64; 16] {
    let mut t = [0; 16];
    let mut n = 0;
    while n < 16 {
        let mut s = 0;
        while s <= ESCAPE {
            if next(s, n) == CLEAR {
                t[n] |= START << (PLACE * s);
            }
            s += 1;
        }
        n += 1;
    }
    t
}

/// The row shifted to a place.
#[inline(always)]
fn step(row: u64, place: u64) -> u64 {
    row.wrapping_shr(place as u32)
}

/// Whether the writer gives these nibbles for some text, in a packed buffer.
pub fn valid(s: &[u8], mut at: usize, mut len: usize) -> bool {
    let mut place = START;
    if at % 2 == 1 && len > 0 {
        place = FIRST[(s[at / 2] & 15) as usize];
        at += 1;
        len -= 1;
    }
    let end = at / 2 + len / 2;
    for &b in &s[at / 2..end] {
        place = step(BY_BYTE[b as usize], place);
    }
    if len % 2 == 1 {
        place = step(LAST[(s[end] >> 4) as usize], place);
    }
    place % 64 == START
}

/// The same of nibbles one a byte, each under 16.
pub fn valid_nibbles(ns: &[u8]) -> bool {
    let mut place = START;
    let (pairs, rest) = ns.as_chunks::<2>();
    for n in pairs {
        place = step(BY_BYTE[(n[0] << 4 | n[1] & 15) as usize], place);
    }
    for &n in rest {
        place = step(LAST[(n & 15) as usize], place);
    }
    place % 64 == START
}

/// The byte of a nibble from 0 to 10.
#[inline(always)]
pub fn single(n: u8) -> u8 {
    SINGLES[n as usize]
}

/// The byte of a pair that begins with 12 to 14.
#[inline(always)]
pub fn pair(high: u8, low: u8) -> u8 {
    PAIRS[(high << 4 | low) as usize]
}

/// The length of the text of valid nibbles.
pub fn length(ns: &[u8]) -> usize {
    let mut n = 0;
    let mut i = 0;
    while i < ns.len() {
        let (codes, bytes) = match ns[i] {
            0..=10 => (1, 1),
            11 => (2, ns.get(i + 1).map_or(0, |&r| r as usize + 3)),
            15 => (3, 1),
            _ => (2, 1),
        };
        i += codes;
        n += bytes;
    }
    n
}

/// Fills a run of 3 to 18 symbols by pieces that overlap.
#[inline(always)]
fn fill(to: &mut [u8], b: u8) {
    if let Some(piece) = to.first_chunk_mut::<8>() {
        *piece = [b; 8];
        if let Some(piece) = to.get_mut(8..16) {
            piece.copy_from_slice(&[b; 8]);
        }
        if let Some(piece) = to.last_chunk_mut::<8>() {
            *piece = [b; 8];
        }
    } else if let Some(piece) = to.first_chunk_mut::<4>() {
        *piece = [b; 4];
        if let Some(piece) = to.last_chunk_mut::<4>() {
            *piece = [b; 4];
        }
    } else {
        to[0] = b;
        to[1] = b;
        to[2] = b;
    }
}

/// Writes the bytes of the symbols of valid nibbles, and their origins, to the heads of two
/// outputs of one length, which is enough; gives how many there are.
pub fn read(ns: &[u8], out: &mut [u8], origins: &mut [u8]) -> usize {
    let mut o = 0;
    let mut i = 0;
    while i < ns.len() {
        let n = ns[i];
        if n > 11 {
            if n < 15 {
                out[o] = pair(n, ns[i + 1]);
                origins[o] = 0;
                i += 2;
            } else {
                out[o] = ns[i + 1] << 4 | ns[i + 2];
                origins[o] = 1;
                i += 3;
            }
            o += 1;
        } else if n < 11 {
            out[o] = single(n);
            origins[o] = 0;
            o += 1;
            i += 1;
        } else {
            let end = o + ns[i + 1] as usize + 3;
            fill(&mut out[o..end], b' ');
            fill(&mut origins[o..end], 0);
            o = end;
            i += 2;
        }
    }
    o
}

/// The table of the characters from the rules: 4096 times a byte's nibbles, and their value.
pub fn characters(table: &mut [u16; 256]) {
    for (byte, entry) in (0..).zip(table.iter_mut()) {
        *entry = 0x3F00 + byte;
    }
    let runs = [
        (b'0', 10, 0x1000),
        (b'A', 9, 0x20C1),
        (b'J', 9, 0x20D1),
        (b'S', 8, 0x20E2),
    ];
    for (byte, count, first) in runs {
        let from = usize::from(byte);
        for (entry, value) in table[from..from + count].iter_mut().zip(first..) {
            *entry = value;
        }
    }
    table[usize::from(b' ')] = 0x100A;
    table[usize::from(b'{')] = 0x20C0;
    table[usize::from(b'&')] = 0x20CA;
    table[usize::from(b'+')] = 0x20CB;
    table[usize::from(b'}')] = 0x20D0;
    table[usize::from(b'-')] = 0x20DA;
    table[usize::from(b'/')] = 0x20E1;
}

/// The code of a symbol; that of none where the origin is over 1.
#[inline(always)]
fn code(b: u8, origin: u8) -> [u8; 4] {
    let code = CODES.get((origin as usize) << 8 | b as usize);
    code.copied().unwrap_or_default()
}

/// Room for 255 nibbles, and for a code that is copied whole behind them.
pub const ROOM: usize = 259;

/// Writes a text's nibbles, or gives the refusal's number: 14 if a symbol is none, else 12 if
/// there are over 255.
pub fn write(text: &[u8], origins: &[u8], out: &mut [u8; ROOM]) -> Result<usize, u8> {
    let mut at = 0u32;
    let mut i = 0;
    let origins = &origins[..text.len()];
    while i < text.len() {
        let code = code(text[i], origins[i]);
        if code[3] == 0 {
            return Err(14);
        }
        if code[3] == SPACE {
            let run = spaces(&text[i..], &origins[i..]);
            i += run;
            if i < text.len() {
                at = write_spaces(run, out, at).ok_or_else(|| over(&text[i..], &origins[i..]))?;
            }
            continue;
        }
        let Some(to) = out.get_mut(at as usize..at as usize + 4) else {
            return Err(over(&text[i..], &origins[i..]));
        };
        to.copy_from_slice(&code);
        at += u32::from(code[3]);
        i += 1;
    }
    if at > 255 { Err(12) } else { Ok(at as usize) }
}

/// How many plain spaces a text begins with.
#[inline(always)]
fn spaces(text: &[u8], origins: &[u8]) -> usize {
    let symbols = text.iter().zip(origins);
    symbols
        .take_while(|&(&b, &origin)| b == b' ' && origin == 0)
        .count()
}

/// The refusal of a text that is too long, by the symbols that are left of it.
#[cold]
fn over(text: &[u8], origins: &[u8]) -> u8 {
    let mut symbols = text.iter().zip(origins);
    if symbols.all(|(&b, &origin)| code(b, origin)[3] > 0) {
        12
    } else {
        14
    }
}

/// None if there are over 255 nibbles.
fn write_spaces(spaces: usize, out: &mut [u8; ROOM], at: u32) -> Option<u32> {
    let fulls = spaces / 18;
    let mut at = at as usize;
    if at.checked_add(fulls.checked_mul(2)?)? > 255 {
        return None;
    }
    for _ in 0..fulls {
        out[at] = 11;
        out[at + 1] = 15;
        at += 2;
    }
    match spaces % 18 {
        0 => {}
        1 => {
            out[at] = 10;
            at += 1;
        }
        2 => {
            out[at] = 10;
            out[at + 1] = 10;
            at += 2;
        }
        rest => {
            out[at] = 11;
            out[at + 1] = rest as u8 - 3;
            at += 2;
        }
    }
    (at <= 255).then_some(at as u32)
}
