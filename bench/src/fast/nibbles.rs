//! Nibbles of a packed buffer, moved and copied.

#[inline(always)]
pub fn nibble(s: &[u8], at: usize) -> u8 {
    s[at / 2] >> (4 * (!at & 1)) & 15
}

#[inline(always)]
pub fn put(s: &mut [u8], at: usize, v: u8) {
    let b = &mut s[at / 2];
    *b = if at.is_multiple_of(2) {
        *b & 15 | v << 4
    } else {
        *b & 0xf0 | v
    };
}

/// Whether no byte is over 15.
#[inline(always)]
pub fn all(ns: &[u8]) -> bool {
    ns.iter().fold(0, |a, b| a | b) < 16
}

/// Two nibbles a byte, from one a byte; pairs alone.
#[inline(always)]
fn lay_pairs(to: &mut [u8], ns: &[u8]) {
    for (b, n) in to.iter_mut().zip(ns.as_chunks::<2>().0) {
        let pair = u16::from_le_bytes(*n);
        *b = (pair << 4 | pair >> 8) as u8;
    }
}

/// Lays nibbles from a place on.
pub fn lay(s: &mut [u8], mut at: usize, mut ns: &[u8]) {
    if at % 2 == 1 && !ns.is_empty() {
        let b = &mut s[at / 2];
        *b = *b & 0xf0 | ns[0];
        at += 1;
        ns = &ns[1..];
    }
    let end = at / 2 + ns.len() / 2;
    lay_pairs(&mut s[at / 2..end], ns);
    if ns.len() % 2 == 1 {
        s[end] = s[end] & 15 | ns[ns.len() - 1] << 4;
    }
}

#[inline(always)]
fn fetch_pairs(from: &[u8], out: &mut [u8]) {
    for (b, n) in from.iter().zip(out.as_chunks_mut::<2>().0) {
        let b = u16::from(*b);
        *n = (b >> 4 | (b & 15) << 8).to_le_bytes();
    }
}

/// Fetches as many nibbles as out is long.
pub fn fetch(s: &[u8], mut at: usize, mut out: &mut [u8]) {
    if at % 2 == 1 && !out.is_empty() {
        out[0] = s[at / 2] & 15;
        at += 1;
        out = &mut out[1..];
    }
    let end = at / 2 + out.len() / 2;
    fetch_pairs(&s[at / 2..end], out);
    let n = out.len();
    if n % 2 == 1 {
        out[n - 1] = s[end] >> 4;
    }
}

const BLOCK: usize = 64;

/// Fills a block from byte t on by the nibbles that start in the low half of byte f.
#[inline(always)]
fn block(s: &mut [u8], f: usize, t: usize) {
    let from: [u8; BLOCK + 1] = s[f..f + BLOCK + 1].try_into().unwrap();
    let mut to = [0; BLOCK];
    for i in 0..BLOCK {
        to[i] = from[i] << 4 | from[i + 1] >> 4;
    }
    s[t..t + BLOCK].copy_from_slice(&to);
}

#[inline(always)]
fn eight(s: &mut [u8], f: usize, t: usize) {
    let v = u64::from_be_bytes(s[f..f + 8].try_into().unwrap());
    let v = v << 4 | u64::from(s[f + 8] >> 4);
    s[t..t + 8].copy_from_slice(&v.to_be_bytes());
}

#[inline(always)]
fn one(s: &mut [u8], f: usize, t: usize) {
    s[t] = s[f] << 4 | s[f + 1] >> 4;
}

/// Fills n bytes from byte t on by the nibbles that start in the low half of
/// byte f, which is t or lies behind.
#[inline(always)]
fn halves_down(s: &mut [u8], f: usize, t: usize, n: usize) {
    let mut k = 0;
    while k + BLOCK <= n {
        block(s, f + k, t + k);
        k += BLOCK;
    }
    while k + 8 <= n {
        eight(s, f + k, t + k);
        k += 8;
    }
    while k < n {
        one(s, f + k, t + k);
        k += 1;
    }
}

/// The same where f lies before t.
#[inline(always)]
fn halves_up(s: &mut [u8], f: usize, t: usize, n: usize) {
    let mut k = n;
    while k >= BLOCK {
        k -= BLOCK;
        block(s, f + k, t + k);
    }
    while k >= 8 {
        k -= 8;
        eight(s, f + k, t + k);
    }
    while k > 0 {
        k -= 1;
        one(s, f + k, t + k);
    }
}

/// Moves nibbles from a place to another, either way.
pub fn shift(s: &mut [u8], from: usize, to: usize, count: usize) {
    if count == 0 || from == to {
        return;
    }
    let head = to % 2;
    let x = nibble(s, from);
    let y = nibble(s, from + count - 1);
    let (f, t, n) = ((from + head) / 2, (to + head) / 2, (count - head) / 2);
    if (from + head).is_multiple_of(2) {
        s.copy_within(f..f + n, t);
    } else if to < from {
        halves_down(s, f, t, n);
    } else {
        halves_up(s, f, t, n);
    }
    put(s, to, x);
    put(s, to + count - 1, y);
}
