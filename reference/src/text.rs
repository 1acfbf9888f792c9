//! Attachment 4: ship text, a row of symbols, as nibbles (Table F4-3).

pub const ID: u8 = 4;

/// The origins: that of a plain symbol and that of an original one.
pub const PLAIN: u8 = 0;
pub const ORIGINAL: u8 = 1;

/// The most symbols of which every text fits an attachment.
pub const MOST_SYMBOLS: usize = 85;

const SPACE: u8 = b' ';
/// The longest run of spaces that one pair of nibbles takes.
const FULL_RUN: usize = 18;

/// For each byte 4096 times the number of its nibbles, plus the nibbles read as
/// one number, the first one highest.
pub type Table = [u16; 256];

/// A symbol of a text. A plain one is a character with a short code; an original one
/// is a character of the input deck and may be any byte.
#[derive(Clone, Copy, Debug, PartialEq, Eq, PartialOrd, Ord)]
pub struct Symbol {
    byte: u8,
    original: bool,
}

impl Symbol {
    pub const SPACE: Symbol = Symbol {
        byte: SPACE,
        original: false,
    };

    /// None if the byte has no short code.
    pub fn plain(byte: u8) -> Option<Symbol> {
        let original = false;
        short_code(byte).map(|_| Symbol { byte, original })
    }

    pub fn original(byte: u8) -> Symbol {
        let original = true;
        Symbol { byte, original }
    }

    /// The symbol of a byte and its origin, if there is one.
    pub fn of(byte: u8, origin: u8) -> Option<Symbol> {
        match origin {
            PLAIN => Symbol::plain(byte),
            ORIGINAL => Some(Symbol::original(byte)),
            _ => None,
        }
    }

    pub fn byte(self) -> u8 {
        self.byte
    }

    pub fn origin(self) -> u8 {
        if self.original { ORIGINAL } else { PLAIN }
    }
}

/// The symbols of bytes and as many origins, unless a pair of them is no symbol.
pub fn symbols(bytes: &[u8], origins: &[u8]) -> Option<Vec<Symbol>> {
    let pairs = bytes.iter().zip(origins);
    pairs
        .map(|(&byte, &origin)| Symbol::of(byte, origin))
        .collect()
}

pub fn bytes(symbols: &[Symbol]) -> Vec<u8> {
    symbols.iter().map(|symbol| symbol.byte()).collect()
}

pub fn origins(symbols: &[Symbol]) -> Vec<u8> {
    symbols.iter().map(|symbol| symbol.origin()).collect()
}

/// The byte of a defined pair that begins with 12 to 14.
fn byte_of_pair(high: u8, low: u8) -> Option<u8> {
    let byte = match (high, low) {
        (12, 0) => b'{',
        (12, 1..=9) => b'A' + low - 1,
        (12, 10) => b'&',
        (12, 11) => b'+',
        (13, 0) => b'}',
        (13, 1..=9) => b'J' + low - 1,
        (13, 10) => b'-',
        (14, 1) => b'/',
        (14, 2..=9) => b'S' + low - 2,
        _ => return None,
    };
    Some(byte)
}

/// The one or two nibbles of a byte, if it has a short code. The space's is that of
/// one alone.
fn short_code(byte: u8) -> Option<Vec<u8>> {
    if byte.is_ascii_digit() {
        return Some(vec![byte - b'0']);
    }
    if byte == SPACE {
        return Some(nibbles_of_run(1));
    }
    for high in 12..=14 {
        for low in 0..=15 {
            if byte_of_pair(high, low) == Some(byte) {
                return Some(vec![high, low]);
            }
        }
    }
    None
}

/// The nibbles of any byte behind code 15.
fn escape(byte: u8) -> Vec<u8> {
    vec![15, byte >> 4, byte & 15]
}

/// The nibbles of one symbol that is no plain space.
fn nibbles_of_symbol(symbol: Symbol) -> Vec<u8> {
    if symbol.original {
        escape(symbol.byte)
    } else {
        short_code(symbol.byte).expect("a plain symbol has a short code")
    }
}

/// The nibbles of a run of spaces.
fn nibbles_of_run(spaces: usize) -> Vec<u8> {
    let mut nibbles = Vec::new();
    for _ in 0..spaces / FULL_RUN {
        nibbles.extend([11, 15]);
    }
    match spaces % FULL_RUN {
        0 => {}
        1 => nibbles.push(10),
        2 => nibbles.extend([10, 10]),
        rest => nibbles.extend([11, rest as u8 - 3]),
    }
    nibbles
}

/// The table of the characters. Its space is one alone; runs are the writer's.
pub fn table() -> Table {
    let mut table = [0; 256];
    for (byte, entry) in (0..=255).zip(&mut table) {
        *entry = entry_of(&short_code(byte).unwrap_or(escape(byte)));
    }
    table
}

fn entry_of(nibbles: &[u8]) -> u16 {
    let number = |number, &nibble: &u8| 16 * number + u16::from(nibble);
    4096 * nibbles.len() as u16 + nibbles.iter().fold(0, number)
}

/// The writer: the nibbles of a text. A run of plain spaces is written when another
/// symbol ends it, so trailing ones are dropped.
pub fn write(text: &[Symbol]) -> Vec<u8> {
    let mut nibbles = Vec::new();
    let mut spaces = 0;
    for &symbol in text {
        if symbol == Symbol::SPACE {
            spaces += 1;
            continue;
        }
        nibbles.extend(nibbles_of_run(spaces));
        nibbles.extend(nibbles_of_symbol(symbol));
        spaces = 0;
    }
    nibbles
}

/// A text of so many symbols that takes the most nibbles. Each is original, with three
/// nibbles: a plain one has two at the most, and a run of spaces no more than it has
/// spaces. Which bytes they are does not matter.
pub fn costliest(symbols: usize) -> Vec<Symbol> {
    (0..symbols)
        .map(|place| Symbol::original(place as u8))
        .collect()
}

/// The symbol that the next code stands for, and how often, or none at the end, where
/// the code is undefined or where it is cut off.
pub fn next_code(nibbles: &mut impl Iterator<Item = u8>) -> Option<(Symbol, usize)> {
    let first = nibbles.next()?;
    let symbol = match first {
        0..=9 => Symbol::plain(b'0' + first)?,
        10 => Symbol::SPACE,
        11 => return Some((Symbol::SPACE, usize::from(nibbles.next()?) + 3)),
        12..=14 => Symbol::plain(byte_of_pair(first, nibbles.next()?)?)?,
        15 => Symbol::original(16 * nibbles.next()? + nibbles.next()?),
        _ => return None,
    };
    Some((symbol, 1))
}

/// The shortest text for which the writer gives these nibbles, if any. It gives no
/// code that is undefined or cut off.
pub fn read(nibbles: &[u8]) -> Option<Vec<Symbol>> {
    let mut text = Vec::new();
    let mut rest = nibbles.iter().copied();
    while let Some((symbol, times)) = next_code(&mut rest) {
        text.extend(vec![symbol; times]);
    }
    (write(&text) == nibbles).then_some(text)
}
