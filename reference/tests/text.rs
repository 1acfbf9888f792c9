//! Ship text: the writer, its inverse, and every short body.

mod common;

use std::collections::BTreeMap;

use common::{originals, plain};
use reference::text::{Symbol, bytes, origins, read, symbols, write};

/// The short code of a byte that is no space, from the lists of docs/FORMAT.md, 3.5.
fn short_code(byte: u8) -> Option<Vec<u8>> {
    let place = |row: &[u8]| row.iter().position(|&other| other == byte).map(|p| p as u8);
    if let Some(place) = place(b"0123456789") {
        Some(vec![place])
    } else if let Some(place) = place(b"{ABCDEFGHI&+") {
        Some(vec![12, place])
    } else if let Some(place) = place(b"}JKLMNOPQR-") {
        Some(vec![13, place])
    } else {
        place(b"/STUVWXYZ").map(|place| vec![14, place + 1])
    }
}

fn escape(byte: u8) -> Vec<u8> {
    vec![15, byte / 16, byte % 16]
}

/// Every symbol but the plain space, with its nibbles: 42 plain ones and 256 original.
fn codes() -> Vec<(Symbol, Vec<u8>)> {
    let mut codes = Vec::new();
    for byte in 0..=255 {
        codes.push((Symbol::original(byte), escape(byte)));
        if let Some(code) = short_code(byte) {
            codes.push((Symbol::plain(byte).unwrap(), code));
        }
    }
    assert_eq!(codes.len(), 298);
    codes
}

/// The nibbles of a run of spaces, counted down by the rule of docs/FORMAT.md, 3.5.
fn run(mut spaces: usize) -> Vec<u8> {
    let mut nibbles = Vec::new();
    while spaces >= 18 {
        nibbles.extend([11, 15]);
        spaces -= 18;
    }
    if spaces >= 3 {
        nibbles.extend([11, spaces as u8 - 3]);
    } else {
        nibbles.extend(vec![10; spaces]);
    }
    nibbles
}

#[test]
fn a_symbol_is_a_byte_and_its_origin() {
    for byte in 0..=255 {
        let original = Symbol::original(byte);
        assert_eq!((original.byte(), original.origin()), (byte, 1));
        assert_eq!(Symbol::of(byte, 1), Some(original));
        let has_short_code = byte == b' ' || short_code(byte).is_some();
        assert_eq!(Symbol::plain(byte).is_some(), has_short_code, "{byte}");
        assert_eq!(Symbol::of(byte, 0), Symbol::plain(byte));
        if let Some(plain) = Symbol::plain(byte) {
            assert_eq!((plain.byte(), plain.origin()), (byte, 0));
            assert_ne!(plain, original);
        }
        for origin in 2..=255 {
            assert_eq!(Symbol::of(byte, origin), None, "{byte} {origin}");
        }
    }
}

#[test]
fn rows_of_symbols() {
    let row = [plain(b"A "), originals(b" a")].concat();
    assert_eq!(symbols(b"A  a", &[0, 0, 1, 1]), Some(row.clone()));
    assert_eq!(bytes(&row), b"A  a");
    assert_eq!(origins(&row), [0, 0, 1, 1]);
    assert_eq!(symbols(b"A  a", &[0, 0, 1, 0]), None);
    assert_eq!(symbols(b"A  a", &[2, 0, 1, 1]), None);
    assert_eq!(symbols(&[], &[]), Some(vec![]));
}

#[test]
fn every_symbol_has_its_code() {
    for (symbol, code) in codes() {
        assert_eq!(write(&[symbol]), code, "{symbol:?}");
        assert_eq!(read(&code), Some(vec![symbol]), "{symbol:?}");
    }
    assert_eq!(write(&plain(b" ")), []);
}

#[test]
fn some_codes_by_hand() {
    assert_eq!(
        write(&plain(b"AI{&+")),
        [12, 1, 12, 9, 12, 0, 12, 10, 12, 11]
    );
    assert_eq!(write(&plain(b"JR}-")), [13, 1, 13, 9, 13, 0, 13, 10]);
    assert_eq!(write(&plain(b"SZ/")), [14, 2, 14, 9, 14, 1]);
    assert_eq!(write(&plain(b"09")), [0, 9]);
    let escaped = write(&originals(&[0, 255, 128]));
    assert_eq!(escaped, [15, 0, 0, 15, 15, 15, 15, 8, 0]);
    assert_eq!(
        write(&originals(b"_A 0")),
        [15, 5, 15, 15, 4, 1, 15, 2, 0, 15, 3, 0]
    );
}

#[test]
fn runs_of_spaces() {
    for spaces in 0..=100 {
        let run_of = vec![Symbol::SPACE; spaces];
        let text = [plain(b"1"), run_of.clone(), plain(b"2")].concat();
        let nibbles = [vec![1], run(spaces), vec![2]].concat();
        assert_eq!(write(&text), nibbles, "{spaces}");
        assert_eq!(read(&nibbles), Some(text), "{spaces}");
        let leading = [run_of.clone(), plain(b"Z")].concat();
        assert_eq!(write(&leading), [run(spaces), vec![14, 9]].concat());
        let trailing = [plain(b"7"), run_of.clone()].concat();
        assert_eq!(write(&trailing), [7]);
        assert_eq!(write(&run_of), []);
    }
    let by_hand: [(usize, &[u8]); 9] = [
        (1, &[10]),
        (2, &[10, 10]),
        (3, &[11, 0]),
        (17, &[11, 14]),
        (18, &[11, 15]),
        (19, &[11, 15, 10]),
        (21, &[11, 15, 11, 0]),
        (36, &[11, 15, 11, 15]),
        (38, &[11, 15, 11, 15, 10, 10]),
    ];
    for (spaces, nibbles) in by_hand {
        assert_eq!(run(spaces), nibbles);
    }
}

/// An original 32 ends a run, is none of it, and is not dropped.
#[test]
fn an_original_32_breaks_a_run() {
    let original = originals(b" ");
    for before in 0..=40 {
        for after in 0..=40 {
            let text = [
                vec![Symbol::SPACE; before],
                original.clone(),
                vec![Symbol::SPACE; after],
            ]
            .concat();
            let nibbles = [run(before), vec![15, 2, 0]].concat();
            assert_eq!(write(&text), nibbles, "{before} {after}");
            assert_eq!(read(&nibbles).as_deref(), Some(&text[..before + 1]));
            let ended = [text, plain(b"3")].concat();
            let nibbles = [nibbles, run(after), vec![3]].concat();
            assert_eq!(write(&ended), nibbles, "{before} {after}");
            assert_eq!(read(&nibbles), Some(ended), "{before} {after}");
        }
    }
    assert_eq!(write(&originals(b"   ")), [15, 2, 0, 15, 2, 0, 15, 2, 0]);
    assert_eq!(read(&[15, 2, 0, 10]), None);
    assert_eq!(read(&[15, 2, 0, 10, 10, 10, 1]), None);
}

/// Runs of spaces each ended by one other symbol: nibbles and text.
fn pieces(most: usize) -> Vec<(Vec<u8>, Vec<Symbol>)> {
    let mut pieces = Vec::new();
    for spaces in 0..=60 {
        for (symbol, code) in codes() {
            let nibbles = [run(spaces), code].concat();
            if nibbles.len() <= most {
                pieces.push((
                    nibbles,
                    [vec![Symbol::SPACE; spaces], vec![symbol]].concat(),
                ));
            }
        }
    }
    pieces
}

/// The bodies of exactly so many nibbles that the writer gives, with their texts.
fn bodies(length: usize, pieces: &[(Vec<u8>, Vec<Symbol>)]) -> BTreeMap<Vec<u8>, Vec<Symbol>> {
    let mut by_length = vec![BTreeMap::from([(Vec::new(), Vec::new())])];
    for length in 1..=length {
        let mut bodies = BTreeMap::new();
        for (nibbles, piece) in pieces.iter().filter(|piece| piece.0.len() <= length) {
            for (body, text) in &by_length[length - nibbles.len()] {
                let body = [&body[..], nibbles].concat();
                let text: Vec<Symbol> = [&text[..], piece].concat();
                assert_eq!(bodies.insert(body, text), None);
            }
        }
        by_length.push(bodies);
    }
    by_length.pop().unwrap()
}

#[test]
fn every_body_of_up_to_five_nibbles() {
    let pieces = pieces(5);
    for length in 1..=5 {
        let valid = bodies(length, &pieces);
        for number in 0..1_u32 << (4 * length) {
            let body: Vec<u8> = (0..length)
                .rev()
                .map(|place| (number >> (4 * place) & 15) as u8)
                .collect();
            assert_eq!(read(&body).as_ref(), valid.get(&body), "{body:?}");
        }
    }
}

#[test]
fn a_reading_is_the_shortest_text() {
    let nibbles = write(&plain(b"12 A  "));
    assert_eq!(read(&nibbles), Some(plain(b"12 A")));
    let with_original = [plain(b"12 "), originals(b" "), plain(b"  ")].concat();
    assert_eq!(
        read(&write(&with_original)).as_deref(),
        Some(&with_original[..4])
    );
}
