//! The table of the characters: by hand, beside the writer and the reader, and in
//! the lines, the records and the lists.

mod common;

use std::collections::BTreeSet;

use common::all_flags::{line, run_case, run_list};
use common::{SHORT, plain, table_by_hand};
use reference::call::{Answer, Call};
use reference::cases::material::{all_symbols, symbols_of};
use reference::cases::{Case, Outcome, costliest, fixed, flag_tables, indicators, symbols};
use reference::gate::{SEED, list_cases, record, text_cases, whole_cases};
use reference::number::Number;
use reference::outside::characters;
use reference::prng::Prng;
use reference::refusal::refusal;
use reference::text::{self, Symbol, Table, read, table, write};

/// The nibbles that an entry stands for.
fn nibbles_of(entry: u16) -> Vec<u8> {
    let nibble = |place| (entry >> (4 * place) & 15) as u8;
    (0..entry >> 12).rev().map(nibble).collect()
}

#[test]
fn entries_by_hand() {
    let table = table();
    for (byte, entry) in SHORT {
        assert_eq!(table[usize::from(byte)], entry, "{byte}");
    }
    for (byte, entry) in [
        (0, 0x3F00),
        (b'\n', 0x3F0A),
        (0x1F, 0x3F1F),
        (b'!', 0x3F21),
        (b'%', 0x3F25),
        (b'\'', 0x3F27),
        (b'*', 0x3F2A),
        (b',', 0x3F2C),
        (b'.', 0x3F2E),
        (b':', 0x3F3A),
        (b'@', 0x3F40),
        (b'[', 0x3F5B),
        (b'`', 0x3F60),
        (b'a', 0x3F61),
        (b'z', 0x3F7A),
        (b'|', 0x3F7C),
        (b'~', 0x3F7E),
        (0x7F, 0x3F7F),
        (0x80, 0x3F80),
        (0xC1, 0x3FC1),
        (0xFF, 0x3FFF),
    ] {
        assert_eq!(table[usize::from(byte)], entry, "{byte}");
    }
    for byte in 0..=255 {
        if SHORT.iter().all(|&(short, _)| short != byte) {
            let entry = 4096 * 3 + 256 * 15 + u16::from(byte);
            assert_eq!(table[usize::from(byte)], entry, "{byte}");
        }
    }
}

/// Ten digits and the space, 26 letters and six marks, and 213 escapes.
#[test]
fn entries_by_length() {
    let of_length = |length| table().iter().filter(|&&n| n >> 12 == length).count();
    assert_eq!([1, 2, 3].map(of_length), [11, 32, 213]);
    assert_eq!(BTreeSet::from(table()).len(), 256);
}

#[test]
fn entries_beside_the_writer() {
    for (byte, entry) in (0..=255).zip(table()) {
        if byte != b' ' {
            assert_eq!(nibbles_of(entry), write(&symbols_of(&[byte])), "{byte}");
        }
        let before_a_digit = [nibbles_of(entry), vec![5]].concat();
        assert_eq!(before_a_digit, write(&symbols_of(&[byte, b'5'])), "{byte}");
    }
}

#[test]
fn entries_are_read_as_their_bytes() {
    for (byte, entry) in (0..=255).zip(table()) {
        let mut nibbles = nibbles_of(entry);
        let alone = (byte != b' ').then_some(symbols_of(&[byte]));
        assert_eq!(read(&nibbles), alone, "{byte}");
        nibbles.push(5);
        assert_eq!(read(&nibbles), Some(symbols_of(&[byte, b'5'])), "{byte}");
    }
}

/// Every row of one to three nibbles that is read as one symbol is the entry of a plain
/// byte, or 15 and an original one. A digit stands behind it, as a plain space is
/// dropped at the end.
#[test]
fn codes_that_are_read_are_entries() {
    let (table, digit) = (table(), plain(b"5")[0]);
    let mut found = BTreeSet::new();
    for length in 1..=3 {
        for number in 0..1_u16 << (4 * length) {
            let code = nibbles_of(length << 12 | number);
            let Some(&[symbol, last]) = read(&[code, vec![5]].concat()).as_deref() else {
                continue;
            };
            if last == digit {
                let byte = symbol.byte();
                let entry = match symbol.origin() {
                    0 => table[usize::from(byte)],
                    _ => 0x3F00 + u16::from(byte),
                };
                assert_eq!(entry, 4096 * length + number, "{symbol:?}");
                assert!(found.insert(symbol), "{symbol:?} has two codes");
            }
        }
    }
    assert_eq!(found, all_symbols().into_iter().collect());
    assert_eq!(found.len(), 256 + SHORT.len());
}

fn former_contents() -> Vec<Table> {
    let mut prng = Prng::new(11);
    let mut almost = table_by_hand();
    almost[255] = 0;
    vec![
        [0; 256],
        [u16::MAX; 256],
        std::array::from_fn(|index| index as u16),
        table_by_hand(),
        almost,
        std::array::from_fn(|_| prng.next_u64() as u16),
    ]
}

#[test]
fn every_entry_is_written() {
    for mut table in former_contents() {
        characters(&mut table);
        assert_eq!(table, table_by_hand());
    }
}

fn case(table: Table) -> Case {
    Case::Characters {
        table: Box::new(table),
    }
}

#[test]
fn lines_by_hand() {
    let numbers = |table: Table| table.map(|entry| entry.to_string()).join(",");
    let after = numbers(table_by_hand());
    assert!(after.starts_with("16128,16129,16130,"));
    for before in former_contents() {
        let written = format!("characters {} -> ok {after}", numbers(before));
        assert_eq!(line(&case(before)), written);
    }
    let zeros = format!("characters 0{} -> ok 16128,", ",0".repeat(255));
    assert!(line(&case([0; 256])).starts_with(&zeros));
}

#[test]
fn records_by_hand() {
    let mut after = vec![1, 0, 0, 0, 0, 0, 0, 0, 0, 0];
    for entry in table_by_hand() {
        after.extend([(entry / 256) as u8, (entry % 256) as u8]);
    }
    assert_eq!(after.len(), 522);
    assert_eq!(after[10 + 2 * 65..][..4], [0x20, 0xC1, 0x20, 0xC2]);
    let ascending = case(std::array::from_fn(|index| 0x0100 + index as u16));
    let before: Vec<u8> = (0..=255).flat_map(|byte| [1, byte]).collect();
    assert!(record::fits(&ascending));
    assert_eq!(record::input(&ascending), [&[9][..], &before].concat());
    assert_eq!(record::answer(&run_case(&ascending)), after);
    let input = record::input(&case([0xFFFE; 256]));
    assert_eq!(input, [&[9][..], &[0xFF, 0xFE].repeat(256)].concat());
}

/// Before the cases of the table of flags, of symbols, of the costliest text and of
/// indicators, the fixed ones and the gate's end with the same arrays.
#[test]
fn cases_end_with_arrays() {
    let before_flags = |mut cases: Vec<Case>| {
        let mut behind = [flag_tables::cases(), symbols::cases(), costliest::cases()].concat();
        behind.extend(indicators::cases());
        assert!(cases.ends_with(&behind));
        cases.truncate(cases.len() - behind.len());
        cases
    };
    let tables = |cases: Vec<Case>| -> Vec<Table> {
        let arrays = cases.iter().rev().map_while(|case| match case {
            Case::Characters { table } => Some(**table),
            _ => None,
        });
        let arrays: Vec<Table> = arrays.collect();
        let front = &cases[..cases.len() - arrays.len()];
        let more = |case: &Case| matches!(case, Case::Characters { .. });
        assert!(!front.iter().any(more));
        arrays
    };
    let arrays = tables(before_flags(fixed()));
    assert_eq!(tables(whole_cases::before_loads(SEED)), arrays);
    assert_eq!(arrays.iter().collect::<BTreeSet<_>>().len(), arrays.len());
    for former in &former_contents()[..4] {
        assert!(arrays.contains(former));
    }
    // Each entry is wrong before the call in most of them.
    for (place, entry) in table_by_hand().into_iter().enumerate() {
        let wrong = arrays.iter().filter(|array| array[place] != entry);
        assert!(wrong.count() + 3 > arrays.len(), "{place}");
    }
    for array in arrays {
        let after = Outcome::Characters(Box::new(table_by_hand()));
        assert_eq!(run_case(&case(array)), after);
    }
}

/// The nibbles of a text without runs of three spaces; trailing ones are dropped.
fn nibbles_by_hand(text: &[Symbol]) -> Vec<u8> {
    let end = text.iter().rposition(|&symbol| symbol != Symbol::SPACE);
    let written = end.map_or(&[][..], |end| &text[..=end]);
    let table = table_by_hand();
    let codes = written.iter().map(|symbol| match symbol.origin() {
        0 => nibbles_of(table[usize::from(symbol.byte())]),
        _ => vec![15, symbol.byte() / 16, symbol.byte() % 16],
    });
    codes.flatten().collect()
}

fn length_by_hand(text: &[Symbol]) -> usize {
    nibbles_by_hand(text).len()
}

/// What the lists put and fetch, in order.
#[derive(Default)]
struct Texts {
    put: Vec<Vec<Symbol>>,
    nibbles: Vec<Vec<u8>>,
    fetched: Vec<Vec<Symbol>>,
}

fn texts() -> Texts {
    let mut texts = Texts::default();
    for list in text_cases::lists() {
        let (_, ran) = run_list(&list);
        assert_eq!(ran.taken, list.script.len());
        for (call, answer) in ran.calls {
            match call {
                Call::PutText { text, origins } => {
                    let text = text::symbols(&text, &origins).unwrap();
                    let due = match length_by_hand(&text) {
                        nibbles @ 1..=255 => Ok(vec![Number::nibbles(nibbles)]),
                        _ => Err(refusal(12, 0)),
                    };
                    assert_eq!(answer.result, due, "{text:?}");
                    texts.put.push(text);
                }
                Call::Fetch { id: 4, .. } => texts.nibbles.extend(given(answer, &[0xEE])),
                Call::FetchText { .. } => {
                    let rows = given(answer, &[0xEE, 0xDD]);
                    texts
                        .fetched
                        .push(text::symbols(&rows[0], &rows[1]).unwrap());
                }
                other => panic!("{other:?}"),
            }
        }
    }
    texts
}

/// What a fetch gives. The rest of its outputs stays.
fn given(answer: Answer, lent: &[u8]) -> Vec<Vec<u8>> {
    let length = answer.result.unwrap()[0].value.unwrap() as usize;
    let mut outputs = answer.outputs;
    assert_eq!(outputs.len(), lent.len());
    for (output, lent) in outputs.iter_mut().zip(lent) {
        assert!(output[length..].iter().all(|byte| byte == lent));
        output.truncate(length);
    }
    outputs
}

/// The plain symbols stand behind the original ones of their bytes.
#[test]
fn lists_take_every_symbol_through_the_writer() {
    let texts = texts();
    let all = all_symbols();
    assert_eq!((all.len(), all[33]), (299, Symbol::SPACE));
    let (by_symbol, others) = texts.put.split_at(3 * 299);
    let [space, digit] = [Symbol::SPACE, plain(b"0")[0]];
    let alone = all.iter().map(|&symbol| vec![symbol]);
    let behind = all.iter().map(|&symbol| vec![space, symbol]);
    let in_front = all.iter().map(|&symbol| vec![symbol, space, digit]);
    let mut due: Vec<Vec<Symbol>> = alone.chain(behind).chain(in_front).collect();
    assert_eq!(by_symbol, due);
    // Spaces alone are refused: the text put before stands.
    due[33] = vec![Symbol::original(b' ')];
    due[299 + 33] = vec![space, Symbol::original(b' ')];
    let accepted = others.iter().filter(|text| length_by_hand(text) <= 255);
    due.extend(accepted.cloned());
    assert_eq!(texts.fetched, due);
    // The nibbles of a symbol beside a space are not fetched.
    due.drain(299..3 * 299);
    let nibbles: Vec<Vec<u8>> = due.iter().map(|text| nibbles_by_hand(text)).collect();
    assert_eq!(texts.nibbles, nibbles);
    for first in 1..=3 {
        for second in (1..=3).filter(|&second| second != first) {
            let is_pair = |text: &&Vec<Symbol>| {
                let lengths = [&text[..1], &text[1..]].map(length_by_hand);
                text.len() == 2 && lengths == [first, second]
            };
            let pairs = others.iter().filter(is_pair).collect::<BTreeSet<_>>();
            assert!(pairs.len() >= 10, "{first} {second}: {pairs:?}");
        }
    }
    for last in 1..=3 {
        for nibbles in [255, 256] {
            let ends_so = |text: &&Vec<Symbol>| {
                let end = &text[text.len() - 1..];
                length_by_hand(text) == nibbles && length_by_hand(end) == last
            };
            let ending = others.iter().filter(ends_so).collect::<BTreeSet<_>>();
            assert_eq!(ending.len(), 4, "{nibbles} {last}");
        }
    }
}

#[test]
fn gate_lists_end_with_these() {
    let lists = list_cases::lists(SEED);
    assert!(lists.ends_with(&text_cases::lists()));
}
