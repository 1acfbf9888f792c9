//! Records of the first three steps of a reader for display. They begin with a load of
//! every flag and end with every flag permitted.

use std::collections::BTreeSet;

use crate::cases::flag_tables::{A, held, one_flag, without};
use crate::cases::material::*;
use crate::cases::reports::two_of_each_refusal;
use crate::flag_table::FlagTable;
use crate::flags;
use crate::gate::symbol_cases::drawn_observation;
use crate::prng::Prng;
use crate::table::{SID, Scaled};
use crate::text::{self, Symbol};

/// Drawn reports.
const DRAWN: usize = 30;

/// The value R.
const R: u8 = 1;

/// What the records are made of.
#[derive(Clone, Debug, PartialEq, Eq)]
pub enum Item {
    /// A report on which a reader takes its first steps.
    Report(Vec<u8>),
    /// A table of flags as it is lent, in force for the reports behind it.
    Load(Vec<u8>),
}

/// Reports and loads from a seed, no report twice between two loads.
pub fn items(seed: u64) -> Vec<Item> {
    let mut reports = absent();
    reports.extend(refused());
    reports.extend(refused_with_a_text());
    reports.extend(lengths());
    reports.extend(plain_symbols());
    reports.extend(original_symbols());
    reports.extend(runs());
    reports.extend(broken_runs());
    reports.extend(positions());
    reports.extend(decks());
    reports.extend(longest());
    reports.extend(drawn(seed));
    let mut seen = BTreeSet::new();
    reports.retain(|report| seen.insert(report.clone()));
    let mut items = vec![load(&FlagTable::all())];
    items.extend(reports.into_iter().map(Item::Report));
    items.extend(under_tables());
    items
}

fn load(table: &FlagTable) -> Item {
    Item::Load(table.marks().to_vec())
}

fn report_with(attachments: &[(u8, &[u8])]) -> Vec<u8> {
    observation_with(attachments).packing()
}

/// A text as the only attachment.
fn alone(text: &[Symbol]) -> Vec<u8> {
    report_with(&[(text::ID, &text::write(text))])
}

fn spaces(times: usize) -> Vec<Symbol> {
    vec![Symbol::SPACE; times]
}

/// Reports without a text. Its header stands in other data, or behind the report.
fn absent() -> Vec<Vec<u8>> {
    let fresh = fresh_observation().packing();
    vec![
        with_bytes_after(fresh.clone(), &[0x14, 0x70]),
        fresh,
        full_observation(true).packing(),
        report_with(&[(9, &[0, 1, 4, 7])]),
        report_with(&[(5, &[15, 4, 1]), (14, &[4])]),
        report_with(&[(flags::ID, &flags::body_of(&one_flag(4, 4)))]),
    ]
}

/// Reports of each refusal, and texts that are refused early or late.
fn refused() -> Vec<Vec<u8>> {
    let mut reports = two_of_each_refusal();
    let late: [&[u8]; 6] = [
        &[1, 2, 3, 10],
        &[1, 2, 3, 12, 12],
        &[1, 2, 3, 15, 6],
        &[1, 2, 3, 10, 10, 10, 4],
        &[11, 0, 1, 11],
        &[15, 2, 0, 15, 4, 1, 1, 11, 0],
    ];
    let late = late.iter().map(|body| body.to_vec());
    for body in bad_text_bodies().into_iter().chain(late) {
        let mut draft = Draft::of(&fresh_observation());
        draft.attach(text::ID, &body);
        reports.push(draft.bytes());
    }
    reports
}

/// A sound text in a report that is refused.
fn refused_with_a_text() -> Vec<Vec<u8>> {
    let sound = Draft::of(&observation_with(&[(text::ID, &[12, 1, 1])]));
    let whole = sound.bytes();
    let changed = |change: &dyn Fn(&mut Draft)| {
        let mut draft = sound.clone();
        change(&mut draft);
        draft.bytes()
    };
    vec![
        whole[..37].to_vec(),
        whole[..whole.len() - 1].to_vec(),
        changed(&|draft| draft.card.ac += 1),
        changed(&|draft| draft.set_code(31, 2000)),
        changed(&|draft| draft.set_code(3, 0)),
        changed(&|draft| draft.card.ck ^= 1),
        changed(&|draft| draft.card.ck += 255),
        changed(&|draft| draft.attach(9, &[])),
        changed(&|draft| draft.attach(0, &[7])),
        changed(&|draft| draft.attach(text::ID, &[7])),
        changed(&|draft| draft.attach(flags::ID, &[0; 15])),
        changed(&|draft| draft.last = 1),
    ]
}

/// Texts of one symbol up to four: with nothing behind them, with an attachment, and with
/// bytes of the buffer.
fn lengths() -> Vec<Vec<u8>> {
    let mut reports = Vec::new();
    for text in [b"1234", b"ABCD", b"abcd", b"1a/b"] {
        for length in 1..=4 {
            let text = text::write(&symbols_of(&text[..length]));
            let report = report_with(&[(text::ID, &text)]);
            reports.push(with_bytes_after(report.clone(), &[0x12, 0x34]));
            reports.push(report);
            reports.push(report_with(&[(text::ID, &text), (2, &[8, 8])]));
        }
    }
    reports
}

/// Each plain symbol, three in a text and a digit behind them.
fn plain_symbols() -> Vec<Vec<u8>> {
    let plain: Vec<Symbol> = (0..=255).filter_map(Symbol::plain).collect();
    let text = |three: &[Symbol]| alone(&[three, &symbols_of(b"5")].concat());
    plain.chunks(3).map(text).collect()
}

/// An original symbol in each of three places, and original and plain ones of one byte.
fn original_symbols() -> Vec<Vec<u8>> {
    let mut reports = Vec::new();
    for byte in [0, 255, b' ', b'A', b'0', 10, 193, 240] {
        for place in 0..3 {
            let mut text = symbols_of(b"1B2");
            text[place] = Symbol::original(byte);
            reports.push(alone(&text));
        }
    }
    for byte in *b"A7 " {
        let original = Symbol::original(byte);
        let plain = symbols_of(&[byte])[0];
        reports.push(alone(&[original, plain, original]));
        reports.push(alone(&[plain, original, plain, original]));
    }
    reports
}

/// Runs of spaces that begin at each of the three steps.
fn runs() -> Vec<Vec<u8>> {
    let mut reports = Vec::new();
    for before in [&b""[..], b"1", b"/1"] {
        for times in [1, 2, 3, 4, 17, 18, 19, 20, 37] {
            let text = [symbols_of(before), spaces(times), symbols_of(b"7B")];
            reports.push(alone(&text.concat()));
        }
    }
    reports
}

/// An original 32 before, behind and between runs of spaces, and in turn.
fn broken_runs() -> Vec<Vec<u8>> {
    let space = vec![Symbol::original(b' ')];
    let mut reports = Vec::new();
    for times in [1, 2, 3, 18, 19, 20] {
        let run = spaces(times);
        reports.push(alone(&[&run[..], &space].concat()));
        reports.push(alone(&[&space[..], &run, &space].concat()));
        reports.push(alone(&[&symbols_of(b"1")[..], &run, &space].concat()));
    }
    reports.extend((1..=4).map(|times| alone(&space.repeat(times))));
    reports
}

/// Texts that begin at an even and at an odd nibble, first and behind other attachments,
/// some of which hold a text's header.
fn positions() -> Vec<Vec<u8>> {
    let flags = flags::body_of(&one_flag(4, 4));
    let texts = [
        symbols_of(b"7"),
        [vec![Symbol::original(b'A')], symbols_of(b"   B")].concat(),
        [spaces(19), symbols_of(b"B")].concat(),
    ];
    let before: [&[(u8, &[u8])]; 8] = [
        &[],
        &[(9, &[3])],
        &[(9, &[3, 3])],
        &[(flags::ID, &flags)],
        &[(9, &[4; 254])],
        &[(9, &[4; 255])],
        &[(14, &[4]), (9, &[0, 1, 4, 7])],
        &[(15, &[4; 17]), (3, &[0, 1, 4]), (flags::ID, &flags)],
    ];
    let mut reports = Vec::new();
    for attachments in before {
        for text in &texts {
            let text = text::write(text);
            let behind = [(text::ID, &text[..]), (2, &[4, 4])];
            reports.push(report_with(&[attachments, &behind].concat()));
        }
    }
    reports
}

/// A byte stays what it is, whichever set the deck has.
fn decks() -> Vec<Vec<u8>> {
    let text = [Symbol::original(193), Symbol::original(65)];
    let text = [&text[..], &symbols_of(b"A")].concat();
    let mut reports = Vec::new();
    for sid in [Some(1), Some(4), Some(18), Some(22), None] {
        let mut observation = observation_with(&[(text::ID, &text::write(&text))]);
        observation.values[SID - 1] = sid.map(Scaled);
        reports.push(observation.packing());
    }
    reports
}

/// The text of the most symbols, and the largest report.
fn longest() -> Vec<Vec<u8>> {
    let most = [spaces(18 * 127), symbols_of(b"1")].concat();
    vec![alone(&most), largest_observation().packing()]
}

/// Drawn reports, some with a bit flipped.
fn drawn(seed: u64) -> Vec<Vec<u8>> {
    let mut prng = Prng::new(seed);
    let mut reports = Vec::new();
    for _ in 0..DRAWN {
        let mut report = drawn_observation(&mut prng).packing();
        if prng.one_in(5) {
            let place = prng.below(report.len());
            report[place] ^= 1 << prng.below(8);
        }
        reports.push(report);
    }
    reports
}

/// The same reports under tables that forbid one flag or another, and under a table that
/// a refused load leaves in force.
fn under_tables() -> Vec<Item> {
    let (a, r) = (one_flag(1, A), one_flag(1, R));
    let body = flags::body_of(&a);
    let reports = [
        held(&a).packing(),
        held(&r).packing(),
        report_with(&[(flags::ID, &body), (text::ID, &[12, 1])]),
        report_with(&[(text::ID, &[15, 4, 1]), (flags::ID, &body)]),
        report_with(&[(flags::ID, &body)]),
    ];
    let mut items = Vec::new();
    for lent in [
        load(&without(1, A)),
        Item::Load(Vec::new()),
        load(&without(1, R)),
        load(&without(2, A)),
        load(&FlagTable::all()),
    ] {
        items.push(lent);
        items.extend(reports.iter().cloned().map(Item::Report));
    }
    items
}
