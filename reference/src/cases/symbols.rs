//! Texts as symbols: each byte original and plain, put text's refusals in their order,
//! the two outputs of fetch text and of the reader, and the deck's set.

use super::Case;
use super::flag_tables::{A, held, load, one_flag, without};
use super::material::*;
use super::reports::two_of_each_refusal;
use crate::call::Call;
use crate::flag_table::FlagTable;
use crate::observation::Observation;
use crate::table::{SID, Scaled, field};
use crate::text::{self, Symbol};

/// The calls of a list.
const CALLS: usize = 48;

/// Origins over 1.
const OVER: [u8; 12] = [2, 3, 4, 8, 16, 32, 64, 127, 128, 129, 254, 255];

/// Ends with every flag permitted.
pub fn cases() -> Vec<Case> {
    let mut cases = there_and_back();
    cases.extend(edges());
    cases
}

/// All but each symbol put and fetched.
pub fn edges() -> Vec<Case> {
    let mut cases = lists(&no_symbols());
    cases.extend(lists(&broken_runs()));
    cases.extend(lists(&put_text_lengths()));
    cases.extend(bodies());
    cases.extend(outputs());
    cases.extend(sets());
    cases.extend(absent());
    cases.extend(refused_reports());
    cases.extend(longest());
    cases.extend(under_a_table());
    cases
}

/// A text between two other attachments.
fn with_text(text: &[Symbol]) -> Observation {
    observation_with(&[(9, &[3]), (text::ID, &text::write(text)), (2, &[8, 8])])
}

/// Calls in lists on a report without a text, with room for the longest.
fn lists(calls: &[Call]) -> Vec<Case> {
    let report = observation_with(&[(6, &[1])]).packing();
    let list = |calls: &[Call]| Case::Calls {
        buffer: with_bytes_after(report.clone(), &[0xA5; 130]),
        calls: calls.to_vec(),
    };
    calls.chunks(CALLS).map(list).collect()
}

/// A text read out to two outputs of given lengths.
pub fn read_out(report: &[u8], text: usize, origins: usize) -> Case {
    Case::ReadOut {
        report: report.to_vec(),
        text: vec![0xEE; text],
        origins: vec![0xDD; origins],
    }
}

fn fetch(room: usize) -> Call {
    Call::Fetch {
        id: u64::from(text::ID),
        output: vec![0xEE; room],
    }
}

/// Each symbol put, its nibbles and itself fetched; and read out before a digit, as a
/// plain space alone comes to no nibbles.
fn there_and_back() -> Vec<Case> {
    let calls = |symbol| [put_text(&[symbol]), fetch(3), fetch_text(1)];
    let calls: Vec<Call> = all_symbols().into_iter().flat_map(calls).collect();
    let mut cases = lists(&calls);
    for symbol in all_symbols() {
        let text = [vec![symbol], symbols_of(b"5")].concat();
        cases.push(read_out(&with_text(&text).packing(), 2, 2));
    }
    cases
}

/// Each byte that is not plain, origins over 1, and such a pair first, last and amid
/// symbols.
fn no_symbols() -> Vec<Call> {
    let mut calls: Vec<Call> = (0..=255)
        .filter(|&byte| Symbol::plain(byte).is_none())
        .map(|byte| put_bytes(&[byte], &[0]))
        .collect();
    for byte in [b'7', b'A', b' ', b'a'] {
        calls.extend(OVER.map(|origin| put_bytes(&[byte], &[origin])));
    }
    for (byte, origin) in [(b'a', 0), (b'7', 2), (b' ', 255), (0, 0)] {
        for place in 0..3 {
            let (mut text, mut origins) = (*b"A a", [0, 0, 1]);
            (text[place], origins[place]) = (byte, origin);
            calls.push(put_bytes(&text, &origins));
        }
    }
    calls.push(put_bytes(b"A a", &[0, 0, 1]));
    calls.push(fetch_text(3));
    calls
}

/// Runs of spaces with an original 32 amid or behind them, original 32 in turn, and
/// texts that end in it or in plain spaces.
fn broken_runs() -> Vec<Call> {
    let space = Symbol::original(b' ');
    let run = |spaces: usize| vec![Symbol::SPACE; spaces];
    let mut texts = Vec::new();
    for before in [0, 1, 2, 3, 17, 18, 19, 37] {
        for after in [0, 1, 2, 3, 18, 20] {
            texts.push([run(before), vec![space], run(after), symbols_of(b"7")].concat());
        }
        texts.push([symbols_of(b"1"), run(before), vec![space]].concat());
        texts.push([symbols_of(b"1"), vec![space], run(before)].concat());
    }
    for times in [1, 2, 3, 4, 18, 19] {
        texts.push(vec![space; times]);
        texts.push([vec![space; times], symbols_of(b"7")].concat());
    }
    let calls = |text: &Vec<Symbol>| {
        let nibbles = text::write(text).len();
        [put_text(text), fetch(nibbles + 1), fetch_text(text.len())]
    };
    texts.iter().flat_map(calls).collect()
}

/// Put text's refusals by its lengths and their order with those by its symbols: 13,
/// then 14, then 12.
fn put_text_lengths() -> Vec<Call> {
    let a = |times: usize| vec![b'a'; times];
    let with = |row: Vec<u8>, last: u8| [row, vec![last]].concat();
    let refused = [
        (vec![b'1'], vec![]),
        (vec![], vec![0]),
        (vec![b'1'], vec![0; 2]),
        (vec![b'1'; 2], vec![0]),
        (vec![b'1'], vec![2; 2]),
        (vec![b'a'; 2], vec![0]),
        (vec![b' '], vec![]),
        (a(86), vec![1; 85]),
        (a(86), vec![2; 87]),
        (vec![b'1'; 300], vec![0; 44]),
        (a(87), with(vec![1; 86], 0)),
        (a(87), with(vec![1; 86], 2)),
        (with(a(86), b'7'), with(vec![1; 86], 255)),
        (a(87), [vec![0], vec![1; 86]].concat()),
        (with(vec![b' '; 300], b'1'), with(vec![0; 300], 2)),
        (with(vec![b' '; 9], b'a'), vec![0; 10]),
        (vec![], vec![]),
        (vec![b' '], vec![0]),
        (vec![b' '; 3], vec![0; 3]),
        (vec![b' '; 300], vec![0; 300]),
        (a(86), vec![1; 86]),
        (vec![b' '; 86], vec![1; 86]),
        (with(a(85), b'7'), with(vec![1; 85], 0)),
        (vec![b'7'; 256], vec![0; 256]),
        (vec![b'A'; 128], vec![0; 128]),
        (vec![b'7'; 86], vec![1; 86]),
    ];
    let accepted = [
        (a(85), vec![1; 85]),
        (vec![b' '; 85], vec![1; 85]),
        (vec![b'7'; 85], vec![1; 85]),
        (with(a(85), b' '), with(vec![1; 85], 0)),
        (with(a(84), b'A'), with(vec![1; 84], 0)),
        (vec![b'7'; 255], vec![0; 255]),
        (vec![b'A'; 127], vec![0; 127]),
    ];
    let mut calls = Vec::new();
    calls.extend(refused.map(|(text, origins)| put_bytes(&text, &origins)));
    calls.push(fetch_text(1));
    for (text, origins) in accepted {
        calls.extend([put_bytes(&text, &origins), fetch_text(text.len())]);
    }
    calls
}

/// Bodies put, fetched as nibbles and as a text; and the sound ones read out.
fn bodies() -> Vec<Case> {
    let put = |content: &Vec<u8>| Call::Put {
        id: u64::from(text::ID),
        content: content.clone(),
    };
    let mut calls: Vec<Call> = bad_text_bodies().iter().map(put).collect();
    let mut read_outs = Vec::new();
    for body in good_text_bodies() {
        let length = text::read(&body).map_or(0, |text| text.len());
        calls.extend([put(&body), fetch(body.len()), fetch_text(length + 1)]);
        let report = observation_with(&[(text::ID, &body)]).packing();
        read_outs.push(read_out(&report, length + 1, length + 2));
    }
    let mut cases = lists(&calls);
    cases.extend(read_outs);
    cases
}

/// Outputs that just fit, are too short or longer, alone and together.
fn outputs() -> Vec<Case> {
    let mut cases = Vec::new();
    for text in [
        symbols_of(b"A"),
        symbols_of(b"THE a 1"),
        vec![Symbol::original(b'A'); 85],
        [vec![Symbol::SPACE; 20], symbols_of(b"B")].concat(),
    ] {
        let observation = with_text(&text);
        let n = text.len();
        let rooms = [
            (n, n),
            (n - 1, n),
            (n, n - 1),
            (n - 1, n - 1),
            (0, n),
            (n, 0),
            (0, 0),
            (n + 1, n),
            (n, n + 1),
            (n + 4, n + 9),
            (n - 1, n + 9),
            (n + 9, n - 1),
        ];
        let fetch = |(text, origins)| fetch_text_to(text, origins);
        cases.push(Case::Calls {
            buffer: observation.packing(),
            calls: rooms.map(fetch).to_vec(),
        });
        let report = observation.packing();
        cases.extend(rooms.map(|(text, origins)| read_out(&report, text, origins)));
    }
    cases
}

/// The set for each source ID and for a missing one, in lists in which SID changes
/// and in reports of their own.
fn sets() -> Vec<Case> {
    let sid = field(SID as u64).expect("SID is a field");
    let number = SID as u64;
    let set = |field, value| Call::SetField { field, value };
    let clear = || Call::ClearField { field: number };
    let fetch = || fetch_text(1);
    let mut calls = vec![fetch(), set(9, 4), set(11, 4), fetch()];
    for value in sid.lowest_value().0..=sid.highest_value().0 {
        calls.extend([set(number, value), fetch()]);
    }
    calls.extend([clear(), fetch(), set(number, 255), fetch()]);
    for value in [4, 1, 18, 24, 0, 22, 25] {
        calls.extend([set(number, value), fetch(), clear(), fetch()]);
    }
    calls.extend([set(number, 4), fetch(), Call::Drop { id: 4 }, fetch()]);
    calls.extend([put_text(&[Symbol::original(b'A')]), fetch(), clear()]);
    let report = with_text(&symbols_of(b"A")).packing();
    let list = |calls: &[Call]| Case::Calls {
        buffer: report.clone(),
        calls: calls.to_vec(),
    };
    let mut cases: Vec<Case> = calls.chunks(CALLS).map(list).collect();
    let values = (sid.lowest_value().0..=sid.highest_value().0).map(Some);
    for value in values.chain([None]) {
        let mut observation = with_text(&[Symbol::original(b'A')]);
        observation.values[SID - 1] = value.map(Scaled);
        cases.push(read_out(&observation.packing(), 1, 1));
    }
    cases
}

/// Reports without a text, and outputs that would or would not do.
fn absent() -> Vec<Case> {
    let mut cases = Vec::new();
    for observation in [
        fresh_observation(),
        observation_with(&[(5, &[15, 4, 1]), (14, &[4])]),
    ] {
        let report = observation.packing();
        let rooms = [(0, 0), (3, 3), (0, 3), (3, 0)];
        let fetch = |(text, origins)| fetch_text_to(text, origins);
        cases.push(Case::Calls {
            buffer: report.clone(),
            calls: rooms.map(fetch).to_vec(),
        });
        cases.extend(rooms.map(|(text, origins)| read_out(&report, text, origins)));
    }
    cases
}

/// Each of the report's refusals before each that a text can cause.
fn refused_reports() -> Vec<Case> {
    let mut cases = Vec::new();
    for report in two_of_each_refusal() {
        cases.extend([read_out(&report, 3, 4), read_out(&report, 0, 0)]);
        cases.push(Case::Calls {
            buffer: report,
            calls: vec![
                put_bytes(b"A", &[0]),
                put_bytes(b"A", &[]),
                put_bytes(b"a", &[0]),
                put_bytes(b"", &[]),
                fetch_text(3),
                fetch_text(0),
            ],
        });
    }
    cases
}

/// The text of the most symbols, the text of the most originals, and the largest
/// report.
fn longest() -> Vec<Case> {
    let spaces = [vec![Symbol::SPACE; 18 * 127], symbols_of(b"1")].concat();
    let report = observation_with(&[(text::ID, &text::write(&spaces))]).packing();
    let n = spaces.len();
    let mut cases = [(n, n), (n + 8, n + 113), (n - 1, n), (n, n - 1)]
        .map(|(text, origins)| read_out(&report, text, origins))
        .to_vec();
    cases.push(read_out(&largest_observation().packing(), 85, 86));
    cases
}

/// A forbidden flag beside a text.
fn under_a_table() -> Vec<Case> {
    let mut cases = vec![load(&without(1, A))];
    for flags in [one_flag(1, A), one_flag(1, 1)] {
        let report = held(&flags).packing();
        cases.extend([read_out(&report, 2, 2), read_out(&report, 0, 0)]);
        cases.push(Case::Calls {
            buffer: with_bytes_after(report, &[0xA5; 4]),
            calls: vec![put_bytes(b"A", &[2]), put_bytes(b"A", &[1]), fetch_text(2)],
        });
    }
    cases.push(load(&FlagTable::all()));
    cases
}
