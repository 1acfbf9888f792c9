//! How many nibbles a text takes: what the calls give, what the most is, and the
//! costliest text.

mod common;

use std::collections::BTreeSet;

use common::all_flags::*;
use common::{SHORT, fresh_buffer, fresh_with_tail, originals, plain, refused};
use reference::call::Call;
use reference::cases::material::{
    all_symbols, fresh_observation, put_text as put_call, random_observation, random_text,
};
use reference::cases::{Case, Chosen, Outcome, fixed};
use reference::flag_table::FlagTable;
use reference::gate::list::Item;
use reference::gate::{
    SEED, former_cases, indicator_cases, list_cases, nibble_cases, record, whole_cases,
};
use reference::number::{Number, Quantity};
use reference::outside::costliest;
use reference::prng::Prng;
use reference::refusal::refusal;
use reference::step::step;
use reference::text::{Symbol, bytes, origins, symbols, write};

/// The nibbles of a symbol that is no plain space.
fn cost(symbol: Symbol) -> usize {
    let short = SHORT.iter().find(|(byte, _)| *byte == symbol.byte());
    match (symbol.origin(), short) {
        (0, Some((_, entry))) => usize::from(entry >> 12),
        _ => 3,
    }
}

/// The nibbles of a run of spaces: two for each full 18 and for a rest over 2, else one
/// for each space.
fn cost_of_run(spaces: usize) -> usize {
    2 * (spaces / 18) + (spaces % 18).min(2)
}

/// The nibbles of a text; spaces count where another symbol follows them.
fn cost_by_hand(text: &[Symbol]) -> usize {
    let mut nibbles = 0;
    let mut spaces = 0;
    for &symbol in text {
        if symbol == Symbol::SPACE {
            spaces += 1;
        } else {
            nibbles += cost_of_run(spaces) + cost(symbol);
            spaces = 0;
        }
    }
    nibbles
}

fn is_original(symbol: &Symbol) -> bool {
    symbol.origin() == 1
}

/// A row takes no more than three nibbles a symbol, and so many only if all are original.
fn costs_at_most_three_a_symbol(row: &[Symbol]) {
    let nibbles = write(row).len();
    assert_eq!(nibbles, cost_by_hand(row), "{row:?}");
    assert!(nibbles <= 3 * row.len(), "{row:?}");
    let all_original = row.iter().all(is_original);
    assert_eq!(nibbles == 3 * row.len(), all_original, "{row:?}");
}

/// Rows of drawn symbols, at times with a run of spaces or with originals alone.
fn random_row(prng: &mut Prng, length: usize) -> Vec<Symbol> {
    let all = all_symbols();
    let originals: Vec<Symbol> = all.iter().copied().filter(is_original).collect();
    let choices = match prng.below(3) {
        0 => originals,
        1 => [&all[..], &[Symbol::SPACE; 299]].concat(),
        _ => all,
    };
    let mut row: Vec<Symbol> = (0..length).map(|_| prng.pick(&choices)).collect();
    if prng.one_in(4) {
        let start = prng.below(length);
        let end = start + prng.below(length - start + 1);
        row[start..end].fill(Symbol::SPACE);
    }
    row
}

#[test]
fn every_symbol_and_every_pair() {
    let all = all_symbols();
    assert_eq!(all.len(), 299);
    let mut most = 0;
    for &first in &all {
        costs_at_most_three_a_symbol(&[first]);
        for &second in &all {
            costs_at_most_three_a_symbol(&[first, second]);
            most += usize::from(write(&[first, second]).len() == 6);
        }
    }
    assert_eq!(most, 256 * 256);
}

/// A plain space, a digit, a letter, an original byte without a short code and one with.
#[test]
fn every_short_row_of_a_few_symbols() {
    let few = [plain(b" 7A"), originals(b"a ")].concat();
    let mut rows = vec![Vec::new()];
    for length in 1..=7 {
        let longer = |row: &Vec<Symbol>| {
            let row = row.clone();
            few.iter().map(move |&last| [&row[..], &[last]].concat())
        };
        rows = rows.iter().flat_map(longer).collect();
        assert_eq!(rows.len(), 5_usize.pow(length));
        for row in &rows {
            costs_at_most_three_a_symbol(row);
        }
    }
}

#[test]
fn runs_of_spaces_and_rows_of_any_length() {
    for spaces in 1..=300 {
        let run = vec![Symbol::SPACE; spaces];
        assert_eq!(write(&run), []);
        for last in [plain(b"7"), plain(b"A"), originals(b"a")].concat() {
            let row = [&run[..], &[last]].concat();
            costs_at_most_three_a_symbol(&row);
            costs_at_most_three_a_symbol(&[&[last], &row[..]].concat());
            assert!(write(&row).len() <= spaces + cost(last));
        }
    }
    let mut prng = Prng::new(30);
    for _ in 0..20_000 {
        let length = 1 + prng.below(200);
        costs_at_most_three_a_symbol(&random_row(&mut prng, length));
    }
}

/// AL of the one attachment of a report: nibbles 75 and 76.
fn al(report: &[u8]) -> usize {
    usize::from(report[37] % 16 * 16 + report[38] / 16)
}

/// 1 to 85 symbols are put, whichever they are, unless a plain space is at their end:
/// they have at least one nibble, and 255 at most.
#[test]
fn no_text_of_up_to_85_symbols_is_too_long() {
    let mut prng = Prng::new(31);
    let mut most = BTreeSet::new();
    for length in 1..=85 {
        let before = vec![Symbol::SPACE; length - 1];
        let mut rows = vec![
            vec![Symbol::original(b' '); length],
            [before.clone(), originals(b"z")].concat(),
            [before, plain(b"0")].concat(),
            plain(&vec![b'0'; length]),
            plain(&vec![b'Z'; length]),
        ];
        for _ in 0..60 {
            let mut row = random_row(&mut prng, length);
            if row.ends_with(&[Symbol::SPACE]) {
                row[length - 1] = prng.pick(&[plain(b"5"), originals(b" ")].concat());
            }
            rows.push(row);
        }
        for row in rows {
            let mut buffer = fresh_buffer(200);
            let put = put_text(&mut buffer, &bytes(&row), &origins(&row));
            let nibbles = cost_by_hand(&row);
            assert!((1..=255).contains(&nibbles), "{row:?}");
            assert_eq!(put, Ok(nibbles), "{row:?}");
            assert_eq!(al(&buffer), nibbles, "{row:?}");
            most.insert(nibbles);
        }
    }
    assert_eq!((most.first(), most.last()), (Some(&1), Some(&255)));
}

#[test]
fn eighty_five_originals_fit_and_eighty_six_do_not() {
    for byte in 0..=255 {
        let mut buffer = fresh_buffer(200);
        assert_eq!(put_text(&mut buffer, &[byte; 85], &[1; 85]), Ok(255));
        assert_eq!(al(&buffer), 255);
        let before = buffer.clone();
        let over = put_text(&mut buffer, &[byte; 86], &[1; 86]);
        assert_eq!((over, buffer), (refused(12, 0), before));
    }
    // A plain symbol among 86 leaves them too long if it takes one nibble or two.
    for last in [b'7', b'A'] {
        let text = [&[b'a'; 85][..], &[last]].concat();
        let marks = [&[1; 85][..], &[0]].concat();
        let put = put_text(&mut fresh_buffer(200), &text, &marks);
        assert_eq!(put, refused(12, 0));
    }
}

/// Texts, their origins and their nibbles, worked out by hand.
fn by_hand() -> Vec<(Vec<u8>, Vec<u8>, usize)> {
    let twenty = [&[b' '; 20][..], b"B"].concat();
    vec![
        (b"A1".to_vec(), vec![0; 2], 3),
        (b"12   3".to_vec(), vec![0; 6], 5),
        (twenty, vec![0; 21], 6),
        (b"a".to_vec(), vec![1], 3),
        (b"A".to_vec(), vec![1], 3),
        (b" ".to_vec(), vec![1], 3),
        (vec![b'a'; 85], vec![1; 85], 255),
        (vec![b'0'; 255], vec![0; 255], 255),
        (vec![b'Z'; 127], vec![0; 127], 254),
        (b"/&+-{}".to_vec(), vec![0; 6], 12),
        // Trailing plain spaces are not written, an original 32 is.
        (b"A1 ".to_vec(), vec![0; 3], 3),
        (b"A1    ".to_vec(), vec![0; 6], 3),
        ([&b"7"[..], &[b' '; 300]].concat(), vec![0; 301], 1),
        (b"7  ".to_vec(), vec![0, 0, 1], 5),
        (b"7  ".to_vec(), vec![0, 1, 0], 4),
        (
            [&[b'a'; 85][..], b"  "].concat(),
            [&[1; 85][..], &[0; 2]].concat(),
            255,
        ),
        // 18 times 127 spaces take 254 nibbles.
        ([&[b' '; 2286][..], b"5"].concat(), vec![0; 2287], 255),
    ]
}

#[test]
fn put_and_fetch_give_the_nibbles() {
    for (text, marks, nibbles) in by_hand() {
        let mut buffer = fresh_buffer(200);
        assert_eq!(put_text(&mut buffer, &text, &marks), Ok(nibbles));
        assert_eq!(al(&buffer), nibbles);
        assert_eq!(judge(&buffer).unwrap().nibbles, 75 + 3 + nibbles);
        let (mut out, mut marks_out) = (vec![0xEE; 2400], vec![0xDD; 2400]);
        let fetched = fetch_text(&buffer, &mut out, &mut marks_out).unwrap();
        assert_eq!(fetched.nibbles, nibbles);
        let read = read_out(&buffer, &mut out, &mut marks_out).unwrap();
        assert_eq!(read, fetched);
        assert_eq!(fetch(&buffer, 4, &mut [0xEE; 255]), Ok(nibbles));
    }
}

/// The labels and the order of what is given. Plain put and fetch give what they gave.
#[test]
fn the_numbers_of_the_calls() {
    let number = |quantity, value| Number {
        quantity,
        value: Some(value),
    };
    let count = number(Quantity::Count, 3);
    let text = [
        count,
        number(Quantity::Set, 0),
        number(Quantity::Nibbles, 5),
    ];
    let output = |length| vec![0xEE; length];
    let calls = [
        (
            Call::PutText {
                text: b"1 A ".to_vec(),
                origins: vec![0, 0, 1, 0],
            },
            vec![number(Quantity::Nibbles, 5)],
        ),
        (
            Call::FetchText {
                text: output(3),
                origins: output(3),
            },
            text.to_vec(),
        ),
        (
            Call::Fetch {
                id: 4,
                output: output(5),
            },
            vec![number(Quantity::Count, 5)],
        ),
        (
            Call::Put {
                id: 4,
                content: vec![15, 4, 1, 7, 13, 10],
            },
            Vec::new(),
        ),
        (
            Call::FetchText {
                text: output(3),
                origins: output(3),
            },
            vec![count, text[1], number(Quantity::Nibbles, 6)],
        ),
    ];
    let mut buffer = fresh_buffer(60);
    let mut observation = fresh_observation();
    for (call, due) in calls {
        let answer = call.run(&mut buffer, &FlagTable::all());
        assert_eq!(answer.result, Ok(due), "{call:?}");
        let (after, stepped) = step(&observation, 60, &call, &FlagTable::all());
        assert_eq!(stepped, answer, "{call:?}");
        observation = after;
    }
}

/// Among other attachments, and over a text that stood there.
#[test]
fn put_and_fetch_give_the_same_number() {
    let mut prng = Prng::new(32);
    let mut fewer = 0;
    for _ in 0..2000 {
        let pieces = 1 + prng.below(25);
        let text = random_text(&mut prng, pieces);
        let nibbles = cost_by_hand(&text);
        let mut buffer = random_observation(&mut prng).packing();
        buffer.resize(buffer.len() + 150, 0xA5);
        let before = buffer.clone();
        let put = put_text(&mut buffer, &bytes(&text), &origins(&text));
        if !(1..=255).contains(&nibbles) {
            assert_eq!((put, buffer), (refused(12, 0), before));
            continue;
        }
        assert_eq!(put, Ok(nibbles));
        let mut out = [vec![0xEE; 1200], vec![0xDD; 1200]];
        let [out, marks] = &mut out;
        let fetched = fetch_text(&buffer, out, marks).unwrap();
        assert_eq!(fetched.nibbles, nibbles);
        assert_eq!(read_out(&buffer, out, marks), Ok(fetched));
        let report = judge(&buffer).unwrap().observation;
        assert_eq!(report.content(4).map(<[u8]>::len), Some(nibbles));
        fewer += usize::from(fetched.symbols < text.len());
    }
    assert!(fewer > 200, "{fewer}");
}

/// A text behind another attachment: the count is of its own nibbles.
#[test]
fn the_header_is_not_counted() {
    let report = fresh_with_tail(2, &[0, 2, 9, 1, 1, 0, 1, 4, 8]);
    let (mut text, mut marks) = ([0xEE], [0xDD]);
    let fetched = fetch_text(&report, &mut text, &mut marks).unwrap();
    assert_eq!((fetched.symbols, fetched.nibbles), (1, 1));
    let mut buffer = report.clone();
    assert_eq!(put_text(&mut buffer, b"6", &[0]), Ok(1));
}

/// What holds of any choice: put text does not refuse its symbols by 14, and there are
/// three nibbles for each.
fn is_costliest(text: &[u8], marks: &[u8]) -> bool {
    let has_short_code = |byte: u8| SHORT.iter().any(|&(short, _)| short == byte);
    let mut pairs = text.iter().zip(marks);
    let are_symbols = pairs.all(|(&byte, &mark)| mark == 1 || (mark == 0 && has_short_code(byte)));
    let row = symbols(text, marks);
    are_symbols && row.is_some_and(|row| cost_by_hand(&row) == 3 * text.len())
}

/// Outputs that just fit and longer ones, of which the rest stays.
#[test]
fn the_costliest_text_of_every_length() {
    for n in 0..=85 {
        for (more_text, more_marks) in [(0, 0), (1, 0), (0, 1), (9, 4), (200, 300)] {
            let held: Vec<u8> = (0..n + more_text).map(|place| place as u8 ^ 0x5A).collect();
            let held_marks: Vec<u8> = (0..n + more_marks).map(|place| !(place as u8)).collect();
            let (mut text, mut marks) = (held.clone(), held_marks.clone());
            assert_eq!(costliest(n as u64, &mut text, &mut marks), Ok(()));
            assert!(is_costliest(&text[..n], &marks[..n]), "{n}");
            assert_eq!(marks[..n], vec![1; n]);
            assert_eq!((&text[n..], &marks[n..]), (&held[n..], &held_marks[n..]));
            let mut buffer = fresh_buffer(200);
            let put = put_text(&mut buffer, &text[..n], &marks[..n]);
            if n == 0 {
                assert_eq!((put, buffer), (refused(12, 0), fresh_buffer(200)));
            } else {
                assert_eq!((put, al(&buffer)), (Ok(3 * n), 3 * n));
            }
        }
    }
}

/// Either output too short, or both.
#[test]
fn the_costliest_text_is_refused_where_an_output_is_too_short() {
    for n in 1..=85 {
        for (text, marks) in [
            (n - 1, n),
            (n, n - 1),
            (n - 1, n - 1),
            (0, n),
            (n, 0),
            (0, 0),
            (n - 1, n + 5),
            (n + 5, n - 1),
        ] {
            let (mut out, mut marks_out) = (vec![0xEE; text], vec![0xDD; marks]);
            let answer = costliest(n as u64, &mut out, &mut marks_out);
            assert_eq!(answer, refused(13, 0), "{n} {text} {marks}");
            assert_eq!((out, marks_out), (vec![0xEE; text], vec![0xDD; marks]));
        }
    }
}

/// 9 comes before 13 and has place 0; a number is taken in all 64 bits.
#[test]
fn more_than_85_symbols_are_refused() {
    let wide = (8..64).map(|bit| 1 << bit);
    let numbers = (86..=400)
        .chain(wide.clone())
        .chain(wide.map(|n: u64| n + 85));
    for n in numbers.chain([u64::MAX]) {
        for room in [0, 84, 85, 86, 400] {
            let (mut text, mut marks) = (vec![0xEE; room], vec![0xDD; room]);
            let answer = costliest(n, &mut text, &mut marks);
            assert_eq!(answer, refused(9, 0), "{n} {room}");
            assert_eq!((text, marks), (vec![0xEE; room], vec![0xDD; room]));
        }
    }
}

/// The bytes that a case is lent and those that it leaves.
struct Lent {
    symbols: u64,
    text: Vec<u8>,
    origins: Vec<u8>,
    outcome: Outcome,
}

fn costliest_cases(cases: Vec<Case>) -> Vec<Lent> {
    let lent = |case: Case| {
        let outcome = run_case(&case);
        match case {
            Case::Costliest {
                symbols,
                text,
                origins,
            } => Some(Lent {
                symbols,
                text,
                origins,
                outcome,
            }),
            _ => None,
        }
    };
    cases.into_iter().filter_map(lent).collect()
}

/// Each case by its rules, in the lines and in the records.
#[test]
fn every_case_by_hand() {
    for cases in [fixed(), whole_cases::cases(SEED)] {
        let mut met = [0; 14];
        for lent in costliest_cases(cases) {
            let Outcome::Costliest {
                result,
                text,
                origins,
            } = lent.outcome
            else {
                panic!("another outcome");
            };
            let room = lent.text.len().min(lent.origins.len()) as u64;
            let due = match lent.symbols {
                86.. => Err(refusal(9, 0)),
                n if n > room => Err(refusal(13, 0)),
                0 => Ok(refused(12, 0)),
                n => Ok(Ok(3 * n as usize)),
            };
            let symbols = lent.symbols as usize;
            assert_eq!(result, due.map(|put| Chosen { symbols, put }));
            met[due.map_or_else(|refusal| refusal.number.into(), |_| 0)] += 1;
            let n = due.map_or(0, |_| symbols);
            assert!(is_costliest(&text[..n], &origins[..n]));
            assert_eq!(
                (&text[n..], &origins[n..]),
                (&lent.text[n..], &lent.origins[n..])
            );
        }
        assert!(met[0] > 200 && met[9] > 30 && met[13] > 40, "{met:?}");
    }
}

#[test]
fn records_have_every_number_and_every_edge() {
    let lent = costliest_cases(whole_cases::cases(SEED));
    let rooms = |n: u64| -> Vec<(usize, usize)> {
        let of_n = lent.iter().filter(|lent| lent.symbols == n);
        of_n.map(|lent| (lent.text.len(), lent.origins.len()))
            .collect()
    };
    for n in 0..=85 {
        let rooms = rooms(n as u64);
        assert!(rooms.contains(&(n, n)), "{n}");
        assert!(
            rooms.iter().any(|&(text, marks)| text > n && marks > n),
            "{n}"
        );
    }
    for n in [86, 87, 255, 256, 1 << 32, 1 << 63, u64::MAX] {
        let rooms = rooms(n);
        assert!(rooms.contains(&(0, 0)), "{n}");
        assert!(
            rooms.contains(&(85, 84)) && rooms.contains(&(84, 85)),
            "{n}"
        );
        assert!(
            rooms.iter().any(|&(text, marks)| text > 85 && marks > 85),
            "{n}"
        );
    }
    for n in [1, 85] {
        let rooms = rooms(n as u64);
        for short in [
            (n - 1, n),
            (n, n - 1),
            (n - 1, n - 1),
            (0, 0),
            (0, n),
            (n, 0),
        ] {
            assert!(rooms.contains(&short), "{n} {short:?}");
        }
    }
    let held: BTreeSet<u8> = lent.iter().flat_map(|lent| lent.origins.clone()).collect();
    assert!(held.len() > 200 && held.contains(&0) && held.contains(&1));
}

/// Neither the records nor the lines show which bytes are chosen.
#[test]
fn another_choice_is_answered_alike() {
    let mut prng = Prng::new(33);
    let mut changed = 0;
    for lent in costliest_cases(whole_cases::cases(SEED)) {
        let answer = record::answer(&lent.outcome);
        let mut other = lent.outcome.clone();
        if let Outcome::Costliest {
            result: Ok(chosen),
            text,
            ..
        } = &mut other
        {
            let drawn = prng.bytes(chosen.symbols);
            text[..chosen.symbols].copy_from_slice(&drawn);
        }
        changed += usize::from(other != lent.outcome);
        assert_eq!(record::answer(&other), answer);
    }
    assert!(changed > 200, "{changed}");
}

/// A list puts every number of nibbles from 1 to 255, some of them with trailing spaces.
#[test]
fn lists_give_every_number_of_nibbles() {
    let (mut given, mut fetched, mut dropped) = (Vec::new(), 0, 0);
    for list in nibble_cases::lists() {
        let (_, ran) = run_list(&list);
        assert_eq!(ran.taken, list.script.len());
        let mut last = 0;
        for (call, answer) in ran.calls {
            let numbers = answer.result.unwrap();
            if let Call::PutText { text, origins } = &call {
                let row = symbols(text, origins).unwrap();
                last = cost_by_hand(&row);
                assert_eq!(numbers, [Number::nibbles(last)]);
                assert_eq!(put_call(&row), call);
                dropped += usize::from(row.ends_with(&[Symbol::SPACE]));
                given.push(last);
            } else {
                assert_eq!(numbers[2], Number::nibbles(last));
                fetched += 1;
            }
        }
    }
    assert_eq!(given, (1..=255).collect::<Vec<_>>());
    assert!(dropped > 150 && fetched > 50, "{dropped} {fetched}");
    let items = list_cases::items(SEED);
    let mut last: Vec<Item> = nibble_cases::lists().into_iter().map(Item::List).collect();
    last.extend(former_cases::items(SEED));
    last.extend(indicator_cases::items(SEED));
    assert!(items.ends_with(&last));
}
