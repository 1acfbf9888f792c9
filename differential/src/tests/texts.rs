//! What has to be found of texts: their symbols, their nibbles, both outputs, the set and
//! the reader.

use reference::cases::material::{fetch_text_to, put_bytes, put_text};
use reference::table::Scaled;
use reference::text::Symbol as TextSymbol;

use super::*;
use crate::library::{END, ORIGINAL, PLAIN, Reader, Symbol};

/// A report that takes every text.
fn ample() -> Vec<u8> {
    let mut buffer = observation_with(&[]).packing();
    buffer.resize(200, 0);
    buffer
}

/// The report of a text.
fn report_of(nibbles: &[u8]) -> Vec<u8> {
    observation_with(&[(9, &[3]), (4, nibbles)]).packing()
}

fn run(tally: &mut Tally, buffer: Vec<u8>, call: Call) {
    let trial = Given::Call { buffer, call }.under(FlagTable::all());
    assert!(compare(&mut Harness::new(STAND_IN), tally, &trial).is_none());
}

fn put(tally: &mut Tally, text: &[TextSymbol]) {
    run(tally, ample(), put_text(text));
}

fn originals(bytes: &[u8]) -> Vec<TextSymbol> {
    let symbols = bytes.iter().map(|&byte| TextSymbol::original(byte));
    symbols.collect()
}

fn plain(bytes: &[u8]) -> Vec<TextSymbol> {
    let symbols = bytes.iter().filter_map(|&byte| TextSymbol::plain(byte));
    symbols.collect()
}

/// What the tally has never seen, of the lines that begin so.
fn unseen(tally: &Tally, front: &str) -> Vec<String> {
    let mut unseen = tally.unseen();
    unseen.retain(|name| name.starts_with(front));
    unseen
}

fn never_put(tally: &Tally) -> Vec<String> {
    let originals = unseen(tally, "put text, original byte ");
    [originals, unseen(tally, "put text, plain byte ")].concat()
}

/// 256 original symbols and 43 plain ones.
#[test]
fn every_symbol_has_to_be_put() {
    let mut tally = Tally::default();
    assert_eq!(never_put(&tally).len(), 299);
    let bytes: Vec<u8> = (0..=255).collect();
    for part in bytes.chunks(64) {
        let part: Vec<u8> = part.iter().copied().filter(|&byte| byte != 65).collect();
        put(&mut tally, &originals(&part));
        put(&mut tally, &[plain(&part), plain(b"1")].concat());
    }
    let two = ["put text, original byte 65", "put text, plain byte 65"];
    assert_eq!(never_put(&tally), two);
    // Refused: 86 times three nibbles are too many, and "a" is not plain.
    put(&mut tally, &originals(&[65; 86]));
    run(&mut tally, ample(), put_bytes(b"Aa", &[0, 0]));
    assert_eq!(never_put(&tally), two);
    put(&mut tally, &originals(b"A"));
    assert_eq!(never_put(&tally), two[1..]);
    put(&mut tally, &plain(b"A"));
    assert_eq!(never_put(&tally), [""; 0]);
    let shown = tally.to_string();
    assert!(shown.contains("symbols put: 299 of 299, "), "{shown}");
}

#[test]
fn a_trailing_plain_space_is_not_put() {
    let mut tally = Tally::default();
    let names = |space: &str| vec![format!("put text, {space} byte 32")];
    let left = |tally: &Tally| {
        let mut left = never_put(tally);
        left.retain(|name| name.ends_with(" byte 32"));
        left
    };
    put(&mut tally, &plain(b"A  "));
    put(&mut tally, &plain(b"   "));
    assert_eq!(left(&tally), [names("original"), names("plain")].concat());
    put(&mut tally, &originals(b" "));
    assert_eq!(left(&tally), names("plain"));
    put(&mut tally, &plain(b"A B"));
    assert_eq!(left(&tally), [""; 0]);
}

/// A whole run fails where a symbol was never put, and a shorter one does not.
#[test]
fn a_symbol_never_put_fails_a_whole_run() {
    let mut whole = Tally::default();
    assert!(first_difference(STAND_IN, &mut whole).is_none());
    assert!(whole.passes(DEFAULT_CALLS));
    let mut without = Tally::default();
    let mut harness = Harness::new(STAND_IN);
    let puts_it = |call: &Call| match call {
        Call::PutText { text, origins } => {
            let mut pairs = text.iter().zip(origins);
            pairs.any(|pair| pair == (&b'A', &1))
        }
        _ => false,
    };
    for case in 0..CASES {
        for trial in trials(SEED, case) {
            let left_out = match &trial.given {
                Given::Call { call, .. } => puts_it(call),
                Given::List { calls, .. } => calls.iter().any(puts_it),
                _ => false,
            };
            if !left_out {
                assert!(compare(&mut harness, &mut without, &trial).is_none());
            }
        }
    }
    assert_eq!(without.unseen(), ["put text, original byte 65"]);
    assert!(!without.passes(DEFAULT_CALLS));
    assert!(without.passes(DEFAULT_CALLS - 1));
}

/// Both reasons of 13 and both of 14; a text with both faults of 14 is not counted.
#[test]
fn the_reasons_of_put_text_are_counted() {
    let mut tally = Tally::default();
    let names = [
        "put text, refusal 13 by lengths",
        "put text, refusal 13 by buffer",
        "put text, refusal 14 by byte",
        "put text, refusal 14 by origin",
    ];
    let left = |tally: &Tally| {
        let mut left = tally.unseen();
        left.retain(|name| names.contains(&name.as_str()));
        left
    };
    run(&mut tally, ample(), put_bytes(b"aA", &[0, 2]));
    assert_eq!(left(&tally), names);
    run(&mut tally, ample(), put_bytes(b"a", &[2, 2]));
    assert_eq!(left(&tally), names[1..]);
    let full = observation_with(&[]).packing();
    run(&mut tally, full, put_bytes(b"A", &[0]));
    assert_eq!(left(&tally), names[2..]);
    run(&mut tally, ample(), put_bytes(b"Aa", &[0, 0]));
    run(&mut tally, ample(), put_bytes(b"Aa", &[0, 0]));
    assert_eq!(left(&tally), names[3..]);
    run(&mut tally, ample(), put_bytes(b"Aa", &[0, 255]));
    assert_eq!(left(&tally), [""; 0]);
    let shown = tally.to_string();
    for line in [
        "put text by   lengths   buffer     byte   origin",
        "                    1        1        2        1",
    ] {
        assert!(shown.lines().any(|shown| shown == line), "{shown}");
    }
}

#[test]
fn the_sets_are_counted() {
    let mut tally = Tally::default();
    let fetch = |tally: &mut Tally, sid: Option<i64>, room: usize| {
        let mut observation = observation_with(&[(4, &[1])]);
        observation.values[9] = sid.map(Scaled);
        run(tally, observation.packing(), fetch_text_to(room, 1));
    };
    let names =
        ["EBCDIC", "ASCII", "unknown", "missing"].map(|set| format!("fetch text, set {set}"));
    let left = |tally: &Tally| unseen(tally, "fetch text, set ");
    fetch(&mut tally, Some(1), 0);
    assert_eq!(left(&tally), names);
    fetch(&mut tally, Some(24), 1);
    assert_eq!(left(&tally), names[1..]);
    fetch(&mut tally, Some(18), 1);
    assert_eq!(left(&tally), names[2..]);
    fetch(&mut tally, Some(22), 1);
    assert_eq!(left(&tally), names[3..]);
    fetch(&mut tally, None, 1);
    assert_eq!(left(&tally), [""; 0]);
    let shown = tally.to_string();
    for line in [
        "sets given     EBCDIC    ASCII  unknown  missing",
        "                    1        1        1        1",
    ] {
        assert!(shown.lines().any(|shown| shown == line), "{shown}");
    }
}

/// Numbers worked out by hand: the text begins behind 75 + 4 + 3 nibbles.
#[test]
fn a_read_out_has_the_header_s_form() {
    let read_out = |report: &[u8], text: usize, origins: usize| Case::ReadOut {
        report: report.to_vec(),
        text: vec![0xEE; text],
        origins: vec![0xDD; origins],
    };
    let refused = |refusal, place| Answer {
        refusal,
        place,
        ..Answer::default()
    };
    let given = Answer {
        given: 3,
        first: 5,
        ..Answer::default()
    };
    let accepted = Answer::default();
    let (plain, original, end) = (
        |byte: u8| [PLAIN, byte.into()],
        |byte: u8| [ORIGINAL, byte.into()],
        [END, 0],
    );
    let text = [
        plain(b' '),
        plain(b' '),
        plain(b' '),
        original(b' '),
        plain(b'A'),
    ];
    let opened = [82, 89, 0, 0, 0];
    let sound = report_of(&[11, 0, 15, 2, 0, 12, 1]);
    let absent = observation_with(&[(9, &[3])]).packing();
    let mut harness = Harness::new(STAND_IN);
    for (report, rooms, numbers, answers, outputs) in [
        (&sound, (5, 6), opened, (accepted, given), true),
        (&sound, (4, 6), opened, (accepted, refused(13, 0)), false),
        (&sound, (5, 4), opened, (accepted, refused(13, 0)), false),
        (
            &absent,
            (5, 5),
            [0, 0, 0, 11, 0],
            (refused(11, 0), refused(11, 0)),
            false,
        ),
        (
            &vec![0; 9],
            (0, 0),
            [0, 0, 0, 1, 0],
            (refused(1, 0), refused(1, 0)),
            false,
        ),
    ] {
        let case = read_out(report, rooms.0, rooms.1);
        let all = FlagTable::all();
        let mut steps: Vec<[u32; 2]> = Vec::new();
        if answers.0.refusal == 0 {
            steps.extend(text);
        }
        steps.extend([end; 3]);
        let steps: Vec<u8> = steps
            .concat()
            .iter()
            .flat_map(|n| n.to_ne_bytes())
            .collect();
        let numbers: Vec<u8> = numbers.iter().flat_map(|n: &u64| n.to_ne_bytes()).collect();
        let (mut bytes, mut marks) = (vec![0xEE; rooms.0], vec![0xDD; rooms.1]);
        if outputs {
            bytes[..5].copy_from_slice(b"    A");
            marks[..5].copy_from_slice(&[0, 0, 0, 1, 0]);
        }
        for outcome in [expected::whole(&case, &all), harness.whole(&case, &all)] {
            let (opened, read) = answers;
            assert_eq!(outcome.said, Said::Read { opened, read });
            assert_eq!(outcome.buffer("report"), Some(&state_of(report)[..]));
            assert_eq!(outcome.buffer("reader"), Some(&state_of(&numbers)[..]));
            assert_eq!(outcome.buffer("steps"), Some(&state_of(&steps)[..]));
            assert_eq!(outcome.buffer("kept at the end"), Some(&state_of(&[1])[..]));
            assert_eq!(outcome.buffer("text"), Some(&state_of(&bytes)[..]));
            assert_eq!(outcome.buffer("origins"), Some(&state_of(&marks)[..]));
        }
    }
}

type PutText = unsafe extern "C" fn(
    *mut u8,
    usize,
    *const u8,
    usize,
    *const u8,
    usize,
    *const Flags,
) -> Answer;

/// The first difference, which has to be in a put text: its text and its origins.
fn found_put(wrong: PutText) -> (Difference, Vec<u8>, Vec<u8>) {
    let found = found(Library {
        put_text: wrong,
        ..STAND_IN
    });
    let Given::Call {
        call: Call::PutText { text, origins },
        ..
    } = found.trial.given.clone()
    else {
        panic!("no put text: {}", found.trial);
    };
    (found, text, origins)
}

/// A library that puts other bytes or other origins than it is lent.
unsafe fn put_changed(
    report: *mut u8,
    n: usize,
    lent: [&[u8]; 2],
    flags: *const Flags,
    change: fn(&mut [u8], &mut [u8]),
) -> Answer {
    let (mut text, mut origins) = (lent[0].to_vec(), lent[1].to_vec());
    change(&mut text, &mut origins);
    unsafe {
        stand_in::put_text(
            report,
            n,
            text.as_ptr(),
            text.len(),
            origins.as_ptr(),
            origins.len(),
            flags,
        )
    }
}

/// A wrong put text by what it changes in a text and its origins.
macro_rules! put_with {
    ($change:expr) => {{
        unsafe extern "C" fn wrong(
            report: *mut u8,
            n: usize,
            text: *const u8,
            text_n: usize,
            origins: *const u8,
            origins_n: usize,
            flags: *const Flags,
        ) -> Answer {
            unsafe {
                let lent = [
                    stand_in::input(text, text_n),
                    stand_in::input(origins, origins_n),
                ];
                put_changed(report, n, lent, flags, $change)
            }
        }
        wrong as PutText
    }};
}

/// Every original byte is drawn, here one that has no short code.
#[test]
fn a_byte_that_is_put_wrong_is_found() {
    let (found, text, _) = found_put(put_with!(|text, _| {
        for byte in text.iter_mut().filter(|byte| **byte == 0xF7) {
            *byte = 0xF6;
        }
    }));
    assert_eq!(differing(&found), ["report"]);
    assert!(text.ends_with(&[0xF7]));
}

/// An original byte with a short code is put as a plain one.
#[test]
fn an_original_that_is_put_plain_is_found() {
    let (found, text, origins) = found_put(put_with!(|text, origins| {
        for (byte, origin) in text.iter().zip(origins) {
            if *origin == 1 && TextSymbol::plain(*byte).is_some() {
                *origin = 0;
            }
        }
    }));
    assert_eq!(differing(&found), ["report"]);
    let (last, origin) = (text[text.len() - 1], origins[origins.len() - 1]);
    assert!(TextSymbol::plain(last).is_some());
    assert_eq!(origin, 1);
}

/// An original 32 is put as a space, and dropped where it is the last.
#[test]
fn an_original_32_that_is_put_as_a_space_is_found() {
    let (_, text, origins) = found_put(put_with!(|text, origins| {
        for (byte, origin) in text.iter().zip(origins) {
            if (*byte, *origin) == (b' ', 1) {
                *origin = 0;
            }
        }
    }));
    assert!(text.iter().zip(&origins).any(|pair| pair == (&b' ', &1)));
}

/// A plain byte without a short code is escaped.
#[test]
fn a_plain_byte_without_a_short_code_that_is_put_is_found() {
    let (found, text, origins) = found_put(put_with!(|text, origins| {
        for (byte, origin) in text.iter().zip(origins) {
            if *origin == 0 && TextSymbol::plain(*byte).is_none() {
                *origin = 1;
            }
        }
    }));
    assert_ne!(found.expected.said, found.got.said);
    assert_eq!(found.expected.refusal(), 14);
    let mut pairs = text.iter().zip(&origins);
    assert!(pairs.any(|(&byte, &origin)| origin == 0 && TextSymbol::plain(byte).is_none()));
}

#[test]
fn an_origin_over_1_that_is_put_is_found() {
    let (found, _, origins) = found_put(put_with!(|_, origins| {
        for origin in origins {
            *origin = (*origin).min(1);
        }
    }));
    assert_eq!(found.expected.refusal(), 14);
    assert!(origins.iter().any(|&origin| origin > 1));
}

/// The highest bit of an origin is not looked at.
#[test]
fn an_origin_that_is_cut_is_found() {
    let (found, _, origins) = found_put(put_with!(|_, origins| {
        for origin in origins {
            *origin &= 0x7F;
        }
    }));
    assert_eq!(found.expected.refusal(), 14);
    assert!(origins.iter().any(|&origin| origin > 127));
}

/// Symbols behind the 86th are not looked at, as the text is too long by then.
#[test]
fn a_bad_symbol_behind_a_text_that_is_too_long_is_found() {
    unsafe extern "C" fn wrong(
        report: *mut u8,
        n: usize,
        text: *const u8,
        text_n: usize,
        origins: *const u8,
        origins_n: usize,
        flags: *const Flags,
    ) -> Answer {
        unsafe {
            let answer = stand_in::put_text(report, n, text, text_n, origins, origins_n, flags);
            if answer.refusal != 14 {
                return answer;
            }
            let (text, origins) = (
                stand_in::input(text, text_n),
                stand_in::input(origins, origins_n),
            );
            let symbol = |(&byte, &origin)| TextSymbol::of(byte, origin);
            let front: Vec<TextSymbol> = text.iter().zip(origins).map_while(symbol).collect();
            if reference::text::write(&front).len() > 255 {
                return Answer {
                    refusal: 12,
                    ..Answer::default()
                };
            }
            answer
        }
    }
    let (found, text, _) = found_put(wrong);
    assert_eq!(found.expected.refusal(), 14);
    assert!(text.len() > 86);
}

/// A text of one length and origins of another, of which the shorter is taken.
#[test]
fn lengths_that_differ_are_tried() {
    unsafe extern "C" fn wrong(
        report: *mut u8,
        n: usize,
        text: *const u8,
        text_n: usize,
        origins: *const u8,
        origins_n: usize,
        flags: *const Flags,
    ) -> Answer {
        let shorter = text_n.min(origins_n);
        unsafe { stand_in::put_text(report, n, text, shorter, origins, shorter, flags) }
    }
    let (found, text, origins) = found_put(wrong);
    assert_eq!(found.expected.refusal(), 13);
    assert_eq!(text.len().abs_diff(origins.len()), 1);
}

/// A bad symbol is refused before lengths that differ.
#[test]
fn an_order_of_14_before_13_is_found() {
    unsafe extern "C" fn wrong(
        report: *mut u8,
        n: usize,
        text: *const u8,
        text_n: usize,
        origins: *const u8,
        origins_n: usize,
        flags: *const Flags,
    ) -> Answer {
        let shorter = text_n.min(origins_n);
        unsafe {
            let answer = stand_in::put_text(report, n, text, text_n, origins, origins_n, flags);
            let rows = [text, origins].map(|row| stand_in::input(row, shorter));
            let bad = reference::text::symbols(rows[0], rows[1]).is_none();
            if answer.refusal == 13 && text_n != origins_n && bad {
                return Answer {
                    refusal: 14,
                    ..Answer::default()
                };
            }
            answer
        }
    }
    let (found, text, origins) = found_put(wrong);
    assert_eq!(found.expected.refusal(), 13);
    assert_ne!(text.len(), origins.len());
}

/// A wrong put text by what it makes of an accepted answer and the text's length.
macro_rules! put_giving {
    ($change:expr) => {{
        unsafe extern "C" fn wrong(
            report: *mut u8,
            n: usize,
            text: *const u8,
            text_n: usize,
            origins: *const u8,
            origins_n: usize,
            flags: *const Flags,
        ) -> Answer {
            let mut answer =
                unsafe { stand_in::put_text(report, n, text, text_n, origins, origins_n, flags) };
            if answer.refusal == 0 {
                let change: fn(&mut Answer, usize) = $change;
                change(&mut answer, text_n);
            }
            answer
        }
        wrong as PutText
    }};
}

/// The header's nibbles are counted, the symbols are, an odd number is made even, bytes
/// are counted, a number over 127 is negative, it is 0, it has no label or another one,
/// it is given twice, or it is not given.
#[test]
fn wrong_nibbles_of_put_text_are_found() {
    for wrong in [
        put_giving!(|answer, _| answer.first += 3),
        put_giving!(|answer, symbols| answer.first = symbols as i64),
        put_giving!(|answer, _| answer.first += answer.first % 2),
        put_giving!(|answer, _| answer.first = (answer.first + 1) / 2),
        put_giving!(|answer, _| answer.first = i64::from(answer.first as i8)),
        put_giving!(|answer, _| answer.first = 0),
        put_giving!(|answer, _| answer.given = 0),
        put_giving!(|answer, _| answer.given = 3),
        put_giving!(|answer, _| answer.third = answer.first),
        put_giving!(|answer, _| (answer.given, answer.first) = (0, 0)),
    ] {
        let (found, _, _) = found_put(wrong);
        assert_ne!(found.expected.said, found.got.said);
        assert_eq!(found.expected.refusal(), 0);
        assert_eq!(differing(&found), [""; 0]);
    }
}

/// Spaces at the end are counted as if a symbol followed them.
#[test]
fn nibbles_that_are_not_written_are_found() {
    unsafe extern "C" fn wrong(
        report: *mut u8,
        n: usize,
        text: *const u8,
        text_n: usize,
        origins: *const u8,
        origins_n: usize,
        flags: *const Flags,
    ) -> Answer {
        unsafe {
            let mut answer = stand_in::put_text(report, n, text, text_n, origins, origins_n, flags);
            if answer.refusal == 0 {
                let rows = [text, origins].map(|row| stand_in::input(row, text_n));
                let mut symbols = reference::text::symbols(rows[0], rows[1]).unwrap();
                symbols.extend(plain(b"0"));
                answer.first = reference::text::write(&symbols).len() as i64 - 1;
            }
            answer
        }
    }
    let (found, text, origins) = found_put(wrong);
    assert_ne!(found.expected.said, found.got.said);
    assert_eq!((text.last(), origins.last()), (Some(&b' '), Some(&0)));
}

type FetchText =
    unsafe extern "C" fn(*const u8, usize, *mut u8, usize, *mut u8, usize, *const Flags) -> Answer;

/// The first difference, which has to be in a fetch text.
fn found_fetch(wrong: FetchText) -> Difference {
    let found = found(Library {
        fetch_text: wrong,
        ..STAND_IN
    });
    let is_fetch = matches!(
        found.trial.given,
        Given::Call {
            call: Call::FetchText { .. },
            ..
        }
    );
    assert!(is_fetch, "no fetch text: {}", found.trial);
    found
}

#[test]
fn a_wrong_set_is_found() {
    unsafe extern "C" fn wrong(
        report: *const u8,
        n: usize,
        text: *mut u8,
        text_n: usize,
        origins: *mut u8,
        origins_n: usize,
        flags: *const Flags,
    ) -> Answer {
        unsafe {
            let sid = stand_in::read_field(report, n, 10, flags);
            let mut answer =
                stand_in::fetch_text(report, n, text, text_n, origins, origins_n, flags);
            if answer.refusal == 0 && (sid.given, sid.first) == (1, 18) {
                answer.second = 1;
            }
            answer
        }
    }
    let found = found_fetch(wrong);
    assert_ne!(found.expected.said, found.got.said);
    assert_eq!(differing(&found), [""; 0]);
}

/// An unknown set that is given as missing.
#[test]
fn a_missing_set_is_found() {
    unsafe extern "C" fn wrong(
        report: *const u8,
        n: usize,
        text: *mut u8,
        text_n: usize,
        origins: *mut u8,
        origins_n: usize,
        flags: *const Flags,
    ) -> Answer {
        unsafe {
            let mut answer =
                stand_in::fetch_text(report, n, text, text_n, origins, origins_n, flags);
            if answer.refusal == 0 && answer.second == 0 {
                answer.given += 128 << 8;
            }
            answer
        }
    }
    let found = found_fetch(wrong);
    assert_ne!(found.expected.said, found.got.said);
}

/// A wrong fetch text by what it makes of an accepted answer.
macro_rules! fetch_giving {
    ($change:expr) => {{
        unsafe extern "C" fn wrong(
            report: *const u8,
            n: usize,
            text: *mut u8,
            text_n: usize,
            origins: *mut u8,
            origins_n: usize,
            flags: *const Flags,
        ) -> Answer {
            let mut answer =
                unsafe { stand_in::fetch_text(report, n, text, text_n, origins, origins_n, flags) };
            if answer.refusal == 0 {
                let change: fn(&mut Answer) = $change;
                change(&mut answer);
            }
            answer
        }
        wrong as FetchText
    }};
}

/// The header's nibbles are counted, the symbols are, an odd number is made even, a
/// number over 127 is negative, it is 0, it has no label, or it changes places with the
/// set or with the count.
#[test]
fn wrong_nibbles_of_fetch_text_are_found() {
    for wrong in [
        fetch_giving!(|answer| answer.third += 3),
        fetch_giving!(|answer| answer.third = answer.first),
        fetch_giving!(|answer| answer.third += answer.third % 2),
        fetch_giving!(|answer| answer.third = i64::from(answer.third as i8)),
        fetch_giving!(|answer| answer.third = 0),
        fetch_giving!(|answer| answer.given %= 65536),
        fetch_giving!(|answer| {
            (answer.second, answer.third) = (answer.third, answer.second);
            answer.given = 3 + 256 * 9 + 65536 * 10;
        }),
        fetch_giving!(|answer| (answer.first, answer.third) = (answer.third, answer.first)),
    ] {
        let found = found_fetch(wrong);
        assert_ne!(found.expected.said, found.got.said);
        assert_eq!(found.expected.refusal(), 0);
        assert_eq!(differing(&found), [""; 0]);
    }
}

/// The header's nibbles are counted in the log, or the number is left out of it.
#[test]
fn wrong_nibbles_in_the_log_are_found() {
    /// What becomes of the row of the first record, by the call's kind.
    unsafe fn change(script: *const u8, log: *mut u8, by: fn(u8, &mut [u8])) {
        let row = unsafe { std::slice::from_raw_parts_mut(log.add(HEAD), FRONT - HEAD) };
        by(unsafe { *script }, row);
    }
    unsafe extern "C" fn with_the_header(
        report: *mut u8,
        n: usize,
        script: *const u8,
        script_n: usize,
        log: *mut u8,
        log_n: usize,
        flags: *const Flags,
    ) -> Performed {
        unsafe {
            let performed = stand_in::replay(report, n, script, script_n, log, log_n, flags);
            if performed.calls > 0 {
                change(script, log, |kind, row| {
                    if (kind, row[0]) == (10, 9) {
                        row[8] = row[8].wrapping_add(3);
                    }
                });
            }
            performed
        }
    }
    unsafe extern "C" fn without_the_third(
        report: *mut u8,
        n: usize,
        script: *const u8,
        script_n: usize,
        log: *mut u8,
        log_n: usize,
        flags: *const Flags,
    ) -> Performed {
        unsafe {
            let performed = stand_in::replay(report, n, script, script_n, log, log_n, flags);
            if performed.calls > 0 {
                change(script, log, |kind, row| {
                    if kind == 11 {
                        row[18..].fill(0);
                    }
                });
            }
            performed
        }
    }
    for (wrong, kind) in [(with_the_header as Replay, 10), (without_the_third, 11)] {
        let found = found(Library {
            replay: wrong,
            ..STAND_IN
        });
        assert_eq!(differing(&found), ["log"]);
        let Given::Script { script, .. } = found.trial.given else {
            panic!("no script: {}", found.trial);
        };
        assert_eq!(script[0], kind);
        assert!(first_call(&script).is_some_and(|(_, rest)| rest.is_empty()));
    }
}

type Replay = unsafe extern "C" fn(
    *mut u8,
    usize,
    *const u8,
    usize,
    *mut u8,
    usize,
    *const Flags,
) -> Performed;

/// The bytes are written where only the origins are too short, and the other way about.
#[test]
fn an_output_that_is_touched_is_found() {
    unsafe extern "C" fn text_first(
        report: *const u8,
        n: usize,
        text: *mut u8,
        text_n: usize,
        origins: *mut u8,
        origins_n: usize,
        flags: *const Flags,
    ) -> Answer {
        unsafe {
            let answer = stand_in::fetch_text(report, n, text, text_n, origins, origins_n, flags);
            if answer.refusal == 13 {
                let mut unused = [0; 2400];
                let out = unused.as_mut_ptr();
                stand_in::fetch_text(report, n, text, text_n, out, 2400, flags);
            }
            answer
        }
    }
    unsafe extern "C" fn origins_first(
        report: *const u8,
        n: usize,
        text: *mut u8,
        text_n: usize,
        origins: *mut u8,
        origins_n: usize,
        flags: *const Flags,
    ) -> Answer {
        unsafe {
            let answer = stand_in::fetch_text(report, n, text, text_n, origins, origins_n, flags);
            if answer.refusal == 13 {
                let mut unused = [0; 2400];
                let out = unused.as_mut_ptr();
                stand_in::fetch_text(report, n, out, 2400, origins, origins_n, flags);
            }
            answer
        }
    }
    for (wrong, touched) in [
        (text_first as FetchText, "text"),
        (origins_first, "origins"),
    ] {
        let found = found_fetch(wrong);
        assert_eq!(found.expected.said, found.got.said);
        assert_eq!(differing(&found), [touched]);
    }
}

#[test]
fn a_wrong_origin_is_found() {
    unsafe extern "C" fn wrong(
        report: *const u8,
        n: usize,
        text: *mut u8,
        text_n: usize,
        origins: *mut u8,
        origins_n: usize,
        flags: *const Flags,
    ) -> Answer {
        unsafe {
            let answer = stand_in::fetch_text(report, n, text, text_n, origins, origins_n, flags);
            for index in 0..answer.first as usize {
                if TextSymbol::plain(*text.add(index)).is_some() {
                    *origins.add(index) = 0;
                }
            }
            answer
        }
    }
    assert_eq!(differing(&found_fetch(wrong)), ["origins"]);
}

/// The first difference, which has to be in a read out.
fn found_read_out(library: Library) -> Difference {
    let found = found(library);
    let is_read_out = matches!(found.trial.given, Given::Whole(Case::ReadOut { .. }));
    assert!(is_read_out, "no read out: {}", found.trial);
    found
}

type Open = unsafe extern "C" fn(*const u8, usize, *mut Reader, *const Flags) -> Answer;
type Next = unsafe extern "C" fn(*const u8, usize, *mut Reader) -> Symbol;

fn found_open(wrong: Open) -> Difference {
    found_read_out(Library {
        open_text: wrong,
        ..STAND_IN
    })
}

fn found_next(wrong: Next) -> Difference {
    found_read_out(Library {
        next_symbol: wrong,
        ..STAND_IN
    })
}

#[test]
fn a_wrong_answer_of_opening_is_found() {
    unsafe extern "C" fn wrong(
        report: *const u8,
        n: usize,
        reader: *mut Reader,
        flags: *const Flags,
    ) -> Answer {
        let mut answer = unsafe { stand_in::open_text(report, n, reader, flags) };
        if answer.refusal == 6 {
            answer.place = 0;
        }
        answer
    }
    let found = found_open(wrong);
    assert_ne!(found.expected.said, found.got.said);
}

/// A number that opening does not give.
#[test]
fn a_number_given_by_opening_is_found() {
    unsafe extern "C" fn wrong(
        report: *const u8,
        n: usize,
        reader: *mut Reader,
        flags: *const Flags,
    ) -> Answer {
        let mut answer = unsafe { stand_in::open_text(report, n, reader, flags) };
        if answer.refusal == 0 {
            answer.given = 3;
        }
        answer
    }
    assert_eq!(differing(&found_open(wrong)), [""; 0]);
}

/// The numbers are written on every path.
#[test]
fn a_reader_that_is_not_written_is_found() {
    unsafe extern "C" fn wrong(
        report: *const u8,
        n: usize,
        reader: *mut Reader,
        flags: *const Flags,
    ) -> Answer {
        let former = unsafe { *reader };
        let answer = unsafe { stand_in::open_text(report, n, reader, flags) };
        if answer.refusal == 11 {
            unsafe { ((*reader)[3], (*reader)[4]) = (former[3], former[4]) };
        }
        answer
    }
    assert_eq!(differing(&found_open(wrong)), ["reader"]);
}

/// A reader refused by 11 hands out what stands in the report.
#[test]
fn a_symbol_of_a_refused_reader_is_found() {
    unsafe extern "C" fn wrong(
        report: *const u8,
        n: usize,
        reader: *mut Reader,
        flags: *const Flags,
    ) -> Answer {
        let answer = unsafe { stand_in::open_text(report, n, reader, flags) };
        if answer.refusal == 11 {
            unsafe { (*reader)[2] = 1 };
        }
        answer
    }
    assert_eq!(differing(&found_open(wrong)), ["steps"]);
}

#[test]
fn a_byte_before_the_reader_is_found() {
    unsafe extern "C" fn wrong(report: *const u8, n: usize, reader: *mut Reader) -> Symbol {
        unsafe {
            let symbol = stand_in::next_symbol(report, n, reader);
            if symbol.kind == ORIGINAL {
                *reader.cast::<u8>().sub(1) = 0;
            }
            symbol
        }
    }
    let found = found(Library {
        next_symbol: wrong,
        ..STAND_IN
    });
    assert_eq!(differing(&found), ["reader"]);
}

/// An original 32 that is handed out as a plain space.
#[test]
fn a_wrong_kind_of_symbol_is_found() {
    unsafe extern "C" fn wrong(report: *const u8, n: usize, reader: *mut Reader) -> Symbol {
        let mut symbol = unsafe { stand_in::next_symbol(report, n, reader) };
        if symbol.byte == 32 && symbol.kind == ORIGINAL {
            symbol.kind = PLAIN;
        }
        symbol
    }
    let found = found_next(wrong);
    assert!(differing(&found).contains(&"steps"));
}

/// A run of which one space is not handed out.
#[test]
fn a_space_that_is_left_out_is_found() {
    unsafe extern "C" fn wrong(report: *const u8, n: usize, reader: *mut Reader) -> Symbol {
        unsafe {
            let symbol = stand_in::next_symbol(report, n, reader);
            if (*reader)[2] == 17 {
                (*reader)[2] = 16;
            }
            symbol
        }
    }
    let found = found_next(wrong);
    assert!(differing(&found).contains(&"steps"));
}

/// The last symbol is handed out again behind the end.
#[test]
fn a_symbol_behind_the_end_is_found() {
    unsafe extern "C" fn wrong(report: *const u8, n: usize, reader: *mut Reader) -> Symbol {
        unsafe {
            let symbol = stand_in::next_symbol(report, n, reader);
            if symbol.kind == END && (*reader)[0] > 0 {
                (*reader)[0] -= 1;
            }
            symbol
        }
    }
    let found = found_next(wrong);
    assert!(differing(&found).contains(&"kept at the end"));
}

/// The end comes once, and then the text from its start.
#[test]
fn a_step_after_the_end_is_taken() {
    unsafe extern "C" fn wrong(report: *const u8, n: usize, reader: *mut Reader) -> Symbol {
        unsafe {
            if (*reader)[4] == 7 {
                return Symbol {
                    kind: PLAIN,
                    byte: 65,
                };
            }
            let symbol = stand_in::next_symbol(report, n, reader);
            if symbol.kind == END && (*reader)[0] == (*reader)[1] && (*reader)[0] > 0 {
                (*reader)[4] = 7;
            }
            symbol
        }
    }
    let found = found_next(wrong);
    assert_eq!(differing(&found), ["steps", "kept at the end"]);
}

#[test]
fn a_reader_that_never_ends_is_found() {
    unsafe extern "C" fn wrong(report: *const u8, n: usize, reader: *mut Reader) -> Symbol {
        let symbol = unsafe { stand_in::next_symbol(report, n, reader) };
        if symbol.kind == END && unsafe { (*reader)[0] } > 0 {
            return Symbol {
                kind: ORIGINAL,
                byte: 0,
            };
        }
        symbol
    }
    let found = found_next(wrong);
    assert_eq!(found.got.refusal(), 13);
}

/// A byte that is not 0 at the end.
#[test]
fn a_byte_at_the_end_is_found() {
    unsafe extern "C" fn wrong(report: *const u8, n: usize, reader: *mut Reader) -> Symbol {
        let mut symbol = unsafe { stand_in::next_symbol(report, n, reader) };
        if symbol.kind == END {
            symbol.byte = 32;
        }
        symbol
    }
    assert_eq!(differing(&found_next(wrong)), ["steps"]);
}

/// Forged readers are drawn about each edge, and are as often at their end as not.
#[test]
fn forged_readers_are_drawn() {
    let mut counts = [0; 6];
    for trial in (0..CASES).flat_map(|case| trials(SEED, case)) {
        let Given::Forged { report, mut reader } = trial.given else {
            continue;
        };
        let end = 2 * report.len() as u64;
        let at = report.as_ptr();
        let symbol = unsafe { stand_in::next_symbol(at, report.len(), &mut reader) };
        let met = [
            reader[0] > end,
            reader[1] > end,
            reader[0] > reader[1],
            reader[2] > 1 << 32,
            reader[3] != 0,
            symbol.kind != END,
        ];
        for (count, met) in counts.iter_mut().zip(met) {
            *count += usize::from(met);
        }
    }
    assert!(counts.iter().all(|&count| count >= 15), "{counts:?}");
}

#[test]
fn a_forged_reader_is_shown_and_made_smaller() {
    unsafe extern "C" fn wrong(report: *const u8, n: usize, reader: *mut Reader) -> Symbol {
        unsafe {
            if (*reader)[0] > 1 << 40 {
                *reader.cast::<u8>().sub(1) = 0;
            }
            stand_in::next_symbol(report, n, reader)
        }
    }
    let found = found(Library {
        next_symbol: wrong,
        ..STAND_IN
    });
    let Given::Forged { report, reader } = &found.trial.given else {
        panic!("no forged reader: {}", found.trial);
    };
    assert_eq!((report.len(), &reader[1..]), (0, &[0; 4][..]));
    let place = reader[0];
    let shown = found.trial.given.to_string();
    assert_eq!(shown, format!("forged-reader - {place},0,0,0,0"));
    assert_eq!(differing(&found), ["reader"]);
}

#[test]
fn fences_stop_a_call_at_a_text() {
    assert_stopped("texts::read_past_the_origins");
    assert_stopped("texts::write_past_the_origins_output");
    assert_stopped("texts::write_to_the_report_of_a_reader");
    assert_stopped("texts::write_past_the_reader");
    assert_stopped("texts::read_past_the_report_of_a_forged_reader");
}

#[test]
#[ignore = "dies; run by fences_stop_a_call_at_a_text"]
fn read_past_the_origins() {
    unsafe extern "C" fn wrong(
        report: *mut u8,
        n: usize,
        text: *const u8,
        text_n: usize,
        origins: *const u8,
        origins_n: usize,
        flags: *const Flags,
    ) -> Answer {
        unsafe {
            std::hint::black_box(origins.add(text_n).read_volatile());
            stand_in::put_text(report, n, text, text_n, origins, origins_n, flags)
        }
    }
    watched();
    let mut harness = Harness::new(Library {
        put_text: wrong,
        ..STAND_IN
    });
    let call = put_bytes(b"A1", &[0, 0]);
    harness.call(&call, &ample(), &FlagTable::all());
}

#[test]
#[ignore = "dies; run by fences_stop_a_call_at_a_text"]
fn write_past_the_origins_output() {
    unsafe extern "C" fn wrong(
        report: *const u8,
        n: usize,
        text: *mut u8,
        text_n: usize,
        origins: *mut u8,
        origins_n: usize,
        flags: *const Flags,
    ) -> Answer {
        unsafe {
            origins.add(origins_n).write_volatile(0);
            stand_in::fetch_text(report, n, text, text_n, origins, origins_n, flags)
        }
    }
    watched();
    let mut harness = Harness::new(Library {
        fetch_text: wrong,
        ..STAND_IN
    });
    let call = fetch_text_to(9, 3);
    harness.call(&call, &report_of(&[1]), &FlagTable::all());
}

/// The reader of a report of one digit, stepped.
fn step_through(next_symbol: Next) {
    watched();
    let mut harness = Harness::new(Library {
        next_symbol,
        ..STAND_IN
    });
    let case = Case::ReadOut {
        report: report_of(&[1]),
        text: Vec::new(),
        origins: Vec::new(),
    };
    harness.whole(&case, &FlagTable::all());
}

#[test]
#[ignore = "dies; run by fences_stop_a_call_at_a_text"]
fn write_to_the_report_of_a_reader() {
    unsafe extern "C" fn wrong(report: *const u8, n: usize, reader: *mut Reader) -> Symbol {
        unsafe {
            report.cast_mut().write_volatile(0);
            stand_in::next_symbol(report, n, reader)
        }
    }
    step_through(wrong);
}

#[test]
#[ignore = "dies; run by fences_stop_a_call_at_a_text"]
fn write_past_the_reader() {
    unsafe extern "C" fn wrong(report: *const u8, n: usize, reader: *mut Reader) -> Symbol {
        unsafe {
            reader.add(1).cast::<u8>().write_volatile(0);
            stand_in::next_symbol(report, n, reader)
        }
    }
    step_through(wrong);
}

#[test]
#[ignore = "dies; run by fences_stop_a_call_at_a_text"]
fn read_past_the_report_of_a_forged_reader() {
    unsafe extern "C" fn wrong(report: *const u8, _: usize, reader: *mut Reader) -> Symbol {
        let place = unsafe { (*reader)[0] } as usize / 2;
        let byte = unsafe { report.add(place).read_volatile() };
        Symbol {
            kind: ORIGINAL,
            byte: byte.into(),
        }
    }
    watched();
    let mut harness = Harness::new(Library {
        next_symbol: wrong,
        ..STAND_IN
    });
    let report = report_of(&[1]);
    let end = 2 * report.len() as u64;
    harness.forged(&report, &[end, end + 3, 0, 0, 0]);
}
