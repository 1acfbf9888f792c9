//! Lists of calls in script form, those of a library's own table of flags, those of
//! symbols, those of every number of nibbles, those of former values and those of
//! indicators last.

use std::collections::BTreeSet;

use crate::attachment::Attachment;
use crate::call::Call;
use crate::cases::Case;
use crate::cases::calls::{WIDE_NUMBERS, texts};
use crate::cases::material::*;
use crate::cases::outside::edge_values;
use crate::cases::random::{call_without_indicators, symbol_count};
use crate::cases::{pairs, reports};
use crate::flag_table::FlagTable;
use crate::gate::list::{Item, List, MOST_LOG};
use crate::gate::log::{FRONT, HEAD, MARKED, record_size};
use crate::gate::script::{entry, run, script};
use crate::gate::sizes::{LONGEST_TAIL, observation_of_tail};
use crate::gate::{
    flag_cases, former_cases, indicator_cases, nibble_cases, sum_cases, symbol_cases, text_cases,
};
use crate::judge::judge;
use crate::observation::Observation;
use crate::prng::Prng;
use crate::table::{FIELDS, Scaled, fields};
use crate::text::{self, Symbol};

/// The calls of a whole list.
pub const CALLS: usize = 50;

/// Given calls in a list, in groups of two or three; drawn ones fill it up.
const GIVEN: usize = 48;

/// Lists and loads from a seed.
pub fn items(seed: u64) -> Vec<Item> {
    let mut items: Vec<Item> = lists(seed).into_iter().map(Item::List).collect();
    items.extend(flag_cases::items(seed));
    items.extend(symbol_cases::items());
    items.extend(nibble_cases::lists().into_iter().map(Item::List));
    items.extend(former_cases::items(seed));
    items.extend(indicator_cases::items(seed));
    items
}

/// The lists before the first load, with every flag permitted.
pub fn lists(seed: u64) -> Vec<List> {
    let mut prng = Prng::new(seed);
    let mut lists = field_lists(&mut prng);
    lists.extend(number_lists(&mut prng));
    lists.extend(flag_lists(&mut prng));
    lists.extend(put_lists(&mut prng));
    lists.extend(body_lists(&mut prng));
    lists.extend(text_lists(&mut prng));
    lists.extend(pair_lists(&mut prng));
    lists.extend(growing_lists(&mut prng));
    lists.extend(fitting_lists(&mut prng));
    lists.extend(drawn_lists(&mut prng));
    lengthen_logs(&mut lists);
    lists.extend(ended_lists());
    lists.extend(refused_lists());
    lists.extend(sum_cases::lists());
    lists.extend(text_cases::lists());
    lists
}

/// Leaves 1 to 40 bytes of the log behind the records of every second list.
fn lengthen_logs(lists: &mut [List]) {
    for (index, list) in lists.iter_mut().step_by(2).enumerate() {
        list.room += 1 + index % 40;
    }
}

/// A report in a buffer with some bytes after it.
fn buffer_of(prng: &mut Prng, observation: &Observation, room: usize) -> Vec<u8> {
    with_bytes_after(observation.packing(), &prng.bytes(room))
}

/// Calls in lists, each on a buffer of its own.
fn in_lists(prng: &mut Prng, calls: &[Call], buffer: impl Fn(&mut Prng) -> Vec<u8>) -> Vec<List> {
    let mut lists = Vec::new();
    for chunk in calls.chunks(GIVEN) {
        let buffer = buffer(prng);
        lists.push(whole_list(prng, buffer, chunk));
    }
    lists
}

/// A list of fifty calls: those given, then drawn ones.
fn whole_list(prng: &mut Prng, buffer: Vec<u8>, given: &[Call]) -> List {
    let mut state = buffer.clone();
    let mut calls = given.to_vec();
    for call in given {
        call.run(&mut state, &FlagTable::all());
    }
    while calls.len() < CALLS {
        let call = drawn_call(prng, &state);
        call.run(&mut state, &FlagTable::all());
        calls.push(call);
    }
    List::of(buffer, &calls)
}

/// The observation of a sound report.
fn observation_of(buffer: &[u8]) -> Observation {
    let report = judge(buffer, &FlagTable::all());
    report.expect("the report is sound").observation
}

/// A drawn call, seldom with long contents or outputs.
fn drawn_call(prng: &mut Prng, buffer: &[u8]) -> Call {
    let observation = observation_of(buffer);
    loop {
        let call = call_without_indicators(prng, &observation, buffer.len());
        if entry(&call).len() < 80 || prng.one_in(12) {
            return call;
        }
    }
}

/// Each field set, read and cleared at its edges.
fn field_lists(prng: &mut Prng) -> Vec<List> {
    let mut calls = Vec::new();
    for field in fields() {
        let number = field.number as u64;
        for value in edge_values(field.lowest_value(), field.highest_value()) {
            calls.push(Call::SetField {
                field: number,
                value,
            });
            calls.push(Call::ReadField { field: number });
        }
        calls.push(Call::ClearField { field: number });
        calls.push(Call::ReadField { field: number });
    }
    in_lists(prng, &calls, |prng| {
        let tail = prng.pick(&[0, 4, 5, 30]);
        let room = prng.pick(&[0, 0, 1, 6]);
        let observation = observation_of_tail(prng, tail);
        buffer_of(prng, &observation, room)
    })
}

/// Every numbered call with numbers at their edges, with and without ids 1, 4
/// and 15.
fn number_lists(prng: &mut Prng) -> Vec<List> {
    let mut numbers = vec![1, 4, 5, 14, 15, 16, 46, 47, 48, 512, 1 << 32];
    numbers.extend(WIDE_NUMBERS);
    numbers.extend([(1 << 63) + 1, (1 << 63) - 1]);
    let calls: Vec<Call> = numbers.into_iter().flat_map(numbered_calls).collect();
    let bare = fresh_observation();
    let held = observation_with(&[(4, &[1]), (1, &[0; 16]), (15, &[2, 3])]);
    let mut lists = Vec::new();
    for observation in [bare, held] {
        lists.extend(in_lists(prng, &calls, |prng| {
            buffer_of(prng, &observation, 30)
        }));
    }
    lists
}

fn numbered_calls(number: u64) -> Vec<Call> {
    vec![
        Call::ReadField { field: number },
        Call::SetField {
            field: number,
            value: 1,
        },
        Call::ClearField { field: number },
        Call::SetFlag {
            flag: number,
            value: 2,
        },
        Call::ReadFlag { flag: number },
        Call::ClearFlag { flag: number },
        fetch(number, 16),
        Call::Drop { id: number },
        put(number, &[1]),
    ]
}

fn put(id: u64, content: &[u8]) -> Call {
    Call::Put {
        id,
        content: content.to_vec(),
    }
}

pub fn fetch(id: u64, room: usize) -> Call {
    Call::Fetch {
        id,
        output: vec![0xEE; room],
    }
}

/// Each flag set, read and cleared; a negative value is one of 2^63 and more.
fn flag_lists(prng: &mut Prng) -> Vec<List> {
    let mut calls = Vec::new();
    for flag in 1..=14 {
        let mut values = edge_values(Scaled(1), Scaled(10));
        values.extend([-1, -255, i64::MIN + 1, i64::MIN + 10]);
        calls.extend(values.iter().map(|&value| Call::SetFlag { flag, value }));
        for value in 1..=10 {
            calls.push(Call::SetFlag { flag, value });
            calls.push(Call::ReadFlag { flag });
        }
        calls.push(fetch(1, 16));
        calls.push(Call::ClearFlag { flag });
        calls.push(Call::ReadFlag { flag });
    }
    in_lists(prng, &calls, |prng| {
        let length = 1 + prng.below(4);
        let before = prng.nibbles(length);
        let flags = random_flags(prng);
        let room = prng.pick(&[0, 1, 4]);
        let observation = observation_with(&[(9, &before), (1, &flags), (4, &[7])]);
        buffer_of(prng, &observation, room)
    })
}

/// Ids and content lengths at their edges, and bytes that are no nibbles.
fn put_lists(prng: &mut Prng) -> Vec<List> {
    let mut calls = Vec::new();
    for id in [0, 1, 4, 5, 15, 16] {
        for length in [0, 1, 16, 254, 255, 256, 260, 512] {
            let drawn = prng.nibbles(length);
            let mut over = vec![0; length];
            if let Some(last) = over.last_mut() {
                *last = prng.pick(&[16, 17, 128, 255]);
            }
            let short = prng.pick(&[0, 1, 16, length.saturating_sub(1).min(255)]);
            calls.extend([put(id, &vec![0; length]), fetch(id, length.min(256))]);
            calls.extend([put(id, &drawn), fetch(id, short)]);
            calls.extend([put(id, &over), fetch(id, 1)]);
        }
    }
    in_lists(prng, &calls, |prng| {
        let room = prng.pick(&[140, 300, 420]);
        let observation = observation_with(&[(2, &[1, 2, 3]), (5, &[9; 20])]);
        buffer_of(prng, &observation, room)
    })
}

/// Bodies of ids 1 and 4, sound and refused.
fn body_lists(prng: &mut Prng) -> Vec<List> {
    let mut calls = Vec::new();
    for (id, bodies) in [
        (1, bad_flag_bodies()),
        (4, bad_text_bodies()),
        (4, good_text_bodies()),
        (4, bad_flag_bodies()),
    ] {
        for body in bodies.into_iter().filter(|body| body.len() < 100) {
            calls.extend([put(id, &body), fetch(id, body.len())]);
            calls.push(fetch_text(40));
        }
    }
    in_lists(prng, &calls, |prng| {
        buffer_of(prng, &observation_with(&[(6, &[1]), (4, &[2])]), 30)
    })
}

/// Texts put and fetched back, with outputs that just fit, are one short, and
/// are longer.
fn text_lists(prng: &mut Prng) -> Vec<List> {
    let mut calls = Vec::new();
    let mut texts = texts();
    texts.push(vec![Symbol::SPACE; 5000]);
    texts.push(symbols_of(&[vec![b'Q'], vec![b' '; 3000]].concat()));
    texts.push(symbols_of(&[vec![b' '; 1000], vec![0xC3]].concat()));
    for (index, text) in texts.into_iter().enumerate() {
        let nibbles = text::write(&text);
        let length = text
            .iter()
            .rposition(|&symbol| symbol != Symbol::SPACE)
            .map_or(0, |last| last + 1);
        let nibble_room = [
            nibbles.len(),
            nibbles.len(),
            nibbles.len().saturating_sub(1),
        ];
        let text_room = [length, length.saturating_sub(1), length, length + 1];
        calls.push(put_text(&text));
        calls.push(fetch(4, nibble_room[index % 3].min(60)));
        calls.push(fetch_text(text_room[index % 4]));
    }
    in_lists(prng, &calls, |prng| {
        buffer_of(prng, &observation_with(&[(6, &[1])]), 150)
    })
}

/// Calls in which two refusals fit at once, on the report of the shared pairs.
fn pair_lists(prng: &mut Prng) -> Vec<List> {
    let mut buffer = Vec::new();
    let mut calls: Vec<Call> = Vec::new();
    for pair in pairs::without_indicators() {
        for case in [pair.both, pair.mended] {
            if let Case::Calls {
                buffer: given,
                calls: one,
            } = case
                && judge(&given, &FlagTable::all()).is_ok()
                && !calls.contains(&one[0])
            {
                buffer = given;
                calls.extend(one);
            }
        }
    }
    in_lists(prng, &calls, |_| buffer.clone())
}

/// Reports that grow from the least to the most and shrink again, in a buffer
/// that is longer, one that just fits and one that is one byte short.
fn growing_lists(prng: &mut Prng) -> Vec<List> {
    let mut lists = Vec::new();
    for length in [2000, 1853, 1852] {
        let largest = largest_observation();
        let mut calls: Vec<Call> = largest.attachments.iter().map(put_again).collect();
        calls.push(put(15, &[1; 254]));
        calls.push(put(15, &[2; 255]));
        calls.extend([5, 1, 9, 15].map(|id| fetch(id, 16)));
        calls.extend((1..=15).rev().map(|id| Call::Drop { id }));
        calls.push(Call::ReadField { field: 1 });
        let room = length - fresh_observation().size();
        let buffer = buffer_of(prng, &fresh_observation(), room);
        lists.push(whole_list(prng, buffer, &calls));
    }
    lists
}

fn put_again(attachment: &Attachment) -> Call {
    put(u64::from(attachment.id), &attachment.nibbles)
}

/// Contents that just fill the buffer or just do not, and outputs likewise.
fn fitting_lists(prng: &mut Prng) -> Vec<List> {
    let mut lists = Vec::new();
    for index in 0..24 {
        let tail = prng.pick(&[0, 4, 5, 19, 40, 41, 90]);
        let observation = observation_of_tail(prng, tail);
        let room = [0, 1, 2, 3, 5, 10, 20, 40][index % 8];
        let buffer = buffer_of(prng, &observation, room);
        let mut state = buffer.clone();
        let mut calls = Vec::new();
        for _ in 0..GIVEN {
            let call = fitting_call(prng, &state);
            call.run(&mut state, &FlagTable::all());
            calls.push(call);
        }
        lists.push(whole_list(prng, buffer, &calls));
    }
    lists
}

fn fitting_call(prng: &mut Prng, buffer: &[u8]) -> Call {
    let observation = observation_of(buffer);
    let id = match prng.pick(&[0, 1]) {
        0 if !observation.attachments.is_empty() => prng.pick(&observation.attachments).id,
        _ => prng.pick(&[2, 3, 5, 8, 15]),
    };
    let id = u64::from(id);
    let standing = observation.content(id).map_or(0, <[u8]>::len);
    match prng.below(10) {
        0 | 1 => Call::Drop { id },
        2 | 3 => fetch(id, one_beside(prng, standing)),
        4 => {
            let length = symbol_count(&observation);
            let (text, origins) = (one_beside(prng, length), one_beside(prng, length));
            fetch_text_to(text, origins)
        }
        5 => {
            let length = fitting_length(prng, &observation, buffer.len(), 4);
            put_text(&symbols_of(&vec![b'5'; length]))
        }
        _ => {
            let length = fitting_length(prng, &observation, buffer.len(), id);
            put(id, &prng.nibbles(length))
        }
    }
}

/// A length, one less or one more.
fn one_beside(prng: &mut Prng, length: usize) -> usize {
    (length + prng.below(3)).saturating_sub(1)
}

/// The most nibbles that an id can have in a buffer, up to two more, or less.
fn fitting_length(prng: &mut Prng, observation: &Observation, n: usize, id: u64) -> usize {
    let others: usize = observation
        .attachments
        .iter()
        .filter(|attachment| u64::from(attachment.id) != id)
        .map(Attachment::size)
        .sum();
    let most = (2 * n).saturating_sub(75 + others + 3);
    match prng.below(6) {
        0 => prng.below(most + 1).min(255),
        step => (most + step).saturating_sub(3).min(257),
    }
}

/// Drawn calls on reports of all sizes, with and without room after them.
fn drawn_lists(prng: &mut Prng) -> Vec<List> {
    let mut lists = Vec::new();
    for index in 0..140 {
        let tail = drawn_tail(prng, index);
        let observation = observation_of_tail(prng, tail);
        let room = prng.pick(&[0, 0, 1, 2, 8, 30, 120]);
        let buffer = buffer_of(prng, &observation, room);
        lists.push(whole_list(prng, buffer, &[]));
    }
    lists
}

fn drawn_tail(prng: &mut Prng, index: usize) -> usize {
    match index {
        0..2 => LONGEST_TAIL,
        2 => LONGEST_TAIL - 1,
        3 => LONGEST_TAIL - 2,
        4..10 => 1200 + prng.below(2400),
        10..25 => 200 + prng.below(1000),
        25..30 => 0,
        _ => 4 + prng.below(150),
    }
}

/// Lists that end before their script does.
fn ended_lists() -> Vec<List> {
    let mut lists = cut_off_lists();
    lists.extend(wide_count_lists());
    lists.extend(unknown_kind_lists());
    lists.extend(short_log_lists());
    lists
}

fn held_observation() -> Observation {
    observation_with(&[(4, &[1, 10, 12, 1]), (1, &[0; 16]), (5, &[3, 2, 1])])
}

fn held_buffer() -> Vec<u8> {
    with_bytes_after(held_observation().packing(), &[0xA5; 12])
}

/// One call of each kind up to 11, all of them accepted on the held report.
pub fn one_of_each() -> Vec<Call> {
    vec![
        Call::ReadField { field: 2 },
        Call::SetField {
            field: 31,
            value: -1,
        },
        Call::ClearField { field: 31 },
        Call::ReadFlag { flag: 1 },
        Call::SetFlag { flag: 14, value: 5 },
        Call::ClearFlag { flag: 2 },
        put(5, &[1, 2, 3, 4]),
        fetch(4, 6),
        Call::Drop { id: 5 },
        put_text(&symbols_of(b"SHIP 1")),
        fetch_text(9),
    ]
}

/// A list of raw script bytes, with so much room left in the log where it ends.
fn raw(script: Vec<u8>, left: usize) -> List {
    let buffer = held_buffer();
    let written = run(&mut buffer.clone(), &script, MOST_LOG, &FlagTable::all())
        .log
        .len();
    List {
        buffer,
        script,
        room: written + left,
    }
}

/// Each kind cut behind its kind byte, in its first number, behind its numbers
/// and before its last byte, and a text also about its second number. Calls that are
/// whole go before.
fn cut_off_lists() -> Vec<List> {
    let before = script(&[
        Call::SetField { field: 4, value: 9 },
        Call::SetFlag { flag: 3, value: 7 },
    ]);
    let mut lists = vec![raw(Vec::new(), 60)];
    for call in one_of_each() {
        let whole = entry(&call);
        let mut lengths = vec![1, 8, 9, 16, 17, whole.len() - 1];
        if let Call::PutText { text, .. } | Call::FetchText { text, .. } = &call {
            lengths.extend([0, 1, 7, 8].map(|more| 9 + text.len() + more));
        }
        for length in lengths {
            if length < whole.len() {
                lists.push(raw([&before[..], &whole[..length]].concat(), 60));
            }
        }
        lists.push(raw(whole[..whole.len() - 1].to_vec(), 60));
    }
    lists
}

/// Counts beyond the script, some of which would fit if they were cut short.
fn wide_count_lists() -> Vec<List> {
    let before = entry(&Call::ReadField { field: 3 });
    let mut lists = Vec::new();
    // The place of the count in the entry.
    for (call, place) in [
        (put(5, &[1, 2]), 9),
        (fetch(5, 2), 9),
        (put_text(&symbols_of(b"AB")), 1),
        (put_text(&symbols_of(b"AB")), 11),
        (fetch_text(2), 1),
        (fetch_text(2), 11),
    ] {
        for count in [
            3,
            258,
            65_538,
            (1 << 32) + 2,
            1 << 63,
            u64::MAX - 1,
            u64::MAX,
        ] {
            let mut wide = entry(&call);
            wide[place..place + 8].copy_from_slice(&u64::to_be_bytes(count));
            lists.push(raw([before.clone(), wide].concat(), 300));
        }
    }
    lists
}

/// A kind that no call has, first and amid calls that would be sound.
fn unknown_kind_lists() -> Vec<List> {
    let calls = script(&one_of_each());
    let mut lists = Vec::new();
    for kind in [0, 13, 14, 128, 255] {
        lists.push(raw([&[kind][..], &calls].concat(), 60));
        lists.push(raw([&calls[..], &[kind], &calls].concat(), 60));
    }
    lists
}

/// Logs that end in a record: in its head, behind it, in its row, behind that, in
/// its output and before its last byte; and logs that end with it.
fn short_log_lists() -> Vec<List> {
    let mut lists = Vec::new();
    let calls = one_of_each();
    let mut written = 0;
    for call in &calls {
        for cut in cuts(call, &[HEAD / 2, HEAD - 1, HEAD + 1, HEAD + MARKED]) {
            lists.push(List {
                room: written + cut,
                ..List::of(held_buffer(), &calls)
            });
        }
        written += record_size(call);
    }
    lists.extend(short_row_lists());
    // A shorter record behind the one that does not fit is not written either.
    let long_first = [fetch(4, 60), Call::ReadField { field: 1 }];
    for room in [0, 9, 10, 19, 36, 37, 38, 60, 96, 97, 98, 133, 134, 135] {
        for buffer in [held_buffer(), vec![0; 37]] {
            lists.push(List {
                room,
                ..List::of(buffer, &long_first)
            });
        }
    }
    lists
}

/// Places in a call's record: the given ones, where its row begins, about where the
/// row ends, between two outputs, before the last byte, and the end.
pub fn cuts(call: &Call, given: &[usize]) -> BTreeSet<usize> {
    let size = record_size(call);
    let mut cuts = BTreeSet::from([HEAD, FRONT - 1, FRONT, FRONT + 1, size - 1, size]);
    cuts.extend(given);
    cuts.extend(call.outputs().first().map(|output| FRONT + output.len()));
    cuts.retain(|&cut| cut <= size);
    cuts
}

/// Logs that end at or in each number of the row, for calls that give a number,
/// that give a missing one, that give none, and that are refused.
fn short_row_lists() -> Vec<List> {
    let mut lists = Vec::new();
    for call in [
        Call::ReadField { field: 2 },
        Call::ReadField { field: 31 },
        Call::ReadField { field: 47 },
        Call::ReadFlag { flag: 3 },
        Call::ReadFlag { flag: 4 },
        Call::ReadFlag { flag: 15 },
        Call::ClearField { field: 31 },
        Call::ClearField { field: 3 },
        fetch(5, 3),
        fetch(5, 0),
        fetch_text(2),
        fetch_text(0),
    ] {
        let set = Call::SetFlag { flag: 3, value: 7 };
        let calls = [set, call, Call::Drop { id: 5 }];
        let before = record_size(&calls[0]);
        let row = [1, MARKED, MARKED + 4, 2 * MARKED, 2 * MARKED + 1];
        for cut in cuts(&calls[1], &row.map(|place| HEAD + place)) {
            lists.push(List {
                room: before + cut,
                ..List::of(held_buffer(), &calls)
            });
        }
    }
    lists
}

/// Every call, with sound and with bad arguments, on refused reports.
fn refused_lists() -> Vec<List> {
    let mut lists = Vec::new();
    let mut calls = one_of_each();
    calls.extend([
        Call::ReadField { field: 0 },
        Call::SetField {
            field: FIELDS as u64,
            value: i64::MAX,
        },
        Call::ClearField { field: 1 },
        Call::SetFlag { flag: 15, value: 0 },
        put(16, &[]),
        fetch(0, 0),
        Call::Drop { id: u64::MAX },
        put_text(&[Symbol::SPACE]),
        fetch_text(0),
    ]);
    for report in reports::damaged().iter().step_by(9) {
        if report.len() <= 400 {
            lists.push(List::of(report.clone(), &calls));
        }
    }
    let whole = List::of(vec![0; 37], &calls);
    let room = whole.room - 1;
    lists.push(List { room, ..whole });
    lists.push(List {
        script: [&script(&calls)[..], &[7, 0]].concat(),
        ..List::of(vec![0xFF; 50], &calls)
    });
    lists.extend(refused_pair_lists());
    lists
}

/// The report's refusal with each of the caller's: the calls of one report, in
/// the order of the shared pairs, in one list.
fn refused_pair_lists() -> Vec<List> {
    let mut grouped: Vec<(Vec<u8>, Vec<Call>)> = Vec::new();
    for pair in pairs::without_indicators() {
        if let Case::Calls { buffer, calls } = pair.both
            && judge(&buffer, &FlagTable::all()).is_err()
        {
            match grouped.last_mut() {
                Some((last, together)) if *last == buffer => together.extend(calls),
                _ => grouped.push((buffer, calls)),
            }
        }
    }
    grouped
        .into_iter()
        .map(|(buffer, calls)| List::of(buffer, &calls))
        .collect()
}
