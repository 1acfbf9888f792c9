//! The trials of a case, from a seed and the case's number alone.

use reference::cases::Case;
use reference::cases::material::{Draft, random_value, values_and_word};
use reference::cases::outside::edge_values;
use reference::cases::random::{damage_tail, symbol_count};
use reference::flag_table::FlagTable;
use reference::judge::judge;
use reference::observation::Observation;
use reference::prng::Prng;
use reference::reader::Reader;
use reference::table::{REQUIRED, fields};
use reference::text;

use crate::trial::{Given, Trial};
use crate::{calls, flag_tables, reports, scripts};

/// A list is followed by its script.
pub fn trials(seed: u64, case: u64) -> Vec<Trial> {
    let mut prng = prng_of(seed, case);
    let flags = flag_tables::table(&mut prng);
    let given = match prng.below(37) {
        0..3 => vec![Given::Whole(judge_case(&mut prng, &flags))],
        3..6 => vec![Given::Whole(unpack_case(&mut prng, &flags))],
        6..10 => vec![Given::Whole(pack_case(&mut prng, &flags))],
        10 => vec![Given::Whole(fresh_case(&mut prng))],
        11..21 => vec![given_call(&mut prng, &flags)],
        21..24 => given_list(&mut prng, &flags),
        24 => vec![Given::Whole(characters_case(&mut prng))],
        25..27 => {
            let marks = flag_tables::lent(&mut prng);
            vec![Given::Whole(Case::Load { marks })]
        }
        27 => vec![Given::AllFlags],
        28..31 => vec![Given::Whole(read_out_case(&mut prng, &flags))],
        31 => vec![forged(&mut prng, &flags)],
        32..34 => vec![Given::Whole(costliest_case(&mut prng))],
        _ => vec![Given::Whole(indicators_case(&mut prng, &flags))],
    };
    let under = |given: Given| given.under(flags);
    given.into_iter().map(under).collect()
}

fn prng_of(seed: u64, case: u64) -> Prng {
    let number = Prng::new(case).next_u64();
    Prng::new(Prng::new(seed ^ number).next_u64())
}

/// A buffer, its report damaged once in so many times, and the observation that it was
/// made from or that it holds. As seldom, an undamaged one has a forbidden flag.
fn lent_report(prng: &mut Prng, flags: &FlagTable, refused: usize) -> (Observation, Vec<u8>) {
    let mut observation = reports::observation(prng);
    flag_tables::meet(prng, flags, &mut observation, refused);
    if prng.one_in(refused) {
        let buffer = reports::damaged(prng, &observation);
        let held = judge(&buffer, flags).map_or(observation, |report| report.observation);
        return (held, buffer);
    }
    let buffer = reports::buffer(prng, &observation);
    (observation, buffer)
}

/// An output's length: most often enough.
fn room(prng: &mut Prng, needed: usize) -> usize {
    if prng.one_in(6) {
        prng.pick(&[needed.saturating_sub(1), needed / 2, 0])
    } else {
        needed + prng.pick(&[0, 0, 0, 1, 9, 40])
    }
}

/// A number of values: most often enough.
fn value_count(prng: &mut Prng) -> usize {
    if prng.one_in(12) {
        prng.pick(&[0, 1, 45])
    } else {
        prng.pick(&[46, 46, 47, 60])
    }
}

fn judge_case(prng: &mut Prng, flags: &FlagTable) -> Case {
    let report = lent_report(prng, flags, 2).1;
    Case::Judge { report }
}

fn unpack_case(prng: &mut Prng, flags: &FlagTable) -> Case {
    let (observation, report) = lent_report(prng, flags, 2);
    let length = Draft::of(&observation).tail.len();
    let count = value_count(prng);
    let room = room(prng, length);
    Case::Unpack {
        report,
        values: (0..count).map(|_| prng.next_u64() as i64).collect(),
        tail: prng.bytes(room),
    }
}

fn pack_case(prng: &mut Prng, flags: &FlagTable) -> Case {
    let mut observation = reports::observation(prng);
    flag_tables::meet(prng, flags, &mut observation, 3);
    let missing = prng.pick(&[0, i64::MIN, i64::MAX, 1]);
    let (mut values, mut word) = values_and_word(&observation, missing);
    let mut draft = Draft::of(&observation);
    for _ in 0..prng.pick(&[0, 0, 0, 1, 1, 2]) {
        match prng.below(6) {
            0 => word ^= 1 << prng.below(64),
            1 => {
                let field = prng.pick(&fields());
                let edges = edge_values(field.lowest_value(), field.highest_value());
                values[field.number - 1] = prng.pick(&edges);
            }
            2 => word &= !(1 << prng.pick(&REQUIRED)),
            3 => word = prng.next_u64(),
            _ => damage_packed(prng, &mut draft),
        }
    }
    values.resize(value_count(prng), missing);
    let size = (75 + draft.tail.len()).div_ceil(2);
    let room = room(prng, size);
    Case::Pack {
        values,
        word,
        rptin: observation.rptin,
        tail: draft.tail,
        output: prng.bytes(room),
    }
}

/// A tail damaged in its attachments, its bytes or its end.
fn damage_packed(prng: &mut Prng, draft: &mut Draft) {
    let length = draft.tail.len();
    match prng.below(5) {
        0 if length > 0 => draft.tail[prng.below(length)] = 16 + prng.below(240) as u8,
        1 => {
            let more = 1 + prng.below(4);
            draft.tail.extend(prng.nibbles(more));
        }
        2 => draft.tail.push(0),
        _ => damage_tail(prng, draft),
    }
}

fn fresh_case(prng: &mut Prng) -> Case {
    let mut required = REQUIRED.map(|number| random_value(prng, number).0);
    for (value, number) in required.iter_mut().zip(REQUIRED) {
        if prng.one_in(8) {
            let field = fields()[number - 1];
            let edges = edge_values(field.lowest_value(), field.highest_value());
            *value = prng.pick(&edges);
        }
    }
    let room = room(prng, 38);
    Case::Fresh {
        required,
        output: prng.bytes(room),
    }
}

/// An array that holds one number, the table, the table but for an entry, or anything.
fn characters_case(prng: &mut Prng) -> Case {
    let any = prng.next_u64() as u16;
    let mut table = match prng.below(4) {
        0 => [prng.pick(&[0, u16::MAX, any]); 256],
        1 => text::table(),
        _ => std::array::from_fn(|_| prng.next_u64() as u16),
    };
    if prng.one_in(2) {
        table[prng.below(256)] = any;
    }
    Case::Characters {
        table: Box::new(table),
    }
}

fn read_out_case(prng: &mut Prng, flags: &FlagTable) -> Case {
    let (observation, report) = lent_report(prng, flags, 2);
    let count = symbol_count(&observation);
    let (text, origins) = (room(prng, count), room(prng, count));
    Case::ReadOut {
        report,
        text: prng.bytes(text),
        origins: prng.bytes(origins),
    }
}

/// A number of symbols up to the most, about it or far above it, and outputs that are
/// most often long enough.
fn costliest_case(prng: &mut Prng) -> Case {
    let any = prng.below(86) as u64;
    let symbols = match prng.below(8) {
        0 => prng.pick(&[0, 0, 84, 85, 85]),
        1 => prng.pick(&[86, 86, 87, 255, 256, 1 << 32, 1 << 63, u64::MAX]),
        2 => calls::widened(prng, any),
        _ => any,
    };
    let needed = symbols.min(300) as usize;
    let (text, origins) = (room(prng, needed), room(prng, needed));
    Case::Costliest {
        symbols,
        text: prng.bytes(text),
        origins: prng.bytes(origins),
    }
}

/// An output with just enough room for what is to be found, with a byte less or more.
fn indicators_case(prng: &mut Prng, flags: &FlagTable) -> Case {
    let (observation, report) = lent_report(prng, flags, 2);
    let found = observation.lone_indicators().len();
    let less = found.saturating_sub(1);
    let room = prng.pick(&[found, found, found, less, less, 0, found + 1, 6, 40]);
    Case::FindIndicators {
        report,
        output: prng.bytes(room),
    }
}

/// A reader of any numbers, or of an opened one's with some changed.
fn forged(prng: &mut Prng, flags: &FlagTable) -> Given {
    let report = lent_report(prng, flags, 4).1;
    let opened = Reader::open(&report, flags);
    let mut reader = [opened.place as u64, opened.end as u64, 0, 0, 0];
    for _ in 0..prng.pick(&[1, 1, 2, 5]) {
        reader[prng.below(5)] = forged_number(prng, report.len());
    }
    Given::Forged { report, reader }
}

/// A number about the report's end in nibbles or in bytes, an end of the numbers, or any.
fn forged_number(prng: &mut Prng, n: usize) -> u64 {
    let n = n as u64;
    let any = prng.next_u64();
    let near = prng.pick(&[2 * n, 2 * n, n, u64::MAX, 1 << 63, 1 << 32, 0]);
    let within = any % (2 * n + 2);
    match prng.below(3) {
        0 => any,
        1 => within,
        _ => near.wrapping_add(any % 5).wrapping_sub(2),
    }
}

fn given_call(prng: &mut Prng, flags: &FlagTable) -> Given {
    let (observation, buffer) = lent_report(prng, flags, 2);
    let call = calls::call(prng, &observation, buffer.len(), flags);
    Given::Call { buffer, call }
}

fn given_list(prng: &mut Prng, flags: &FlagTable) -> Vec<Given> {
    let (observation, buffer) = lent_report(prng, flags, 8);
    let calls = calls::list(prng, &observation, buffer.len(), flags);
    let script = scripts::given(prng, &buffer, &calls);
    vec![Given::List { buffer, calls }, script]
}
