//! Lists of sets and clears over what stood before: a value, the value 0, or nothing.

use crate::attachment::Attachment;
use crate::call::Call;
use crate::cases::calls::WIDE_NUMBERS;
use crate::cases::flag_tables::load;
use crate::cases::material::*;
use crate::cases::reports;
use crate::flag_table::{FlagTable, NO, VALUES};
use crate::flags::{self, FLAGS};
use crate::gate::flag_cases::item;
use crate::gate::list::{Item, List};
use crate::observation::Observation;
use crate::prng::Prng;
use crate::table::{FIELDS, Field, Scaled, fields};

/// Fields of a list.
const FIELDS_A_LIST: usize = 6;

/// Drawn lists and their calls.
const LISTS: usize = 10;
const CALLS: usize = 50;

/// Lists from a seed, and loads of a table that forbids some flags and of every flag.
pub fn items(seed: u64) -> Vec<Item> {
    let mut lists = field_lists();
    lists.extend(full_lists());
    lists.extend(flag_lists());
    lists.extend(refused_lists());
    lists.extend(drawn_lists(seed));
    let mut items: Vec<Item> = lists.into_iter().map(Item::List).collect();
    items.extend(item(load(&forbidding())));
    items.extend(lists_under_a_table().into_iter().map(Item::List));
    items.extend(item(load(&FlagTable::all())));
    items
}

/// Each flag may not have every third value.
fn forbidding() -> FlagTable {
    let mut table = FlagTable::all();
    for flag in 1..=FLAGS {
        for value in 1..=VALUES {
            if (flag + value).is_multiple_of(3) {
                table.mark(flag, value as u8, NO);
            }
        }
    }
    table
}

fn read(field: Field) -> Call {
    let field = field.number as u64;
    Call::ReadField { field }
}

fn set(field: Field, value: i64) -> Call {
    let field = field.number as u64;
    Call::SetField { field, value }
}

fn clear(field: Field) -> Call {
    let field = field.number as u64;
    Call::ClearField { field }
}

fn read_flag(flag: usize) -> Call {
    let flag = flag as u64;
    Call::ReadFlag { flag }
}

fn set_flag(flag: usize, value: usize) -> Call {
    let (flag, value) = (flag as u64, value as i64);
    Call::SetFlag { flag, value }
}

fn clear_flag(flag: usize) -> Call {
    let flag = flag as u64;
    Call::ClearFlag { flag }
}

fn put_flags(row: &[u8]) -> Call {
    Call::Put {
        id: u64::from(flags::ID),
        content: flags::body_of(row),
    }
}

/// A report with some bytes behind it.
fn buffer_of(observation: &Observation) -> Vec<u8> {
    with_bytes_after(observation.packing(), &[0xA5, 0x5A, 0xFF])
}

/// Each field on the fresh report: set and cleared over missing and over values.
fn field_lists() -> Vec<List> {
    let buffer = buffer_of(&fresh_observation());
    let mut lists = Vec::new();
    for group in fields().chunks(FIELDS_A_LIST) {
        let mut calls: Vec<Call> = group.iter().flat_map(|&field| field_calls(field)).collect();
        calls.extend(unknown_field(
            WIDE_NUMBERS[lists.len() % WIDE_NUMBERS.len()],
        ));
        lists.push(List::of(buffer.clone(), &calls));
    }
    lists
}

/// The clears of a required field are refused by 10; each set is then over a value.
fn field_calls(field: Field) -> Vec<Call> {
    let (lowest, highest) = (field.lowest_value().0, field.highest_value().0);
    let middle = lowest + (highest - lowest) / 2;
    let mut calls = vec![
        clear(field),
        set(field, lowest),
        read(field),
        set(field, lowest),
        set(field, highest),
        set(field, highest + 1),
        set(field, highest),
        read(field),
        clear(field),
        read(field),
        clear(field),
        set(field, highest),
        set(field, lowest - 1),
        set(field, middle),
        clear(field),
    ];
    if (lowest..=highest).contains(&0) {
        calls.extend([set(field, 0), set(field, 0), clear(field), clear(field)]);
    }
    calls
}

fn unknown_field(field: u64) -> [Call; 3] {
    let value = 1;
    [
        Call::SetField { field, value },
        Call::ClearField { field },
        Call::ReadField { field },
    ]
}

/// Each field among fields that are all at one end of their range, from the last to
/// the first, with attachments behind them.
fn full_lists() -> Vec<List> {
    let mut lists = Vec::new();
    for highest in [false, true] {
        let mut observation = full_observation(highest);
        observation.rptin = 0xFFFF;
        let others = observation_with(&[(15, &[15; 5])]).attachments;
        observation.attachments = others;
        let mut calls = Vec::new();
        for field in fields().into_iter().rev() {
            let (low, high) = (field.lowest_value().0, field.highest_value().0);
            let (here, there) = if highest { (high, low) } else { (low, high) };
            calls.extend([
                set(field, there),
                set(field, here),
                clear(field),
                clear(field),
                set(field, here),
            ]);
        }
        lists.push(List::of(buffer_of(&observation), &calls));
    }
    lists
}

/// Flags that are put and dropped, and flags at an even and at an odd place.
fn flag_lists() -> Vec<List> {
    let n = observation_with(&[(9, &[3]), (flags::ID, &[0; 16])]).size();
    let mut buffer = observation_with(&[(9, &[3])]).packing();
    buffer.resize(n + 3, 0xA5);
    let mut calls = vec![set_flag(1, 1), clear_flag(1), put_flags(&[0; FLAGS])];
    calls.extend((1..=FLAGS).flat_map(every_value));
    let rising: Vec<u8> = (0..FLAGS).map(|flag| (flag % (VALUES + 1)) as u8).collect();
    calls.push(put_flags(&rising));
    for flag in 1..=FLAGS {
        calls.extend([
            clear_flag(flag),
            clear_flag(flag),
            set_flag(flag, flag % 3 + 1),
        ]);
    }
    let id = u64::from(flags::ID);
    calls.extend([Call::Drop { id }, clear_flag(14), set_flag(14, 10)]);
    let put = List::of(buffer, &calls);
    let highest = flags::body_of(&[10; FLAGS]);
    let observation = observation_with(&[(9, &[3, 3]), (flags::ID, &highest), (2, &[15])]);
    let mut calls: Vec<Call> = (1..=FLAGS).rev().flat_map(falling_values).collect();
    for flag in [0, 15, 16, u64::MAX] {
        let value = 1;
        calls.extend([Call::SetFlag { flag, value }, Call::ClearFlag { flag }]);
    }
    vec![put, List::of(buffer_of(&observation), &calls)]
}

/// A missing flag cleared, set to each value, and cleared twice.
fn every_value(flag: usize) -> Vec<Call> {
    let mut calls = vec![clear_flag(flag)];
    calls.extend((1..=VALUES).map(|value| set_flag(flag, value)));
    calls.extend([set_flag(flag, VALUES), read_flag(flag), clear_flag(flag)]);
    calls.extend([clear_flag(flag), read_flag(flag)]);
    calls
}

/// From the highest value down to 0, which is refused by 9 as 11 is, each set twice at
/// every third flag; then cleared.
fn falling_values(flag: usize) -> Vec<Call> {
    let mut calls = vec![set_flag(flag, VALUES + 1)];
    for value in (0..=VALUES).rev() {
        calls.push(set_flag(flag, value));
        if flag.is_multiple_of(3) {
            calls.push(set_flag(flag, value));
        }
    }
    calls.extend([read_flag(flag), clear_flag(flag)]);
    calls
}

/// Sets and clears that a sound report would take, and one of each refusal.
fn refused_calls() -> Vec<Call> {
    vec![
        Call::SetField {
            field: 2,
            value: 1900,
        },
        Call::ClearField { field: 4 },
        set_flag(1, 1),
        clear_flag(1),
        Call::SetField { field: 2, value: 0 },
        Call::ClearField { field: 2 },
        set_flag(1, 0),
        clear_flag(0),
    ]
}

fn refused_lists() -> Vec<List> {
    let refused = reports::two_of_each_refusal();
    let calls = refused_calls();
    let lists = refused.into_iter().map(|report| List::of(report, &calls));
    lists.collect()
}

/// Sets, clears and reads of a few fields and flags, over and over.
fn drawn_lists(seed: u64) -> Vec<List> {
    let mut prng = Prng::new(seed);
    let mut lists = Vec::new();
    while lists.len() < LISTS {
        let mut observation = random_observation(&mut prng);
        observation
            .attachments
            .retain(|other| other.id != flags::ID);
        observation.attachments.truncate(1);
        let flags = Attachment::new(flags::ID, random_flags(&mut prng));
        observation.attachments.push(flags);
        if observation.size() < 80 {
            let few: Vec<usize> = (0..5).map(|_| 1 + prng.below(FIELDS)).collect();
            let calls: Vec<Call> = (0..CALLS).map(|_| drawn_call(&mut prng, &few)).collect();
            lists.push(List::of(buffer_of(&observation), &calls));
        }
    }
    lists
}

fn drawn_call(prng: &mut Prng, few: &[usize]) -> Call {
    let field = fields()[prng.pick(few) - 1];
    let flag = prng.pick(&[1, 7, 8, 14]);
    match prng.below(10) {
        0..3 => {
            let Scaled(value) = random_value(prng, field.number);
            set(field, value)
        }
        3..5 => clear(field),
        5 => read(field),
        6..8 => set_flag(flag, 1 + prng.below(VALUES)),
        8 => clear_flag(flag),
        _ => read_flag(flag),
    }
}

/// Flags set under a table that refuses some by 9, and a report that it refuses by 6.
fn lists_under_a_table() -> Vec<List> {
    let table = forbidding();
    let missing = observation_with(&[(flags::ID, &[0; 16])]);
    let calls: Vec<Call> = (1..=FLAGS).flat_map(every_value).collect();
    let accepted = List::of(buffer_of(&missing), &calls);
    let mut row = [0; FLAGS];
    row[13] = table.forbidden(14)[0];
    let forbidden = observation_with(&[(2, &[1]), (flags::ID, &flags::body_of(&row))]);
    let calls = [refused_calls(), vec![clear_flag(14)]].concat();
    vec![accepted, List::of(buffer_of(&forbidden), &calls)]
}
