//! Records and lists under a library's own table of flags, and the loads between them.

use crate::attachment::Attachment;
use crate::call::Call;
use crate::cases::Case;
use crate::cases::flag_tables::{self, load, refused_tables};
use crate::cases::material::*;
use crate::cases::random::call_without_indicators;
use crate::flag_table::{FlagTable, VALUES};
use crate::flags::{self, FLAGS};
use crate::gate::list::{Item, List};
use crate::gate::record;
use crate::gate::script::entry;
use crate::gate::whole_cases::{judge, lent_values, lister, pack, room};
use crate::observation::Observation;
use crate::prng::Prng;
use crate::step::step;

/// Drawn tables, and the reports and lists under each.
const TABLES: usize = 24;
const REPORTS: usize = 6;
const LISTS: usize = 3;
const CALLS: usize = 24;

/// Records from a seed.
pub fn records(seed: u64) -> Vec<Case> {
    let mut prng = Prng::new(seed);
    let mut cases = flag_tables::cases();
    cases.retain(record::fits);
    for index in 0..TABLES {
        let table = random_flag_table(&mut prng);
        cases.push(load(&table));
        if index < 4 {
            cases.extend(every_value());
        }
        for _ in 0..REPORTS {
            let observation = drawn_observation(&mut prng, &table);
            cases.extend(drawn_records(&mut prng, &table, &observation));
            if prng.one_in(3) {
                cases.push(refused_load(&mut prng));
            }
        }
    }
    cases
}

/// Lists and loads from a seed.
pub fn items(seed: u64) -> Vec<Item> {
    let mut prng = Prng::new(seed);
    let mut items: Vec<Item> = flag_tables::cases().into_iter().filter_map(item).collect();
    for index in 0..TABLES {
        let table = random_flag_table(&mut prng);
        items.extend(item(load(&table)));
        if index < 4 {
            items.push(Item::List(every_set()));
        }
        for _ in 0..LISTS {
            items.push(Item::List(drawn_list(&mut prng, &table)));
            if prng.one_in(3) {
                items.extend(item(refused_load(&mut prng)));
            }
        }
    }
    items
}

/// A list or a load, if the case is one.
pub fn item(case: Case) -> Option<Item> {
    match case {
        Case::Load { marks } => Some(Item::Load(marks)),
        Case::Calls { buffer, calls } => Some(Item::List(List::of(buffer, &calls))),
        _ => None,
    }
}

/// A load that changes nothing: a refused table, or a drawn one that is damaged.
fn refused_load(prng: &mut Prng) -> Case {
    let mut marks = random_flag_table(prng).marks().to_vec();
    match prng.below(4) {
        0 => marks = prng.pick(&refused_tables()),
        1 => marks.truncate(prng.below(marks.len())),
        2 => {
            let place = prng.below(marks.len());
            marks[place] = 2 + prng.below(254) as u8;
        }
        _ => {
            let row = prng.below(FLAGS) * VALUES;
            marks[row..][..VALUES].fill(0);
        }
    }
    Case::Load { marks }
}

/// A report of each flag with each value.
fn every_value() -> Vec<Case> {
    let mut cases = Vec::new();
    for flag in 0..FLAGS {
        for value in 1..=VALUES as u8 {
            let mut row = [0; FLAGS];
            row[flag] = value;
            let observation = observation_with(&[(flags::ID, &flags::body_of(&row))]);
            cases.push(judge(&observation.packing()));
        }
    }
    cases
}

/// Each flag set to each value, and read behind its last one.
fn every_set() -> List {
    let mut calls = Vec::new();
    for flag in 1..=FLAGS as u64 {
        calls.extend((1..=VALUES as i64).map(|value| Call::SetFlag { flag, value }));
        calls.push(Call::ReadFlag { flag });
    }
    let observation = observation_with(&[(2, &[5]), (flags::ID, &[0; 16])]);
    List::of(observation.packing(), &calls)
}

/// A body of flags: permitted ones, with one that is forbidden, or any.
fn drawn_flags(prng: &mut Prng, table: &FlagTable) -> Vec<u8> {
    let mut row = random_flags(prng)[..FLAGS].to_vec();
    match prng.below(5) {
        0 => {}
        1 => {
            permit_flags(prng, table, &mut row);
            forbid_flag(prng, table, &mut row);
        }
        _ => permit_flags(prng, table, &mut row),
    }
    flags::body_of(&row)
}

/// A small observation with flags at any position.
fn drawn_observation(prng: &mut Prng, table: &FlagTable) -> Observation {
    let mut observation = random_observation(prng);
    while observation.size() > 150 {
        observation = random_observation(prng);
    }
    observation
        .attachments
        .retain(|other| other.id != flags::ID);
    let position = prng.below(observation.attachments.len() + 1);
    let body = drawn_flags(prng, table);
    let attachment = Attachment::new(flags::ID, body);
    observation.attachments.insert(position, attachment);
    observation
}

/// An observation judged, listed and in two other calls.
fn drawn_records(prng: &mut Prng, table: &FlagTable, observation: &Observation) -> Vec<Case> {
    let report = observation.packing();
    let tail = tail_of(observation);
    let tail_out = vec![0xEE; room(prng, tail.len())];
    let output = vec![0xEE; room(prng, report.len())];
    let (values, word) = values_and_word(observation, i64::MIN);
    let values_out = lent_values(46);
    let mut cases = vec![judge(&report)];
    if prng.one_in(3) {
        cases.push(lister(&report));
    }
    cases.push(match prng.below(2) {
        0 => pack(observation, output.len()),
        _ => Case::Unpack {
            report: report.clone(),
            values: values_out.clone(),
            tail: tail_out.clone(),
        },
    });
    cases.push(match prng.below(3) {
        0 => Case::Restore {
            report,
            values: values_out,
            tail: tail_out,
            output,
        },
        1 => Case::Recover {
            values,
            word,
            rptin: observation.rptin,
            tail,
            output,
            values_out,
            tail_out,
        },
        _ => {
            let mut other = observation.clone();
            let found = other
                .attachments
                .iter_mut()
                .find(|other| other.id == flags::ID);
            found.expect("the flags stand").nibbles = drawn_flags(prng, table);
            Case::Same {
                first: report,
                second: other.packing(),
            }
        }
    });
    cases
}

/// Calls on an observation that a table may refuse.
fn drawn_list(prng: &mut Prng, table: &FlagTable) -> List {
    let mut observation = drawn_observation(prng, table);
    let room = prng.pick(&[0, 0, 1, 8, 30]);
    let buffer = with_bytes_after(observation.packing(), &prng.bytes(room));
    let mut calls = Vec::new();
    for _ in 0..CALLS {
        let call = drawn_call(prng, table, &observation, buffer.len());
        observation = step(&observation, buffer.len(), &call, table).0;
        calls.push(call);
    }
    List::of(buffer, &calls)
}

/// Most often a set flag or a put of flags.
fn drawn_call(prng: &mut Prng, table: &FlagTable, observation: &Observation, n: usize) -> Call {
    let flag = 1 + prng.below(FLAGS);
    match prng.below(6) {
        0 => {
            let value = 1 + prng.below(VALUES) as i64;
            let flag = flag as u64;
            Call::SetFlag { flag, value }
        }
        1 | 2 => {
            let forbidden = table.forbidden(flag);
            let values = match prng.below(2) {
                0 if !forbidden.is_empty() => forbidden,
                _ => table.permitted(flag),
            };
            Call::SetFlag {
                flag: flag as u64,
                value: i64::from(prng.pick(&values)),
            }
        }
        3 => Call::Put {
            id: u64::from(flags::ID),
            content: drawn_flags(prng, table),
        },
        _ => loop {
            let call = call_without_indicators(prng, observation, n);
            if entry(&call).len() < 60 {
                return call;
            }
        },
    }
}
