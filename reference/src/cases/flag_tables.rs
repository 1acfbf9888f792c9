//! Cases under a library's own table of flags. A load is in force for those behind it.

use super::Case;
use super::material::*;
use super::outside::pack_case;
use crate::call::Call;
use crate::flag_table::{FlagTable, MARKS, NO, VALUES, YES};
use crate::flags::{self, FLAGS};
use crate::observation::Observation;
use crate::table::FIELDS;

/// The value A.
pub const A: u8 = 2;

/// Ends with every flag permitted.
pub fn cases() -> Vec<Case> {
    let mut cases = refused_loads();
    cases.extend(accepted_loads());
    cases.extend(each_mark());
    cases.extend(last_values());
    cases.extend(reports());
    cases.extend(order_in_reports());
    cases.extend(lists());
    cases.push(load(&FlagTable::all()));
    cases
}

pub fn load(table: &FlagTable) -> Case {
    Case::Load {
        marks: table.marks().to_vec(),
    }
}

/// The table that forbids one value of one flag.
pub fn without(flag: usize, value: u8) -> FlagTable {
    let mut table = FlagTable::all();
    table.mark(flag, value, NO);
    table
}

/// The table that permits one value of each flag.
fn only(value: impl Fn(usize) -> u8) -> FlagTable {
    let mut table = FlagTable::of(&[NO; MARKS]);
    for flag in 1..=FLAGS {
        table.mark(flag, value(flag), YES);
    }
    table
}

/// One value a row: R for flag 1, A for flag 2, up to S, then R again.
fn diagonal() -> FlagTable {
    only(|flag| ((flag - 1) % VALUES + 1) as u8)
}

/// The flags of which one has a value and the others are missing.
pub fn one_flag(flag: usize, value: u8) -> Vec<u8> {
    let mut flags = vec![0; FLAGS];
    flags[flag - 1] = value;
    flags
}

/// The flags as the second of three attachments.
pub fn held(flags: &[u8]) -> Observation {
    observation_with(&[(9, &[3]), (flags::ID, &flags::body_of(flags)), (4, &[7])])
}

fn judge(flags: &[u8]) -> Case {
    Case::Judge {
        report: held(flags).packing(),
    }
}

fn list(flags: &[u8], calls: Vec<Call>) -> Case {
    Case::Calls {
        buffer: with_bytes_after(held(flags).packing(), &[0xA5; 4]),
        calls,
    }
}

fn set(flag: usize, value: u8) -> Call {
    Call::SetFlag {
        flag: flag as u64,
        value: i64::from(value),
    }
}

fn read(flag: usize) -> Call {
    Call::ReadFlag { flag: flag as u64 }
}

fn put_flags(flags: &[u8]) -> Call {
    Call::Put {
        id: u64::from(flags::ID),
        content: flags::body_of(flags),
    }
}

/// Tables that are refused: of other lengths, with other bytes, with an empty row.
pub fn refused_tables() -> Vec<Vec<u8>> {
    let sound = diagonal().marks();
    let changed = |place: usize, byte: u8| {
        let mut marks = sound.to_vec();
        marks[place] = byte;
        marks
    };
    let mut refused: Vec<Vec<u8>> = [0, 1, 10, 14, 130, 139, 141, 150, 200]
        .map(|length| sound.iter().cycle().take(length).copied().collect())
        .to_vec();
    refused.extend([139, 141].map(|length| vec![YES; length]));
    for place in [0, 1, 9, 10, 75, 138, 139] {
        refused.extend([2, 3, 128, 255].map(|byte| changed(place, byte)));
    }
    for row in [0, 1, 6, 12, 13] {
        let mut marks = sound.to_vec();
        marks[row * VALUES..][..VALUES].fill(NO);
        refused.push(marks);
    }
    refused.push(with_ten_noes(70));
    refused.extend([NO, 2, 255].map(|byte| vec![byte; MARKS]));
    refused
}

/// Ten marks in turn that are no. They are a row where the place is a multiple of 10.
fn with_ten_noes(place: usize) -> Vec<u8> {
    let mut marks = vec![YES; MARKS];
    marks[place..][..VALUES].fill(NO);
    marks
}

/// What tells a table without A for flag 1 from the others here.
fn told_apart() -> Vec<Case> {
    vec![
        judge(&one_flag(1, A)),
        judge(&one_flag(2, 1)),
        list(&one_flag(1, 1), vec![set(1, A), set(2, 1), read(1)]),
    ]
}

/// Refused before any load, and with a former table of its own.
fn refused_loads() -> Vec<Case> {
    let mut cases = told_apart();
    cases.push(Case::Load { marks: Vec::new() });
    cases.extend(told_apart());
    cases.push(load(&without(1, A)));
    cases.extend(told_apart());
    for marks in refused_tables() {
        cases.push(Case::Load { marks });
        cases.extend(told_apart());
    }
    cases
}

/// Tables of one yes a row, of one no a row, of halves of the rows, of ten noes that
/// are no row, and all yes.
fn accepted_loads() -> Vec<Case> {
    let mut opposite = FlagTable::all();
    for flag in 1..=FLAGS {
        opposite.mark(flag, ((flag - 1) % VALUES + 1) as u8, NO);
    }
    let mut halves = FlagTable::all();
    for flag in 1..=FLAGS {
        for value in (1..=VALUES as u8).filter(|value| (usize::from(*value) + flag) % 2 == 0) {
            halves.mark(flag, value, NO);
        }
    }
    let mut amid_rows = FlagTable::all();
    let accepted = amid_rows.load(&with_ten_noes(65));
    accepted.expect("each row has a yes");
    let mut cases = Vec::new();
    for table in [
        diagonal(),
        only(|_| 1),
        only(|_| VALUES as u8),
        opposite,
        halves,
        amid_rows,
        FlagTable::all(),
    ] {
        cases.push(load(&table));
        for value in 0..=VALUES as u8 {
            cases.push(judge(&[value; FLAGS]));
        }
        for flag in 1..=FLAGS {
            let calls = (1..=VALUES as u8).map(|value| set(flag, value)).collect();
            cases.push(list(&[0; FLAGS], calls));
        }
    }
    cases
}

/// Each mark as the only no.
fn each_mark() -> Vec<Case> {
    let mut cases = Vec::new();
    for flag in 1..=FLAGS {
        for value in 1..=VALUES as u8 {
            let beside = value % VALUES as u8 + 1;
            cases.push(load(&without(flag, value)));
            cases.push(judge(&one_flag(flag, value)));
            cases.push(judge(&one_flag(flag, beside)));
            cases.push(judge(&one_flag(flag % FLAGS + 1, value)));
            let calls = vec![set(flag, value), set(flag, beside), read(flag)];
            cases.push(list(&[0; FLAGS], calls));
        }
    }
    cases
}

/// Value 10 of a flag beside value 1 of the next, and a table of one yes a row, under
/// which a flag is missing or has that value.
fn last_values() -> Vec<Case> {
    let mut cases = Vec::new();
    for flag in [1, 2, 13] {
        for table in [without(flag, 10), without(flag + 1, 1)] {
            cases.push(load(&table));
            for flags in [one_flag(flag, 10), one_flag(flag + 1, 1)] {
                cases.push(judge(&flags));
                let calls = vec![set(flag, 10), set(flag + 1, 1), put_flags(&flags)];
                cases.push(list(&[0; FLAGS], calls));
            }
        }
    }
    let permitted: Vec<u8> = (0..FLAGS).map(|index| (index % VALUES + 1) as u8).collect();
    cases.push(load(&diagonal()));
    for flags in [permitted.clone(), vec![0; FLAGS], one_flag(14, 4)] {
        cases.push(judge(&flags));
        let calls = vec![put_flags(&permitted), Call::ClearFlag { flag: 3 }, read(3)];
        cases.push(list(&flags, calls));
    }
    cases
}

/// Each call outside the list, on reports and tails with and without A for flag 1.
fn reports() -> Vec<Case> {
    let mut cases = vec![load(&without(1, A))];
    let reports = [one_flag(1, A), one_flag(1, 1), one_flag(2, A)].map(|flags| held(&flags));
    for observation in &reports {
        cases.extend(outside(observation));
    }
    for first in &reports {
        for second in &reports {
            cases.push(Case::Same {
                first: first.packing(),
                second: second.packing(),
            });
        }
    }
    let alone = observation_with(&[(flags::ID, &flags::body_of(&one_flag(1, A)))]);
    cases.extend(outside(&alone));
    cases.push(Case::Fresh {
        required: [1, 1900, 1, 0, 0],
        output: vec![0xEE; 40],
    });
    cases.push(Case::Characters {
        table: Box::new([0xEEEE; 256]),
    });
    cases
}

/// A report in each call, with outputs that would do and with outputs too short.
fn outside(observation: &Observation) -> Vec<Case> {
    let report = observation.packing();
    let (values, word) = values_and_word(observation, 0);
    let tail = tail_of(observation);
    let size = report.len();
    let mut cases = vec![
        Case::Judge {
            report: report.clone(),
        },
        Case::Lister {
            input: report.clone(),
        },
    ];
    for short in [0, 1] {
        let (tail_room, output_room) = (tail.len() - short, size - short);
        cases.push(Case::Unpack {
            report: report.clone(),
            values: vec![-7; FIELDS],
            tail: vec![0xEE; tail_room],
        });
        cases.push(pack_case(observation, output_room));
        cases.push(Case::Restore {
            report: report.clone(),
            values: vec![-7; FIELDS],
            tail: vec![0xEE; tail_room],
            output: vec![0xEE; output_room],
        });
        cases.push(Case::Recover {
            values: values.clone(),
            word,
            rptin: observation.rptin,
            tail: tail.clone(),
            output: vec![0xEE; output_room],
            values_out: vec![-7; FIELDS],
            tail_out: vec![0xEE; tail_room],
        });
    }
    cases
}

/// A forbidden flag with another fault of the report or of pack's tail.
fn order_in_reports() -> Vec<Case> {
    let mut cases = vec![load(&without(1, A))];
    let forbidden = flags::body_of(&one_flag(1, A));
    let draft = Draft::of(&observation_with(&[(9, &[3]), (flags::ID, &forbidden)]));
    let mut damaged = Vec::new();
    let mut with = |change: &dyn Fn(&mut Draft)| {
        let mut changed = draft.clone();
        change(&mut changed);
        damaged.push(changed);
    };
    with(&|_| {});
    with(&|draft| draft.set_code(1, 649));
    with(&|draft| draft.set_code(3, 0));
    with(&|draft| draft.card.ck += 1);
    with(&|draft| draft.tail[4 + 2] = 9);
    with(&|draft| draft.tail.truncate(22));
    with(&|draft| draft.tail[4 + 3 + 15] += 1);
    with(&|draft| draft.attach(4, &[10]));
    with(&|draft| draft.attach(9, &[3]));
    with(&|draft| draft.attach(5, &[1, 2]));
    let mut text_first = Draft::of(&observation_with(&[(4, &[10])]));
    text_first.attach(flags::ID, &forbidden);
    damaged.push(text_first);
    let mut last = draft.clone();
    last.attach(5, &[1, 2]);
    last.last = 9;
    damaged.push(last);
    let (values, word) = values_and_word(&fresh_observation(), 0);
    for draft in &damaged {
        let report = draft.bytes();
        cases.push(Case::Judge {
            report: report.clone(),
        });
        cases.push(Case::Unpack {
            report,
            values: vec![-7; 1],
            tail: vec![0xEE; 2],
        });
        for (word, byte) in [(word, None), (word | 1, None), (word, Some(16))] {
            let mut tail = draft.tail.clone();
            tail.extend(byte);
            cases.push(Case::Pack {
                values: values.clone(),
                word,
                rptin: 0,
                tail,
                output: vec![0xEE; 3],
            });
        }
    }
    cases
}

/// One call of each kind, none of them with a bad argument.
fn each_call() -> Vec<Call> {
    vec![
        Call::ReadField { field: 2 },
        Call::SetField { field: 4, value: 9 },
        Call::ClearField { field: 5 },
        read(1),
        set(2, 1),
        Call::ClearFlag { flag: 1 },
        Call::Put {
            id: 5,
            content: vec![1],
        },
        Call::Fetch {
            id: 9,
            output: vec![0xEE; 2],
        },
        Call::Drop { id: 1 },
        put_text(&symbols_of(b"A")),
        fetch_text(2),
    ]
}

/// Calls on reports with and without a forbidden flag, and the caller's refusals with
/// one another.
fn lists() -> Vec<Case> {
    let mut cases = vec![load(&without(1, A))];
    for flags in [one_flag(1, A), one_flag(1, 1)] {
        cases.push(list(&flags, each_call()));
    }
    let wrong_code = || {
        let mut content = flags::body_of(&one_flag(1, 1));
        content[15] += 1;
        Call::Put { id: 1, content }
    };
    let calls = vec![
        set(1, A),
        set(1, 0),
        set(1, 11),
        set(0, A),
        set(15, A),
        set(1, 1),
        set(2, A),
        put_flags(&one_flag(1, A)),
        put_flags(&one_flag(2, A)),
        wrong_code(),
        read(1),
        read(2),
    ];
    cases.push(list(&[0; FLAGS], calls.clone()));
    // Without id 1, and with no room for it.
    let bare = observation_with(&[(9, &[3])]);
    for room in [0, 30] {
        cases.push(Case::Calls {
            buffer: with_bytes_after(bare.packing(), &vec![0xA5; room]),
            calls: calls.clone(),
        });
    }
    // Flags of another id may be any nibbles.
    let body = flags::body_of(&one_flag(1, A));
    cases.push(Case::Calls {
        buffer: with_bytes_after(observation_with(&[(2, &body)]).packing(), &[0xA5; 20]),
        calls: vec![
            Call::Put {
                id: 3,
                content: body.clone(),
            },
            Call::Put {
                id: 1,
                content: body,
            },
        ],
    });
    cases
}
