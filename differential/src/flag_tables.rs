//! Tables of flags drawn at random, and flags that meet them.

use reference::call::Call;
use reference::cases::material::{forbid_flag, permit_flags, random_flag_table, random_flags};
use reference::flag_table::{FlagTable, MARKS, NO, VALUES, YES};
use reference::flags::{self, FLAGS};
use reference::observation::Observation;
use reference::prng::Prng;

const FLAGS_ID: u64 = flags::ID as u64;

/// All yes, with a few noes, sound, or of any marks.
pub fn table(prng: &mut Prng) -> FlagTable {
    match prng.below(8) {
        0..3 => FlagTable::all(),
        3..5 => {
            let mut marks = FlagTable::all().marks();
            for _ in 0..prng.pick(&[1, 1, 2, 3, 5]) {
                marks[prng.below(MARKS)] = NO;
            }
            FlagTable::of(&marks)
        }
        5 => random_flag_table(prng),
        _ => any_table(prng),
    }
}

/// A table that no load gives: some marks are neither 0 nor 1, or rows have no yes.
fn any_table(prng: &mut Prng) -> FlagTable {
    let sound = random_flag_table(prng);
    let mut marks = prng.pick(&[sound, FlagTable::all()]).marks();
    for _ in 0..prng.pick(&[1, 2, 5, 12, 40, 400]) {
        let byte = 2 + prng.below(254) as u8;
        marks[prng.below(MARKS)] = prng.pick(&[NO, 2, 3, 128, 129, 255, byte, byte]);
    }
    FlagTable::of(&marks)
}

/// A table as it is lent: sound, or refused in one or two ways.
pub fn lent(prng: &mut Prng) -> Vec<u8> {
    let mut marks = match prng.below(4) {
        0 => FlagTable::all().marks().to_vec(),
        1 => sparse(prng),
        _ => random_flag_table(prng).marks().to_vec(),
    };
    for _ in 0..prng.pick(&[0, 0, 0, 1, 1, 1, 2]) {
        match prng.below(4) {
            0 => {
                let near = prng.pick(&[0, 1, 10, 14, 130, 139, 141, 150, 280, 396]);
                let any = prng.below(300);
                marks.resize(prng.pick(&[near, near, near, any]), YES);
            }
            1 if !marks.is_empty() => {
                let place = prng.below(marks.len());
                let byte = 2 + prng.below(254) as u8;
                marks[place] = prng.pick(&[2, 3, 128, 255, byte]);
            }
            2 if marks.len() >= VALUES => {
                let row = prng.below(marks.len() / VALUES);
                marks[row * VALUES..][..VALUES].fill(NO);
            }
            // Noes in turn that are no row.
            3 if marks.len() == MARKS => {
                let place = 5 + VALUES * prng.below(FLAGS - 1);
                marks[place - 5..][..2 * VALUES].fill(YES);
                marks[place..][..VALUES].fill(NO);
            }
            _ => {}
        }
    }
    marks
}

/// One yes a row.
fn sparse(prng: &mut Prng) -> Vec<u8> {
    let mut marks = vec![NO; MARKS];
    for row in marks.chunks_mut(VALUES) {
        let last = VALUES - 1;
        let any = prng.below(VALUES);
        row[prng.pick(&[0, last, any])] = YES;
    }
    marks
}

/// Has the flags of an observation meet a table: once in so many times one of them is
/// forbidden, seldom they are as drawn, else all are permitted.
pub fn meet(prng: &mut Prng, table: &FlagTable, observation: &mut Observation, forbidden: usize) {
    let mut attachments = observation.attachments.iter_mut();
    if let Some(attachment) = attachments.find(|other| other.id == flags::ID)
        && !prng.one_in(12)
    {
        attachment.nibbles = body(prng, table, &attachment.nibbles[..FLAGS], forbidden);
    }
}

fn body(prng: &mut Prng, table: &FlagTable, flags: &[u8], forbidden: usize) -> Vec<u8> {
    let mut flags = flags.to_vec();
    permit_flags(prng, table, &mut flags);
    if prng.one_in(forbidden) {
        forbid_flag(prng, table, &mut flags);
    }
    flags::body_of(&flags)
}

/// A set flag or a put of flags that a table permits or forbids.
pub fn call(prng: &mut Prng, table: &FlagTable) -> Call {
    let flag = 1 + prng.below(FLAGS);
    let (permitted, forbidden) = (table.permitted(flag), table.forbidden(flag));
    let values = match prng.below(2) {
        0 if !permitted.is_empty() => permitted,
        _ if !forbidden.is_empty() => forbidden,
        _ => permitted,
    };
    match prng.below(3) {
        0 => {
            let flags = random_flags(prng)[..FLAGS].to_vec();
            Call::Put {
                id: FLAGS_ID,
                content: body(prng, table, &flags, 2),
            }
        }
        _ => Call::SetFlag {
            flag: flag as u64,
            value: i64::from(prng.pick(&values)),
        },
    }
}
