//! Two reports: the same, different, and refused.

use crate::cases::material::*;
use crate::cases::{Case, reports};
use crate::flags;
use crate::observation::Observation;
use crate::table::{FIELDS, fields};
use crate::text;

pub fn cases() -> Vec<Case> {
    let mut cases = equal_reports();
    cases.extend(one_bit_of_a_field());
    cases.extend(cards_of_one_checksum());
    cases.extend(other_attachments());
    cases.extend(large_reports());
    cases.extend(one_refused());
    cases.extend(both_refused());
    cases
}

fn same(first: &[u8], second: &[u8]) -> Case {
    Case::Same {
        first: first.to_vec(),
        second: second.to_vec(),
    }
}

/// Attachments 5, 1, 4 and 9, with one flag and a text.
fn held_with(flag: u8, text: &[u8]) -> Observation {
    let mut row = [0; 14];
    row[3] = flag;
    observation_with(&[
        (5, &[1, 2, 3]),
        (flags::ID, &flags::body_of(&row)),
        (text::ID, &text::write(&symbols_of(text))),
        (9, &[7]),
    ])
}

fn held() -> Observation {
    held_with(2, b"SHIP 1")
}

/// A report beside itself, and with other bytes after it.
fn equal_reports() -> Vec<Case> {
    let mut cases = Vec::new();
    for observation in [
        fresh_observation(),
        observation_with(&[(5, &[1, 2])]),
        observation_with(&[(5, &[1, 2, 3])]),
        held(),
    ] {
        let report = observation.packing();
        for (first, second) in [
            (&[][..], &[][..]),
            (&[], &[0xFF; 3]),
            (&[0], &[]),
            (&[1, 2, 3], &[1, 2, 4]),
        ] {
            cases.push(same(
                &with_bytes_after(report.clone(), first),
                &with_bytes_after(report.clone(), second),
            ));
        }
    }
    cases
}

/// A field's code 1 beside the code with a bit more, or beside missing where the
/// field has no such code, and two bits of RPTIN. With a field, CK differs too.
fn one_bit_of_a_field() -> Vec<Case> {
    let sound = Draft::of(&full_observation(false));
    let mut cases = Vec::new();
    for field in fields().into_iter().step_by(5) {
        let mut other = sound.clone();
        let code = (1..field.bits)
            .map(|bit| 1 + (1 << bit))
            .rfind(|&code| code <= field.highest)
            .unwrap_or(0);
        other.set_code(field.number, code);
        cases.push(if field.number % 2 == 0 {
            same(&sound.bytes(), &other.bytes())
        } else {
            same(&other.bytes(), &sound.bytes())
        });
    }
    for bit in [0, 15] {
        let mut other = sound.clone();
        other.card.rptin ^= 1 << bit;
        cases.push(same(&sound.bytes(), &other.bytes()));
    }
    cases
}

/// Cards of one CK: code 2 in a field or in the next one, and codes 255 apart.
fn cards_of_one_checksum() -> Vec<Case> {
    let with = |field: usize, code: u64| {
        let mut draft = Draft::of(&full_observation(false));
        draft.set_code(field, code);
        draft.bytes()
    };
    let mut cases: Vec<Case> = (1..FIELDS)
        .map(|field| same(&with(field, 2), &with(field + 1, 2)))
        .collect();
    cases.push(same(&with(6, 1), &with(6, 256)));
    cases
}

/// Reports that differ in their attachments alone. A and B, the flags 2 and 3,
/// have one weight.
fn other_attachments() -> Vec<Case> {
    let mut changed = held();
    changed.attachments[0].nibbles[1] ^= 1;
    let mut last = held();
    last.attachments[3].nibbles[0] ^= 8;
    let mut renamed = held();
    renamed.attachments[0].id = 6;
    let mut swapped = held();
    swapped.attachments.swap(0, 3);
    let mut fewer = held();
    fewer.attachments.pop();
    let mut longer = held();
    longer.attachments[3].nibbles.push(0);
    let mut cases: Vec<Case> = [
        changed,
        last,
        renamed,
        swapped,
        fewer,
        longer,
        held_with(3, b"SHIP 1"),
        held_with(4, b"SHIP 1"),
        held_with(2, b"SHIP 2"),
        held_with(2, b"SHIP  1"),
        fresh_observation(),
    ]
    .iter()
    .map(|other| same(&held().packing(), &other.packing()))
    .collect();
    for (first, second) in [
        // A padding nibble beside a data nibble 0.
        (vec![(5, &[1][..])], vec![(5, &[1, 0][..])]),
        (
            vec![(5, &[1, 0, 1][..]), (6, &[1])],
            vec![(5, &[1]), (6, &[1, 0, 1])],
        ),
    ] {
        let (first, second) = (observation_with(&first), observation_with(&second));
        cases.push(same(&first.packing(), &second.packing()));
        cases.push(same(&second.packing(), &first.packing()));
    }
    cases
}

/// The largest report with bytes after it, and with one bit changed at its ends
/// and amid it.
fn large_reports() -> Vec<Case> {
    let report = largest_observation().packing();
    let whole_buffer = with_bytes_after(report.clone(), &[0xFF; 147]);
    let mut cases = vec![same(&report, &whole_buffer), same(&whole_buffer, &report)];
    for index in [0, 1000, report.len() - 1] {
        let mut other = report.clone();
        other[index] ^= 1;
        cases.push(same(&report, &other));
    }
    cases
}

/// Each refusal first and second beside a sound report, and a report cut.
fn one_refused() -> Vec<Case> {
    let sound = held().packing();
    let cut = &sound[..sound.len() - 1];
    let mut cases = vec![same(&sound, cut), same(cut, &sound)];
    for two in reports::two_of_each_refusal().chunks(2) {
        cases.extend([same(&two[0], &sound), same(&sound, &two[1])]);
    }
    cases
}

/// Two refused reports, of other refusals, of one at two places, and the same.
fn both_refused() -> Vec<Case> {
    let refused = reports::two_of_each_refusal();
    let mut cases = Vec::new();
    for (index, first) in refused.iter().enumerate() {
        cases.push(same(first, &refused[(index + 1) % refused.len()]));
    }
    cases.extend([same(&[], &[]), same(&refused[2], &refused[2])]);
    cases
}
