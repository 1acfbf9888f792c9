//! Observations, reports and buffers drawn at random.

use reference::attachment::Attachment;
use reference::bits::{bits_of, bytes_of, store_number};
use reference::card::{CARD_BYTES, Card, checksum};
use reference::cases::material::{
    Draft, bad_flag_bodies, bad_text_bodies, fresh_observation, full_observation,
    largest_observation, random_body, random_flags, random_observation,
};
use reference::cases::random::damage;
use reference::flags;
use reference::gate::sizes::{LONGEST_TAIL, observation_of_tail};
use reference::observation::Observation;
use reference::prng::Prng;
use reference::table::{CK, Coded, FIELDS, Field, SID, Scaled, fields, place_on_card};
use reference::text;

use crate::indicators;

/// An observation, of any size from no attachment to fifteen of 255 nibbles. At times
/// its source ID is one of those whose character set is known, or beside them. As often
/// as not some of its indicators have lost their data.
pub fn observation(prng: &mut Prng) -> Observation {
    let mut observation = match prng.below(40) {
        0 => fresh_observation(),
        1 => full_observation(prng.one_in(2)),
        2 => largest_observation(),
        3 => {
            let length = 4 + prng.below(LONGEST_TAIL - 3);
            observation_of_tail(prng, length)
        }
        4..8 => {
            let length = 4 + prng.below(300);
            observation_of_tail(prng, length)
        }
        _ => random_observation(prng),
    };
    observation.rptin = prng.next_u64() as u16;
    for field in fields() {
        if prng.one_in(16) {
            observation.values[field.number - 1] = near_edge(prng, field).map(Scaled);
        }
    }
    if prng.one_in(2) {
        add(prng, &mut observation, flags::ID);
    }
    if prng.one_in(3) {
        add(prng, &mut observation, text::ID);
    }
    if prng.one_in(3) {
        let beside = prng.below(27) as i64;
        observation.values[SID - 1] = Some(Scaled(prng.pick(&[4, 18, beside, beside])));
    }
    if prng.one_in(2) {
        indicators::part(prng, &mut observation);
    }
    observation
}

/// The value 0, 1 or -1, or a code by a power of two, if the field has it.
pub fn near_edge(prng: &mut Prng, field: Field) -> Option<i64> {
    let value = match prng.below(3) {
        0 => prng.pick(&[0, 0, 1, -1]),
        _ => field.base + (1 << prng.below(field.bits + 1)) - prng.below(2) as i64,
    };
    let in_range = field.coded(Scaled(value)).is_some();
    match (in_range, field.is_required()) {
        (true, _) => Some(value),
        (false, true) => Some(field.highest_value().0),
        (false, false) => None,
    }
}

/// Adds an id at any position if it does not stand.
pub fn add(prng: &mut Prng, observation: &mut Observation, id: u8) {
    if observation.content(u64::from(id)).is_none() {
        let body = random_body(prng, id);
        let position = prng.below(observation.attachments.len() + 1);
        let attachment = Attachment::new(id, body);
        observation.attachments.insert(position, attachment);
    }
}

/// The packing of an observation in a buffer that just fits or has bytes behind it.
pub fn buffer(prng: &mut Prng, observation: &Observation) -> Vec<u8> {
    let mut buffer = observation.packing();
    extend(prng, &mut buffer);
    buffer
}

fn extend(prng: &mut Prng, buffer: &mut Vec<u8>) {
    let more = prng.pick(&[0, 0, 0, 0, 1, 1, 2, 3, 8, 30, 130, 200, 1000]);
    let more = match prng.below(3) {
        0 => vec![prng.pick(&[0, 0xFF, 0xA5]); more],
        _ => prng.bytes(more),
    };
    buffer.extend(more);
}

/// A buffer whose report is most likely refused.
pub fn damaged(prng: &mut Prng, observation: &Observation) -> Vec<u8> {
    let mut buffer = match prng.below(13) {
        0 => return garbage(prng),
        1..5 => drafted(prng, observation),
        5..7 => damaged_headers(prng, observation),
        7..9 => damaged_bodies(prng, observation),
        9 => {
            let mut draft = Draft::of(observation);
            draft.last = 1 + prng.below(15) as u8;
            draft.bytes()
        }
        10 => cut(prng, observation),
        11 => wrong_checksum(prng, observation),
        _ => flipped(prng, observation.packing()),
    };
    if prng.one_in(3) {
        extend(prng, &mut buffer);
    }
    buffer
}

/// Damaged in one or two of the ways that a refusal names, the checksum mended.
fn drafted(prng: &mut Prng, observation: &Observation) -> Vec<u8> {
    let mut draft = Draft::of(observation);
    for _ in 0..prng.pick(&[1, 1, 1, 2, 3]) {
        damage(prng, &mut draft);
    }
    draft.bytes()
}

/// CK off by a little, the same in fewer bits or modulo 255, or of another sum.
fn wrong_checksum(prng: &mut Prng, observation: &Observation) -> Vec<u8> {
    let mut draft = Draft::of(observation);
    let ck = draft.card.ck;
    draft.card.ck = match prng.below(5) {
        0 => ck + 255 * (1 + prng.below(63)) as u64,
        1 => ck ^ (1 << prng.below(14)),
        2 => (ck + 1) % 255,
        3 => (ck + draft.card.ac as u64) % 255,
        _ => draft.card.codes.iter().map(|code| code.0).sum::<u64>() % 256,
    };
    draft.bytes()
}

/// AL, AID or AC damaged.
fn damaged_headers(prng: &mut Prng, observation: &Observation) -> Vec<u8> {
    let mut draft = Draft::of(observation);
    if observation.attachments.is_empty() || prng.one_in(5) {
        draft.card.ac = prng.below(16);
        return draft.bytes();
    }
    let header = place_of(observation, prng.below(observation.attachments.len()));
    let id = prng.pick(&observation.attachments).id;
    match prng.below(6) {
        0 => draft.tail[header..header + 2].fill(0),
        1 => draft.tail[header + 2] = 0,
        2 => draft.tail[header + 2] = id,
        3 => draft.tail[header] = prng.below(16) as u8,
        4 => draft.tail[header + 1] = prng.below(16) as u8,
        _ => draft.tail[header + 1] = (draft.tail[header + 1] + prng.pick(&[1, 15])) % 16,
    }
    draft.bytes()
}

/// The place of an attachment in the tail.
fn place_of(observation: &Observation, index: usize) -> usize {
    observation.attachments[..index]
        .iter()
        .map(Attachment::size)
        .sum()
}

/// The body of id 1 or 4 changed in some nibbles or for one that is refused.
fn damaged_bodies(prng: &mut Prng, observation: &Observation) -> Vec<u8> {
    let mut observation = observation.clone();
    let id = prng.pick(&[flags::ID, text::ID]);
    add(prng, &mut observation, id);
    let found = observation
        .attachments
        .iter_mut()
        .find(|other| other.id == id);
    let body = &mut found.expect("the id was added").nibbles;
    *body = changed_body(prng, id, body);
    Draft::of(&observation).bytes()
}

/// A body near a valid one.
pub fn changed_body(prng: &mut Prng, id: u8, body: &[u8]) -> Vec<u8> {
    let mut changed = body.to_vec();
    match prng.below(6) {
        0 if id == flags::ID => changed = prng.pick(&bad_flag_bodies()),
        0 => changed = prng.pick(&bad_text_bodies()),
        1..4 if id == flags::ID => changed = changed_flags(prng),
        1 => {
            let place = prng.below(changed.len() + 1);
            let bad = prng.pick(&bad_text_bodies());
            changed.splice(place..place, bad);
            changed.truncate(255);
        }
        2 if changed.len() > 1 => changed.truncate(changed.len() - 1),
        _ => {
            let place = prng.below(changed.len());
            changed[place] = prng.below(16) as u8;
        }
    }
    changed
}

/// Flags with a quality code a little above or below theirs, or with one that
/// is no flag and a quality code as if it had some weight.
fn changed_flags(prng: &mut Prng) -> Vec<u8> {
    let mut body = random_flags(prng);
    let mut code = 16 * body[14] + body[15];
    if prng.one_in(2) {
        let mut flags = body[..14].to_vec();
        let place = prng.below(14);
        flags[place] = 0;
        code = flags::quality_code(&flags).max(1) + prng.below(4) as u8;
        body[place] = prng.pick(&[11, 11, 12, 13, 14, 15]);
    } else {
        code = code.wrapping_add(prng.pick(&[1, 2, 16, 255]));
    }
    body[14] = code >> 4;
    body[15] = code & 15;
    body
}

/// Cut anywhere, more often near the card's or the report's end.
fn cut(prng: &mut Prng, observation: &Observation) -> Vec<u8> {
    let mut report = observation.packing();
    let length = report.len();
    let kept = match prng.below(4) {
        0 => prng.pick(&[0, 1, 36, 37, 38, 39, 40]),
        1 => length - 1,
        2 => length.saturating_sub(prng.below(6)),
        _ => prng.below(length),
    };
    report.truncate(kept);
    report
}

/// Some bits flipped, the checksum at times mended.
fn flipped(prng: &mut Prng, mut report: Vec<u8>) -> Vec<u8> {
    let length = report.len();
    for _ in 0..prng.pick(&[1, 1, 1, 2, 5]) {
        let within = prng.pick(&[CARD_BYTES, length]);
        report[prng.below(within)] ^= 1 << prng.below(8);
    }
    if prng.one_in(2) {
        mend(&mut report);
    }
    report
}

/// Works CK out again.
fn mend(report: &mut [u8]) {
    let Some(card) = report.get_mut(..CARD_BYTES) else {
        return;
    };
    let mut bits = bits_of(card);
    let ck = checksum(&Card::read(&bits).codes);
    store_number(&mut bits[place_on_card(CK)], ck);
    card.copy_from_slice(&bytes_of(&bits));
}

/// Bytes of no report, or a sound card of random codes before them.
fn garbage(prng: &mut Prng) -> Vec<u8> {
    let length = prng.pick(&[0, 1, 20, 37, 38, 39, 60, 200, 2000]);
    let mut bytes = match prng.below(3) {
        0 => vec![prng.pick(&[0, 0x11, 0xFF]); length],
        _ => prng.bytes(length),
    };
    if length >= CARD_BYTES && prng.one_in(2) {
        let mut codes = [Coded(0); FIELDS];
        for field in fields() {
            codes[field.number - 1] = Coded(1 + prng.below(field.highest as usize) as u64);
        }
        let card = Card {
            rptin: prng.next_u64() as u16,
            ck: checksum(&codes),
            codes,
            ac: prng.below(16),
        };
        let mut bits = card.bits();
        bits.extend(&bits_of(&bytes[CARD_BYTES - 1..CARD_BYTES])[4..]);
        bytes[..CARD_BYTES].copy_from_slice(&bytes_of(&bits));
    }
    bytes
}
