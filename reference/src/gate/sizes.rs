//! Observations of a wanted size or sum.

use crate::attachment::{Attachment, HEADER, LONGEST};
use crate::cases::material::{fresh_observation, random_flags, random_observation, random_text};
use crate::flags;
use crate::observation::Observation;
use crate::prng::Prng;
use crate::table::{FIELDS, REQUIRED, Scaled, fields};
use crate::text::{self, Symbol};

/// Nibbles behind the card of the largest report.
pub const LONGEST_TAIL: usize = 14 * (HEADER + LONGEST) + FLAGS_SIZE;

const FLAGS_SIZE: usize = HEADER + flags::LENGTH;
const SHORTEST: usize = HEADER + 1;

/// An observation whose attachments take so many nibbles: none, or 4 and more.
pub fn observation_of_tail(prng: &mut Prng, tail: usize) -> Observation {
    let mut observation = random_observation(prng);
    observation.attachments.clear();
    let with_flags = has_flags(prng, tail);
    let rest = if with_flags { tail - FLAGS_SIZE } else { tail };
    let sizes = split(prng, rest);
    let mut ids: Vec<u8> = (2..=15).collect();
    prng.shuffle(&mut ids);
    for (id, size) in ids.into_iter().zip(sizes) {
        let body = body_of_length(prng, id, size - HEADER);
        observation.attachments.push(Attachment::new(id, body));
    }
    if with_flags {
        let position = prng.below(observation.attachments.len() + 1);
        let body = random_flags(prng);
        let flags = Attachment::new(flags::ID, body);
        observation.attachments.insert(position, flags);
    }
    observation
}

/// Whether id 1 is to stand: where it must, and else at times where it can.
fn has_flags(prng: &mut Prng, tail: usize) -> bool {
    let can = tail == FLAGS_SIZE || tail >= FLAGS_SIZE + SHORTEST;
    tail > LONGEST_TAIL - FLAGS_SIZE || (can && prng.one_in(2))
}

/// Sizes of attachments that add up to a number of nibbles.
fn split(prng: &mut Prng, nibbles: usize) -> Vec<usize> {
    let fewest = nibbles.div_ceil(HEADER + LONGEST);
    let most = (nibbles / SHORTEST).min(14);
    let count = fewest + prng.below(most - fewest + 1);
    let spare = LONGEST - 1;
    let mut left = nibbles - count * SHORTEST;
    let mut sizes = Vec::new();
    for others in (0..count).rev() {
        let low = left.saturating_sub(others * spare);
        let high = left.min(spare);
        let more = low + prng.below(high - low + 1);
        sizes.push(SHORTEST + more);
        left -= more;
    }
    sizes
}

fn body_of_length(prng: &mut Prng, id: u8, length: usize) -> Vec<u8> {
    if id == text::ID {
        text_body(prng, length)
    } else {
        prng.nibbles(length)
    }
}

/// The nibbles of a text, filled up with digits to a length.
fn text_body(prng: &mut Prng, length: usize) -> Vec<u8> {
    let mut text = random_text(prng, length / 4);
    while text.last() == Some(&Symbol::SPACE) || text::write(&text).len() > length {
        text.pop();
    }
    let mut body = text::write(&text);
    while body.len() < length {
        body.push(prng.below(10) as u8);
    }
    body
}

/// An observation whose coded values add up to a sum of 5 and more: the fields
/// ascending, each as high as it can be.
pub fn observation_of_sum(sum: u64) -> Observation {
    let mut observation = fresh_observation();
    observation.values = [None; FIELDS];
    let required = fields().iter().filter(|field| field.is_required()).count();
    let mut left = sum - required as u64;
    for field in fields() {
        let least = u64::from(field.is_required());
        let code = (least + left).min(field.highest);
        left -= code - least;
        if code > 0 {
            observation.values[field.number - 1] = Some(Scaled(field.base + code as i64));
        }
    }
    observation
}

/// Values for fresh whose codes add up to a sum of 5 to 6316, filled up likewise.
pub fn required_of_sum(sum: u64) -> [i64; 5] {
    let mut left = sum - 5;
    REQUIRED.map(|number| {
        let field = fields()[number - 1];
        let more = left.min(field.highest - 1);
        left -= more;
        field.lowest_value().0 + more as i64
    })
}
