//! The reports that calls are measured on.

use reference::attachment::Attachment;
use reference::cases::material::{fresh_observation, random_flags, random_value, symbols_of};
use reference::indicator::ERRONEOUS_ID;
use reference::observation::Observation;
use reference::prng::Prng;
use reference::table::{FIELDS, fields};
use reference::text::{self, Symbol};

pub const SIZES: [usize; 4] = [38, 200, 900, 1853];

const WORDS: &[u8] = b"USCG SHIP 4YA   STORM 25-30 KT, SEA ROUGH/HIGH  POS 4512N 03021W + \
      BAR 0991.4 FALLING & ICE      SEEN AT 1200Z  Q{5}";

/// A ship's remarks, as long as they make so many nibbles. Few symbols are original.
pub fn remarks(nibbles: usize) -> Vec<Symbol> {
    remarks_of(WORDS, nibbles)
}

/// The same in small letters, which are original.
pub fn small_remarks(nibbles: usize) -> Vec<Symbol> {
    remarks_of(&WORDS.to_ascii_lowercase(), nibbles)
}

fn remarks_of(words: &[u8], nibbles: usize) -> Vec<Symbol> {
    let mut remarks = Vec::new();
    for &symbol in symbols_of(words).iter().cycle() {
        let mut longer = remarks.clone();
        longer.push(symbol);
        if text::write(&longer).len() > nibbles {
            break;
        }
        remarks = longer;
    }
    while remarks.last() == Some(&Symbol::SPACE) {
        remarks.pop();
    }
    while text::write(&remarks).len() < nibbles {
        remarks.extend(Symbol::plain(b'7'));
    }
    remarks
}

fn attachments(lengths: &[(u8, usize)], prng: &mut Prng) -> Vec<Attachment> {
    lengths
        .iter()
        .map(|&(id, length)| {
            let nibbles = match id {
                1 => random_flags(prng),
                4 => text::write(&remarks(length)),
                _ => prng.nibbles(length),
            };
            Attachment::new(id, nibbles)
        })
        .collect()
}

/// A report of one of the four sizes, whose text, if it has one, is in small letters.
pub fn small_observation(size: usize) -> Observation {
    let mut observation = observation(size);
    for attachment in &mut observation.attachments {
        if attachment.id == text::ID {
            attachment.nibbles = text::write(&small_remarks(attachment.nibbles.len()));
        }
    }
    assert_eq!(observation.size(), size);
    observation
}

/// A report of one of the four sizes, with every field present.
pub fn observation(size: usize) -> Observation {
    let mut prng = Prng::new(size as u64);
    let mut observation = fresh_observation();
    observation.rptin = 0x1234;
    for field in fields() {
        observation.values[field.number - 1] = Some(random_value(&mut prng, field.number));
    }
    assert_eq!(observation.values.len(), FIELDS);
    let lengths: Vec<(u8, usize)> = match size {
        38 => vec![],
        200 => vec![(1, 16), (5, 100), (4, 120), (9, 77)],
        900 => vec![
            (1, 16),
            (5, 255),
            (4, 255),
            (9, 255),
            (3, 255),
            (2, 255),
            (12, 255),
            (15, 155),
        ],
        _ => {
            let mut all = vec![(1, 16)];
            all.extend([5, 4, 9, 3, 2, 12, 15, 6, 7, 8, 10, 11, 13, 14].map(|id| (id, 255)));
            all
        }
    };
    observation.attachments = attachments(&lengths, &mut prng);
    assert_eq!(observation.size(), size);
    observation
}

/// The data that are missing in each of the reports in which indicators are found.
const LOST: [&[usize]; 8] = [
    &[],
    &[18],
    &[20],
    &[31],
    &[18, 20],
    &[22, 37],
    &[28, 29, 30, 31],
    &[18, 20, 22, 28, 29, 30, 31, 37],
];

/// Reports of one of the four sizes in which up to six indicators have lost their data. Attachment
/// 5, which would hide them, has a free id. The longest report has none: there it is taken off.
pub fn lone_observations(size: usize) -> [Observation; 8] {
    let mut full = observation(size);
    let five = full
        .attachments
        .iter()
        .position(|attachment| attachment.id == ERRONEOUS_ID);
    let free = (1..=15).rev().find(|&id| full.content(id).is_none());
    match (five, free) {
        (Some(index), Some(id)) => full.attachments[index].id = id as u8,
        (Some(index), None) => drop(full.attachments.remove(index)),
        (None, _) => {}
    }
    LOST.map(|lost| {
        let mut observation = full.clone();
        for field in lost {
            observation.values[field - 1] = None;
        }
        observation
    })
}
