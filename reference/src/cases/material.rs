//! Observations, reports, contents and texts from which cases are made.

use crate::attachment::{Attachment, with_header};
use crate::bits::bytes_of_nibbles;
use crate::call::Call;
use crate::card::{Card, checksum};
use crate::flag_table::{FlagTable, NO, VALUES, YES};
use crate::flags::{self, FLAGS};
use crate::indicator::{ERRONEOUS_ID, INDICATORS};
use crate::observation::Observation;
use crate::prng::Prng;
use crate::table::{Coded, FIELDS, Scaled, fields};
use crate::text::{self, Symbol};

/// A report put together freely, sound or not.
#[derive(Clone, Debug)]
pub struct Draft {
    pub card: Card,
    /// Nibbles behind the card.
    pub tail: Vec<u8>,
    /// The nibble behind an odd number of them.
    pub last: u8,
}

impl Draft {
    pub fn of(observation: &Observation) -> Draft {
        let codes = observation.codes();
        Draft {
            card: Card {
                rptin: observation.rptin,
                codes,
                ck: checksum(&codes),
                ac: observation.attachments.len(),
            },
            tail: tail_of(observation),
            last: 0,
        }
    }

    /// Sets a field's code and works CK out again.
    pub fn set_code(&mut self, field: usize, code: u64) {
        self.card.codes[field - 1] = Coded(code);
        self.card.ck = checksum(&self.card.codes);
    }

    /// Adds an attachment, valid or not.
    pub fn attach(&mut self, id: u8, nibbles: &[u8]) {
        self.card.ac += 1;
        self.tail.extend(with_header(id, nibbles));
    }

    pub fn bytes(&self) -> Vec<u8> {
        let mut nibbles = self.card.nibbles();
        nibbles.extend(&self.tail);
        if nibbles.len() % 2 == 1 {
            nibbles.push(self.last);
        }
        bytes_of_nibbles(&nibbles)
    }
}

pub fn tail_of(observation: &Observation) -> Vec<u8> {
    observation
        .attachments
        .iter()
        .flat_map(Attachment::with_header)
        .collect()
}

/// Values 1, 1900, 1, 0, 0.
pub fn fresh_observation() -> Observation {
    Observation::fresh([1, 1900, 1, 0, 0].map(Scaled))
}

/// A fresh observation with attachments.
pub fn observation_with(attachments: &[(u8, &[u8])]) -> Observation {
    let mut observation = fresh_observation();
    for (id, nibbles) in attachments {
        observation
            .attachments
            .push(Attachment::new(*id, nibbles.to_vec()));
    }
    observation
}

/// An observation with every field at its lowest or its highest value.
pub fn full_observation(highest: bool) -> Observation {
    let mut observation = fresh_observation();
    for field in fields() {
        let value = if highest {
            field.highest_value()
        } else {
            field.lowest_value()
        };
        observation.values[field.number - 1] = Some(value);
    }
    observation
}

/// The observation of 1853 bytes.
pub fn largest_observation() -> Observation {
    let mut observation = full_observation(true);
    observation.rptin = 0xFFFF;
    for id in 1..=15 {
        let nibbles = match id {
            flags::ID => flags::body_of(&[10; 14]),
            text::ID => text::write(&[Symbol::original(b'a'); 85]),
            _ => vec![id; 255],
        };
        observation.attachments.push(Attachment::new(id, nibbles));
    }
    observation
}

/// An observation whose coded values add up to a multiple of 255, so that CK is 0.
pub fn observation_with_ck_0() -> Observation {
    let mut observation = fresh_observation();
    // The fresh codes add up to 1005; 15 more make 1020, 4 times 255.
    observation.values[3] = Some(Scaled(15));
    observation
}

/// Bodies that id 1 refuses.
pub fn bad_flag_bodies() -> Vec<Vec<u8>> {
    let sound = flags::body_of(&[1, 0, 0, 0, 0, 6, 0, 0, 0, 0, 0, 0, 0, 0]);
    let changed = |index: usize, nibble: u8| {
        let mut body = sound.clone();
        body[index] = nibble;
        body
    };
    let mut code_for_none = vec![0; 16];
    code_for_none[15] = 1;
    let mut none_for_correct = vec![0; 16];
    none_for_correct[0] = 1;
    vec![
        vec![0],
        sound[..15].to_vec(),
        [sound.clone(), vec![0]].concat(),
        vec![0; 255],
        changed(0, 11),
        changed(13, 15),
        changed(15, 2),
        changed(15, 4),
        changed(14, 1),
        code_for_none,
        none_for_correct,
    ]
}

/// Bodies that id 4 refuses.
pub fn bad_text_bodies() -> Vec<Vec<u8>> {
    let bodies: [&[u8]; 33] = [
        &[10],
        &[1, 10],
        &[10, 10, 10, 1],
        &[11],
        &[11, 0],
        &[1, 11, 15],
        &[11, 15, 10],
        &[10, 11, 15, 1],
        &[10, 10, 11, 15, 1],
        &[11, 14, 10, 1],
        &[11, 0, 10, 1],
        &[10, 11, 0, 1],
        &[11, 0, 11, 0, 1],
        &[11, 14, 11, 15, 1],
        &[11, 15, 10, 10, 10, 1],
        &[12],
        &[12, 12],
        &[12, 15],
        &[13],
        &[13, 11],
        &[13, 15],
        &[14],
        &[14, 0],
        &[14, 10],
        &[14, 15],
        &[15],
        &[15, 6],
        &[15, 2, 0, 10],
        &[15, 2, 0, 11, 0],
        &[15, 2, 0, 10, 10, 10, 1],
        &[11, 14, 10, 15, 2, 0],
        &[10, 10, 15, 2],
        &[15, 4, 1, 15, 4],
    ];
    bodies.iter().map(|body| body.to_vec()).collect()
}

/// Bodies that id 4 takes, near the refused ones.
pub fn good_text_bodies() -> Vec<Vec<u8>> {
    let bodies: [&[u8]; 31] = [
        &[0],
        &[10, 1],
        &[10, 10, 1],
        &[11, 0, 1],
        &[11, 14, 1],
        &[11, 15, 1],
        &[11, 15, 10, 1],
        &[11, 15, 10, 10, 1],
        &[11, 15, 11, 0, 1],
        &[11, 15, 11, 15, 10, 10, 12, 2],
        &[12, 0],
        &[12, 11],
        &[13, 10],
        &[14, 1],
        &[14, 9],
        &[15, 0, 0],
        &[15, 15, 15],
        &[15, 6, 1, 10, 15, 6, 1],
        &[15, 2, 0],
        &[15, 3, 0],
        &[15, 4, 1],
        &[15, 7, 11],
        &[15, 7, 13],
        &[15, 2, 15],
        &[10, 15, 2, 0],
        &[15, 2, 0, 10, 1],
        &[10, 10, 15, 2, 0, 10, 1],
        &[11, 15, 15, 2, 0, 11, 15, 15, 2, 0],
        &[15, 2, 0, 15, 2, 0],
        &[15, 4, 1, 12, 1, 15, 4, 1],
        &[15, 15, 15, 11, 0, 15, 15, 11],
    ];
    bodies.iter().map(|body| body.to_vec()).collect()
}

/// A flag body with random flags.
pub fn random_flags(prng: &mut Prng) -> Vec<u8> {
    let missing = prng.pick(&[1, 2, 100]);
    let flags: Vec<u8> = (0..14)
        .map(|_| {
            if prng.one_in(missing) {
                0
            } else {
                prng.below(11) as u8
            }
        })
        .collect();
    flags::body_of(&flags)
}

/// A sound table of flags: most marks are yes.
pub fn random_flag_table(prng: &mut Prng) -> FlagTable {
    let mut table = FlagTable::all();
    let times = prng.pick(&[3, 8, 20, 60]);
    for flag in 1..=FLAGS {
        for value in 1..=VALUES as u8 {
            if prng.one_in(times) {
                table.mark(flag, value, NO);
            }
        }
        if table.permitted(flag).is_empty() {
            table.mark(flag, 1 + prng.below(VALUES) as u8, YES);
        }
    }
    table
}

/// Exchanges the flags that a table forbids for permitted ones, or for missing ones
/// where a row permits none.
pub fn permit_flags(prng: &mut Prng, table: &FlagTable, flags: &mut [u8]) {
    for (number, flag) in (1..=FLAGS).zip(flags) {
        if !table.permits(number, *flag) {
            let permitted = [table.permitted(number), vec![0]].concat();
            *flag = prng.pick(&permitted);
        }
    }
}

/// Sets one flag to a value that a table forbids, if there is one.
pub fn forbid_flag(prng: &mut Prng, table: &FlagTable, flags: &mut [u8]) {
    let forbids = |number: &usize| !table.forbidden(*number).is_empty();
    let rows: Vec<usize> = (1..=FLAGS).filter(forbids).collect();
    if !rows.is_empty() {
        let number = prng.pick(&rows);
        flags[number - 1] = prng.pick(&table.forbidden(number));
    }
}

/// The symbols of bytes: plain where there is a short code, else original.
pub fn symbols_of(bytes: &[u8]) -> Vec<Symbol> {
    let symbol = |&byte| Symbol::plain(byte).unwrap_or(Symbol::original(byte));
    bytes.iter().map(symbol).collect()
}

/// Each byte as an original symbol, and as a plain one where it has a short code.
pub fn all_symbols() -> Vec<Symbol> {
    let symbols = |byte| [Some(Symbol::original(byte)), Symbol::plain(byte)];
    (0..=255).flat_map(symbols).flatten().collect()
}

pub fn put_text(text: &[Symbol]) -> Call {
    put_bytes(&text::bytes(text), &text::origins(text))
}

/// Bytes put with their origins, whether or not they are symbols.
pub fn put_bytes(text: &[u8], origins: &[u8]) -> Call {
    Call::PutText {
        text: text.to_vec(),
        origins: origins.to_vec(),
    }
}

/// A fetch of a text to two outputs of a length.
pub fn fetch_text(room: usize) -> Call {
    fetch_text_to(room, room)
}

pub fn fetch_text_to(text: usize, origins: usize) -> Call {
    Call::FetchText {
        text: vec![0xEE; text],
        origins: vec![0xDD; origins],
    }
}

/// A text of runs of spaces, digits, letters, marks and original symbols of any byte.
pub fn random_text(prng: &mut Prng, pieces: usize) -> Vec<Symbol> {
    let mut text = Vec::new();
    for _ in 0..pieces {
        match prng.below(5) {
            0 => text.extend(vec![Symbol::SPACE; prng.below(41)]),
            1 => text.extend(Symbol::plain(b'0' + prng.below(10) as u8)),
            2 => text.extend(Symbol::plain(b'A' + prng.below(26) as u8)),
            3 => text.extend(Symbol::plain(prng.pick(b"/&+-{}"))),
            _ => text.push(Symbol::original(prng.next_u64() as u8)),
        }
    }
    text
}

/// Damages a text that is put: in a symbol, in the two lengths, or in both.
pub fn damage_text(prng: &mut Prng, text: &mut Vec<u8>, origins: &mut Vec<u8>) {
    let (symbol, lengths) = prng.pick(&[(true, false), (false, true), (true, true)]);
    if symbol {
        damage_symbol(prng, text, origins);
    }
    if lengths {
        let row = if prng.one_in(2) { text } else { origins };
        if prng.one_in(2) {
            row.push(prng.pick(&[0, 1, b' ', b'7']));
        } else {
            row.pop();
        }
    }
}

/// A plain byte without a short code or an origin over 1, behind the text or in it.
fn damage_symbol(prng: &mut Prng, text: &mut Vec<u8>, origins: &mut Vec<u8>) {
    if text.is_empty() || prng.one_in(2) {
        text.push(b'7');
        origins.push(text::PLAIN);
    }
    let last = text.len() - 1;
    let any = prng.below(text.len());
    let place = prng.pick(&[last, any]);
    if prng.one_in(2) {
        let over = 2 + prng.below(254) as u8;
        origins[place] = prng.pick(&[2, 3, 128, 255, over]);
    } else {
        let bytes = (0..=255).filter(|&byte| Symbol::plain(byte).is_none());
        let bytes: Vec<u8> = bytes.collect();
        (text[place], origins[place]) = (prng.pick(&bytes), text::PLAIN);
    }
}

/// A valid body for an id; a text that comes to nothing is replaced by "0".
pub fn random_body(prng: &mut Prng, id: u8) -> Vec<u8> {
    match id {
        flags::ID => random_flags(prng),
        text::ID => {
            let pieces = 1 + prng.below(40);
            let mut body = text::write(&random_text(prng, pieces));
            if body.is_empty() || body.len() > 255 {
                body = vec![0];
            }
            body
        }
        _ => {
            let length = match prng.below(8) {
                0 => prng.pick(&[1, 2, 16, 254, 255]),
                _ => 1 + prng.below(20),
            };
            prng.nibbles(length)
        }
    }
}

/// A value of a field: lowest, highest or any between.
pub fn random_value(prng: &mut Prng, field: usize) -> Scaled {
    let field = fields()[field - 1];
    match prng.below(4) {
        0 => field.lowest_value(),
        1 => field.highest_value(),
        _ => Scaled(field.base + 1 + prng.below(field.highest as usize) as i64),
    }
}

/// An observation with random RPTIN, values and attachments.
pub fn random_observation(prng: &mut Prng) -> Observation {
    let mut observation = fresh_observation();
    observation.rptin = prng.pick(&[0, 1, 0x8000, 0xFFFF, 0x1234]);
    let missing = prng.pick(&[1, 2, 4, 100]);
    for field in fields() {
        if field.is_required() || !prng.one_in(missing) {
            observation.values[field.number - 1] = Some(random_value(prng, field.number));
        }
    }
    let mut ids: Vec<u8> = (1..=15).collect();
    prng.shuffle(&mut ids);
    let most = prng.pick(&[0, 1, 2, 3, 3, 5, 15]);
    ids.truncate(most);
    for id in ids {
        let body = random_body(prng, id);
        observation.attachments.push(Attachment::new(id, body));
    }
    observation
}

/// An observation in which indicators often stand without their data, at times beside
/// attachment 5.
pub fn random_indicators(prng: &mut Prng) -> Observation {
    let mut observation = random_observation(prng);
    for indicator in INDICATORS {
        let value = random_value(prng, indicator.field);
        observation.values[indicator.field - 1] = (!prng.one_in(4)).then_some(value);
        let times = prng.pick(&[1, 1, 2, 4]);
        for &field in indicator.data {
            if prng.one_in(times) {
                observation.values[field - 1] = None;
            }
        }
        if prng.one_in(3) {
            let field = prng.pick(indicator.data);
            observation.values[field - 1] = Some(random_value(prng, field));
        }
    }
    let attachments = &mut observation.attachments;
    match prng.below(4) {
        0 => attachments.retain(|other| other.id != ERRONEOUS_ID),
        1 if attachments.iter().all(|other| other.id != ERRONEOUS_ID) => {
            let position = prng.below(attachments.len() + 1);
            let body = random_body(prng, ERRONEOUS_ID);
            attachments.insert(position, Attachment::new(ERRONEOUS_ID, body));
        }
        _ => {}
    }
    observation
}

/// A report and some bytes of the buffer after it.
pub fn with_bytes_after(mut report: Vec<u8>, after: &[u8]) -> Vec<u8> {
    report.extend(after);
    report
}

/// The values and the presence word of an observation; missing values as given.
pub fn values_and_word(observation: &Observation, missing: i64) -> (Vec<i64>, u64) {
    let mut values = vec![missing; FIELDS];
    let mut word = 0;
    for (index, value) in observation.values.iter().enumerate() {
        if let Some(value) = value {
            values[index] = value.0;
            word |= 1 << (index + 1);
        }
    }
    (values, word)
}
