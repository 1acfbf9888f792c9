//! The calls of a list over an observation and a buffer length: the plain machine.

use crate::attachment::{Attachment, is_valid_body};
use crate::call::{Answer, Call};
use crate::flag_table::FlagTable;
use crate::flags::{self, FLAGS};
use crate::indicator::INDICATORS;
use crate::number::Number;
use crate::observation::Observation;
use crate::refusal::Refusal;
use crate::table::{FIELDS, REQUIRED, ROWS, Scaled};
use crate::text;

const FLAGS_ID: u64 = flags::ID as u64;
const TEXT_ID: u64 = text::ID as u64;

/// What the caller can be refused for.
#[derive(Clone, Copy)]
enum Fault {
    /// Put text's two buffers have different lengths.
    Lengths,
    /// A byte of put text and its origin are no symbol.
    Symbol,
    Number,
    Value,
    Required,
    Absent,
    Length,
    Content,
    Room,
}

/// The faults and their refusals in the order in which they are judged.
const ORDER: [(Fault, u8); 9] = [
    (Fault::Lengths, 13),
    (Fault::Symbol, 14),
    (Fault::Number, 8),
    (Fault::Value, 9),
    (Fault::Required, 10),
    (Fault::Absent, 11),
    (Fault::Length, 12),
    (Fault::Content, 14),
    (Fault::Room, 13),
];

/// One step under a table of flags: the answer, and the observation after it. n is
/// the buffer's length.
pub fn step(
    observation: &Observation,
    n: usize,
    call: &Call,
    table: &FlagTable,
) -> (Observation, Answer) {
    for (fault, number) in ORDER {
        if fits(fault, observation, n, call, table) {
            let answer = Answer {
                result: Err(Refusal {
                    number,
                    place: place(number, call),
                }),
                outputs: call.outputs(),
            };
            return (observation.clone(), answer);
        }
    }
    let after = moved(observation, call);
    let (given, written) = gives(observation, call);
    let mut outputs = call.outputs();
    for (output, written) in outputs.iter_mut().zip(written) {
        output.splice(..written.len(), written);
    }
    let answer = Answer {
        result: Ok(given),
        outputs,
    };
    (after, answer)
}

/// The field or flag for 9 and 10, else 0.
fn place(number: u8, call: &Call) -> usize {
    match (number, call) {
        (9, Call::SetField { field, .. }) => *field as usize,
        (9, Call::SetFlag { flag, .. }) => *flag as usize,
        (10, Call::ClearField { field } | Call::ClearWithIndicators { field }) => *field as usize,
        _ => 0,
    }
}

/// Whether a fault fits, given that none before it in the order does.
fn fits(fault: Fault, observation: &Observation, n: usize, call: &Call, table: &FlagTable) -> bool {
    match fault {
        Fault::Lengths => {
            matches!(call, Call::PutText { text, origins } if text.len() != origins.len())
        }
        Fault::Symbol => has_no_symbol(call),
        Fault::Number => has_unknown_number(call),
        Fault::Value => has_value_out_of_range(call) || sets_forbidden_flag(call, table),
        Fault::Required => clears_required_field(call),
        Fault::Absent => names_absent_attachment(observation, call),
        Fault::Length => {
            content_of(call).is_some_and(|(_, content)| !(1..=255).contains(&content.len()))
        }
        Fault::Content => content_of(call).is_some_and(|(id, content)| {
            content.iter().any(|&byte| byte > 15) || !is_valid_body(id, &content, table)
        }),
        Fault::Room => lends_too_little(observation, n, call),
    }
}

/// Whether put text has a plain byte without a short code, or an origin over 1. The
/// table of the characters has three nibbles for a byte without a short code.
fn has_no_symbol(call: &Call) -> bool {
    let Call::PutText { text, origins } = call else {
        return false;
    };
    let table = text::table();
    let has_short_code = |byte: u8| table[usize::from(byte)] >> 12 < 3;
    let mut pairs = text.iter().zip(origins);
    pairs.any(|(&byte, &origin)| match origin {
        0 => !has_short_code(byte),
        1 => false,
        _ => true,
    })
}

fn has_unknown_number(call: &Call) -> bool {
    match call {
        Call::ReadField { field }
        | Call::SetField { field, .. }
        | Call::ClearField { field }
        | Call::ClearWithIndicators { field } => *field < 1 || *field > FIELDS as u64,
        Call::ReadFlag { flag } | Call::SetFlag { flag, .. } | Call::ClearFlag { flag } => {
            *flag < 1 || *flag > FLAGS as u64
        }
        Call::Put { id, .. } | Call::Fetch { id, .. } | Call::Drop { id } => *id < 1 || *id > 15,
        Call::PutText { .. } | Call::FetchText { .. } => false,
    }
}

fn has_value_out_of_range(call: &Call) -> bool {
    match call {
        Call::SetField { field, value } => {
            let scale = ROWS[*field as usize].scale.expect("a field has a scale");
            *value < scale.true_value.0 || *value > scale.true_value.1
        }
        Call::SetFlag { value, .. } => *value < 1 || *value > 10,
        _ => false,
    }
}

fn clears_required_field(call: &Call) -> bool {
    match call {
        Call::ClearField { field } | Call::ClearWithIndicators { field } => {
            REQUIRED.contains(&(*field as usize))
        }
        _ => false,
    }
}

/// Given that the value is in range.
fn sets_forbidden_flag(call: &Call, table: &FlagTable) -> bool {
    matches!(call, Call::SetFlag { flag, value } if !table.permits(*flag as usize, *value as u8))
}

fn names_absent_attachment(observation: &Observation, call: &Call) -> bool {
    let id = match call {
        Call::ReadFlag { .. } | Call::SetFlag { .. } | Call::ClearFlag { .. } => FLAGS_ID,
        Call::Fetch { id, .. } | Call::Drop { id } => *id,
        Call::FetchText { .. } => TEXT_ID,
        _ => return false,
    };
    observation.content(id).is_none()
}

fn lends_too_little(observation: &Observation, n: usize, call: &Call) -> bool {
    let (_, written) = gives(observation, call);
    let outputs = call.outputs();
    let mut pairs = outputs.iter().zip(&written);
    let output_too_short = pairs.any(|(output, written)| output.len() < written.len());
    output_too_short || moved(observation, call).size() > n
}

/// The id and the nibbles that a call puts.
fn content_of(call: &Call) -> Option<(u8, Vec<u8>)> {
    match call {
        Call::Put { id, content } => Some((*id as u8, content.clone())),
        Call::PutText { text, origins } => {
            let symbols = text::symbols(text, origins).expect("its symbols are judged before");
            Some((text::ID, text::write(&symbols)))
        }
        _ => None,
    }
}

/// The observation that an accepted call leaves.
fn moved(observation: &Observation, call: &Call) -> Observation {
    let mut after = observation.clone();
    match call {
        Call::SetField { field, value } => {
            after.values[*field as usize - 1] = Some(Scaled(*value));
        }
        Call::ClearField { field } => after.values[*field as usize - 1] = None,
        Call::ClearWithIndicators { field } => {
            for clear in clears(observation, *field) {
                after = moved(&after, &clear);
            }
        }
        Call::SetFlag { flag, value } => place_flag(&mut after, *flag, *value as u8),
        Call::ClearFlag { flag } => place_flag(&mut after, *flag, 0),
        Call::Put { .. } | Call::PutText { .. } => {
            let (id, nibbles) = content_of(call).expect("a put has content");
            place_content(&mut after, Attachment::new(id, nibbles));
        }
        Call::Drop { id } => after
            .attachments
            .retain(|attachment| u64::from(attachment.id) != *id),
        Call::ReadField { .. }
        | Call::ReadFlag { .. }
        | Call::Fetch { .. }
        | Call::FetchText { .. } => {}
    }
    after
}

/// The clears that clearing a field with its indicators stands for: that of the field, then
/// those of the indicators that rest on it and have then lost all their data, ascending.
pub fn clears(observation: &Observation, field: u64) -> Vec<Call> {
    let mut clears = vec![Call::ClearField { field }];
    let cleared = moved(observation, &clears[0]);
    for indicator in INDICATORS {
        if indicator.rests_on(field as usize) && cleared.lacks_data_of(indicator) {
            let field = indicator.field as u64;
            clears.push(Call::ClearField { field });
        }
    }
    clears
}

fn place_flag(observation: &mut Observation, flag: u64, value: u8) {
    let mut flags = observation.content(FLAGS_ID).expect("id 1 stands")[..FLAGS].to_vec();
    flags[flag as usize - 1] = value;
    place_content(
        observation,
        Attachment::new(flags::ID, flags::body_of(&flags)),
    );
}

fn place_content(observation: &mut Observation, new: Attachment) {
    match observation
        .attachments
        .iter_mut()
        .find(|old| old.id == new.id)
    {
        Some(old) => *old = new,
        None => observation.attachments.push(new),
    }
}

/// The numbers that an accepted call gives on the observation before it, and what it
/// writes to each output. A set or a clear gives what stood there.
fn gives(observation: &Observation, call: &Call) -> (Vec<Number>, Vec<Vec<u8>>) {
    match call {
        Call::ReadField { field }
        | Call::SetField { field, .. }
        | Call::ClearField { field }
        | Call::ClearWithIndicators { field } => {
            let value = observation.values[*field as usize - 1];
            let value = value.map(|value| value.0);
            (vec![Number::value(value)], Vec::new())
        }
        Call::ReadFlag { flag } | Call::SetFlag { flag, .. } | Call::ClearFlag { flag } => {
            let content = observation.content(FLAGS_ID).expect("id 1 stands");
            let value = i64::from(content[*flag as usize - 1]);
            let value = (value != 0).then_some(value);
            (vec![Number::flag(value)], Vec::new())
        }
        Call::Fetch { id, .. } => {
            let nibbles = observation.content(*id).expect("the id stands").to_vec();
            (vec![Number::count(nibbles.len())], vec![nibbles])
        }
        Call::FetchText { .. } => {
            let nibbles = observation.content(TEXT_ID).expect("id 4 stands");
            let text = text::read(nibbles).expect("id 4 holds a text");
            let given = vec![
                Number::count(text.len()),
                Number::set(observation.set()),
                Number::nibbles(nibbles.len()),
            ];
            (given, vec![text::bytes(&text), text::origins(&text)])
        }
        Call::PutText { .. } => {
            let (_, nibbles) = content_of(call).expect("a put has content");
            (vec![Number::nibbles(nibbles.len())], Vec::new())
        }
        Call::Put { .. } | Call::Drop { .. } => (Vec::new(), Vec::new()),
    }
}
