//! Indicators drawn with and without their data, and the call that clears both.

use reference::call::Call;
use reference::cases::material::random_value;
use reference::indicator::{ERRONEOUS_ID, INDICATORS, Indicator};
use reference::observation::Observation;
use reference::prng::Prng;
use reference::table::{FIELDS, REQUIRED, Scaled, fields};

use crate::calls::edge_number;
use crate::reports::add;

/// The indicator that rests on four fields.
pub const TI: usize = 27;

/// Draws TI and some other indicators anew, most of them present, and their data: none,
/// one, all or a part. Attachment 5 is added or removed, or left as it is.
pub fn part(prng: &mut Prng, observation: &mut Observation) {
    let mut drawn = Vec::new();
    for indicator in INDICATORS {
        if indicator.field != TI && prng.one_in(2) {
            continue;
        }
        let mut data = indicator.data.to_vec();
        data.retain(|field| !drawn.contains(field));
        prng.shuffle(&mut data);
        let any = prng.below(1 + data.len());
        let left = prng.pick(&[0, 0, 1, any, any]);
        let (kept, lost) = data.split_at(left.min(data.len()));
        for &field in lost {
            observation.values[field - 1] = None;
        }
        for &field in kept {
            observation.values[field - 1] = Some(value(prng, field));
        }
        let present = !prng.one_in(5);
        observation.values[indicator.field - 1] = present.then(|| value(prng, indicator.field));
        drawn.extend(data);
    }
    match prng.below(3) {
        0 => add(prng, observation, ERRONEOUS_ID),
        1 => observation
            .attachments
            .retain(|other| other.id != ERRONEOUS_ID),
        _ => {}
    }
}

/// Often the value 0, which is not missing.
fn value(prng: &mut Prng, number: usize) -> Scaled {
    let has_0 = fields()[number - 1].coded(Scaled(0)).is_some();
    match prng.below(3) {
        0 if has_0 => Scaled(0),
        _ => random_value(prng, number),
    }
}

/// A field cleared with its indicators: most often one on which an indicator rests that
/// is present, else an indicator, any field, a required one or no field.
pub fn call(prng: &mut Prng, observation: &Observation) -> Call {
    let mut data = data_of(&present(observation));
    if data.is_empty() {
        data = data_of(&INDICATORS);
    }
    let field = match prng.below(12) {
        0 => edge_number(prng),
        1 => prng.pick(&REQUIRED) as u64,
        2 => 1 + prng.below(FIELDS) as u64,
        3 => prng.pick(&INDICATORS).field as u64,
        _ => prng.pick(&data) as u64,
    };
    Call::ClearWithIndicators { field }
}

fn present(observation: &Observation) -> Vec<Indicator> {
    let mut present = INDICATORS.to_vec();
    present.retain(|indicator| observation.values[indicator.field - 1].is_some());
    present
}

fn data_of(indicators: &[Indicator]) -> Vec<usize> {
    let data = indicators.iter().flat_map(|indicator| indicator.data);
    data.copied().collect()
}

/// A field or an indicator that rests on it.
pub fn beside(prng: &mut Prng, field: u64) -> u64 {
    let mut beside = vec![field];
    for indicator in INDICATORS {
        if indicator.data.iter().any(|&data| data as u64 == field) {
            beside.push(indicator.field as u64);
        }
    }
    prng.pick(&beside)
}
