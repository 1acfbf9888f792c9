//! Records of the costliest text.

use std::collections::BTreeSet;

use crate::cases::{Case, costliest, pairs};
use crate::gate::record;
use crate::gate::whole_cases::room;
use crate::prng::Prng;

/// Drawn records.
const DRAWN: usize = 40;

/// Records from a seed, none of them twice.
pub fn records(seed: u64) -> Vec<Case> {
    let mut prng = Prng::new(seed);
    let mut cases = costliest::cases();
    for pair in pairs::pairs() {
        let both = [pair.both, pair.mended];
        cases.extend(both.into_iter().filter(is_costliest));
    }
    cases.extend((0..DRAWN).map(|_| drawn(&mut prng)));
    let mut seen = BTreeSet::new();
    cases.retain(|case| seen.insert(record::input(case)));
    cases
}

fn is_costliest(case: &Case) -> bool {
    matches!(case, Case::Costliest { .. })
}

/// A number up to one too many, and outputs of drawn lengths and bytes.
fn drawn(prng: &mut Prng) -> Case {
    let symbols = prng.below(87);
    let (text, origins) = (room(prng, symbols), room(prng, symbols));
    Case::Costliest {
        symbols: symbols as u64,
        text: prng.bytes(text),
        origins: prng.bytes(origins),
    }
}
