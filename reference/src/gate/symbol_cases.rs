//! Records and lists of texts as symbols. They begin with a load of every flag.

use crate::attachment::Attachment;
use crate::cases::Case;
use crate::cases::flag_tables::load;
use crate::cases::material::{random_body, random_observation};
use crate::cases::random::symbol_count;
use crate::cases::{pairs, symbols};
use crate::flag_table::FlagTable;
use crate::gate::flag_cases::item;
use crate::gate::list::Item;
use crate::gate::record;
use crate::gate::whole_cases::room;
use crate::observation::Observation;
use crate::prng::Prng;
use crate::text;

/// Drawn reports that are read out.
const REPORTS: usize = 60;

/// Records from a seed.
pub fn records(seed: u64) -> Vec<Case> {
    let mut cases = vec![load(&FlagTable::all())];
    cases.extend(symbols::cases());
    cases.retain(record::fits);
    for pair in pairs::pairs() {
        let both = [pair.both, pair.mended];
        cases.extend(both.into_iter().filter(is_read_out));
    }
    let mut prng = Prng::new(seed);
    cases.extend((0..REPORTS).map(|_| drawn_read_out(&mut prng)));
    cases
}

fn is_read_out(case: &Case) -> bool {
    matches!(case, Case::ReadOut { .. })
}

/// Lists and loads. Those that put and fetch each symbol are among the other lists.
pub fn items() -> Vec<Item> {
    let mut cases = vec![load(&FlagTable::all())];
    cases.extend(symbols::edges());
    cases.into_iter().filter_map(item).collect()
}

/// A small observation with a text at any position.
pub fn drawn_observation(prng: &mut Prng) -> Observation {
    let mut observation = random_observation(prng);
    observation.attachments.truncate(3);
    observation
        .attachments
        .retain(|other| other.id != text::ID && other.nibbles.len() < 40);
    let position = prng.below(observation.attachments.len() + 1);
    let attachment = Attachment::new(text::ID, random_body(prng, text::ID));
    observation.attachments.insert(position, attachment);
    observation
}

/// Such a report, and outputs of drawn lengths and bytes.
fn drawn_read_out(prng: &mut Prng) -> Case {
    let observation = drawn_observation(prng);
    let count = symbol_count(&observation);
    let (text, origins) = (room(prng, count), room(prng, count));
    Case::ReadOut {
        report: observation.packing(),
        text: prng.bytes(text),
        origins: prng.bytes(origins),
    }
}
