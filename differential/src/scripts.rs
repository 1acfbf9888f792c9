//! Lists as scripts: whole, cut off, broken, or with too short a log.

use reference::call::Call;
use reference::gate::log::{FRONT, HEAD, record_size};
use reference::gate::script::{entry, script};
use reference::prng::Prng;

use crate::calls::widened;
use crate::trial::Given;

/// The script of a list, most often whole and with a log that just takes it.
pub fn given(prng: &mut Prng, buffer: &[u8], calls: &[Call]) -> Given {
    let mut script = script(calls);
    let mut room: usize = calls.iter().map(record_size).sum();
    match prng.below(12) {
        0 => script.truncate(prng.below(script.len() + 1)),
        1 => {
            script.push(prng.pick(&[0, 13, 14, 128, 255]));
            script.extend(prng.bytes(40));
        }
        2 => script.extend(cut_entry(prng, calls)),
        3 => break_entry(prng, &mut script, calls),
        4 => script = random_script(prng),
        5 => room = room.saturating_sub(1),
        6 => room = prng.below(room + 1),
        7 => room = cut_room(prng, calls),
        _ => {}
    }
    room += prng.pick(&[0, 0, 0, 1, 10, 19, 36, 37, 200]);
    Given::Script {
        buffer: buffer.to_vec(),
        script,
        log: prng.bytes(room),
    }
}

/// The room of a log that ends in a record: in its head, its row or its output.
fn cut_room(prng: &mut Prng, calls: &[Call]) -> usize {
    let last = prng.below(calls.len());
    let before: usize = calls[..last].iter().map(record_size).sum();
    let size = record_size(&calls[last]);
    let part = prng.pick(&[0..HEAD, HEAD..FRONT, FRONT..size, size - 1..size]);
    before + part.start + prng.below(part.len().max(1))
}

/// An entry without its last bytes.
fn cut_entry(prng: &mut Prng, calls: &[Call]) -> Vec<u8> {
    let mut entry = entry(&prng.pick(calls));
    entry.truncate(prng.below(entry.len()));
    entry
}

/// A number of the script changed, most often a count made wide.
fn break_entry(prng: &mut Prng, script: &mut [u8], calls: &[Call]) {
    let broken = prng.below(calls.len());
    let start: usize = calls[..broken].iter().map(|call| entry(call).len()).sum();
    let number = match &calls[broken] {
        Call::Put { .. } | Call::Fetch { .. } | Call::SetField { .. } | Call::SetFlag { .. } => {
            start + prng.pick(&[1, 9, 9])
        }
        Call::PutText { text, .. } | Call::FetchText { text, .. } => {
            start + prng.pick(&[1, 9 + text.len()])
        }
        _ => start + 1,
    };
    let old = script[number..number + 8].try_into();
    let old = u64::from_be_bytes(old.expect("a number has eight bytes"));
    let left = (script.len() - number - 8) as u64;
    let new = match prng.below(4) {
        // A careless sum would wrap.
        0 => u64::MAX - prng.below(20) as u64,
        1 => left + prng.below(2) as u64,
        _ => widened(prng, old),
    };
    script[number..number + 8].copy_from_slice(&new.to_be_bytes());
}

/// Entries of random kinds and small numbers.
fn random_script(prng: &mut Prng) -> Vec<u8> {
    let mut script = Vec::new();
    for _ in 0..prng.below(6) {
        script.push(prng.below(14) as u8);
        for _ in 0..prng.below(3) {
            script.extend((prng.below(20) as u64).to_be_bytes());
        }
        let more = prng.below(20);
        script.extend(prng.nibbles(more));
    }
    script
}
