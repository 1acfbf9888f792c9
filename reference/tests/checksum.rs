//! The remainder by 255, by folding as change request K2 has it, and the gate's
//! cases in which it is at an edge.

mod common;

use std::collections::BTreeMap;

use common::all_flags::{run_case, run_list};
use common::refused;
use reference::bits::bits_of;
use reference::call::Call;
use reference::card::{CARD_BYTES, Card, checksum};
use reference::cases::{Case, Outcome};
use reference::gate::sizes::observation_of_sum;
use reference::gate::{SEED, list_cases, sum_cases, whole_cases};
use reference::prng::Prng;

/// All but the low byte is added to the low byte as long as there is more than
/// 255; 255 is 0.
fn folded(number: u64) -> u64 {
    let mut left = number;
    while left > 255 {
        left = (left >> 8) + (left & 255);
    }
    if left == 255 { 0 } else { left }
}

/// 256 is 1 modulo 255, and so is each of its powers.
#[test]
fn remainders_by_hand() {
    for (number, remainder) in [
        (0, 0),
        (1, 1),
        (254, 254),
        (255, 0),
        (256, 1),
        (509, 254),
        (510, 0),
        (511, 1),
        (512, 2),
        (767, 2),
        (19455, 75),
        (19643, 8),
        (65535, 0),
        (65536, 1),
        (1 << 32, 1),
        (1 << 63, 128),
        (u64::MAX - 1, 254),
        (u64::MAX, 0),
    ] {
        assert_eq!(folded(number), remainder, "{number}");
        assert_eq!(number % 255, remainder, "{number}");
    }
}

#[test]
fn multiples_of_255_and_their_neighbours() {
    // 2^64 - 1 is a multiple itself.
    let most = u64::MAX / 255;
    assert_eq!(most * 255, u64::MAX);
    let mut factors: Vec<u64> = (1..=1000).chain(most - 1000..most).collect();
    for bit in 10..56 {
        factors.extend([(1 << bit) - 1, 1 << bit, (1 << bit) + 1]);
    }
    for multiple in factors.into_iter().map(|factor| factor * 255) {
        assert_eq!(folded(multiple - 1), 254, "{multiple}");
        assert_eq!(folded(multiple), 0, "{multiple}");
        assert_eq!(folded(multiple + 1), 1, "{multiple}");
    }
}

#[test]
fn all_numbers_under_200_000() {
    let remainders = (0..255).cycle();
    for (number, remainder) in (0..200_000).zip(remainders) {
        assert_eq!(folded(number), remainder, "{number}");
    }
}

#[test]
fn drawn_numbers_of_every_length() {
    let mut prng = Prng::new(255);
    for bits in 1..=64 {
        for _ in 0..5000 {
            let number = (prng.next_u64() | 1 << 63) >> (64 - bits);
            assert_eq!(folded(number), number % 255, "{number}");
        }
    }
}

#[test]
fn checksums_of_every_sum() {
    for sum in 5..=19643 {
        let codes = observation_of_sum(sum).codes();
        assert_eq!(checksum(&codes), folded(sum), "{sum}");
    }
}

/// CK as it stands on the card.
fn stored(report: &[u8]) -> u64 {
    Card::read(&bits_of(&report[..CARD_BYTES])).ck
}

/// How often each call wrote or accepted a CK of 0, 1 and 254, and refused 255.
#[derive(Default)]
struct Seen(BTreeMap<&'static str, [usize; 4]>);

impl Seen {
    fn add(&mut self, call: &'static str, ck: u64) {
        let met = self.0.entry(call).or_default();
        if let Some(edge) = [0, 1, 254, 255].iter().position(|&edge| edge == ck) {
            met[edge] += 1;
        }
    }

    /// Every edge is met, and 255 only where a report is refused.
    fn check(&self, calls: &[&str], refused: bool) {
        for call in calls {
            let met = self.0[call];
            assert!(met[..3].iter().all(|&count| count > 0), "{call} {met:?}");
            assert_eq!(met[3] > 0, refused, "{call} {met:?}");
        }
    }
}

#[test]
fn records_meet_the_edges() {
    let mut seen = Seen::default();
    for case in sum_cases::cases() {
        match (&case, run_case(&case)) {
            (Case::Judge { report }, Outcome::Judge(result)) => {
                if stored(report) == 255 {
                    assert_eq!(*result, refused(4, 0));
                } else {
                    assert!(result.is_ok());
                }
                seen.add("judge", stored(report));
            }
            (_, Outcome::Fresh { result, output }) => {
                assert_eq!(result, Ok(()));
                seen.add("fresh", stored(&output));
            }
            (_, Outcome::Pack { result, output }) => {
                assert_eq!(result, Ok(38));
                seen.add("pack", stored(&output));
            }
            _ => {}
        }
    }
    seen.check(&["judge"], true);
    seen.check(&["fresh", "pack"], false);
    let all = whole_cases::cases(SEED);
    assert!(sum_cases::cases().iter().all(|case| all.contains(case)));
}

/// The buffer where a list ends.
#[test]
fn lists_end_at_the_edges() {
    let mut seen = Seen::default();
    for list in sum_cases::lists() {
        let (after, ran) = run_list(&list);
        assert_eq!(ran.taken, list.script.len());
        let last = ran.calls.last().map(|(call, _)| call);
        if stored(&list.buffer) == 255 {
            assert_eq!(after, list.buffer);
            for (call, answer) in &ran.calls {
                assert_eq!(answer.result, refused(4, 0));
                match call {
                    Call::SetField { .. } => seen.add("set", 255),
                    Call::ClearField { .. } => seen.add("clear", 255),
                    _ => {}
                }
            }
            continue;
        }
        assert!(ran.calls.iter().all(|(_, answer)| answer.result.is_ok()));
        match last {
            Some(Call::SetField { .. }) => seen.add("set", stored(&after)),
            Some(Call::ClearField { .. }) => seen.add("clear", stored(&after)),
            _ => panic!("{last:?}"),
        }
    }
    seen.check(&["set", "clear"], true);
    let all = list_cases::lists(SEED);
    assert!(sum_cases::lists().iter().all(|list| all.contains(list)));
}
