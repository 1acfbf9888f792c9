//! Each pair of refusals that an order decides.

mod common;

use common::all_flags::run_case;
use reference::call::Call;
use reference::cases::pairs::{pairs, without_indicators};
use reference::cases::{Case, Outcome};
use reference::refusal::Refusal;

fn refusal_of(case: &Case) -> Option<Refusal> {
    match run_case(case) {
        Outcome::Judge(result) => result.err(),
        Outcome::Lister(_) | Outcome::Characters(_) => None,
        Outcome::Fresh { result, .. } | Outcome::Load { result, .. } => result.err(),
        Outcome::Unpack { result, .. } => result.err(),
        Outcome::Pack { result, .. } => result.err(),
        Outcome::Same(result) => result.err(),
        Outcome::Restore { result, .. } => result.err(),
        Outcome::Recover { result, .. } => result.err(),
        Outcome::ReadOut { result, .. } => result.err(),
        Outcome::Costliest { result, .. } => result.err(),
        Outcome::FindIndicators { result, .. } => result.err(),
        Outcome::Calls(answers) => answers[0].0.result.clone().err(),
    }
}

#[test]
fn the_first_fault_answers_and_the_second_once_it_is_mended() {
    for pair in pairs() {
        assert_eq!(refusal_of(&pair.both), Some(pair.first), "{pair:?}");
        assert_eq!(refusal_of(&pair.mended), Some(pair.second), "{pair:?}");
    }
}

fn has_pair(of: impl Fn(&Case) -> bool, first: u8, second: u8) -> bool {
    pairs()
        .iter()
        .any(|pair| of(&pair.both) && pair.first.number == first && pair.second.number == second)
}

#[test]
fn pairs_of_a_reports_checks() {
    let is_judge = |case: &Case| matches!(case, Case::Judge { .. });
    for (first, seconds) in [
        (1, &[2, 3, 4, 5, 6][..]),
        (2, &[1, 2, 3, 4, 5, 6, 7]),
        (3, &[1, 2, 3, 4, 5, 6, 7]),
        (4, &[1, 5, 6, 7]),
        (5, &[1, 5, 6, 7]),
        (6, &[1, 5, 6, 7]),
    ] {
        for &second in seconds {
            assert!(has_pair(is_judge, first, second), "{first} {second}");
        }
    }
}

#[test]
fn pairs_of_the_callers_refusals() {
    let is_call = |case: &Case| matches!(case, Case::Calls { .. });
    for report in 1..=7 {
        for caller in 8..=14 {
            assert!(has_pair(is_call, report, caller), "{report} {caller}");
        }
    }
    for (first, second) in [
        (8, 9),
        (8, 11),
        (8, 12),
        (8, 14),
        (8, 13),
        (9, 11),
        (11, 13),
        (12, 14),
        (12, 13),
        (14, 13),
        // Put text's own.
        (13, 14),
        (13, 12),
        (14, 12),
    ] {
        assert!(has_pair(is_call, first, second), "{first} {second}");
    }
}

#[test]
fn pairs_of_packs_and_freshs_checks() {
    let is_pack = |case: &Case| matches!(case, Case::Pack { .. });
    for (first, seconds) in [
        (13, &[8, 9, 10, 14, 1, 5, 6][..]),
        (8, &[9, 10, 14, 1, 5, 6, 13]),
        (9, &[9, 10, 14, 1, 5, 6, 13]),
        (10, &[9, 10, 14, 1, 5, 6, 13]),
        (14, &[1, 5, 6, 13]),
        (1, &[5, 6, 13]),
        (5, &[1, 5, 6, 13]),
        (6, &[1, 5, 6, 13]),
    ] {
        for &second in seconds {
            assert!(has_pair(is_pack, first, second), "{first} {second}");
        }
    }
    let is_fresh = |case: &Case| matches!(case, Case::Fresh { .. });
    assert!(has_pair(is_fresh, 9, 9));
    assert!(has_pair(is_fresh, 9, 13));
}

#[test]
fn pairs_of_reading_out() {
    let is_read_out = |case: &Case| matches!(case, Case::ReadOut { .. });
    for report in 1..=7 {
        assert!(has_pair(is_read_out, report, 11), "{report}");
    }
    assert!(has_pair(is_read_out, 4, 13));
    assert!(has_pair(is_read_out, 11, 13));
}

#[test]
fn pairs_of_the_calls_that_know_indicators() {
    let finds = |case: &Case| matches!(case, Case::FindIndicators { .. });
    let clears = |case: &Case| {
        matches!(case, Case::Calls { calls, .. }
            if matches!(calls[0], Call::ClearWithIndicators { .. }))
    };
    for report in 1..=7 {
        assert!(has_pair(finds, report, 13), "{report}");
        assert!(!has_pair(finds, 13, report), "{report}");
        for caller in [8, 10] {
            assert!(has_pair(clears, report, caller), "{report} {caller}");
        }
    }
    let others = without_indicators();
    let all = pairs();
    let (first, more) = all.split_at(others.len());
    assert!(
        first
            .iter()
            .zip(&others)
            .all(|(one, two)| one.both == two.both)
    );
    assert!(
        more.iter()
            .all(|pair| finds(&pair.both) || clears(&pair.both))
    );
    assert!(
        !others
            .iter()
            .any(|pair| finds(&pair.both) || clears(&pair.both))
    );
}

#[test]
fn pairs_of_the_costliest_text() {
    let is_costliest = |case: &Case| matches!(case, Case::Costliest { .. });
    assert!(has_pair(is_costliest, 9, 13));
    assert!(!has_pair(is_costliest, 13, 9));
}
