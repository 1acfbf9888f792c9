//! A trial on both sides.

use reference::call::Call;
use reference::flag_table::FlagTable;

use crate::expected::{self, Outcome};
use crate::harness::Harness;
use crate::tally::Tally;
use crate::trial::{Given, Trial};

/// A trial on which the two sides differ; of a list the calls up to the difference.
#[derive(Clone, Debug)]
pub struct Difference {
    pub trial: Trial,
    pub expected: Outcome,
    pub got: Outcome,
}

/// Runs a trial on both sides, counts its calls, and gives the first difference.
pub fn compare(harness: &mut Harness, tally: &mut Tally, trial: &Trial) -> Option<Difference> {
    let flags = &trial.flags;
    let (expected, got) = match &trial.given {
        Given::Whole(case) => {
            let expected = expected::whole(case, flags);
            let with_all = || expected::whole(case, &FlagTable::all());
            tally.add_whole(case, &expected, by_flags(&expected, flags, with_all));
            (expected, harness.whole(case, flags))
        }
        Given::AllFlags => {
            tally.add_all_flags();
            (expected::all_flags(), harness.all_flags(flags))
        }
        Given::Forged { report, reader } => {
            tally.add_forged();
            (expected::forged(report), harness.forged(report, reader))
        }
        Given::Call { buffer, call } => {
            let expected = expected_call(tally, call, &mut buffer.clone(), flags);
            (expected, harness.call(call, buffer, flags))
        }
        Given::List { buffer, calls } => {
            return compare_list(harness, tally, buffer, calls, flags);
        }
        Given::Script {
            buffer,
            script,
            log,
        } => {
            let expected = expected::replay(buffer, script, log, flags);
            let with_all = expected::replay(buffer, script, log, &FlagTable::all());
            let by_flags = expected.buffer("log") != with_all.buffer("log");
            tally.add_script(&expected, script, by_flags);
            (expected, harness.replay(buffer, script, log, flags))
        }
    };
    difference(expected, got, || trial.clone())
}

/// What is expected of a call, which is counted; the buffer is changed as it should be.
fn expected_call(tally: &mut Tally, call: &Call, buffer: &mut [u8], flags: &FlagTable) -> Outcome {
    let before = buffer.to_vec();
    let expected = expected::call(call, buffer, flags);
    let with_all = || expected::call(call, &mut before.clone(), &FlagTable::all());
    let by_flags = by_flags(&expected, flags, with_all);
    tally.add_call(call, &before, &expected, by_flags);
    expected
}

/// Whether a call is refused because of the table of flags: it is answered otherwise
/// where every flag is permitted.
fn by_flags(expected: &Outcome, flags: &FlagTable, with_all: impl Fn() -> Outcome) -> bool {
    let can_be = [6, 9, 14].contains(&expected.refusal()) && *flags != FlagTable::all();
    can_be && with_all().said != expected.said
}

fn compare_list(
    harness: &mut Harness,
    tally: &mut Tally,
    buffer: &[u8],
    calls: &[Call],
    flags: &FlagTable,
) -> Option<Difference> {
    let mut after = buffer.to_vec();
    let at = harness.begin(buffer);
    for (index, call) in calls.iter().enumerate() {
        let expected = expected_call(tally, call, &mut after, flags);
        let got = harness.next(call, at, buffer.len(), flags);
        let found = difference(expected, got, || {
            let list = Given::List {
                buffer: buffer.to_vec(),
                calls: calls[..=index].to_vec(),
            };
            list.under(*flags)
        });
        if found.is_some() {
            return found;
        }
    }
    None
}

fn difference(expected: Outcome, got: Outcome, trial: impl Fn() -> Trial) -> Option<Difference> {
    (expected != got).then(|| Difference {
        trial: trial(),
        expected,
        got,
    })
}
