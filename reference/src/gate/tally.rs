//! How often each kind came to each refusal.

use std::collections::BTreeMap;
use std::fmt;

use crate::call::Call;
use crate::cases::Outcome;
use crate::flag_table::FlagTable;
use crate::gate::list::List;
use crate::gate::script::Ran;
use crate::judge::judge;
use crate::reader::FirstSteps;
use crate::refusal::Refusal;

/// Counts by kind and refusal, 0 where accepted.
#[derive(Clone, Debug, Default)]
pub struct Tally {
    pub counts: BTreeMap<(&'static str, u8), usize>,
    pub lists: usize,
    /// Calls of lists.
    pub calls: usize,
    pub lists_on_refused_reports: usize,
    pub lists_ended_early: usize,
    /// Lists whose log is longer than what is written.
    pub longer_logs: usize,
}

impl Tally {
    pub fn add_record(&mut self, outcome: &Outcome) {
        let (kind, refusal) = match outcome {
            Outcome::Judge(result) => ("judge", number(result)),
            Outcome::Lister(lines) => ("lister", listed_refusal(lines)),
            Outcome::Fresh { result, .. } => ("fresh", number(result)),
            Outcome::Unpack { result, .. } => ("unpack", number(result)),
            Outcome::Pack { result, .. } => ("pack", number(result)),
            Outcome::Same(result) => ("same", number(result)),
            Outcome::Restore { result, .. } => ("restore", number(result)),
            Outcome::Recover { result, .. } => ("recover", number(result)),
            Outcome::Characters(_) => ("characters", 0),
            Outcome::Load { result, .. } => ("load", number(result)),
            Outcome::ReadOut { result, .. } => ("read out", number(result)),
            Outcome::Costliest { result, .. } => ("costliest", number(result)),
            Outcome::FindIndicators { result, .. } => ("find indicators", number(result)),
            Outcome::Calls(_) => unreachable!("a list of calls is no record"),
        };
        self.add(kind, refusal);
    }

    pub fn add_steps(&mut self, given: &FirstSteps) {
        self.add("first steps", number(&given.opened));
    }

    pub fn add_load(&mut self, result: Result<(), Refusal>) {
        self.add("load", number(&result));
    }

    pub fn add_list(&mut self, list: &List, ran: &Ran, flags: &FlagTable) {
        self.lists += 1;
        self.calls += ran.calls.len();
        self.lists_on_refused_reports += usize::from(judge(&list.buffer, flags).is_err());
        self.lists_ended_early += usize::from(ran.taken < list.script.len());
        self.longer_logs += usize::from(ran.log.len() < list.room);
        for (call, answer) in &ran.calls {
            self.add(name(call), number(&answer.result));
        }
    }

    /// The refusals that a kind came to, ascending, 0 first if it was accepted.
    pub fn refusals(&self, kind: &str) -> Vec<u8> {
        let of_kind = self.counts.keys().filter(|(name, _)| *name == kind);
        of_kind.map(|(_, refusal)| *refusal).collect()
    }

    fn add(&mut self, kind: &'static str, refusal: u8) {
        *self.counts.entry((kind, refusal)).or_default() += 1;
    }
}

fn number<T>(result: &Result<T, Refusal>) -> u8 {
    result.as_ref().err().map_or(0, |refusal| refusal.number)
}

/// The number of the line `R NUMBER PLACE`.
fn listed_refusal(lines: &[String]) -> u8 {
    let words: Vec<&str> = lines[0].split(' ').collect();
    match words.as_slice() {
        ["R", number, _] => number.parse().expect("a refusal has a number"),
        _ => 0,
    }
}

fn name(call: &Call) -> &'static str {
    match call {
        Call::ReadField { .. } => "read field",
        Call::SetField { .. } => "set field",
        Call::ClearField { .. } => "clear field",
        Call::ReadFlag { .. } => "read flag",
        Call::SetFlag { .. } => "set flag",
        Call::ClearFlag { .. } => "clear flag",
        Call::Put { .. } => "put",
        Call::Fetch { .. } => "fetch",
        Call::Drop { .. } => "drop",
        Call::PutText { .. } => "put text",
        Call::FetchText { .. } => "fetch text",
        Call::ClearWithIndicators { .. } => "clear with indicators",
    }
}

/// A line a kind: how many, how many accepted, and how many of each refusal.
impl fmt::Display for Tally {
    fn fmt(&self, f: &mut fmt::Formatter) -> fmt::Result {
        let mut lines: BTreeMap<&str, (usize, String)> = BTreeMap::new();
        for (&(kind, refusal), count) in &self.counts {
            let (total, line) = lines.entry(kind).or_default();
            *total += count;
            *line += &match refusal {
                0 => format!(" ok {count}"),
                _ => format!(" R{refusal} {count}"),
            };
        }
        for (kind, (total, line)) in lines {
            writeln!(f, "{kind} {total}:{line}")?;
        }
        if self.lists > 0 {
            writeln!(
                f,
                "lists {}: on refused reports {}, ended early {}, log longer than what is written {}",
                self.lists, self.lists_on_refused_reports, self.lists_ended_early, self.longer_logs
            )?;
            writeln!(f, "calls {}", self.calls)?;
        }
        Ok(())
    }
}
