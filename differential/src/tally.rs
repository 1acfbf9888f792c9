//! How often each call came to each refusal, to one because of the table of flags and
//! to a CK at an edge, how often put text was refused for each reason and fetch text gave
//! each set, how often each symbol was put, how often a costliest text had no symbol, the
//! most, or a number between, how often a set or a clear gave which former value, what
//! indicators were found, and which were cleared along with their data.

use std::collections::BTreeMap;
use std::fmt;

use reference::bits::bits_of;
use reference::call::Call;
use reference::card::{CARD_BYTES, Card};
use reference::cases::Case;
use reference::cases::material::all_symbols;
use reference::deck::{CharacterSet, character_set};
use reference::flag_table::FlagTable;
use reference::indicator::{ERRONEOUS_ID, INDICATORS};
use reference::judge::judge;
use reference::table::{Coded, SID, fields};
use reference::text::{self, Symbol};

use crate::expected::{Outcome, Said};
use crate::fence::MARKED;
use crate::indicators::TI;

/// A run of so many calls has to see every refusal that a call can meet, every one
/// that the table of flags can decide, every reason of put text, every set, every
/// symbol put, costliest texts of no symbol, of the most and of a number between, every
/// kind of former value, and everything that indicators can come to.
pub const DEFAULT_CALLS: u64 = 2_000_000;

const REFUSALS: [usize; 15] = [1, 2, 3, 4, 5, 6, 7, 8, 9, 10, 11, 12, 13, 14, 16];
const HIGHEST: usize = 16;

const SET_FIELD: usize = 5;
const CLEAR_FIELD: usize = 6;
const SET_FLAG: usize = 8;
const CLEAR_FLAG: usize = 9;
const REPLAY: usize = 15;
const ALL_FLAGS: usize = 18;
const FORGED: usize = 20;
const COSTLIEST: usize = 21;
const CLEAR_WITH: usize = 22;
const INDICATORS_FOUND: usize = 23;

/// Why put text is refused by 13 or by 14.
const REASONS: [(usize, &str); 4] = [
    (13, "lengths"),
    (13, "buffer"),
    (14, "byte"),
    (14, "origin"),
];

/// The sets that fetch text gives; one is unknown by the source ID or by its absence.
const SETS: [&str; 4] = ["EBCDIC", "ASCII", "unknown", "missing"];

/// How many symbols an accepted costliest text has.
const LENGTHS: [&str; 3] = ["0", "1 to 84", "85"];

/// What a set or a clear gives: a value other than 0, the value 0, or missing.
const FORMERS: [&str; 3] = ["value", "0", "missing"];

/// The calls that give a former value. That of a flag is never 0.
const FORMER_GIVERS: [(usize, &[usize]); 5] = [
    (SET_FIELD, &[0, 1, 2]),
    (CLEAR_FIELD, &[0, 1, 2]),
    (SET_FLAG, &[0, 2]),
    (CLEAR_FLAG, &[0, 2]),
    (CLEAR_WITH, &[0, 1, 2]),
];

/// What comes of finding indicators: how many are found, some with just enough room, or
/// none because attachment 5 stands; or the output is a byte too short.
const FINDS: [(&str, &str); 6] = [
    ("0", "none found"),
    ("1", "one found"),
    ("more", "more than one found"),
    ("exact", "some found with just enough room"),
    ("short", "room for all but one"),
    ("by id 5", "none found because attachment 5 stands"),
];

/// What an accepted clear with indicators does: how many indicators it takes along, some
/// of them with a field that was missing already or although attachment 5 stands, and
/// whether it leaves TI beside another of its data.
const TAKES: [(&str, &str); 6] = [
    ("0", "none taken along"),
    ("1", "one taken along"),
    ("2", "two taken along"),
    ("missing", "some taken along with a field that was missing"),
    ("TI left", "TI left beside its data"),
    ("id 5", "some taken along where attachment 5 stands"),
];

/// Fresh, pack, set field, clear field and clear with indicators work CK out; where the
/// report is then.
const WRITERS: [(usize, &str); 5] = [
    (1, "output"),
    (3, "output"),
    (SET_FIELD, "report"),
    (CLEAR_FIELD, "report"),
    (CLEAR_WITH, "report"),
];

/// The refusals that the table of flags can decide.
const BY_FLAGS: [usize; 3] = [6, 9, 14];

/// CK at and beside 0.
const EDGES: [u64; 3] = [254, 0, 1];

/// Each call with the refusals that it can meet.
const CALLS: [(&str, &[usize]); 24] = [
    ("judge", &[1, 2, 3, 4, 5, 6, 7]),
    ("fresh", &[9, 13]),
    ("unpack", &[1, 2, 3, 4, 5, 6, 7, 13]),
    ("pack", &[1, 5, 6, 8, 9, 10, 13, 14]),
    ("read field", &[1, 2, 3, 4, 5, 6, 7, 8]),
    ("set field", &[1, 2, 3, 4, 5, 6, 7, 8, 9]),
    ("clear field", &[1, 2, 3, 4, 5, 6, 7, 8, 10]),
    ("read flag", &[1, 2, 3, 4, 5, 6, 7, 8, 11]),
    ("set flag", &[1, 2, 3, 4, 5, 6, 7, 8, 9, 11]),
    ("clear flag", &[1, 2, 3, 4, 5, 6, 7, 8, 11]),
    ("put", &[1, 2, 3, 4, 5, 6, 7, 8, 12, 13, 14]),
    ("fetch", &[1, 2, 3, 4, 5, 6, 7, 8, 11, 13]),
    ("drop", &[1, 2, 3, 4, 5, 6, 7, 8, 11]),
    ("put text", &[1, 2, 3, 4, 5, 6, 7, 12, 13, 14]),
    ("fetch text", &[1, 2, 3, 4, 5, 6, 7, 11, 13]),
    ("replay", &[]),
    ("characters", &[]),
    ("load", &[16]),
    ("all flags", &[]),
    ("read out", &[1, 2, 3, 4, 5, 6, 7, 11, 13]),
    ("forged", &[]),
    ("costliest", &[9, 13]),
    ("clear with", &[1, 2, 3, 4, 5, 6, 7, 8, 10]),
    ("indicators", &[1, 2, 3, 4, 5, 6, 7, 13]),
];

/// The refusals of a call that the table of flags can decide.
fn refusals_by_flags(name: &str) -> &'static [usize] {
    match name {
        "fresh" | "replay" | "characters" | "load" | "all flags" | "forged" | "costliest" => &[],
        "set flag" => &[6, 9],
        "put" => &[6, 14],
        _ => &[6],
    }
}

#[derive(Clone, Debug, Default)]
pub struct Tally {
    /// By call and refusal, 0 where accepted.
    counts: [[u64; HIGHEST + 1]; CALLS.len()],
    /// By call and refusal, where another answer is due if every flag is permitted.
    by_flags: [[u64; HIGHEST + 1]; CALLS.len()],
    /// Scripts with such an answer in their log.
    scripts_by_flags: u64,
    /// By writer and edge.
    checksums: [[u64; EDGES.len()]; WRITERS.len()],
    /// By reason; a text with both a bad byte and a bad origin is not counted.
    reasons: [u64; REASONS.len()],
    sets: [u64; SETS.len()],
    lengths: [u64; LENGTHS.len()],
    /// By giver and what it gave.
    formers: [[u64; FORMERS.len()]; FORMER_GIVERS.len()],
    finds: [u64; FINDS.len()],
    takes: [u64; TAKES.len()],
    /// Symbols that an accepted put text has written; trailing plain spaces are not.
    put: BTreeMap<Symbol, u64>,
    performed: u64,
    ended_early: u64,
}

impl Tally {
    pub fn add_whole(&mut self, case: &Case, outcome: &Outcome, by_flags: bool) {
        let row = match case {
            Case::Judge { .. } => 0,
            Case::Fresh { .. } => 1,
            Case::Unpack { .. } => 2,
            Case::Pack { .. } => 3,
            Case::Characters { .. } => 16,
            Case::Load { .. } => 17,
            Case::ReadOut { .. } => 19,
            Case::Costliest { .. } => COSTLIEST,
            Case::FindIndicators { .. } => INDICATORS_FOUND,
            Case::Lister { .. }
            | Case::Same { .. }
            | Case::Restore { .. }
            | Case::Recover { .. }
            | Case::Calls { .. } => unreachable!("not a call of the library"),
        };
        self.add(row, outcome, by_flags);
        match (case, outcome.refusal()) {
            (Case::Costliest { symbols, .. }, 0) => self.add_length(*symbols),
            (Case::FindIndicators { report, output }, refusal @ (0 | 13)) => {
                self.add_find(report, output.len(), refusal == 0);
            }
            _ => {}
        }
    }

    /// A report that is accepted, and an output that has room or not.
    fn add_find(&mut self, report: &[u8], room: usize, has_room: bool) {
        let Ok(report) = judge(report, &FlagTable::all()) else {
            return;
        };
        let mut observation = report.observation;
        let found = observation.lone_indicators().len();
        let attachments = &mut observation.attachments;
        attachments.retain(|other| other.id != ERRONEOUS_ID);
        let without_5 = observation.lone_indicators().len();
        let met = [
            has_room && found == 0,
            has_room && found == 1,
            has_room && found > 1,
            has_room && found > 0 && room == found,
            !has_room && room + 1 == found,
            has_room && found < without_5,
        ];
        count(&mut self.finds, met);
    }

    fn add_length(&mut self, symbols: u64) {
        let length = match symbols {
            0 => 0,
            1..=84 => 1,
            _ => 2,
        };
        self.lengths[length] += 1;
    }

    pub fn add_all_flags(&mut self) {
        self.counts[ALL_FLAGS][0] += 1;
    }

    pub fn add_forged(&mut self) {
        self.counts[FORGED][0] += 1;
    }

    /// A call on a buffer as it was before.
    pub fn add_call(&mut self, call: &Call, before: &[u8], outcome: &Outcome, by_flags: bool) {
        let row = match call {
            Call::ReadField { .. } => 4,
            Call::SetField { .. } => SET_FIELD,
            Call::ClearField { .. } => CLEAR_FIELD,
            Call::ReadFlag { .. } => 7,
            Call::SetFlag { .. } => SET_FLAG,
            Call::ClearFlag { .. } => CLEAR_FLAG,
            Call::Put { .. } => 10,
            Call::Fetch { .. } => 11,
            Call::Drop { .. } => 12,
            Call::PutText { .. } => 13,
            Call::FetchText { .. } => 14,
            Call::ClearWithIndicators { .. } => CLEAR_WITH,
        };
        self.add(row, outcome, by_flags);
        self.add_former(row, outcome);
        match (call, outcome.refusal()) {
            (Call::PutText { text, origins }, 0) => self.add_symbols(text, origins),
            (Call::PutText { text, origins }, refusal) => {
                if let Some(reason) = reason(text, origins, refusal) {
                    self.reasons[reason] += 1;
                }
            }
            (Call::FetchText { .. }, 0) => self.add_set(outcome),
            (Call::ClearWithIndicators { field }, 0) => {
                self.add_take(*field as usize, before, outcome);
            }
            _ => {}
        }
    }

    fn add_take(&mut self, field: usize, before: &[u8], outcome: &Outcome) {
        let report = judge(before, &FlagTable::all());
        let (Ok(report), Some(state)) = (report, outcome.buffer("report")) else {
            return;
        };
        let after = card_of(state).codes;
        let stood = |field: usize| report.observation.values[field - 1].is_some();
        let stands = |field: usize| after[field - 1] != Coded(0);
        let mut resting = INDICATORS.to_vec();
        resting.retain(|indicator| indicator.rests_on(field));
        let mut taken = resting.clone();
        taken.retain(|indicator| stood(indicator.field) && !stands(indicator.field));
        let has_5 = report.observation.content(ERRONEOUS_ID.into()).is_some();
        let met = [
            taken.is_empty(),
            taken.len() == 1,
            taken.len() == 2,
            !taken.is_empty() && !stood(field),
            resting.iter().any(|indicator| indicator.field == TI) && stands(TI),
            !taken.is_empty() && has_5,
        ];
        count(&mut self.takes, met);
    }

    fn add_former(&mut self, row: usize, outcome: &Outcome) {
        let giver = FORMER_GIVERS.iter().position(|&(giver, _)| giver == row);
        let (Some(giver), Said::Answer(answer)) = (giver, outcome.said) else {
            return;
        };
        let former = match (answer.given, answer.first) {
            (1, 0) => 1,
            (1 | 2, _) => 0,
            (129 | 130, _) => 2,
            _ => return,
        };
        self.formers[giver][former] += 1;
    }

    fn add_symbols(&mut self, text: &[u8], origins: &[u8]) {
        let symbols = text::symbols(text, origins).unwrap_or_default();
        let last = symbols.iter().rposition(|&symbol| symbol != Symbol::SPACE);
        for &symbol in last.map_or(&[][..], |last| &symbols[..=last]) {
            *self.put.entry(symbol).or_default() += 1;
        }
    }

    fn add_set(&mut self, outcome: &Outcome) {
        let Some(state) = outcome.buffer("report") else {
            return;
        };
        let sid = fields()[SID - 1].scaled(card_of(state).codes[SID - 1]);
        let set = match character_set(sid) {
            CharacterSet::Ebcdic => 0,
            CharacterSet::Ascii => 1,
            CharacterSet::Unknown if sid.is_some() => 2,
            CharacterSet::Unknown => 3,
        };
        self.sets[set] += 1;
    }

    pub fn add_script(&mut self, outcome: &Outcome, script: &[u8], by_flags: bool) {
        self.counts[REPLAY][0] += 1;
        self.scripts_by_flags += u64::from(by_flags);
        if let Said::Performed(performed) = outcome.said {
            self.performed += performed.calls;
            self.ended_early += u64::from(performed.taken < script.len() as u64);
        }
    }

    fn add(&mut self, row: usize, outcome: &Outcome, by_flags: bool) {
        self.counts[row][outcome.refusal()] += 1;
        self.by_flags[row][outcome.refusal()] += u64::from(by_flags);
        let writer = WRITERS.iter().position(|&(writer, _)| writer == row);
        let (Some(writer), 0) = (writer, outcome.refusal()) else {
            return;
        };
        if let Some(state) = outcome.buffer(WRITERS[writer].1) {
            let ck = card_of(state).ck;
            if let Some(edge) = EDGES.iter().position(|&edge| edge == ck) {
                self.checksums[writer][edge] += 1;
            }
        }
    }

    /// Calls of the library.
    pub fn calls(&self) -> u64 {
        self.counts.iter().flatten().sum()
    }

    /// The calls that were never accepted or never came to a refusal that they can
    /// meet, the refusals that the table of flags never decided, the reasons, the sets,
    /// the lengths, the former values and what indicators come to that were never met, and
    /// the symbols that were never put.
    pub fn unseen(&self) -> Vec<String> {
        let mut unseen = Vec::new();
        for ((name, refusals), counts) in CALLS.iter().zip(&self.counts) {
            let numbers = [0].iter().chain(*refusals);
            for refusal in numbers.filter(|&&refusal| counts[refusal] == 0) {
                unseen.push(format!("{name}, refusal {refusal} (0 is accepted)"));
            }
        }
        for ((name, _), counts) in CALLS.iter().zip(&self.by_flags) {
            let refusals = refusals_by_flags(name).iter();
            for refusal in refusals.filter(|&&refusal| counts[refusal] == 0) {
                unseen.push(format!("{name}, refusal {refusal} by the table of flags"));
            }
        }
        if self.scripts_by_flags == 0 {
            unseen.push("replay, a refusal by the table of flags".into());
        }
        for (refusal, reason) in unmet(&REASONS, &self.reasons) {
            unseen.push(format!("put text, refusal {refusal} by {reason}"));
        }
        for set in unmet(&SETS, &self.sets) {
            unseen.push(format!("fetch text, set {set}"));
        }
        for length in unmet(&LENGTHS, &self.lengths) {
            unseen.push(format!("costliest, accepted for {length} symbols"));
        }
        for ((row, formers), counts) in FORMER_GIVERS.iter().zip(&self.formers) {
            for &former in formers.iter().filter(|&&former| counts[former] == 0) {
                let (name, former) = (CALLS[*row].0, FORMERS[former]);
                unseen.push(format!("{name}, former {former}"));
            }
        }
        for (_, find) in unmet(&FINDS, &self.finds) {
            unseen.push(format!("indicators, {find}"));
        }
        for (_, take) in unmet(&TAKES, &self.takes) {
            unseen.push(format!("clear with, {take}"));
        }
        for symbol in all_symbols() {
            if !self.put.contains_key(&symbol) {
                unseen.push(format!("put text, {}", name_of(symbol)));
            }
        }
        unseen
    }

    /// Whether a run for so many calls has seen what it has to.
    pub fn passes(&self, calls: u64) -> bool {
        calls < DEFAULT_CALLS || self.unseen().is_empty()
    }
}

/// The names whose count is 0.
fn unmet<'a, T>(names: &'a [T], counts: &'a [u64]) -> impl Iterator<Item = &'a T> {
    let unmet = names.iter().zip(counts).filter(|(_, count)| **count == 0);
    unmet.map(|(name, _)| name)
}

fn count(counts: &mut [u64], met: [bool; 6]) {
    for (count, met) in counts.iter_mut().zip(met) {
        *count += u64::from(met);
    }
}

/// The card at the front of a report's state.
fn card_of(state: &[u8]) -> Card {
    Card::read(&bits_of(&state[MARKED..][..CARD_BYTES]))
}

/// The place of the reason for which put text is refused, if it has one of its own.
fn reason(text: &[u8], origins: &[u8], refusal: usize) -> Option<usize> {
    let pairs = || text.iter().zip(origins);
    let bad_byte = pairs().any(|(&byte, &origin)| origin == 0 && Symbol::plain(byte).is_none());
    let bad_origin = pairs().any(|(_, &origin)| origin > 1);
    match refusal {
        13 if text.len() != origins.len() => Some(0),
        13 => Some(1),
        14 if !bad_origin => Some(2),
        14 if !bad_byte => Some(3),
        _ => None,
    }
}

fn name_of(symbol: Symbol) -> String {
    let origin = match symbol.origin() {
        text::PLAIN => "plain",
        _ => "original",
    };
    format!("{origin} byte {}", symbol.byte())
}

/// A count, or a dash where a call cannot meet a refusal or a former value.
fn shown(count: u64, what: usize, can_be: &[usize]) -> String {
    if count == 0 && !can_be.contains(&what) {
        "-".into()
    } else {
        count.to_string()
    }
}

impl fmt::Display for Tally {
    fn fmt(&self, f: &mut fmt::Formatter) -> fmt::Result {
        write!(f, "{:<12}{:>9}{:>9}", "call", "calls", "accepted")?;
        for refusal in REFUSALS {
            write!(f, "{refusal:>8}")?;
        }
        writeln!(f)?;
        for ((name, refusals), counts) in CALLS.iter().zip(&self.counts) {
            let calls: u64 = counts.iter().sum();
            write!(f, "{name:<12}{calls:>9}{:>9}", counts[0])?;
            for refusal in REFUSALS {
                write!(f, "{:>8}", shown(counts[refusal], refusal, refusals))?;
            }
            writeln!(f)?;
        }
        let sum = |refusal: usize| self.counts.iter().map(|row| row[refusal]).sum::<u64>();
        write!(f, "{:<12}{:>9}{:>9}", "all", self.calls(), sum(0))?;
        for refusal in REFUSALS {
            write!(f, "{:>8}", sum(refusal))?;
        }
        writeln!(f)?;
        self.fmt_by_flags(f)?;
        let [below, at, above] = EDGES;
        writeln!(f, "{:<12}{below:>9}{at:>9}{above:>9}", "CK written")?;
        for (&(row, _), [below, at, above]) in WRITERS.iter().zip(&self.checksums) {
            writeln!(f, "{:<12}{below:>9}{at:>9}{above:>9}", CALLS[row].0)?;
        }
        let reasons = REASONS.map(|(_, reason)| reason);
        fmt_row(f, "put text by", &reasons, &self.reasons)?;
        fmt_row(f, "sets given", &SETS, &self.sets)?;
        fmt_row(f, "costliest of", &LENGTHS, &self.lengths)?;
        self.fmt_formers(f)?;
        fmt_row(f, "found", &FINDS.map(|(find, _)| find), &self.finds)?;
        fmt_row(f, "taken along", &TAKES.map(|(take, _)| take), &self.takes)?;
        let least = self.put.values().min().unwrap_or(&0);
        let (put, all) = (self.put.len(), all_symbols().len());
        writeln!(f, "symbols put: {put} of {all}, each {least} times or more")?;
        writeln!(
            f,
            "scripts: {} calls performed, {} ended before the script's end, {} with a refusal by flags",
            self.performed, self.ended_early, self.scripts_by_flags
        )
    }
}

/// Names in a line, and their counts in the next.
fn fmt_row(f: &mut fmt::Formatter, title: &str, names: &[&str], counts: &[u64]) -> fmt::Result {
    write!(f, "{title:<12}")?;
    for name in names {
        write!(f, "{name:>9}")?;
    }
    write!(f, "\n{:<12}", "")?;
    for count in counts {
        write!(f, "{count:>9}")?;
    }
    writeln!(f)
}

impl Tally {
    /// The former values given.
    fn fmt_formers(&self, f: &mut fmt::Formatter) -> fmt::Result {
        let [value, zero, missing] = FORMERS;
        writeln!(f, "{:<12}{value:>9}{zero:>9}{missing:>9}", "former given")?;
        for (&(row, formers), counts) in FORMER_GIVERS.iter().zip(&self.formers) {
            let [value, zero, missing] = [0, 1, 2].map(|what| shown(counts[what], what, formers));
            writeln!(f, "{:<12}{value:>9}{zero:>9}{missing:>9}", CALLS[row].0)?;
        }
        Ok(())
    }

    /// The refusals that the table of flags decided.
    fn fmt_by_flags(&self, f: &mut fmt::Formatter) -> fmt::Result {
        let [report, set, put] = BY_FLAGS;
        writeln!(f, "{:<12}{report:>9}{set:>9}{put:>9}", "by flags")?;
        for ((name, _), counts) in CALLS.iter().zip(&self.by_flags) {
            let refusals = refusals_by_flags(name);
            if !refusals.is_empty() {
                let count = |refusal: usize| shown(counts[refusal], refusal, refusals);
                let [report, set, put] = BY_FLAGS.map(count);
                writeln!(f, "{name:<12}{report:>9}{set:>9}{put:>9}")?;
            }
        }
        Ok(())
    }
}
