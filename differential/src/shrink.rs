//! A smaller trial that still differs.

use reference::call::Call;
use reference::cases::Case;
use reference::flag_table::{FlagTable, NO, YES};
use reference::gate::log::record_size;
use reference::gate::script::first_call;
use reference::judge::judge;
use reference::observation::Observation;
use reference::table::{FIELDS, REQUIRED};
use reference::text::Table;

use crate::compare::{Difference, compare};
use crate::harness::Harness;
use crate::library::Reader;
use crate::tally::Tally;
use crate::trial::{Given, Trial};

/// Makes a trial smaller as long as the two sides still differ.
pub fn shrink(harness: &mut Harness, mut found: Difference) -> Difference {
    let mut unused = Tally::default();
    while let Some(smaller) = smaller(&found.trial)
        .iter()
        .find_map(|trial| compare(harness, &mut unused, trial))
    {
        found = smaller;
    }
    found
}

/// Trials that are a little smaller, the smallest first: of a plainer table of flags,
/// then of less that is given.
fn smaller(trial: &Trial) -> Vec<Trial> {
    let flags = &trial.flags;
    let mut smaller: Vec<Trial> = plainer(&flags.marks())
        .iter()
        .filter_map(|marks| marks.as_slice().try_into().ok())
        .map(|marks| trial.given.clone().under(FlagTable::of(marks)))
        .collect();
    let given = match &trial.given {
        Given::Whole(case) => smaller_cases(case).into_iter().map(Given::Whole).collect(),
        Given::AllFlags => Vec::new(),
        Given::Forged { report, reader } => smaller_forged(report, reader),
        Given::Call { buffer, call } => smaller_calls(buffer, call),
        Given::List { buffer, calls } => smaller_lists(buffer, calls, flags),
        Given::Script {
            buffer,
            script,
            log,
        } => smaller_scripts(buffer, script, log, flags),
    };
    smaller.extend(given.into_iter().map(|given| given.under(*flags)));
    smaller
}

/// Marks with fewer that are not a yes: none, half as many, one less; then with a plain
/// no for all others.
fn plainer(marks: &[u8]) -> Vec<Vec<u8>> {
    let places: Vec<usize> = (0..marks.len()).filter(|&at| marks[at] != YES).collect();
    let with = |places: &[usize], mark: u8| {
        let mut marks = marks.to_vec();
        for &place in places {
            marks[place] = mark;
        }
        marks
    };
    let mut plainer: Vec<Vec<u8>> = fewer(&places)
        .into_iter()
        .map(|places| with(places, YES))
        .collect();
    if places.iter().any(|&at| marks[at] != NO) {
        plainer.push(with(&places, NO));
    }
    plainer
}

/// All places, half of them, and each alone.
fn fewer(places: &[usize]) -> Vec<&[usize]> {
    let (front, back) = places.split_at(places.len() / 2);
    let mut fewer = vec![places, front, back];
    fewer.extend(places.chunks(1));
    fewer.retain(|places| !places.is_empty());
    fewer
}

/// The front half and all but the last.
fn shorter<T: Clone>(row: &[T]) -> Vec<Vec<T>> {
    let length = row.len();
    let mut shorter = Vec::new();
    if length > 2 {
        shorter.push(row[..length / 2].to_vec());
    }
    if length > 0 {
        shorter.push(row[..length - 1].to_vec());
    }
    shorter
}

/// Two rows of which one is shorter.
fn one_shorter(first: &[u8], second: &[u8]) -> Vec<(Vec<u8>, Vec<u8>)> {
    let mut pairs = Vec::new();
    for shorter in shorter(first) {
        pairs.push((shorter, second.to_vec()));
    }
    for shorter in shorter(second) {
        pairs.push((first.to_vec(), shorter));
    }
    pairs
}

/// A report with an attachment less or with fewer fields, whatever its flags are, and
/// shorter buffers.
fn smaller_reports(buffer: &[u8]) -> Vec<Vec<u8>> {
    let mut smaller = Vec::new();
    if let Ok(report) = judge(buffer, &FlagTable::all()) {
        let mut with = |change: &dyn Fn(&mut Observation)| {
            let mut observation = report.observation.clone();
            change(&mut observation);
            smaller.push([&observation.packing(), &buffer[report.bytes..]].concat());
        };
        for index in 0..report.ac {
            with(&|observation| {
                observation.attachments.remove(index);
            });
        }
        let is_optional = |field: &usize| !REQUIRED.contains(field);
        let is_present = |field: &usize| report.observation.values[field - 1].is_some();
        let optional = (1..=FIELDS).filter(is_optional).filter(is_present);
        for cleared in fewer(&optional.collect::<Vec<_>>()) {
            with(&|observation| {
                for field in cleared {
                    observation.values[field - 1] = None;
                }
            });
        }
    }
    smaller.extend(shorter(buffer));
    smaller
}

fn smaller_cases(case: &Case) -> Vec<Case> {
    let mut smaller = Vec::new();
    let mut with = |change: &dyn Fn(&mut Case)| {
        let mut changed = case.clone();
        change(&mut changed);
        smaller.push(changed);
    };
    if let Case::Judge { report }
    | Case::Unpack { report, .. }
    | Case::ReadOut { report, .. }
    | Case::FindIndicators { report, .. } = case
    {
        for shorter in smaller_reports(report) {
            with(&|case| {
                if let Case::Judge { report }
                | Case::Unpack { report, .. }
                | Case::ReadOut { report, .. }
                | Case::FindIndicators { report, .. } = case
                {
                    *report = shorter.clone();
                }
            });
        }
    }
    if let Case::ReadOut { text, origins, .. } = case {
        for pair in one_shorter(text, origins) {
            with(&|case| {
                if let Case::ReadOut { text, origins, .. } = case {
                    (*text, *origins) = pair.clone();
                }
            });
        }
    }
    if let Case::Costliest {
        symbols,
        text,
        origins,
    } = case
    {
        for fewer in smaller_numbers(*symbols) {
            with(&|case| {
                if let Case::Costliest { symbols, .. } = case {
                    *symbols = fewer;
                }
            });
        }
        for pair in one_shorter(text, origins) {
            with(&|case| {
                if let Case::Costliest { text, origins, .. } = case {
                    (*text, *origins) = pair.clone();
                }
            });
        }
    }
    if let Case::Unpack { tail, .. } | Case::Pack { tail, .. } = case {
        for shorter in shorter(tail) {
            with(&|case| {
                if let Case::Unpack { tail, .. } | Case::Pack { tail, .. } = case {
                    *tail = shorter.clone();
                }
            });
        }
    }
    if let Case::Fresh { output, .. }
    | Case::Pack { output, .. }
    | Case::FindIndicators { output, .. } = case
    {
        for shorter in shorter(output) {
            with(&|case| {
                if let Case::Fresh { output, .. }
                | Case::Pack { output, .. }
                | Case::FindIndicators { output, .. } = case
                {
                    *output = shorter.clone();
                }
            });
        }
    }
    if let Case::Characters { table } = case {
        for emptier in emptier(table) {
            with(&|case| {
                if let Case::Characters { table } = case {
                    **table = emptier;
                }
            });
        }
    }
    if let Case::Load { marks } = case {
        for lent in [plainer(marks), shorter(marks)].concat() {
            with(&|case| {
                if let Case::Load { marks } = case {
                    *marks = lent.clone();
                }
            });
        }
    }
    smaller
}

/// Half a number, the number without one of its bits, and a small one less 1.
fn smaller_numbers(number: u64) -> Vec<u64> {
    let mut smaller = vec![number / 2];
    smaller.extend((0..64).map(|bit| number & !(1 << bit)));
    if number <= 256 {
        smaller.push(number.saturating_sub(1));
    }
    smaller.retain(|&other| other < number);
    smaller
}

/// Arrays with fewer entries other than 0: none, half as many, and one less.
fn emptier(table: &Table) -> Vec<Table> {
    let held: Vec<usize> = (0..table.len()).filter(|&at| table[at] != 0).collect();
    let without = |places: &[usize]| {
        let mut table = *table;
        for &place in places {
            table[place] = 0;
        }
        table
    };
    fewer(&held).into_iter().map(without).collect()
}

/// A shorter report, or a number of the reader that is 0.
fn smaller_forged(report: &[u8], reader: &Reader) -> Vec<Given> {
    let forged = |report: Vec<u8>, reader: Reader| Given::Forged { report, reader };
    let mut smaller: Vec<Given> = shorter(report)
        .into_iter()
        .map(|shorter| forged(shorter, *reader))
        .collect();
    for index in (0..reader.len()).filter(|&index| reader[index] != 0) {
        let mut plainer = *reader;
        plainer[index] = 0;
        smaller.push(forged(report.to_vec(), plainer));
    }
    smaller
}

fn smaller_calls(buffer: &[u8], call: &Call) -> Vec<Given> {
    let on = |buffer: Vec<u8>| Given::Call {
        buffer,
        call: call.clone(),
    };
    let with = |call: Call| Given::Call {
        buffer: buffer.to_vec(),
        call,
    };
    let mut smaller: Vec<Given> = smaller_reports(buffer).into_iter().map(on).collect();
    let calls: Vec<Call> = match call {
        Call::Put { id, content } => {
            let put = |content| Call::Put { id: *id, content };
            shorter(content).into_iter().map(put).collect()
        }
        Call::Fetch { id, output } => {
            let fetch = |output| Call::Fetch { id: *id, output };
            shorter(output).into_iter().map(fetch).collect()
        }
        Call::PutText { text, origins } => {
            let put = |(text, origins)| Call::PutText { text, origins };
            let both = shorter(text).into_iter().zip(shorter(origins));
            both.chain(one_shorter(text, origins)).map(put).collect()
        }
        Call::FetchText { text, origins } => {
            let fetch = |(text, origins)| Call::FetchText { text, origins };
            one_shorter(text, origins).into_iter().map(fetch).collect()
        }
        _ => Vec::new(),
    };
    smaller.extend(calls.into_iter().map(with));
    smaller
}

/// The last call alone, then the list without its first call.
fn smaller_lists(buffer: &[u8], calls: &[Call], flags: &FlagTable) -> Vec<Given> {
    let Some((last, before)) = calls.split_last() else {
        return Vec::new();
    };
    let after = |calls: &[Call]| {
        let mut buffer = buffer.to_vec();
        for call in calls {
            call.run(&mut buffer, flags);
        }
        buffer
    };
    let mut smaller = vec![Given::Call {
        buffer: after(before),
        call: last.clone(),
    }];
    if !before.is_empty() {
        smaller.push(Given::List {
            buffer: after(&calls[..1]),
            calls: calls[1..].to_vec(),
        });
    }
    smaller
}

/// The script without its first call, a shorter script, a shorter log.
fn smaller_scripts(buffer: &[u8], script: &[u8], log: &[u8], flags: &FlagTable) -> Vec<Given> {
    let given = |buffer: &[u8], script: &[u8], log: &[u8]| Given::Script {
        buffer: buffer.to_vec(),
        script: script.to_vec(),
        log: log.to_vec(),
    };
    let mut smaller = Vec::new();
    if let Some((call, rest)) = first_call(script)
        && record_size(&call) <= log.len()
    {
        let mut after = buffer.to_vec();
        call.run(&mut after, flags);
        smaller.push(given(&after, rest, &log[record_size(&call)..]));
    }
    for shorter in shorter(script) {
        smaller.push(given(buffer, &shorter, log));
    }
    for shorter in shorter(log) {
        smaller.push(given(buffer, script, &shorter));
    }
    for shorter in smaller_reports(buffer) {
        smaller.push(given(&shorter, script, log));
    }
    smaller
}
