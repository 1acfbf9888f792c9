//! A call outside the list as a record, and its answer.

use crate::cases::{Case, Chosen, Outcome};
use crate::edit::Fetched;
use crate::gate::head::{head, loaded};
use crate::outside::Unpacked;
use crate::reader::FirstSteps;
use crate::refusal::Refusal;
use crate::text::{Symbol, Table};

const JUDGE: u8 = 1;
const LISTER: u8 = 2;
const FRESH: u8 = 3;
const UNPACK: u8 = 4;
const PACK: u8 = 5;
const SAME: u8 = 6;
const RESTORE: u8 = 7;
const RECOVER: u8 = 8;
const CHARACTERS: u8 = 9;
const LOAD: u8 = 10;
const READ_OUT: u8 = 11;
const COSTLIEST: u8 = 12;
const FIND_INDICATORS: u8 = 13;
const FIRST_STEPS: u8 = 14;

/// The longest report, input or output; the most values; the longest tails; the most
/// marks of a table of flags; the longest output of a text, of a costliest one and of
/// indicators.
pub const MOST_BYTES: usize = 2000;
pub const MOST_VALUES: usize = 60;
pub const MOST_UNPACK_TAIL: usize = 4000;
pub const MOST_PACK_TAIL: usize = 4200;
pub const MOST_MARKS: usize = 200;
pub const MOST_TEXT: usize = 2400;
pub const MOST_COSTLIEST: usize = 200;
pub const MOST_INDICATORS: usize = 200;

/// Whether a case is a record and keeps its limits.
pub fn fits(case: &Case) -> bool {
    match case {
        Case::Judge { report } => report.len() <= MOST_BYTES,
        Case::Lister { input } => input.len() <= MOST_BYTES,
        Case::Fresh { output, .. } => output.len() <= MOST_BYTES,
        Case::Unpack {
            report,
            values,
            tail,
        } => {
            report.len() <= MOST_BYTES
                && values.len() <= MOST_VALUES
                && tail.len() <= MOST_UNPACK_TAIL
        }
        Case::Pack {
            values,
            tail,
            output,
            ..
        } => {
            values.len() <= MOST_VALUES
                && tail.len() <= MOST_PACK_TAIL
                && output.len() <= MOST_BYTES
        }
        Case::Same { first, second } => first.len() <= MOST_BYTES && second.len() <= MOST_BYTES,
        Case::Restore {
            report,
            values,
            tail,
            output,
        } => {
            report.len() <= MOST_BYTES
                && values.len() <= MOST_VALUES
                && tail.len() <= MOST_UNPACK_TAIL
                && output.len() <= MOST_BYTES
        }
        Case::Recover {
            values,
            tail,
            output,
            values_out,
            tail_out,
            ..
        } => {
            values.len() <= MOST_VALUES
                && tail.len() <= MOST_PACK_TAIL
                && output.len() <= MOST_BYTES
                && values_out.len() <= MOST_VALUES
                && tail_out.len() <= MOST_UNPACK_TAIL
        }
        Case::Characters { .. } => true,
        Case::Load { marks } => marks.len() <= MOST_MARKS,
        Case::ReadOut {
            report,
            text,
            origins,
        } => report.len() <= MOST_BYTES && text.len() <= MOST_TEXT && origins.len() <= MOST_TEXT,
        Case::Costliest { text, origins, .. } => {
            text.len() <= MOST_COSTLIEST && origins.len() <= MOST_COSTLIEST
        }
        Case::FindIndicators { report, output } => {
            report.len() <= MOST_BYTES && output.len() <= MOST_INDICATORS
        }
        Case::Calls { .. } => false,
    }
}

/// The kind and what the call takes.
pub fn input(case: &Case) -> Vec<u8> {
    match case {
        Case::Judge { report } => [vec![JUDGE], counted(report)].concat(),
        Case::Lister { input } => [vec![LISTER], counted(input)].concat(),
        Case::Fresh { required, output } => {
            [vec![FRESH], numbers(required), counted(output)].concat()
        }
        Case::Unpack {
            report,
            values,
            tail,
        } => [
            vec![UNPACK],
            counted(report),
            counted_numbers(values),
            counted(tail),
        ]
        .concat(),
        Case::Pack {
            values,
            word,
            rptin,
            tail,
            output,
        } => [
            vec![PACK],
            counted_numbers(values),
            word.to_be_bytes().to_vec(),
            rptin.to_be_bytes().to_vec(),
            counted(tail),
            counted(output),
        ]
        .concat(),
        Case::Same { first, second } => [vec![SAME], counted(first), counted(second)].concat(),
        Case::Restore {
            report,
            values,
            tail,
            output,
        } => [
            vec![RESTORE],
            counted(report),
            counted_numbers(values),
            counted(tail),
            counted(output),
        ]
        .concat(),
        Case::Recover {
            values,
            word,
            rptin,
            tail,
            output,
            values_out,
            tail_out,
        } => [
            vec![RECOVER],
            counted_numbers(values),
            word.to_be_bytes().to_vec(),
            rptin.to_be_bytes().to_vec(),
            counted(tail),
            counted(output),
            counted_numbers(values_out),
            counted(tail_out),
        ]
        .concat(),
        Case::Characters { table } => [vec![CHARACTERS], entries(table)].concat(),
        Case::Load { marks } => [vec![LOAD], counted(marks)].concat(),
        Case::ReadOut {
            report,
            text,
            origins,
        } => [
            vec![READ_OUT],
            counted(report),
            counted(text),
            counted(origins),
        ]
        .concat(),
        Case::Costliest {
            symbols,
            text,
            origins,
        } => [
            vec![COSTLIEST],
            symbols.to_be_bytes().to_vec(),
            counted(text),
            counted(origins),
        ]
        .concat(),
        Case::FindIndicators { report, output } => {
            [vec![FIND_INDICATORS], counted(report), counted(output)].concat()
        }
        Case::Calls { .. } => unreachable!("a list of calls is no record"),
    }
}

/// The head, what is given, and every output as the call leaves it. A costliest text's
/// chosen bytes are not shown.
pub fn answer(outcome: &Outcome) -> Vec<u8> {
    match outcome {
        Outcome::Judge(result) => match &**result {
            Ok(report) => head(Ok(Some(report.bytes))),
            Err(refusal) => head(Err(*refusal)),
        },
        Outcome::Lister(lines) => lines
            .iter()
            .flat_map(|line| format!("{line}\n").into_bytes())
            .collect(),
        Outcome::Fresh { result, output } => [head(result.map(|()| None)), output.clone()].concat(),
        Outcome::Unpack {
            result,
            values,
            tail,
        } => [unpacked(result), numbers(values), tail.clone()].concat(),
        Outcome::Pack { result, output } | Outcome::FindIndicators { result, output } => {
            [head(result.map(Some)), output.clone()].concat()
        }
        Outcome::Same(result) => head(result.map(|same| Some(usize::from(same)))),
        Outcome::Restore {
            result,
            values,
            tail,
            output,
        } => [
            head(result.map(Some)),
            numbers(values),
            tail.clone(),
            output.clone(),
        ]
        .concat(),
        Outcome::Recover {
            result,
            output,
            values_out,
            tail_out,
        } => [
            unpacked(result),
            numbers(values_out),
            tail_out.clone(),
            output.clone(),
        ]
        .concat(),
        Outcome::Characters(table) => [head(Ok(None)), entries(table)].concat(),
        Outcome::Load { result, table } => loaded(*result, table),
        Outcome::ReadOut {
            result,
            text,
            origins,
        } => [read_out(result), text.clone(), origins.clone()].concat(),
        Outcome::Costliest {
            result,
            text,
            origins,
        } => costliest(result, text, origins),
        Outcome::Calls(_) => unreachable!("a list of calls is no record"),
    }
}

/// The kind and the report on which a reader takes its first steps.
pub fn steps_input(report: &[u8]) -> Vec<u8> {
    [vec![FIRST_STEPS], counted(report)].concat()
}

/// The head of the opening, and each step.
pub fn steps_answer(given: &FirstSteps) -> Vec<u8> {
    let mut bytes = head(given.opened.map(|()| None));
    bytes.extend(given.steps.map(step).as_flattened());
    bytes
}

/// 1, the symbol's byte and its origin, or three zeros at the end.
fn step(step: Option<Symbol>) -> [u8; 3] {
    step.map_or([0; 3], |symbol| [1, symbol.byte(), symbol.origin()])
}

/// The head, and the six numbers where they are given.
fn unpacked(result: &Result<Unpacked, Refusal>) -> Vec<u8> {
    let mut bytes = head(result.map(|_| None));
    if let Ok(given) = result {
        let numbers = [
            given.word,
            given.present as u64,
            u64::from(given.rptin),
            given.ac as u64,
            given.bytes as u64,
            given.tail as u64,
        ];
        bytes.extend(numbers.iter().flat_map(|n| n.to_be_bytes()));
    }
    bytes
}

/// The head, and the deck's set and the nibbles where they are given.
fn read_out(result: &Result<Fetched, Refusal>) -> Vec<u8> {
    let mut bytes = head(result.map(|given| Some(given.symbols)));
    if let Ok(given) = result {
        bytes.extend((given.set as u64).to_be_bytes());
        bytes.extend((given.nibbles as u64).to_be_bytes());
    }
    bytes
}

/// The head, the origins, what of the text was not chosen, and where the call is
/// accepted the head of putting what was.
fn costliest(result: &Result<Chosen, Refusal>, text: &[u8], origins: &[u8]) -> Vec<u8> {
    let symbols = result.map_or(0, |chosen| chosen.symbols);
    let mut bytes = head(result.map(|_| None));
    bytes.extend(origins);
    bytes.extend(&text[symbols..]);
    if let Ok(chosen) = result {
        bytes.extend(head(chosen.put.map(Some)));
    }
    bytes
}

fn counted(bytes: &[u8]) -> Vec<u8> {
    [count(bytes.len()), bytes.to_vec()].concat()
}

fn counted_numbers(values: &[i64]) -> Vec<u8> {
    [count(values.len()), numbers(values)].concat()
}

fn count(count: usize) -> Vec<u8> {
    let count = u16::try_from(count).expect("a record keeps its limits");
    count.to_be_bytes().to_vec()
}

fn numbers(values: &[i64]) -> Vec<u8> {
    values.iter().flat_map(|n| n.to_be_bytes()).collect()
}

fn entries(table: &Table) -> Vec<u8> {
    table.iter().flat_map(|n| n.to_be_bytes()).collect()
}
