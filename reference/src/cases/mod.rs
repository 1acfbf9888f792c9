//! Cases for comparison: what a call takes, and what comes of it.

pub mod calls;
pub mod characters;
pub mod costliest;
pub mod flag_tables;
pub mod indicators;
pub mod material;
pub mod outside;
pub mod pairs;
pub mod random;
pub mod reports;
pub mod symbols;

use crate::call::{Answer, Call};
use crate::edit::{Fetched, put_text};
use crate::flag_table::FlagTable;
use crate::judge::{Report, judge};
use crate::lister;
use crate::outside::{Unpacked, characters, costliest, find_indicators, fresh, pack, same, unpack};
use crate::reader::read_out;
use crate::refusal::Refusal;
use crate::text::Table;
use crate::trips::{recover, restore};

/// One case, with every buffer as the call gets it.
#[derive(Clone, Debug, PartialEq, Eq)]
pub enum Case {
    Judge {
        report: Vec<u8>,
    },
    Lister {
        input: Vec<u8>,
    },
    Fresh {
        required: [i64; 5],
        output: Vec<u8>,
    },
    Unpack {
        report: Vec<u8>,
        values: Vec<i64>,
        tail: Vec<u8>,
    },
    Pack {
        values: Vec<i64>,
        word: u64,
        rptin: u16,
        tail: Vec<u8>,
        output: Vec<u8>,
    },
    Same {
        first: Vec<u8>,
        second: Vec<u8>,
    },
    Restore {
        report: Vec<u8>,
        values: Vec<i64>,
        tail: Vec<u8>,
        output: Vec<u8>,
    },
    Recover {
        values: Vec<i64>,
        word: u64,
        rptin: u16,
        tail: Vec<u8>,
        output: Vec<u8>,
        values_out: Vec<i64>,
        tail_out: Vec<u8>,
    },
    Characters {
        table: Box<Table>,
    },
    /// A table of flags as it is lent.
    Load {
        marks: Vec<u8>,
    },
    /// A text read out symbol by symbol, its bytes to one output and its origins to
    /// another.
    ReadOut {
        report: Vec<u8>,
        text: Vec<u8>,
        origins: Vec<u8>,
    },
    /// A text of so many symbols that takes the most nibbles.
    Costliest {
        symbols: u64,
        text: Vec<u8>,
        origins: Vec<u8>,
    },
    /// The indicators that are present without their data.
    FindIndicators {
        report: Vec<u8>,
        output: Vec<u8>,
    },
    /// A list of calls on one buffer.
    Calls {
        buffer: Vec<u8>,
        calls: Vec<Call>,
    },
}

/// What comes of a case, with every output as the call leaves it.
#[derive(Clone, Debug, PartialEq, Eq)]
pub enum Outcome {
    Judge(Box<Result<Report, Refusal>>),
    Lister(Vec<String>),
    Fresh {
        result: Result<(), Refusal>,
        output: Vec<u8>,
    },
    Unpack {
        result: Result<Unpacked, Refusal>,
        values: Vec<i64>,
        tail: Vec<u8>,
    },
    Pack {
        result: Result<usize, Refusal>,
        output: Vec<u8>,
    },
    Same(Result<bool, Refusal>),
    Restore {
        result: Result<usize, Refusal>,
        values: Vec<i64>,
        tail: Vec<u8>,
        output: Vec<u8>,
    },
    Recover {
        result: Result<Unpacked, Refusal>,
        output: Vec<u8>,
        values_out: Vec<i64>,
        tail_out: Vec<u8>,
    },
    Characters(Box<Table>),
    /// The table of flags is the one in force after the call.
    Load {
        result: Result<(), Refusal>,
        table: FlagTable,
    },
    ReadOut {
        result: Result<Fetched, Refusal>,
        text: Vec<u8>,
        origins: Vec<u8>,
    },
    Costliest {
        result: Result<Chosen, Refusal>,
        text: Vec<u8>,
        origins: Vec<u8>,
    },
    FindIndicators {
        result: Result<usize, Refusal>,
        output: Vec<u8>,
    },
    /// For each call its answer and the buffer after it.
    Calls(Vec<(Answer, Vec<u8>)>),
}

/// A costliest text. The program chooses its bytes; what comes of putting it is the same
/// for all choices.
#[derive(Clone, Copy, Debug, PartialEq, Eq)]
pub struct Chosen {
    pub symbols: usize,
    /// The answer to putting it to a fresh report.
    pub put: Result<usize, Refusal>,
}

impl Case {
    /// Runs the case under the table of flags in force, which a load may replace.
    pub fn run(&self, flags: &mut FlagTable) -> Outcome {
        match self {
            Case::Judge { report } => Outcome::Judge(Box::new(judge(report, flags))),
            Case::Lister { input } => Outcome::Lister(lister::lines(input)),
            Case::Fresh { required, output } => {
                let mut output = output.clone();
                let result = fresh(*required, &mut output);
                Outcome::Fresh { result, output }
            }
            Case::Unpack {
                report,
                values,
                tail,
            } => {
                let (mut values, mut tail) = (values.clone(), tail.clone());
                let result = unpack(report, &mut values, &mut tail, flags);
                Outcome::Unpack {
                    result,
                    values,
                    tail,
                }
            }
            Case::Pack {
                values,
                word,
                rptin,
                tail,
                output,
            } => {
                let mut output = output.clone();
                let result = pack(values, *word, *rptin, tail, &mut output, flags);
                Outcome::Pack { result, output }
            }
            Case::Same { first, second } => Outcome::Same(same(first, second, flags)),
            Case::Restore {
                report,
                values,
                tail,
                output,
            } => {
                let (mut values, mut tail) = (values.clone(), tail.clone());
                let mut output = output.clone();
                let result = restore(report, &mut values, &mut tail, &mut output, flags);
                Outcome::Restore {
                    result,
                    values,
                    tail,
                    output,
                }
            }
            Case::Recover {
                values,
                word,
                rptin,
                tail,
                output,
                values_out,
                tail_out,
            } => {
                let mut output = output.clone();
                let (mut values_out, mut tail_out) = (values_out.clone(), tail_out.clone());
                let result = recover(
                    values,
                    *word,
                    *rptin,
                    tail,
                    &mut output,
                    &mut values_out,
                    &mut tail_out,
                    flags,
                );
                Outcome::Recover {
                    result,
                    output,
                    values_out,
                    tail_out,
                }
            }
            Case::Characters { table } => {
                let mut table = table.clone();
                characters(&mut table);
                Outcome::Characters(table)
            }
            Case::Load { marks } => {
                let result = flags.load(marks);
                let table = *flags;
                Outcome::Load { result, table }
            }
            Case::ReadOut {
                report,
                text,
                origins,
            } => {
                let (mut text, mut origins) = (text.clone(), origins.clone());
                let result = read_out(report, &mut text, &mut origins, flags);
                Outcome::ReadOut {
                    result,
                    text,
                    origins,
                }
            }
            Case::Costliest {
                symbols,
                text,
                origins,
            } => {
                let (mut text, mut origins) = (text.clone(), origins.clone());
                let result = costliest(*symbols, &mut text, &mut origins);
                let symbols = *symbols as usize;
                let result = result.map(|()| Chosen {
                    symbols,
                    put: put_to_fresh(&text[..symbols], &origins[..symbols]),
                });
                Outcome::Costliest {
                    result,
                    text,
                    origins,
                }
            }
            Case::FindIndicators { report, output } => {
                let mut output = output.clone();
                let result = find_indicators(report, &mut output, flags);
                Outcome::FindIndicators { result, output }
            }
            Case::Calls { buffer, calls } => {
                let mut buffer = buffer.clone();
                let mut answers = Vec::new();
                for call in calls {
                    let answer = call.run(&mut buffer, flags);
                    answers.push((answer, buffer.clone()));
                }
                Outcome::Calls(answers)
            }
        }
    }
}

/// Puts a text to the fresh report of values 1, 1900, 1, 0, 0 in 200 bytes, with every
/// flag permitted.
fn put_to_fresh(text: &[u8], origins: &[u8]) -> Result<usize, Refusal> {
    let mut buffer = [0; 200];
    fresh([1, 1900, 1, 0, 0], &mut buffer)?;
    put_text(&mut buffer, text, origins, &FlagTable::all())
}

/// The cases that are the same for every seed. They begin and end with every flag
/// permitted.
pub fn fixed() -> Vec<Case> {
    let mut cases = reports::cases();
    cases.extend(outside::cases());
    cases.extend(calls::cases());
    for pair in pairs::pairs() {
        cases.extend([pair.both, pair.mended]);
    }
    cases.extend(characters::cases());
    cases.extend(flag_tables::cases());
    cases.extend(symbols::cases());
    cases.extend(costliest::cases());
    cases.extend(indicators::cases());
    cases
}
