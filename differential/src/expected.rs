//! What the independent implementation expects of a call.

use reference::call::Call;
use reference::cases::Case;
use reference::flag_table::FlagTable;
use reference::gate::script;
use reference::judge::judge;
use reference::line::hex;
use reference::number::Number;
use reference::outside::{characters, costliest, find_indicators, fresh, pack, unpack};
use reference::reader::{self, Reader};
use reference::refusal::Refusal;
use reference::text::{self, Table};

use crate::fence::{MARKED, state_of};
use crate::library::{Answer, END, ORIGINAL, PLAIN, Performed, Symbol};

#[derive(Clone, Copy, Debug, PartialEq, Eq)]
pub enum Said {
    Answer(Answer),
    Performed(Performed),
    /// The answer of opening a reader, and that of reading it out.
    Read {
        opened: Answer,
        read: Answer,
    },
    Nothing,
}

/// An answer, and every buffer after the call with the marked bytes before it.
#[derive(Clone, Debug, PartialEq, Eq)]
pub struct Outcome {
    pub said: Said,
    pub buffers: Vec<(&'static str, Vec<u8>)>,
}

/// What unpack's numbers hold before the call.
pub const NUMBERS: [u64; 6] = [0xC5C5_C5C5_C5C5_C5C5; 6];

fn answer_of(result: Result<Vec<Number>, Refusal>) -> Answer {
    let numbers = match result {
        Err(refusal) => {
            return Answer {
                refusal: refusal.number.into(),
                place: refusal.place as u64,
                ..Answer::default()
            };
        }
        Ok(numbers) => numbers,
    };
    assert!(numbers.len() <= 3, "an answer has room for three numbers");
    let label = |index: usize| numbers.get(index).map_or(0, |number| number.label());
    let value = |index: usize| numbers.get(index).and_then(|number| number.value);
    Answer {
        given: u32::from_le_bytes([label(0), label(1), label(2), 0]),
        first: value(0).unwrap_or(0),
        second: value(1).unwrap_or(0),
        third: value(2).unwrap_or(0),
        ..Answer::default()
    }
}

fn outcome(result: Result<Vec<Number>, Refusal>, buffers: &[(&'static str, &[u8])]) -> Outcome {
    Outcome {
        said: Said::Answer(answer_of(result)),
        buffers: states(buffers),
    }
}

fn states(buffers: &[(&'static str, &[u8])]) -> Vec<(&'static str, Vec<u8>)> {
    let state = |(name, bytes): &(&'static str, &[u8])| (*name, state_of(bytes));
    buffers.iter().map(state).collect()
}

/// The table of flags is compared last.
fn with_flags(mut outcome: Outcome, flags: &FlagTable) -> Outcome {
    let state = ("flags", state_of(&flags.marks()));
    outcome.buffers.push(state);
    outcome
}

/// Judge, fresh, unpack, pack, characters, load, read out, costliest or find indicators.
pub fn whole(case: &Case, flags: &FlagTable) -> Outcome {
    match case {
        Case::Judge { report } => {
            let judged = judge(report, flags);
            let result = judged.map(|report| vec![Number::bytes(report.bytes)]);
            with_flags(outcome(result, &[("report", report)]), flags)
        }
        Case::Fresh { required, output } => {
            let mut output = output.clone();
            let result = fresh(*required, &mut output).map(|()| Vec::new());
            outcome(result, &[("output", &output)])
        }
        Case::Unpack {
            report,
            values,
            tail,
        } => with_flags(unpacked(report, values.clone(), tail.clone(), flags), flags),
        Case::Pack {
            values,
            word,
            rptin,
            tail,
            output,
        } => {
            let mut output = output.clone();
            let result = pack(values, *word, *rptin, tail, &mut output, flags);
            let result = result.map(|bytes| vec![Number::bytes(bytes)]);
            let values = bytes_of_values(values);
            let buffers: [(_, &[u8]); 3] =
                [("values", &values), ("tail", tail), ("output", &output)];
            with_flags(outcome(result, &buffers), flags)
        }
        Case::Characters { table } => {
            let mut table = table.clone();
            characters(&mut table);
            Outcome {
                said: Said::Nothing,
                buffers: states(&[("table", &bytes_of_entries(&table))]),
            }
        }
        Case::Load { marks } => {
            let mut flags = *flags;
            let result = flags.load(marks).map(|()| Vec::new());
            with_flags(outcome(result, &[("marks", marks)]), &flags)
        }
        Case::ReadOut {
            report,
            text,
            origins,
        } => with_flags(
            read_out(report, text.clone(), origins.clone(), flags),
            flags,
        ),
        Case::Costliest {
            symbols,
            text,
            origins,
        } => {
            let (mut text, mut origins) = (text.clone(), origins.clone());
            let result = costliest(*symbols, &mut text, &mut origins).map(|()| Vec::new());
            outcome(result, &[("text", &text), ("origins", &origins)])
        }
        Case::FindIndicators { report, output } => {
            let mut output = output.clone();
            let result = find_indicators(report, &mut output, flags);
            let result = result.map(|count| vec![Number::count(count)]);
            let buffers: [(_, &[u8]); 2] = [("report", report), ("output", &output)];
            with_flags(outcome(result, &buffers), flags)
        }
        Case::Lister { .. }
        | Case::Same { .. }
        | Case::Restore { .. }
        | Case::Recover { .. }
        | Case::Calls { .. } => unreachable!("not a call of the library"),
    }
}

fn unpacked(report: &[u8], mut values: Vec<i64>, mut tail: Vec<u8>, flags: &FlagTable) -> Outcome {
    let result = unpack(report, &mut values, &mut tail, flags);
    let numbers = result.map_or(NUMBERS, |given| {
        [
            given.word,
            given.present as u64,
            given.rptin.into(),
            given.ac as u64,
            given.bytes as u64,
            given.tail as u64,
        ]
    });
    let (values, numbers) = (bytes_of_values(&values), bytes_of_numbers(&numbers));
    let buffers: [(_, &[u8]); 4] = [
        ("report", report),
        ("values", &values),
        ("tail", &tail),
        ("numbers", &numbers),
    ];
    outcome(result.map(|_| Vec::new()), &buffers)
}

/// Every flag permitted, whatever stood in the table.
pub fn all_flags() -> Outcome {
    let nothing = Outcome {
        said: Said::Nothing,
        buffers: Vec::new(),
    };
    with_flags(nothing, &FlagTable::all())
}

/// Whether bytes and origins are a right choice of a costliest text: put text takes
/// each of them for a symbol, and the writer gives three nibbles for each.
pub fn is_costliest(bytes: &[u8], origins: &[u8]) -> bool {
    let symbols = text::symbols(bytes, origins);
    symbols.is_some_and(|symbols| text::write(&symbols).len() == 3 * symbols.len())
}

/// A reader's numbers, its symbols and three times the end, which leaves it as it was;
/// and both outputs.
fn read_out(report: &[u8], mut text: Vec<u8>, mut origins: Vec<u8>, flags: &FlagTable) -> Outcome {
    let reader = Reader::open(report, flags);
    let opened = answer_of(reader.opened().map(|()| Vec::new()));
    let numbers = [
        reader.place as u64,
        reader.end as u64,
        reader.spaces as u64,
        opened.refusal.into(),
        opened.place,
    ];
    let mut steps: Vec<Symbol> = reader.map(step_of).collect();
    steps.extend([Symbol { kind: END, byte: 0 }; 3]);
    let read = reader::read_out(report, &mut text, &mut origins, flags);
    let read = answer_of(read.map(|given| vec![Number::count(given.symbols)]));
    let buffers: [(_, &[u8]); 6] = [
        ("report", report),
        ("reader", &bytes_of_numbers(&numbers)),
        ("steps", &bytes_of_steps(&steps)),
        ("kept at the end", &[1]),
        ("text", &text),
        ("origins", &origins),
    ];
    Outcome {
        said: Said::Read { opened, read },
        buffers: states(&buffers),
    }
}

fn step_of(symbol: text::Symbol) -> Symbol {
    let kind = match symbol.origin() {
        text::PLAIN => PLAIN,
        _ => ORIGINAL,
    };
    let byte = symbol.byte().into();
    Symbol { kind, byte }
}

/// A forged reader: nothing of the report changes, nor the marked bytes before the
/// reader. What the steps give is not compared.
pub fn forged(report: &[u8]) -> Outcome {
    Outcome {
        said: Said::Nothing,
        buffers: states(&[("report", report), ("reader", &[])]),
    }
}

/// One of the twelve calls; the buffer is changed as it should be.
pub fn call(call: &Call, buffer: &mut [u8], flags: &FlagTable) -> Outcome {
    let answer = call.run(buffer, flags);
    let mut buffers: Vec<(_, &[u8])> = vec![("report", buffer)];
    match call {
        Call::Put { content, .. } => buffers.push(("content", content)),
        Call::PutText { text, origins } => {
            buffers.extend([("text", &text[..]), ("origins", origins)]);
        }
        Call::Fetch { .. } => buffers.push(("output", &answer.outputs[0])),
        Call::FetchText { .. } => {
            let [text, origins] = [0, 1].map(|index| &answer.outputs[index][..]);
            buffers.extend([("text", text), ("origins", origins)]);
        }
        _ => {}
    }
    with_flags(outcome(answer.result, &buffers), flags)
}

pub fn replay(buffer: &[u8], script: &[u8], log: &[u8], flags: &FlagTable) -> Outcome {
    let (mut buffer, mut log) = (buffer.to_vec(), log.to_vec());
    let ran = script::run(&mut buffer, script, log.len(), flags);
    log[..ran.log.len()].copy_from_slice(&ran.log);
    let said = Said::Performed(Performed {
        calls: ran.calls.len() as u64,
        taken: ran.taken as u64,
        written: ran.log.len() as u64,
    });
    let buffers: [(_, &[u8]); 3] = [("report", &buffer), ("script", script), ("log", &log)];
    let outcome = Outcome {
        said,
        buffers: states(&buffers),
    };
    with_flags(outcome, flags)
}

pub fn bytes_of_values(values: &[i64]) -> Vec<u8> {
    values
        .iter()
        .flat_map(|value| value.to_ne_bytes())
        .collect()
}

pub fn bytes_of_numbers(numbers: &[u64]) -> Vec<u8> {
    let bytes = numbers.iter().flat_map(|number| number.to_ne_bytes());
    bytes.collect()
}

pub fn bytes_of_steps(steps: &[Symbol]) -> Vec<u8> {
    let numbers = steps.iter().flat_map(|step| [step.kind, step.byte]);
    numbers.flat_map(u32::to_ne_bytes).collect()
}

pub fn bytes_of_entries(table: &Table) -> Vec<u8> {
    table.iter().flat_map(|entry| entry.to_ne_bytes()).collect()
}

impl Outcome {
    /// The refusal, 0 where accepted.
    pub fn refusal(&self) -> usize {
        match self.said {
            Said::Answer(answer) | Said::Read { read: answer, .. } => answer.refusal as usize,
            Said::Performed(_) | Said::Nothing => 0,
        }
    }

    /// A buffer's state by its name.
    pub fn buffer(&self, name: &str) -> Option<&[u8]> {
        let mut buffers = self.buffers.iter();
        let found = buffers.find(|(other, _)| *other == name);
        found.map(|(_, state)| state.as_slice())
    }

    /// The answer and the buffers, as far as they differ from another outcome's.
    pub fn against(&self, other: &Outcome) -> String {
        let mut lines = vec![format!("  {:?}", self.said)];
        for (mine, theirs) in self.buffers.iter().zip(&other.buffers) {
            let (name, state) = mine;
            if mine == theirs {
                continue;
            }
            lines.push(format!("  {name} {}", hex(&state[MARKED..])));
            if state[..MARKED] != theirs.1[..MARKED] {
                lines.push(format!("  before {name} {}", hex(&state[..MARKED])));
            }
        }
        lines.join("\n")
    }
}
