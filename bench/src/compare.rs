//! Both sides' answers and bytes against each other and against the unrelated
//! implementation.

use reference::call::Call;
use reference::cases::material::fresh_observation;
use reference::cases::{Case, Outcome};
use reference::edit::put_text;
use reference::gate::log::record_size;
use reference::gate::script;
use reference::number::Number;
use reference::outside::Unpacked;
use reference::refusal::Refusal;

use crate::FlagTable;
use crate::fast::reader::{Reader, Symbol};
use crate::fast::{self, calls, flags, whole};
use crate::library::{self, Answer, Performed};
use crate::trials::{ALL, Trial, permitted_of};

/// One of the two sides, with its answers in the archive's form.
#[derive(Clone, Copy, Debug, PartialEq, Eq)]
pub enum Side {
    Library,
    Rust,
}

pub const SIDES: [Side; 2] = [Side::Library, Side::Rust];

fn refusal(number: u8, place: u64) -> Answer {
    Answer {
        refusal: number.into(),
        place,
        ..Answer::default()
    }
}

fn of_fast(answer: fast::Answer) -> Answer {
    match answer {
        Err(r) => refusal(r.number, r.place.into()),
        Ok(given) => Answer {
            given: given.label as u32,
            first: given.number,
            ..Answer::default()
        },
    }
}

fn of_fetched(answer: Result<fast::Fetched, fast::Refusal>) -> Answer {
    match answer {
        Err(r) => refusal(r.number, r.place.into()),
        Ok(fetched) => Answer {
            given: fast::Label::Count as u32
                | (fast::Label::Deck as u32) << 8
                | (fast::Label::Nibbles as u32) << 16,
            first: fetched.symbols as i64,
            second: fetched.set as i64,
            third: fetched.nibbles.into(),
            ..Answer::default()
        },
    }
}

/// A symbol's byte and its origin.
pub type Marked = (u8, u8);

/// The symbols up to the end.
fn symbols(mut next: impl FnMut() -> Option<Marked>) -> Vec<Marked> {
    const MOST: usize = 2295;
    let symbols = std::iter::from_fn(&mut next).take(MOST).collect();
    assert_eq!([next(), next()], [None; 2], "behind the end");
    symbols
}

/// None at the end.
fn of_library(symbol: library::Symbol) -> Option<Marked> {
    match (symbol.kind, u8::try_from(symbol.byte)) {
        (0, Ok(0)) => None,
        (1, Ok(byte)) => Some((byte, 0)),
        (2, Ok(byte)) => Some((byte, 1)),
        _ => panic!("{symbol:?}"),
    }
}

fn of_reference(answer: Result<Vec<Number>, Refusal>) -> Answer {
    let numbers = match answer {
        Err(r) => return refusal(r.number, r.place as u64),
        Ok(numbers) => numbers,
    };
    let mut answer = Answer::default();
    let places = [&mut answer.first, &mut answer.second, &mut answer.third];
    for (index, (number, place)) in numbers.iter().zip(places).enumerate() {
        answer.given |= u32::from(number.label()) << (8 * index);
        *place = number.value.unwrap_or(0);
    }
    answer
}

impl Side {
    fn all_flags(self, table: &mut FlagTable) {
        match self {
            Side::Library => library::all_flags(table),
            Side::Rust => flags::all_flags(table),
        }
    }

    fn load_flags(self, marks: &[u8], table: &mut FlagTable) -> Answer {
        match self {
            Side::Library => library::load_flags(marks, table),
            Side::Rust => of_fast(flags::load_flags(marks, table)),
        }
    }

    fn judge(self, s: &[u8], table: &FlagTable) -> Answer {
        match self {
            Side::Library => library::judge(s, table),
            Side::Rust => of_fast(calls::judge(s, table)),
        }
    }

    fn fresh(self, v: [i64; 5], out: &mut [u8]) -> Answer {
        match self {
            Side::Library => library::fresh(v, out),
            Side::Rust => of_fast(whole::fresh(v, out)),
        }
    }

    fn unpack(
        self,
        s: &[u8],
        values: &mut [i64],
        tail: &mut [u8],
        table: &FlagTable,
    ) -> (Answer, [u64; 6]) {
        match self {
            Side::Library => {
                let mut contents = [0; 6];
                let answer = library::unpack(s, values, tail, &mut contents, table);
                (answer, contents)
            }
            Side::Rust => {
                let mut c = whole::Contents::default();
                let answer = whole::unpack(s, values, tail, &mut c, table);
                let contents = [
                    c.word,
                    c.present.into(),
                    c.rptin.into(),
                    c.count.into(),
                    c.size.into(),
                    c.tail.into(),
                ];
                (of_fast(answer.map(|()| fast::Given::NOTHING)), contents)
            }
        }
    }

    fn pack(
        self,
        values: &[i64],
        word: u64,
        rptin: u16,
        tail: &[u8],
        out: &mut [u8],
        table: &FlagTable,
    ) -> Answer {
        match self {
            Side::Library => library::pack(values, word, rptin, tail, out, table),
            Side::Rust => of_fast(whole::pack(values, word, rptin, tail, out, table)),
        }
    }

    fn characters(self, table: &mut [u16; 256]) {
        match self {
            Side::Library => library::characters(table),
            Side::Rust => calls::characters(table),
        }
    }

    pub fn costliest_text(self, symbols: usize, text: &mut [u8], origins: &mut [u8]) -> Answer {
        match self {
            Side::Library => library::costliest_text(symbols, text, origins),
            Side::Rust => of_fast(calls::costliest_text(symbols, text, origins)),
        }
    }

    pub fn find_indicators(self, s: &[u8], out: &mut [u8], table: &FlagTable) -> Answer {
        match self {
            Side::Library => library::find_indicators(s, out, table),
            Side::Rust => of_fast(calls::find_indicators(s, out, table)),
        }
    }

    /// The answer of a reader's opening, and the symbols that it gives. The end is seen thrice.
    pub fn read_out(self, s: &[u8], table: &FlagTable) -> (Answer, Vec<Marked>) {
        match self {
            Side::Library => {
                let mut reader = [0xA5; 5];
                let answer = library::open_text(s, &mut reader, table);
                let refusal = [u64::from(answer.refusal), answer.place];
                assert_eq!(reader[3..], refusal, "the refusal in the reader");
                let symbols = symbols(|| of_library(library::next_symbol(s, &mut reader)));
                (answer, symbols)
            }
            Side::Rust => {
                let mut reader = Reader::open(s, table);
                let opened = reader.refusal.map_or(Ok(fast::Given::NOTHING), Err);
                let symbols = symbols(|| {
                    reader.next().map(|symbol| match symbol {
                        Symbol::Plain(byte) => (byte, 0),
                        Symbol::Original(byte) => (byte, 1),
                    })
                });
                (of_fast(opened), symbols)
            }
        }
    }

    /// A text read out to two outputs as fetch text writes it, with how many symbols there are.
    fn read_out_to(
        self,
        s: &[u8],
        text: &mut [u8],
        origins: &mut [u8],
        table: &FlagTable,
    ) -> Answer {
        let (mut answer, symbols) = self.read_out(s, table);
        if answer.refusal != 0 {
            assert!(symbols.is_empty(), "symbols of a refused reader");
            return answer;
        }
        if text.len().min(origins.len()) < symbols.len() {
            return refusal(13, 0);
        }
        for ((symbol, byte), origin) in symbols.iter().zip(text).zip(origins) {
            (*byte, *origin) = *symbol;
        }
        answer.given = fast::Label::Count as u32;
        answer.first = symbols.len() as i64;
        answer
    }

    fn call(self, s: &mut [u8], call: &Call, outputs: &mut [Vec<u8>], table: &FlagTable) -> Answer {
        let size = |n: u64| n as usize;
        match self {
            Side::Library => match call {
                Call::ReadField { field } => library::read_field(s, size(*field), table),
                Call::SetField { field, value } => {
                    library::set_field(s, size(*field), *value, table)
                }
                Call::ClearField { field } => library::clear_field(s, size(*field), table),
                Call::ReadFlag { flag } => library::read_flag(s, size(*flag), table),
                Call::SetFlag { flag, value } => {
                    library::set_flag(s, size(*flag), *value as usize, table)
                }
                Call::ClearFlag { flag } => library::clear_flag(s, size(*flag), table),
                Call::Put { id, content } => library::put(s, size(*id), content, table),
                Call::Fetch { id, .. } => library::fetch(s, size(*id), &mut outputs[0], table),
                Call::Drop { id } => library::remove(s, size(*id), table),
                Call::PutText { text, origins } => library::put_text(s, text, origins, table),
                Call::FetchText { .. } => {
                    let [text, origins] = two(outputs);
                    library::fetch_text(s, text, origins, table)
                }
                Call::ClearWithIndicators { field } => {
                    library::clear_with_indicators(s, size(*field), table)
                }
            },
            Side::Rust => of_fast(match call {
                Call::ReadField { field } => calls::read_field(s, size(*field), table),
                Call::SetField { field, value } => calls::set_field(s, size(*field), *value, table),
                Call::ClearField { field } => calls::clear_field(s, size(*field), table),
                Call::ReadFlag { flag } => calls::read_flag(s, size(*flag), table),
                Call::SetFlag { flag, value } => {
                    calls::set_flag(s, size(*flag), *value as usize, table)
                }
                Call::ClearFlag { flag } => calls::clear_flag(s, size(*flag), table),
                Call::Put { id, content } => calls::put(s, size(*id), content, table),
                Call::Fetch { id, .. } => calls::fetch(s, size(*id), &mut outputs[0], table),
                Call::Drop { id } => calls::remove(s, size(*id), table),
                Call::PutText { text, origins } => calls::put_text(s, text, origins, table),
                Call::FetchText { .. } => {
                    let [text, origins] = two(outputs);
                    return of_fetched(calls::fetch_text(s, text, origins, table));
                }
                Call::ClearWithIndicators { field } => {
                    calls::clear_with_indicators(s, size(*field), table)
                }
            }),
        }
    }

    fn replay(self, s: &mut [u8], script: &[u8], log: &mut [u8], table: &FlagTable) -> Performed {
        match self {
            Side::Library => library::replay(s, script, log, table),
            Side::Rust => {
                let p = fast::script::replay(s, script, log, table);
                Performed {
                    calls: p.calls as u64,
                    taken: p.taken as u64,
                    written: p.written as u64,
                }
            }
        }
    }
}

fn two(outputs: &mut [Vec<u8>]) -> &mut [Vec<u8>; 2] {
    outputs.try_into().expect("fetch text has two outputs")
}

fn contents_of(result: Result<Unpacked, Refusal>) -> (Answer, [u64; 6]) {
    match result {
        Err(r) => (refusal(r.number, r.place as u64), [0; 6]),
        Ok(u) => (
            Answer::default(),
            [
                u.word,
                u.present as u64,
                u.rptin.into(),
                u.ac as u64,
                u.bytes as u64,
                u.tail as u64,
            ],
        ),
    }
}

/// What the independent implementation answers to a put of a text.
fn put_to_fresh(text: &[u8], origins: &[u8]) -> Result<usize, Refusal> {
    let mut buffer = fresh_observation().packing();
    buffer.resize(200, 0);
    put_text(&mut buffer, text, origins, &permitted_of(&ALL))
}

/// Runs a case on a side; whether answer and bytes are the independent implementation's.
/// Cases of the lister, of same and of the trips have no call here.
pub fn agrees(side: Side, trial: &Trial) -> bool {
    let table = &trial.table;
    let mut permitted = permitted_of(table);
    let outcome = trial.case.run(&mut permitted);
    match (&trial.case, outcome) {
        (Case::Load { marks }, Outcome::Load { result, table: due }) => {
            let mut loaded = *table;
            let answer = side.load_flags(marks, &mut loaded);
            let mut all = *table;
            side.all_flags(&mut all);
            answer == of_reference(result.map(|()| Vec::new()))
                && loaded.as_flattened() == due.marks()
                && all == ALL
        }
        (Case::Judge { report }, Outcome::Judge(judged)) => {
            let due = judged.map(|report| vec![Number::bytes(report.bytes)]);
            side.judge(report, table) == of_reference(due)
        }
        (
            Case::Fresh { required, output },
            Outcome::Fresh {
                result,
                output: due,
            },
        ) => {
            let mut output = output.clone();
            let answer = side.fresh(*required, &mut output);
            answer == of_reference(result.map(|()| Vec::new())) && output == due
        }
        (
            Case::Unpack {
                report,
                values,
                tail,
            },
            Outcome::Unpack {
                result,
                values: due_values,
                tail: due_tail,
            },
        ) => {
            let (mut values, mut tail) = (values.clone(), tail.clone());
            let answer = side.unpack(report, &mut values, &mut tail, table);
            answer == contents_of(result) && values == due_values && tail == due_tail
        }
        (
            Case::Pack {
                values,
                word,
                rptin,
                tail,
                output,
            },
            Outcome::Pack {
                result,
                output: due,
            },
        ) => {
            let mut output = output.clone();
            let answer = side.pack(values, *word, *rptin, tail, &mut output, table);
            let result = result.map(|bytes| vec![Number::bytes(bytes)]);
            answer == of_reference(result) && output == due
        }
        (Case::Characters { table }, Outcome::Characters(due)) => {
            let mut table = table.clone();
            side.characters(&mut table);
            table == due
        }
        (
            Case::ReadOut {
                report,
                text,
                origins,
            },
            Outcome::ReadOut {
                result,
                text: due_text,
                origins: due_origins,
            },
        ) => {
            let (mut text, mut origins) = (text.clone(), origins.clone());
            let answer = side.read_out_to(report, &mut text, &mut origins, table);
            let result = result.map(|fetched| vec![Number::count(fetched.symbols)]);
            answer == of_reference(result) && text == due_text && origins == due_origins
        }
        (
            Case::Costliest {
                symbols,
                text,
                origins,
            },
            Outcome::Costliest {
                result,
                text: due_text,
                origins: due_origins,
            },
        ) => {
            let (mut text, mut origins) = (text.clone(), origins.clone());
            let answer = side.costliest_text(*symbols as usize, &mut text, &mut origins);
            // The bytes are each side's choice: the same has to come of putting them.
            let n = result.map_or(0, |due| due.symbols);
            let put = result.map(|_| put_to_fresh(&text[..n], &origins[..n]));
            answer == of_reference(result.map(|_| Vec::new()))
                && text[n..] == due_text[n..]
                && origins == due_origins
                && put == result.map(|due| due.put)
        }
        (
            Case::FindIndicators { report, output },
            Outcome::FindIndicators {
                result,
                output: due,
            },
        ) => {
            let mut output = output.clone();
            let answer = side.find_indicators(report, &mut output, table);
            let result = result.map(|count| vec![Number::count(count)]);
            answer == of_reference(result) && output == due
        }
        (Case::Calls { buffer, calls }, _) => list_agrees(side, buffer, calls, table),
        _ => true,
    }
}

/// Each call of a list, and the list as a script.
fn list_agrees(side: Side, start: &[u8], calls: &[Call], table: &FlagTable) -> bool {
    let permitted = permitted_of(table);
    let mut ours = start.to_vec();
    let mut theirs = start.to_vec();
    for call in calls {
        let mut outputs = call.outputs();
        let answer = side.call(&mut ours, call, &mut outputs, table);
        let due = call.run(&mut theirs, &permitted);
        if answer != of_reference(due.result) || outputs != due.outputs || ours != theirs {
            return false;
        }
    }
    let entries = script::script(calls);
    let whole: usize = calls.iter().map(record_size).sum();
    let rooms = [whole + 60, 100, 73, 40, 36, 19];
    rooms
        .iter()
        .all(|&room| script_agrees(side, start, &entries, room, table))
}

fn script_agrees(side: Side, start: &[u8], entries: &[u8], room: usize, table: &FlagTable) -> bool {
    let mut ours = start.to_vec();
    let mut theirs = start.to_vec();
    let mut log = vec![0xA5; room];
    let done = side.replay(&mut ours, entries, &mut log, table);
    let due = script::run(&mut theirs, entries, room, &permitted_of(table));
    let written = due.log.len();
    done.calls == due.calls.len() as u64
        && done.taken == due.taken as u64
        && done.written == written as u64
        && log[..written] == due.log
        && log[written..].iter().all(|&b| b == 0xA5)
        && ours == theirs
}
