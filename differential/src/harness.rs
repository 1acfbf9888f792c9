//! The library's side: every buffer between fences, and what comes of a call.

use reference::call::Call;
use reference::cases::Case;
use reference::flag_table::FlagTable;
use reference::text;

use crate::expected::{
    NUMBERS, Outcome, Said, bytes_of_entries, bytes_of_numbers, bytes_of_steps, bytes_of_values,
    is_costliest,
};
use crate::fence::{Fenced, MARKED, state_of};
use crate::library::{Answer, END, Flags, Library, Reader, Symbol};

const SHORT: usize = 16_384;
const LONG: usize = 131_072;

/// What a reader holds before it is opened.
const UNOPENED: Reader = [0xC5C5_C5C5_C5C5_C5C5; 5];

/// Steps after which a reader has to have come to its end. A text has up to 2287 symbols.
const MOST_STEPS: usize = 2400;

/// Steps of a forged reader.
const FORGED_STEPS: usize = 24;

/// A library and one buffer for each role.
pub struct Harness {
    library: Library,
    /// Lends an empty buffer as a null pointer.
    pub null: bool,
    report: Fenced,
    edited: Fenced,
    content: Fenced,
    origins: Fenced,
    output: Fenced,
    origins_output: Fenced,
    reader: Fenced,
    packed: Fenced,
    values: Fenced,
    numbers: Fenced,
    table: Fenced,
    /// Only all flags and load may write a table of flags.
    flags: Fenced,
    loaded: Fenced,
    script: Fenced,
    log: Fenced,
}

impl Harness {
    pub fn new(library: Library) -> Harness {
        Harness {
            library,
            null: false,
            report: Fenced::read_only(SHORT),
            edited: Fenced::writable(SHORT),
            content: Fenced::read_only(SHORT),
            origins: Fenced::read_only(SHORT),
            output: Fenced::writable(SHORT),
            origins_output: Fenced::writable(SHORT),
            reader: Fenced::writable(SHORT),
            packed: Fenced::read_only(SHORT),
            values: Fenced::writable(SHORT),
            numbers: Fenced::writable(SHORT),
            table: Fenced::writable(SHORT),
            flags: Fenced::read_only(SHORT),
            loaded: Fenced::writable(SHORT),
            script: Fenced::read_only(LONG),
            log: Fenced::writable(LONG),
        }
    }

    fn lend_flags(&mut self, flags: &FlagTable) -> *const Flags {
        self.flags.hold(&flags.marks()).cast()
    }

    /// Judge, fresh, unpack, pack, characters, load, read out, costliest or find indicators.
    pub fn whole(&mut self, case: &Case, flags: &FlagTable) -> Outcome {
        match case {
            Case::Judge { report } => {
                let at = hold(&mut self.report, report, self.null);
                let flags_at = self.lend_flags(flags);
                // SAFETY: here and below, pointers and lengths are of these buffers.
                let answer = unsafe { (self.library.judge)(at, report.len(), flags_at) };
                outcome(answer, &[("report", &self.report), ("flags", &self.flags)])
            }
            Case::Fresh { required, output } => {
                let [box10, year, month, x, y] = *required;
                let n = output.len();
                let at = hold(&mut self.output, output, self.null);
                let answer = unsafe { (self.library.fresh)(box10, year, month, x, y, at, n) };
                outcome(answer, &[("output", &self.output)])
            }
            Case::Unpack {
                report,
                values,
                tail,
            } => self.unpack(report, values, tail, flags),
            Case::Pack {
                values,
                word,
                rptin,
                tail,
                output,
            } => self.pack(values, *word, *rptin, tail, output, flags),
            Case::Characters { table } => {
                let at = self.table.hold(&bytes_of_entries(table));
                unsafe { (self.library.character_table)(at.cast()) };
                Outcome {
                    said: Said::Nothing,
                    buffers: states(&[("table", &self.table)]),
                }
            }
            Case::Load { marks } => {
                let marks_at = hold(&mut self.content, marks, self.null);
                let at = self.loaded.hold(&flags.marks());
                let n = marks.len();
                let answer = unsafe { (self.library.load_flags)(marks_at, n, at.cast()) };
                outcome(answer, &[("marks", &self.content), ("flags", &self.loaded)])
            }
            Case::ReadOut {
                report,
                text,
                origins,
            } => self.read_out(report, text.clone(), origins.clone(), flags),
            Case::Costliest {
                symbols,
                text,
                origins,
            } => self.costliest(*symbols as usize, text, origins),
            Case::FindIndicators { report, output } => self.find_indicators(report, output, flags),
            Case::Lister { .. }
            | Case::Same { .. }
            | Case::Restore { .. }
            | Case::Recover { .. }
            | Case::Calls { .. } => unreachable!("not a call of the library"),
        }
    }

    /// Every flag permitted, over a table.
    pub fn all_flags(&mut self, flags: &FlagTable) -> Outcome {
        let at = self.loaded.hold(&flags.marks());
        unsafe { (self.library.all_flags)(at.cast()) };
        Outcome {
            said: Said::Nothing,
            buffers: states(&[("flags", &self.loaded)]),
        }
    }

    fn unpack(&mut self, report: &[u8], values: &[i64], tail: &[u8], flags: &FlagTable) -> Outcome {
        let report_at = hold(&mut self.report, report, self.null);
        let values_at = hold(&mut self.values, &bytes_of_values(values), self.null);
        let tail_at = hold(&mut self.output, tail, self.null);
        let numbers_at = self.numbers.hold(&bytes_of_numbers(&NUMBERS));
        let flags_at = self.lend_flags(flags);
        let answer = unsafe {
            (self.library.unpack)(
                report_at,
                report.len(),
                values_at.cast(),
                values.len(),
                tail_at,
                tail.len(),
                numbers_at.cast(),
                flags_at,
            )
        };
        let buffers = [
            ("report", &self.report),
            ("values", &self.values),
            ("tail", &self.output),
            ("numbers", &self.numbers),
            ("flags", &self.flags),
        ];
        outcome(answer, &buffers)
    }

    fn pack(
        &mut self,
        values: &[i64],
        word: u64,
        rptin: u16,
        tail: &[u8],
        output: &[u8],
        flags: &FlagTable,
    ) -> Outcome {
        let values_at = hold(&mut self.packed, &bytes_of_values(values), self.null);
        let tail_at = hold(&mut self.content, tail, self.null);
        let output_at = hold(&mut self.output, output, self.null);
        let flags_at = self.lend_flags(flags);
        let answer = unsafe {
            (self.library.pack)(
                values_at.cast(),
                values.len(),
                word,
                rptin,
                tail_at,
                tail.len(),
                output_at,
                output.len(),
                flags_at,
            )
        };
        let buffers = [
            ("values", &self.packed),
            ("tail", &self.content),
            ("output", &self.output),
            ("flags", &self.flags),
        ];
        outcome(answer, &buffers)
    }

    /// Opens a reader, reads it out and stores what it gives in two outputs. Of a refused
    /// reader only the refusal and its place are compared.
    fn read_out(
        &mut self,
        report: &[u8],
        mut text: Vec<u8>,
        mut origins: Vec<u8>,
        flags: &FlagTable,
    ) -> Outcome {
        let n = report.len();
        let at = hold(&mut self.report, report, self.null);
        let reader_at = self.reader.hold(&bytes_of_numbers(&UNOPENED)).cast();
        let flags_at = self.lend_flags(flags);
        let opened = unsafe { (self.library.open_text)(at, n, reader_at, flags_at) };
        let mut numbers = self.reader.state().split_off(MARKED);
        if opened.refusal != 0 {
            numbers[..24].fill(0);
        }
        let (steps, kept) = self.steps(at, n, reader_at);
        let read = store(opened, &steps, &mut text, &mut origins);
        let marks = &self.reader.state()[..MARKED];
        let buffers = vec![
            ("report", self.report.state()),
            ("reader", [marks, &numbers].concat()),
            ("steps", state_of(&bytes_of_steps(&steps))),
            ("kept at the end", state_of(&[kept.into()])),
            ("text", state_of(&text)),
            ("origins", state_of(&origins)),
            ("flags", self.flags.state()),
        ];
        Outcome {
            said: Said::Read { opened, read },
            buffers,
        }
    }

    /// The steps up to the first end and two further ones, and whether each end left the
    /// reader as it was.
    fn steps(&mut self, at: *const u8, n: usize, reader_at: *mut Reader) -> (Vec<Symbol>, bool) {
        let mut steps: Vec<Symbol> = Vec::new();
        let mut kept = true;
        let mut last = MOST_STEPS;
        while steps.len() < last {
            let before = self.reader.state();
            let step = unsafe { (self.library.next_symbol)(at, n, reader_at) };
            steps.push(step);
            if step.kind == END {
                last = last.min(steps.len() + 2);
                kept &= self.reader.state() == before;
            }
        }
        (steps, kept)
    }

    /// A right choice counts as that of the independent implementation. A wrong one is
    /// left as it is.
    fn costliest(&mut self, symbols: usize, text: &[u8], origins: &[u8]) -> Outcome {
        let (text_n, origins_n) = (text.len(), origins.len());
        let text_at = hold(&mut self.output, text, self.null);
        let origins_at = hold(&mut self.origins_output, origins, self.null);
        let answer = unsafe {
            (self.library.costliest_text)(symbols, text_at, text_n, origins_at, origins_n)
        };
        let (mut text, mut origins) = (self.output.state(), self.origins_output.state());
        if answer.refusal == 0 && symbols <= text_n.min(origins_n) {
            let bytes = &mut text[MARKED..][..symbols];
            let marks = &mut origins[MARKED..][..symbols];
            if is_costliest(bytes, marks) {
                let chosen = text::costliest(symbols);
                bytes.copy_from_slice(&text::bytes(&chosen));
                marks.copy_from_slice(&text::origins(&chosen));
            }
        }
        Outcome {
            said: Said::Answer(answer),
            buffers: vec![("text", text), ("origins", origins)],
        }
    }

    fn find_indicators(&mut self, report: &[u8], output: &[u8], flags: &FlagTable) -> Outcome {
        let (n, out_n) = (report.len(), output.len());
        let at = hold(&mut self.report, report, self.null);
        let out_at = hold(&mut self.output, output, self.null);
        let flags_at = self.lend_flags(flags);
        let answer = unsafe { (self.library.find_indicators)(at, n, out_at, out_n, flags_at) };
        let buffers = [
            ("report", &self.report),
            ("output", &self.output),
            ("flags", &self.flags),
        ];
        outcome(answer, &buffers)
    }

    /// Steps of a reader of any numbers.
    pub fn forged(&mut self, report: &[u8], reader: &Reader) -> Outcome {
        let n = report.len();
        let at = hold(&mut self.report, report, self.null);
        let reader_at = self.reader.hold(&bytes_of_numbers(reader)).cast();
        for _ in 0..FORGED_STEPS {
            unsafe { (self.library.next_symbol)(at, n, reader_at) };
        }
        let mut before_reader = self.reader.state();
        before_reader.truncate(MARKED);
        let buffers = vec![("report", self.report.state()), ("reader", before_reader)];
        Outcome {
            said: Said::Nothing,
            buffers,
        }
    }

    /// One call on a buffer of its own; a call that only reads gets it as an input.
    pub fn call(&mut self, call: &Call, buffer: &[u8], flags: &FlagTable) -> Outcome {
        if reads(call) {
            let at = hold(&mut self.report, buffer, self.null);
            let answer = self.perform(call, at, buffer.len(), flags);
            self.after(call, answer, &self.report)
        } else {
            let at = hold(&mut self.edited, buffer, self.null);
            let answer = self.perform(call, at, buffer.len(), flags);
            self.after(call, answer, &self.edited)
        }
    }

    /// Lends the buffer of a list.
    pub fn begin(&mut self, buffer: &[u8]) -> *mut u8 {
        hold(&mut self.edited, buffer, self.null)
    }

    /// The next call of a list, on the buffer as the call before left it.
    pub fn next(&mut self, call: &Call, at: *mut u8, length: usize, flags: &FlagTable) -> Outcome {
        let answer = self.perform(call, at, length, flags);
        self.after(call, answer, &self.edited)
    }

    fn after(&self, call: &Call, answer: Answer, report: &Fenced) -> Outcome {
        let mut buffers = vec![("report", report)];
        match call {
            Call::Put { .. } => buffers.push(("content", &self.content)),
            Call::PutText { .. } => {
                buffers.extend([("text", &self.content), ("origins", &self.origins)]);
            }
            Call::Fetch { .. } => buffers.push(("output", &self.output)),
            Call::FetchText { .. } => {
                buffers.extend([("text", &self.output), ("origins", &self.origins_output)]);
            }
            _ => {}
        }
        buffers.push(("flags", &self.flags));
        outcome(answer, &buffers)
    }

    fn perform(&mut self, call: &Call, at: *mut u8, n: usize, flags: &FlagTable) -> Answer {
        let library = self.library;
        let flags = self.lend_flags(flags);
        let lent = self.lend_arguments(call);
        unsafe {
            match call {
                Call::ReadField { field } => (library.read_field)(at, n, *field as usize, flags),
                Call::SetField { field, value } => {
                    (library.set_field)(at, n, *field as usize, *value, flags)
                }
                Call::ClearField { field } => (library.clear_field)(at, n, *field as usize, flags),
                Call::ReadFlag { flag } => (library.read_flag)(at, n, *flag as usize, flags),
                Call::SetFlag { flag, value } => {
                    (library.set_flag)(at, n, *flag as usize, *value as usize, flags)
                }
                Call::ClearFlag { flag } => (library.clear_flag)(at, n, *flag as usize, flags),
                Call::Put { id, content: given } => {
                    (library.put)(at, n, *id as usize, lent.content, given.len(), flags)
                }
                Call::Fetch { id, output: given } => {
                    (library.fetch)(at, n, *id as usize, lent.output, given.len(), flags)
                }
                Call::Drop { id } => (library.drop)(at, n, *id as usize, flags),
                Call::PutText { text, origins } => (library.put_text)(
                    at,
                    n,
                    lent.content,
                    text.len(),
                    lent.origins,
                    origins.len(),
                    flags,
                ),
                Call::FetchText { text, origins } => (library.fetch_text)(
                    at,
                    n,
                    lent.output,
                    text.len(),
                    lent.origins_output,
                    origins.len(),
                    flags,
                ),
                Call::ClearWithIndicators { field } => {
                    (library.clear_with_indicators)(at, n, *field as usize, flags)
                }
            }
        }
    }

    fn lend_arguments(&mut self, call: &Call) -> Lent {
        let (content, origins): (&[u8], &[u8]) = match call {
            Call::Put { content, .. } => (content, &[]),
            Call::PutText { text, origins } => (text, origins),
            _ => (&[], &[]),
        };
        let (output, origins_output): (&[u8], &[u8]) = match call {
            Call::Fetch { output, .. } => (output, &[]),
            Call::FetchText { text, origins } => (text, origins),
            _ => (&[], &[]),
        };
        Lent {
            content: hold(&mut self.content, content, self.null),
            origins: hold(&mut self.origins, origins, self.null),
            output: hold(&mut self.output, output, self.null),
            origins_output: hold(&mut self.origins_output, origins_output, self.null),
        }
    }

    pub fn replay(
        &mut self,
        buffer: &[u8],
        script: &[u8],
        log: &[u8],
        flags: &FlagTable,
    ) -> Outcome {
        let buffer_at = hold(&mut self.edited, buffer, self.null);
        let script_at = hold(&mut self.script, script, self.null);
        let log_at = hold(&mut self.log, log, self.null);
        let flags_at = self.lend_flags(flags);
        let performed = unsafe {
            (self.library.replay)(
                buffer_at,
                buffer.len(),
                script_at,
                script.len(),
                log_at,
                log.len(),
                flags_at,
            )
        };
        let buffers = [
            ("report", &self.edited),
            ("script", &self.script),
            ("log", &self.log),
            ("flags", &self.flags),
        ];
        Outcome {
            said: Said::Performed(performed),
            buffers: states(&buffers),
        }
    }
}

/// The pointers to a call's contents and outputs.
struct Lent {
    content: *const u8,
    origins: *const u8,
    output: *mut u8,
    origins_output: *mut u8,
}

/// Stores the symbols before the first end in two outputs, and gives their number. Where
/// the reader is refused or an output too short, nothing is stored.
fn store(opened: Answer, steps: &[Symbol], text: &mut [u8], origins: &mut [u8]) -> Answer {
    if opened.refusal != 0 {
        return opened;
    }
    let symbols = steps.split(|step| step.kind == END).next();
    let symbols = symbols.unwrap_or_default();
    if text.len().min(origins.len()) < symbols.len() {
        return Answer {
            refusal: 13,
            ..Answer::default()
        };
    }
    for ((symbol, byte), origin) in symbols.iter().zip(text).zip(origins) {
        (*byte, *origin) = (symbol.byte as u8, (symbol.kind - 1) as u8);
    }
    Answer {
        given: 3,
        first: symbols.len() as i64,
        ..Answer::default()
    }
}

fn reads(call: &Call) -> bool {
    matches!(
        call,
        Call::ReadField { .. }
            | Call::ReadFlag { .. }
            | Call::Fetch { .. }
            | Call::FetchText { .. }
    )
}

fn hold(given: &mut Fenced, bytes: &[u8], null: bool) -> *mut u8 {
    if null {
        given.hold_or_null(bytes)
    } else {
        given.hold(bytes)
    }
}

fn outcome(answer: Answer, buffers: &[(&'static str, &Fenced)]) -> Outcome {
    Outcome {
        said: Said::Answer(answer),
        buffers: states(buffers),
    }
}

fn states(buffers: &[(&'static str, &Fenced)]) -> Vec<(&'static str, Vec<u8>)> {
    let state = |(name, given): &(&'static str, &Fenced)| (*name, given.state());
    buffers.iter().map(state).collect()
}
