//! A case and its outcome as one line of text.

use crate::call::{Answer, Call};
use crate::cases::{Case, Chosen, Outcome};
use crate::flag_table::FlagTable;
use crate::judge::Report;
use crate::number::Number;
use crate::outside::Unpacked;
use crate::refusal::Refusal;

/// The line of a case: kind and what the call takes, then ` -> ` and what comes of it
/// under the table of flags in force, which a load may replace.
pub fn line(case: &Case, flags: &mut FlagTable) -> String {
    format!("{} -> {}", inputs(case), outcome(&case.run(flags)))
}

/// What the call takes.
pub fn inputs(case: &Case) -> String {
    match case {
        Case::Judge { report } => format!("judge {}", hex(report)),
        Case::Lister { input } => format!("lister {}", hex(input)),
        Case::Fresh { required, output } => {
            let required: Vec<String> = required.iter().map(i64::to_string).collect();
            format!("fresh {} {}", required.join(" "), hex(output))
        }
        Case::Unpack {
            report,
            values,
            tail,
        } => format!("unpack {} {} {}", hex(report), numbers(values), hex(tail)),
        Case::Pack {
            values,
            word,
            rptin,
            tail,
            output,
        } => {
            let values = numbers(values);
            let (tail, output) = (hex(tail), hex(output));
            format!("pack {values} {word} {rptin} {tail} {output}")
        }
        Case::Same { first, second } => format!("same {} {}", hex(first), hex(second)),
        Case::Restore {
            report,
            values,
            tail,
            output,
        } => {
            let (report, values) = (hex(report), numbers(values));
            let (tail, output) = (hex(tail), hex(output));
            format!("restore {report} {values} {tail} {output}")
        }
        Case::Recover {
            values,
            word,
            rptin,
            tail,
            output,
            values_out,
            tail_out,
        } => {
            let values = numbers(values);
            let (tail, output) = (hex(tail), hex(output));
            let (values_out, tail_out) = (numbers(values_out), hex(tail_out));
            format!("recover {values} {word} {rptin} {tail} {output} {values_out} {tail_out}")
        }
        Case::Characters { table } => format!("characters {}", numbers(&**table)),
        Case::Load { marks } => format!("load {}", hex(marks)),
        Case::ReadOut {
            report,
            text,
            origins,
        } => format!("read-out {} {} {}", hex(report), hex(text), hex(origins)),
        Case::Costliest {
            symbols,
            text,
            origins,
        } => format!("costliest {symbols} {} {}", hex(text), hex(origins)),
        Case::FindIndicators { report, output } => {
            format!("find-indicators {} {}", hex(report), hex(output))
        }
        Case::Calls { buffer, calls } => {
            let mut parts = vec![format!("calls {}", hex(buffer))];
            parts.extend(calls.iter().map(call));
            parts.join(" ; ")
        }
    }
}

fn call(call: &Call) -> String {
    match call {
        Call::ReadField { field } => format!("read-field {field}"),
        Call::SetField { field, value } => format!("set-field {field} {value}"),
        Call::ClearField { field } => format!("clear-field {field}"),
        Call::ReadFlag { flag } => format!("read-flag {flag}"),
        Call::SetFlag { flag, value } => format!("set-flag {flag} {value}"),
        Call::ClearFlag { flag } => format!("clear-flag {flag}"),
        Call::Put { id, content } => format!("put {id} {}", hex(content)),
        Call::Fetch { id, output } => format!("fetch {id} {}", hex(output)),
        Call::Drop { id } => format!("drop {id}"),
        Call::PutText { text, origins } => format!("put-text {} {}", hex(text), hex(origins)),
        Call::FetchText { text, origins } => format!("fetch-text {} {}", hex(text), hex(origins)),
        Call::ClearWithIndicators { field } => format!("clear-with-indicators {field}"),
    }
}

fn outcome(outcome: &Outcome) -> String {
    match outcome {
        Outcome::Judge(result) => accepted(result, report),
        Outcome::Lister(lines) => lines.join(","),
        Outcome::Fresh { result, output } => {
            format!("{} {}", accepted(result, |()| "ok".into()), hex(output))
        }
        Outcome::Unpack {
            result,
            values,
            tail,
        } => {
            let answer = accepted(result, unpacked);
            format!("{answer} {} {}", numbers(values), hex(tail))
        }
        Outcome::Pack { result, output } | Outcome::FindIndicators { result, output } => {
            let answer = accepted(result, |count| format!("ok {count}"));
            format!("{answer} {}", hex(output))
        }
        Outcome::Same(result) => accepted(result, |same| format!("ok {}", u8::from(*same))),
        Outcome::Restore {
            result,
            values,
            tail,
            output,
        } => {
            let answer = accepted(result, |bytes| format!("ok {bytes}"));
            format!("{answer} {} {} {}", numbers(values), hex(tail), hex(output))
        }
        Outcome::Recover {
            result,
            output,
            values_out,
            tail_out,
        } => {
            let answer = accepted(result, unpacked);
            let (values_out, tail_out) = (numbers(values_out), hex(tail_out));
            format!("{answer} {values_out} {tail_out} {}", hex(output))
        }
        Outcome::Characters(table) => format!("ok {}", numbers(&**table)),
        Outcome::Load { result, table } => {
            let answer = accepted(result, |()| "ok".into());
            format!("{answer} {}", hex(&table.marks()))
        }
        Outcome::ReadOut {
            result,
            text,
            origins,
        } => {
            let answer = accepted(result, |given| numbered(&given.numbers()));
            format!("{answer} {} {}", hex(text), hex(origins))
        }
        Outcome::Costliest {
            result,
            text,
            origins,
        } => costliest(result, text, origins),
        Outcome::Calls(answers) => {
            let answers: Vec<String> = answers
                .iter()
                .map(|(answer, buffer)| call_answer(answer, buffer))
                .collect();
            answers.join(" ; ")
        }
    }
}

fn accepted<T>(result: &Result<T, Refusal>, show: impl Fn(&T) -> String) -> String {
    match result {
        Ok(given) => show(given),
        Err(refusal) => format!("refused {} {}", refusal.number, refusal.place),
    }
}

fn report(report: &Report) -> String {
    let values: Vec<String> = report
        .observation
        .values
        .iter()
        .map(|value| value.map_or("missing".into(), |value| value.0.to_string()))
        .collect();
    let attachments: Vec<String> = report
        .observation
        .attachments
        .iter()
        .map(|attachment| format!("{}:{}", attachment.id, hex(&attachment.nibbles)))
        .collect();
    format!(
        "ok {} {} {} {} {} {}",
        report.observation.rptin,
        report.ck,
        report.ac,
        report.bytes,
        values.join(","),
        or_dash(attachments.join(","))
    )
}

fn unpacked(given: &Unpacked) -> String {
    format!(
        "ok {} {} {} {} {} {}",
        given.word, given.present, given.rptin, given.ac, given.bytes, given.tail
    )
}

/// Without the bytes that were chosen.
fn costliest(result: &Result<Chosen, Refusal>, text: &[u8], origins: &[u8]) -> String {
    let answer = accepted(result, |_| "ok".into());
    let symbols = result.map_or(0, |chosen| chosen.symbols);
    let answer = format!("{answer} {} {}", hex(origins), hex(&text[symbols..]));
    match result {
        Ok(chosen) => {
            let put = accepted(&chosen.put, |nibbles| format!("ok {nibbles}"));
            format!("{answer} ; {put}")
        }
        Err(_) => answer,
    }
}

fn call_answer(answer: &Answer, buffer: &[u8]) -> String {
    let mut words = vec![accepted(&answer.result, |given| numbered(given))];
    words.push(hex(buffer));
    words.extend(answer.outputs.iter().map(|output| hex(output)));
    words.join(" ")
}

/// The numbers that are given.
fn numbered(given: &[Number]) -> String {
    let mut words = vec!["ok".to_string()];
    for number in given {
        words.push(number.value.map_or("missing".into(), |n| n.to_string()));
    }
    words.join(" ")
}

pub fn hex(bytes: &[u8]) -> String {
    or_dash(bytes.iter().map(|byte| format!("{byte:02X}")).collect())
}

fn numbers<T: ToString>(values: &[T]) -> String {
    let values: Vec<String> = values.iter().map(T::to_string).collect();
    or_dash(values.join(","))
}

/// Nothing is written as a dash.
fn or_dash(shown: String) -> String {
    if shown.is_empty() { "-".into() } else { shown }
}
