//! The twelve calls of a list as data, with contents and outputs as given.

use crate::edit::{self, Fetched};
use crate::flag_table::FlagTable;
use crate::number::Number;
use crate::refusal::Refusal;
use crate::table::Scaled;

#[derive(Clone, Debug, PartialEq, Eq)]
pub enum Call {
    ReadField { field: u64 },
    SetField { field: u64, value: i64 },
    ClearField { field: u64 },
    ReadFlag { flag: u64 },
    SetFlag { flag: u64, value: i64 },
    ClearFlag { flag: u64 },
    Put { id: u64, content: Vec<u8> },
    Fetch { id: u64, output: Vec<u8> },
    Drop { id: u64 },
    PutText { text: Vec<u8>, origins: Vec<u8> },
    FetchText { text: Vec<u8>, origins: Vec<u8> },
    ClearWithIndicators { field: u64 },
}

#[derive(Clone, Debug, PartialEq, Eq)]
pub struct Answer {
    /// The numbers that are given, or the refusal.
    pub result: Result<Vec<Number>, Refusal>,
    /// The outputs after the call: none, a fetch's one, or fetch text's two.
    pub outputs: Vec<Vec<u8>>,
}

impl Call {
    /// The outputs as given.
    pub fn outputs(&self) -> Vec<Vec<u8>> {
        match self {
            Call::Fetch { output, .. } => vec![output.clone()],
            Call::FetchText { text, origins } => vec![text.clone(), origins.clone()],
            _ => Vec::new(),
        }
    }

    /// Runs the call on a buffer under a table of flags.
    pub fn run(&self, buffer: &mut [u8], table: &FlagTable) -> Answer {
        let nothing = |()| Vec::new();
        let field_value = |value: Option<Scaled>| vec![Number::value(value.map(|value| value.0))];
        let flag_value = |value: Option<u8>| vec![Number::flag(value.map(i64::from))];
        let mut outputs = self.outputs();
        let result = match self {
            Call::ReadField { field } => edit::read_field(buffer, *field, table).map(field_value),
            Call::SetField { field, value } => {
                edit::set_field(buffer, *field, Scaled(*value), table).map(field_value)
            }
            Call::ClearField { field } => edit::clear_field(buffer, *field, table).map(field_value),
            Call::ReadFlag { flag } => edit::read_flag(buffer, *flag, table).map(flag_value),
            Call::SetFlag { flag, value } => {
                edit::set_flag(buffer, *flag, *value, table).map(flag_value)
            }
            Call::ClearFlag { flag } => edit::clear_flag(buffer, *flag, table).map(flag_value),
            Call::Put { id, content } => edit::put(buffer, *id, content, table).map(nothing),
            Call::Fetch { id, .. } => edit::fetch(buffer, *id, &mut outputs[0], table)
                .map(|count| vec![Number::count(count)]),
            Call::Drop { id } => edit::drop_attachment(buffer, *id, table).map(nothing),
            Call::PutText { text, origins } => edit::put_text(buffer, text, origins, table)
                .map(|nibbles| vec![Number::nibbles(nibbles)]),
            Call::FetchText { .. } => {
                let [text, origins] = &mut outputs[..] else {
                    unreachable!("fetch text has two outputs");
                };
                edit::fetch_text(buffer, text, origins, table).map(Fetched::numbers)
            }
            Call::ClearWithIndicators { field } => {
                edit::clear_with_indicators(buffer, *field, table).map(field_value)
            }
        };
        Answer { result, outputs }
    }
}
