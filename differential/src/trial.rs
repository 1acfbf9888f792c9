//! What is run on both sides, with every buffer as it is given.

use std::fmt;

use reference::call::Call;
use reference::cases::Case;
use reference::flag_table::FlagTable;
use reference::line::{hex, inputs};

use crate::library::Reader;

/// What is given, and the table of flags that it is run under.
#[derive(Clone, Debug, PartialEq, Eq)]
pub struct Trial {
    pub flags: FlagTable,
    pub given: Given,
}

#[derive(Clone, Debug, PartialEq, Eq)]
pub enum Given {
    /// Judge, fresh, unpack, pack, characters, load, read out, costliest or find
    /// indicators. Fresh, characters and costliest are lent no table of flags; a load may
    /// replace the one that it is lent.
    Whole(Case),
    /// Every flag permitted, over the trial's table.
    AllFlags,
    /// Steps of a reader that was never opened.
    Forged {
        report: Vec<u8>,
        reader: Reader,
    },
    Call {
        buffer: Vec<u8>,
        call: Call,
    },
    /// Calls on one buffer, compared after each.
    List {
        buffer: Vec<u8>,
        calls: Vec<Call>,
    },
    Script {
        buffer: Vec<u8>,
        script: Vec<u8>,
        log: Vec<u8>,
    },
}

impl Given {
    pub fn under(self, flags: FlagTable) -> Trial {
        Trial { flags, given: self }
    }
}

/// The table of flags comes first, unless it permits every flag.
impl fmt::Display for Trial {
    fn fmt(&self, f: &mut fmt::Formatter) -> fmt::Result {
        if self.flags != FlagTable::all() {
            write!(f, "flags {} ; ", hex(&self.flags.marks()))?;
        }
        self.given.fmt(f)
    }
}

impl fmt::Display for Given {
    fn fmt(&self, f: &mut fmt::Formatter) -> fmt::Result {
        let list = |buffer: &Vec<u8>, calls: &[Call]| Case::Calls {
            buffer: buffer.clone(),
            calls: calls.to_vec(),
        };
        match self {
            Given::Whole(case) => f.write_str(&inputs(case)),
            Given::AllFlags => f.write_str("all-flags"),
            Given::Forged { report, reader } => {
                let numbers = reader.map(|number| number.to_string());
                write!(f, "forged-reader {} {}", hex(report), numbers.join(","))
            }
            Given::Call { buffer, call } => {
                let case = list(buffer, std::slice::from_ref(call));
                f.write_str(&inputs(&case))
            }
            Given::List { buffer, calls } => f.write_str(&inputs(&list(buffer, calls))),
            Given::Script {
                buffer,
                script,
                log,
            } => {
                let (buffer, script, log) = (hex(buffer), hex(script), hex(log));
                write!(f, "replay {buffer} ; script {script} ; log {log}")
            }
        }
    }
}
