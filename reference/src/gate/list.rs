//! A list of calls in its script form, or a table of flags lent between lists.

use crate::call::Call;
use crate::flag_table::FlagTable;
use crate::gate::log::record_size;
use crate::gate::script::{Ran, run, script};

/// The longest buffer, script and log.
pub const MOST_BUFFER: usize = 2000;
pub const MOST_SCRIPT: usize = 60_000;
pub const MOST_LOG: usize = 60_000;

/// Every byte of the log before the list.
pub const UNWRITTEN: u8 = 165;

/// In place of the first byte of a buffer's length.
const LOAD: u8 = 255;

/// What a file of lists is made of.
#[derive(Clone, Debug, PartialEq, Eq)]
pub enum Item {
    List(List),
    /// A table of flags as it is lent, in force for the lists behind it.
    Load(Vec<u8>),
}

#[derive(Clone, Debug, PartialEq, Eq)]
pub struct List {
    pub buffer: Vec<u8>,
    pub script: Vec<u8>,
    /// The room of the log.
    pub room: usize,
}

impl List {
    /// A list whose log just takes its calls.
    pub fn of(buffer: Vec<u8>, calls: &[Call]) -> List {
        List {
            buffer,
            script: script(calls),
            room: calls.iter().map(record_size).sum(),
        }
    }

    pub fn fits(&self) -> bool {
        self.buffer.len() <= MOST_BUFFER
            && self.script.len() <= MOST_SCRIPT
            && self.room <= MOST_LOG
    }

    /// Buffer, script and room as given.
    pub fn input(&self) -> Vec<u8> {
        let length = u16::try_from(self.buffer.len()).expect("a list keeps its limits");
        let mut bytes = length.to_be_bytes().to_vec();
        bytes.extend(&self.buffer);
        bytes.extend(count(self.script.len()));
        bytes.extend(&self.script);
        bytes.extend(count(self.room));
        bytes
    }

    /// The buffer after the list under a table of flags, and what comes of it.
    pub fn run(&self, flags: &FlagTable) -> (Vec<u8>, Ran) {
        let mut buffer = self.buffer.clone();
        let ran = run(&mut buffer, &self.script, self.room, flags);
        (buffer, ran)
    }

    /// Calls performed, script bytes taken, log bytes written, the buffer and the
    /// whole log.
    pub fn answer(&self, after: &[u8], ran: &Ran) -> Vec<u8> {
        let mut bytes = Vec::new();
        for number in [ran.calls.len(), ran.taken, ran.log.len()] {
            bytes.extend(count(number));
        }
        bytes.extend(after);
        let mut log = ran.log.clone();
        log.resize(self.room, UNWRITTEN);
        bytes.extend(log);
        bytes
    }
}

/// A load's input.
pub fn load(marks: &[u8]) -> Vec<u8> {
    let length = u16::try_from(marks.len()).expect("a load keeps its limits");
    [&[LOAD][..], &length.to_be_bytes(), marks].concat()
}

fn count(count: usize) -> [u8; 4] {
    let count = u32::try_from(count).expect("a list keeps its limits");
    count.to_be_bytes()
}
