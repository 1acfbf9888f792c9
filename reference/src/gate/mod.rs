//! Files for a program under test: what it is to read, and what it is to write.
//! Every number in them is big-endian.

pub mod costliest_cases;
pub mod flag_cases;
pub mod former_cases;
pub mod head;
pub mod indicator_cases;
pub mod list;
pub mod list_cases;
pub mod log;
pub mod nibble_cases;
pub mod record;
pub mod same_cases;
pub mod script;
pub mod sizes;
pub mod step_cases;
pub mod sum_cases;
pub mod symbol_cases;
pub mod tally;
pub mod text_cases;
pub mod trip_cases;
pub mod whole_cases;

use std::fs;
use std::io;
use std::path::Path;

use crate::cases::Case;
use crate::flag_table::FlagTable;
use crate::reader::first_steps;
use list::{Item, load};
use tally::Tally;

/// The seed of both files if none is given.
pub const SEED: u64 = 1799;

/// What a program reads, what it is to write, and what that comes to.
pub struct Files {
    pub stdin: Vec<u8>,
    pub stdout: Vec<u8>,
    pub tally: Tally,
}

/// Records from a seed: calls outside the list, then the first steps of readers.
pub fn reports(seed: u64) -> Files {
    let mut files = whole(&whole_cases::cases(seed));
    let mut flags = FlagTable::all();
    for item in step_cases::items(seed) {
        match item {
            step_cases::Item::Report(report) => files.add_steps(&report, &flags),
            step_cases::Item::Load(marks) => files.add_case(&Case::Load { marks }, &mut flags),
        }
    }
    files
}

/// Records of calls outside the list.
pub fn whole(cases: &[Case]) -> Files {
    let mut files = Files::empty();
    let mut flags = FlagTable::all();
    for case in cases {
        files.add_case(case, &mut flags);
    }
    files
}

/// Lists of calls, and loads between them.
pub fn lists(items: &[Item]) -> Files {
    let mut files = Files::empty();
    let mut flags = FlagTable::all();
    for item in items {
        match item {
            Item::List(list) => {
                let (after, ran) = list.run(&flags);
                files.stdin.extend(list.input());
                files.stdout.extend(list.answer(&after, &ran));
                files.tally.add_list(list, &ran, &flags);
            }
            Item::Load(marks) => {
                let result = flags.load(marks);
                files.stdin.extend(load(marks));
                files.stdout.extend(head::loaded(result, &flags));
                files.tally.add_load(result);
            }
        }
    }
    files
}

impl Files {
    fn empty() -> Files {
        Files {
            stdin: Vec::new(),
            stdout: Vec::new(),
            tally: Tally::default(),
        }
    }

    fn add_case(&mut self, case: &Case, flags: &mut FlagTable) {
        let outcome = case.run(flags);
        self.stdin.extend(record::input(case));
        self.stdout.extend(record::answer(&outcome));
        self.tally.add_record(&outcome);
    }

    fn add_steps(&mut self, report: &[u8], flags: &FlagTable) {
        let given = first_steps(report, flags);
        self.stdin.extend(record::steps_input(report));
        self.stdout.extend(record::steps_answer(&given));
        self.tally.add_steps(&given);
    }

    /// Writes `stdin` and `stdout` to a directory, which is made if need be.
    pub fn write(&self, directory: &Path) -> io::Result<()> {
        fs::create_dir_all(directory)?;
        fs::write(directory.join("stdin"), &self.stdin)?;
        fs::write(directory.join("stdout"), &self.stdout)
    }
}

/// The directory and the seed of a command line.
pub fn arguments(given: &[String]) -> Option<(&Path, u64)> {
    match given {
        [directory] => Some((Path::new(directory), SEED)),
        [directory, seed] => Some((Path::new(directory), seed.parse().ok()?)),
        _ => None,
    }
}
