//! Prints the fixed cases and then COUNT cases drawn from SEED, a line each.

use std::io::{self, BufWriter, Write};
use std::process::ExitCode;

use reference::cases::{fixed, random};
use reference::flag_table::FlagTable;
use reference::line::line;

fn main() -> ExitCode {
    let arguments: Vec<String> = std::env::args().skip(1).collect();
    let parsed = match arguments.as_slice() {
        [seed, count] => seed.parse().ok().zip(count.parse().ok()),
        _ => None,
    };
    let Some((seed, count)) = parsed else {
        eprintln!("usage: vectors SEED COUNT");
        return ExitCode::from(2);
    };
    match print(seed, count) {
        Ok(()) => ExitCode::SUCCESS,
        Err(error) => {
            eprintln!("vectors: {error}");
            ExitCode::FAILURE
        }
    }
}

fn print(seed: u64, count: usize) -> io::Result<()> {
    let mut output = BufWriter::new(io::stdout().lock());
    let mut flags = FlagTable::all();
    for case in fixed().into_iter().chain(random::cases(seed, count)) {
        writeln!(output, "{}", line(&case, &mut flags))?;
    }
    output.flush()
}
