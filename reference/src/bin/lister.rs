//! Lists the report on standard input.

use std::io::{self, Read, Write};

use reference::lister::{READ_AT_MOST, lines};

fn main() -> io::Result<()> {
    let mut input = Vec::new();
    io::stdin()
        .lock()
        .take(READ_AT_MOST as u64)
        .read_to_end(&mut input)?;
    let mut output = io::stdout().lock();
    for line in lines(&input) {
        writeln!(output, "{line}")?;
    }
    Ok(())
}
