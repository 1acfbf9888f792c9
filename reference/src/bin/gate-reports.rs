//! Writes DIR/stdin and DIR/stdout: records of calls outside the list.

use std::process::ExitCode;

use reference::gate::{arguments, reports};

fn main() -> ExitCode {
    let given: Vec<String> = std::env::args().skip(1).collect();
    let Some((directory, seed)) = arguments(&given) else {
        eprintln!("usage: gate-reports DIR [SEED]");
        return ExitCode::from(2);
    };
    let files = reports(seed);
    if let Err(error) = files.write(directory) {
        eprintln!("gate-reports: {error}");
        return ExitCode::FAILURE;
    }
    println!("stdin {} bytes", files.stdin.len());
    println!("stdout {} bytes", files.stdout.len());
    print!("{}", files.tally);
    ExitCode::SUCCESS
}
