//! Writes DIR/stdin and DIR/stdout: lists of calls in script form, and loads.

use std::process::ExitCode;

use reference::gate::{arguments, list_cases, lists};

fn main() -> ExitCode {
    let given: Vec<String> = std::env::args().skip(1).collect();
    let Some((directory, seed)) = arguments(&given) else {
        eprintln!("usage: gate-scripts DIR [SEED]");
        return ExitCode::from(2);
    };
    let files = lists(&list_cases::items(seed));
    if let Err(error) = files.write(directory) {
        eprintln!("gate-scripts: {error}");
        return ExitCode::FAILURE;
    }
    println!("stdin {} bytes", files.stdin.len());
    println!("stdout {} bytes", files.stdout.len());
    print!("{}", files.tally);
    ExitCode::SUCCESS
}
