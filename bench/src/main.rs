//! Measures each call of the library beside plain Rust written for speed.
//!
//! `bench [NAME]`: every call, or the one of this name.

mod calls;
mod measure;

use bench::compare::{SIDES, agrees};
use bench::reports::{SIZES, observation};
use bench::trials::trials;
use measure::{ALL_ROUNDS, Line, PASSES};

/// Calls whose ratio at 38 bytes has a bar of 1.2.
const BARRED: [&str; 5] = ["judge", "read_field", "set_field", "clear_field", "unpack"];

fn machine() -> String {
    std::fs::read_to_string("/proc/cpuinfo")
        .unwrap_or_default()
        .lines()
        .find_map(|line| line.strip_prefix("model name"))
        .map_or("unknown".into(), |rest| {
            rest.trim_start_matches([' ', '\t', ':']).into()
        })
}

fn check() {
    let trials = trials(11, 4000, &SIZES.map(observation));
    for (index, trial) in trials.iter().enumerate() {
        for side in SIDES {
            if !agrees(side, trial) {
                eprintln!("bench: {side:?} differs in case {index}: {trial:?}");
                std::process::exit(1);
            }
        }
    }
    println!(
        "same answers and bytes on both sides: {} cases",
        trials.len()
    );
}

/// The highest ratio that is asked for.
fn bar(line: &Line) -> f64 {
    match (line.name, line.bytes) {
        (name, 38) if BARRED.contains(&name) => 1.2,
        ("judge", _) => 1.25,
        _ => 2.0,
    }
}

/// Every call at every size, or the calls of a name.
fn measured(only: Option<&str>) -> Vec<Line> {
    let pass = || -> Vec<Line> {
        let sizes = SIZES.into_iter();
        sizes.flat_map(|size| calls::measured(size, only)).collect()
    };
    let mut lines = pass();
    for _ in 1..PASSES {
        for (line, again) in lines.iter_mut().zip(pass()) {
            line.least(&again);
        }
    }
    lines
}

/// The call that grows most from 900 to 1853 bytes.
fn growth(lines: &[Line]) -> Option<(&'static str, f64)> {
    let at = |bytes: usize| lines.iter().filter(move |line| line.bytes == bytes);
    at(1853)
        .filter_map(|long| {
            let short = at(900).find(|short| short.name == long.name)?;
            Some((long.name, long.here / short.here))
        })
        .max_by(|a, b| a.1.total_cmp(&b.1))
}

fn main() {
    let only = std::env::args().nth(1).filter(|name| !name.is_empty());
    check();
    println!("machine: {}; both sides for baseline x86-64", machine());
    println!("table of flags: every flag is permitted; lent to both sides");
    println!(
        "buffers: not cleared first, warm in the cache; least of {ALL_ROUNDS} interleaved rounds"
    );
    println!(
        "at 38 bytes no attachment stands: flag calls, fetch, fetch_text, read_text and drop answer 11 there"
    );
    println!(
        "put_append, put_shorten, drop, put_text and put_small at 38: a copy of the report in each turn, on both sides"
    );
    println!(
        "put_small, fetch_small, read_small: the text in small letters, which are original; read: opened and read out, each step a call"
    );
    println!("clear_field, clear_with_indicators: the same fields, missing after the first turns");
    println!(
        "find_indicators: reports in turn in which up to six indicators have lost their data; attachment 5 has another id, at 1853 it is taken off"
    );
    println!("costliest: the costliest text of 85 symbols");
    let lines = measured(only.as_deref());
    if lines.is_empty() {
        eprintln!("bench: no call of that name");
        std::process::exit(1);
    }
    println!(
        "{:21} {:>6} {:>10} {:>10} {:>7}",
        "name", "bytes", "ns here", "ns Rust", "ratio"
    );
    for line in &lines {
        println!(
            "{:21} {:>6} {:>10.1} {:>10.1} {:>7.2}",
            line.name,
            line.bytes,
            line.here,
            line.rust,
            line.ratio()
        );
    }
    if let Some((name, factor)) = growth(&lines) {
        println!("most growth here from 900 to 1853 bytes: {name}, {factor:.2} times");
    }
    for line in lines.iter().filter(|line| line.ratio() > bar(line)) {
        println!(
            "over the bar of {}: {} at {} bytes: {:.2}",
            bar(line),
            line.name,
            line.bytes,
            line.ratio()
        );
    }
}
