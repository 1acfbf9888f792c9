//! The independent implementation beside lib/liblmr5.a: SEED CALLS [ONLY].

#[cfg(no_library)]
compile_error!("lib/liblmr5.a is missing: run make lib");

use std::process::ExitCode;
use std::time::Instant;

use differential::compare::{Difference, compare};
use differential::draw::trials;
use differential::fault;
use differential::harness::Harness;
use differential::library::{Answer, Flags, Library, Performed, Reader, Symbol};
use differential::shrink::shrink;
use differential::tally::Tally;

unsafe extern "C" {
    fn lmr5_judge(report: *const u8, n: usize, flags: *const Flags) -> Answer;
    fn lmr5_fresh(
        box10: i64,
        year: i64,
        month: i64,
        x: i64,
        y: i64,
        out: *mut u8,
        out_n: usize,
    ) -> Answer;
    fn lmr5_unpack(
        report: *const u8,
        n: usize,
        values: *mut i64,
        values_n: usize,
        tail: *mut u8,
        tail_n: usize,
        contents: *mut u64,
        flags: *const Flags,
    ) -> Answer;
    fn lmr5_pack(
        values: *const i64,
        values_n: usize,
        word: u64,
        rptin: u16,
        tail: *const u8,
        tail_n: usize,
        out: *mut u8,
        out_n: usize,
        flags: *const Flags,
    ) -> Answer;
    fn lmr5_read_field(report: *const u8, n: usize, field: usize, flags: *const Flags) -> Answer;
    fn lmr5_set_field(
        report: *mut u8,
        n: usize,
        field: usize,
        value: i64,
        flags: *const Flags,
    ) -> Answer;
    fn lmr5_clear_field(report: *mut u8, n: usize, field: usize, flags: *const Flags) -> Answer;
    fn lmr5_read_flag(report: *const u8, n: usize, flag: usize, flags: *const Flags) -> Answer;
    fn lmr5_set_flag(
        report: *mut u8,
        n: usize,
        flag: usize,
        value: usize,
        flags: *const Flags,
    ) -> Answer;
    fn lmr5_clear_flag(report: *mut u8, n: usize, flag: usize, flags: *const Flags) -> Answer;
    fn lmr5_put(
        report: *mut u8,
        n: usize,
        id: usize,
        content: *const u8,
        content_n: usize,
        flags: *const Flags,
    ) -> Answer;
    fn lmr5_fetch(
        report: *const u8,
        n: usize,
        id: usize,
        out: *mut u8,
        out_n: usize,
        flags: *const Flags,
    ) -> Answer;
    fn lmr5_drop(report: *mut u8, n: usize, id: usize, flags: *const Flags) -> Answer;
    fn lmr5_put_text(
        report: *mut u8,
        n: usize,
        text: *const u8,
        text_n: usize,
        origins: *const u8,
        origins_n: usize,
        flags: *const Flags,
    ) -> Answer;
    fn lmr5_fetch_text(
        report: *const u8,
        n: usize,
        text: *mut u8,
        text_n: usize,
        origins: *mut u8,
        origins_n: usize,
        flags: *const Flags,
    ) -> Answer;
    fn lmr5_clear_with_indicators(
        report: *mut u8,
        n: usize,
        field: usize,
        flags: *const Flags,
    ) -> Answer;
    fn lmr5_find_indicators(
        report: *const u8,
        n: usize,
        out: *mut u8,
        out_n: usize,
        flags: *const Flags,
    ) -> Answer;
    fn lmr5_open_text(
        report: *const u8,
        n: usize,
        reader: *mut Reader,
        flags: *const Flags,
    ) -> Answer;
    fn lmr5_next_symbol(report: *const u8, n: usize, reader: *mut Reader) -> Symbol;
    fn lmr5_costliest_text(
        symbols: usize,
        text: *mut u8,
        text_n: usize,
        origins: *mut u8,
        origins_n: usize,
    ) -> Answer;
    fn lmr5_replay(
        report: *mut u8,
        n: usize,
        script: *const u8,
        script_n: usize,
        log: *mut u8,
        log_n: usize,
        flags: *const Flags,
    ) -> Performed;
    fn lmr5_character_table(table: *mut u16);
    fn lmr5_all_flags(flags: *mut Flags);
    fn lmr5_load_flags(marks: *const u8, marks_n: usize, flags: *mut Flags) -> Answer;
}

const LIBRARY: Library = Library {
    judge: lmr5_judge,
    fresh: lmr5_fresh,
    unpack: lmr5_unpack,
    pack: lmr5_pack,
    read_field: lmr5_read_field,
    set_field: lmr5_set_field,
    clear_field: lmr5_clear_field,
    read_flag: lmr5_read_flag,
    set_flag: lmr5_set_flag,
    clear_flag: lmr5_clear_flag,
    put: lmr5_put,
    fetch: lmr5_fetch,
    drop: lmr5_drop,
    put_text: lmr5_put_text,
    fetch_text: lmr5_fetch_text,
    clear_with_indicators: lmr5_clear_with_indicators,
    find_indicators: lmr5_find_indicators,
    open_text: lmr5_open_text,
    next_symbol: lmr5_next_symbol,
    costliest_text: lmr5_costliest_text,
    replay: lmr5_replay,
    character_table: lmr5_character_table,
    all_flags: lmr5_all_flags,
    load_flags: lmr5_load_flags,
};

fn main() -> ExitCode {
    let numbers: Option<Vec<u64>> = std::env::args()
        .skip(1)
        .map(|word| word.parse().ok())
        .collect();
    let (seed, calls, only) = match numbers.as_deref() {
        Some([seed, calls]) => (*seed, *calls, None),
        Some([seed, calls, only]) => (*seed, *calls, Some(*only)),
        _ => {
            eprintln!("usage: differential SEED CALLS [ONLY]");
            return ExitCode::from(2);
        }
    };
    fault::watch(seed);
    let mut harness = Harness::new(LIBRARY);
    let mut tally = Tally::default();
    let found = match only {
        Some(case) => run(&mut harness, &mut tally, seed, case, true),
        None => run_all(&mut harness, &mut tally, seed, calls),
    };
    if found || only.is_some() {
        return if found {
            ExitCode::FAILURE
        } else {
            ExitCode::SUCCESS
        };
    }
    finish(&tally, calls)
}

/// Runs cases in turn up to so many calls, or to the first difference.
fn run_all(harness: &mut Harness, tally: &mut Tally, seed: u64, calls: u64) -> bool {
    let start = Instant::now();
    let mut case = 0;
    while tally.calls() < calls {
        if run(harness, tally, seed, case, false) {
            return true;
        }
        case += 1;
    }
    print!("{tally}");
    println!(
        "seed {seed}: {} calls in {case} cases, {:.1} s, no difference",
        tally.calls(),
        start.elapsed().as_secs_f64()
    );
    false
}

/// Runs a case, shown first if wanted, and says whether the two sides differ.
fn run(harness: &mut Harness, tally: &mut Tally, seed: u64, case: u64, shown: bool) -> bool {
    fault::enter(case);
    harness.null = case.is_multiple_of(2);
    for trial in trials(seed, case) {
        if shown {
            println!("{trial}");
        }
        if let Some(found) = compare(harness, tally, &trial) {
            show(seed, case, &shrink(harness, found));
            return true;
        }
    }
    if shown {
        println!("case {case} of seed {seed}: no difference");
    }
    false
}

fn show(seed: u64, case: u64, found: &Difference) {
    println!("difference in case {case} of seed {seed}, made smaller:");
    println!("{}", found.trial);
    println!("expected:\n{}", found.expected.against(&found.got));
    println!("the library:\n{}", found.got.against(&found.expected));
    println!("repeat: make differential SEED={seed} ONLY={case}");
}

/// Names what was never seen; a whole run has to see everything.
fn finish(tally: &Tally, calls: u64) -> ExitCode {
    for unseen in tally.unseen() {
        println!("never seen: {unseen}");
    }
    if tally.passes(calls) {
        ExitCode::SUCCESS
    } else {
        ExitCode::FAILURE
    }
}
