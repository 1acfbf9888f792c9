//! The first three steps of a reader for display among the gate's records.

mod common;

use std::collections::BTreeSet;

use common::all_flags::judge;
use common::{fresh_buffer, hex};
use reference::edit::fetch_text;
use reference::flag_table::FlagTable;
use reference::gate::{self, SEED, whole_cases};
use reference::refusal::Refusal;
use reference::text::{self, Symbol};

const LOAD: u8 = 10;
const FIRST_STEPS: u8 = 14;

/// A record as its kind, what is lent to it, and its answer.
struct Record {
    kind: u8,
    lent: Vec<u8>,
    answer: Vec<u8>,
}

/// The records behind the other cases, from the bytes of both files.
fn records() -> Vec<Record> {
    let (before, files) = (gate::whole(&whole_cases::cases(SEED)), gate::reports(SEED));
    let mut stdin = files.stdin.strip_prefix(&before.stdin[..]).unwrap();
    let mut stdout = files.stdout.strip_prefix(&before.stdout[..]).unwrap();
    let mut records = Vec::new();
    while let [kind, high, low, rest @ ..] = stdin {
        let (lent, behind) = rest.split_at(256 * usize::from(*high) + usize::from(*low));
        let (answer, answers) = stdout.split_at(match *kind {
            LOAD => 10 + 140,
            FIRST_STEPS => 10 + 9,
            other => panic!("kind {other}"),
        });
        records.push(Record {
            kind: *kind,
            lent: lent.to_vec(),
            answer: answer.to_vec(),
        });
        (stdin, stdout) = (behind, answers);
    }
    assert_eq!((stdin, stdout), (&[][..], &[][..]));
    records
}

/// The reports, each with the table of flags in force.
fn under_tables() -> Vec<(Record, FlagTable)> {
    let mut table = FlagTable::all();
    let mut reports = Vec::new();
    for record in records() {
        if record.kind == LOAD {
            let _ = table.load(&record.lent);
        } else {
            reports.push((record, table));
        }
    }
    assert_eq!(table, FlagTable::all());
    reports
}

/// The symbols of a report's text.
fn symbols(report: &[u8], table: &FlagTable) -> Result<Vec<Symbol>, Refusal> {
    let (mut bytes, mut origins) = ([0xEE; 2400], [0xEE; 2400]);
    let given = fetch_text(report, &mut bytes, &mut origins, table)?;
    let n = given.symbols;
    Ok(text::symbols(&bytes[..n], &origins[..n]).unwrap())
}

/// A report whose first 36 bytes are those of the fresh one.
fn report(rest: &str) -> Vec<u8> {
    [fresh_buffer(38)[..36].to_vec(), hex(rest)].concat()
}

const OPENED: &str = "01 00 0000000000000000";

/// The bytes from CK's low byte on, and the answer. Behind CK come AC and the attachments.
#[test]
fn records_by_hand() {
    let opened = [
        // "1" alone, before bytes of the buffer, and before attachment 2.
        ("F0 10 14 10", "013100 000000 000000"),
        ("F0 10 14 10 1234", "013100 000000 000000"),
        ("F0 20 14 10 22 88", "013100 000000 000000"),
        // "AB", "1a/" and "1a/b".
        ("F0 10 44 C1 C2", "014100 014200 000000"),
        ("F0 10 64 1F 61 E1", "013100 016101 012F00"),
        ("F0 10 94 1F 61 E1 F6 20", "013100 016101 012F00"),
        // 2, 3, 18, 19 and 20 spaces before "7B".
        ("F0 10 54 AA 7C 20", "012000 012000 013700"),
        ("F0 10 54 B0 7C 20", "012000 012000 012000"),
        ("F0 10 54 BF 7C 20", "012000 012000 012000"),
        ("F0 10 64 BF A7 C2", "012000 012000 012000"),
        ("F0 10 74 BF AA 7C 20", "012000 012000 012000"),
        // One space and 19 behind "1", and two behind "/1".
        ("F0 10 54 1A 7C 20", "013100 012000 013700"),
        ("F0 10 74 1B FA 7C 20", "013100 012000 012000"),
        ("F0 10 84 E1 1A A7 C2", "012F00 013100 012000"),
        // Original 255, 32 and 0 in turn in the three places of "1B2".
        ("F0 10 64 FF FC 22", "01FF01 014200 013200"),
        ("F0 10 54 1F 20 20", "013100 012001 013200"),
        ("F0 10 64 1C 2F 00", "013100 014200 010001"),
        // An A between two original 65, and an original 32 behind two spaces.
        ("F0 10 84 F4 1C 1F 41", "014101 014100 014101"),
        ("F0 10 54 AA F2 00", "012000 012000 012001"),
        // "7" behind two nibbles of attachment 9: it stands at an odd nibble.
        ("F0 30 29 33 01 47 02 24 40", "013700 000000 000000"),
    ];
    let refused = [
        // No text, though bytes behind the report look like one.
        ("F0 00", "00 0B 0000000000000000"),
        ("F0 00 14 70", "00 0B 0000000000000000"),
        // The text "A1" cut off, with another CK, before another id 4, and with a last
        // nibble.
        ("F0", "00 01 0000000000000000"),
        ("F0 10 34 C1", "00 01 0000000000000001"),
        ("F1 10 34 C1 10", "00 04 0000000000000000"),
        ("F0 20 34 C1 10 14 70", "00 05 0000000000000002"),
        ("F0 10 34 C1 11", "00 07 0000000000000000"),
        // "123" and a space at the end.
        ("F0 10 44 12 3A", "00 06 0000000000000001"),
    ];
    let records = records();
    let opened = opened.map(|(rest, steps)| (rest, [hex(OPENED), hex(steps)].concat()));
    let refused = refused.map(|(rest, head)| (rest, [hex(head), vec![0; 9]].concat()));
    for (rest, answer) in opened.iter().chain(&refused) {
        let record = records.iter().find(|other| other.lent == report(rest));
        let record = record.unwrap_or_else(|| panic!("{rest}"));
        assert_eq!(
            (record.kind, &record.answer),
            (FIRST_STEPS, answer),
            "{rest}"
        );
    }
}

/// Three reports, each under the tables in turn: without A for flag 1, the same behind a
/// refused load, without R for flag 1, without A for flag 2, and all.
#[test]
fn records_under_tables_by_hand() {
    let six = |place| [hex("00 06 00000000000000"), vec![place], vec![0; 9]].concat();
    let seven = hex(&format!("{OPENED} 013700 000000 000000"));
    let letter = hex(&format!("{OPENED} 014100 000000 000000"));
    // Flag 1 is A and the quality code 2, or R and 1. The text is "7" or "A".
    let a_before_7 = "F0 30 19 31 01 20 000000000000 02 01 47";
    let r_before_7 = "F0 30 19 31 01 10 000000000000 01 01 47";
    let a_before_letter = "F0 21 01 20 000000000000 02 02 4C 10";
    let records = records();
    let answers = |rest: &str| -> Vec<&Vec<u8>> {
        let report = report(rest);
        let of_report = records.iter().filter(|record| record.lent == report);
        of_report.map(|record| &record.answer).collect()
    };
    for (rest, due) in [
        (a_before_7, [&six(2), &six(2), &seven, &seven, &seven]),
        (r_before_7, [&seven, &seven, &six(2), &seven, &seven]),
        (
            a_before_letter,
            [&six(1), &six(1), &letter, &letter, &letter],
        ),
    ] {
        assert_eq!(answers(rest), due, "{rest}");
    }
}

/// Opening is refused as fetch text is; else its first symbols come in order, then the end.
#[test]
fn every_record_is_as_fetch_text_has_it() {
    for (record, table) in under_tables() {
        let due = match symbols(&record.lent, &table) {
            Ok(symbols) => {
                let steps = symbols.iter().take(3);
                let mut due = hex(OPENED);
                due.extend(steps.flat_map(|symbol| [1, symbol.byte(), symbol.origin()]));
                due.resize(19, 0);
                due
            }
            Err(refusal) => {
                let place = refusal.place as u64;
                let head = [0, refusal.number];
                [&head[..], &place.to_be_bytes(), &[0; 9]].concat()
            }
        };
        assert_eq!(record.answer, due, "{:?}", record.lent);
    }
}

/// Texts of each length about three, runs at each step, original symbols in each place,
/// every plain symbol, and texts at even and odd nibbles, first and behind others.
#[test]
fn records_meet_every_case() {
    let mut lengths = BTreeSet::new();
    let mut runs = BTreeSet::new();
    let mut originals = BTreeSet::new();
    let mut plain = BTreeSet::new();
    let mut positions = BTreeSet::new();
    let mut by_table = 0;
    for (record, table) in under_tables() {
        let Ok(symbols) = symbols(&record.lent, &table) else {
            by_table += usize::from(judge(&record.lent).is_ok() && record.answer[1] == 6);
            continue;
        };
        lengths.insert(symbols.len());
        for (place, symbol) in symbols.iter().enumerate().take(3) {
            match symbol.origin() {
                0 => plain.insert(symbol.byte()),
                _ => originals.insert((place, symbol.byte())),
            };
            let is_run = |other: &&Symbol| **other == Symbol::SPACE;
            let run = symbols[place..].iter().take_while(is_run).count();
            if place == 0 || symbols[place - 1] != Symbol::SPACE {
                runs.insert((place, run));
            }
        }
        let attachments = judge(&record.lent).unwrap().observation.attachments;
        let before = attachments.iter().take_while(|other| other.id != text::ID);
        let before: Vec<usize> = before.map(|other| other.size()).collect();
        let nibble = 75 + before.iter().sum::<usize>() + 3;
        positions.insert((before.len().min(2), nibble % 2));
    }
    for length in [1, 2, 3, 4, 85, 2287] {
        assert!(lengths.contains(&length), "{length}");
    }
    for place in 0..3 {
        for spaces in [1, 2, 3, 18, 19, 20] {
            assert!(runs.contains(&(place, spaces)), "{place} {spaces}");
        }
        for byte in [0, 32, 65, 255] {
            assert!(originals.contains(&(place, byte)), "{place} {byte}");
        }
    }
    assert_eq!(plain.len(), 43);
    assert_eq!(positions, [(0, 0), (1, 0), (1, 1), (2, 0), (2, 1)].into());
    assert!(by_table >= 8, "{by_table}");
}

#[test]
fn the_tally_counts_first_steps() {
    let tally = gate::reports(SEED).tally;
    let before = gate::whole(&whole_cases::cases(SEED)).tally;
    assert_eq!(before.refusals("first steps"), []);
    let records = records();
    let (steps, loads): (Vec<&Record>, Vec<&Record>) = records
        .iter()
        .partition(|record| record.kind == FIRST_STEPS);
    assert_eq!(tally.refusals("first steps"), [0, 1, 2, 3, 4, 5, 6, 7, 11]);
    for number in tally.refusals("first steps") {
        let met = steps.iter().filter(|record| record.answer[1] == number);
        assert_eq!(tally.counts[&("first steps", number)], met.count());
    }
    let line = format!("\nfirst steps {}: ok ", steps.len());
    assert!(tally.to_string().contains(&line), "{line}");
    let loaded = |number| tally.counts[&("load", number)] - before.counts[&("load", number)];
    assert_eq!((loaded(0), loaded(16), loads.len()), (5, 1, 6));
}

#[test]
fn records_keep_their_limits() {
    let records = records();
    let marks = |record: &Record| record.kind == LOAD && record.lent == [1; 140];
    assert!(marks(&records[0]));
    let steps: Vec<&Record> = records
        .iter()
        .filter(|record| record.kind == FIRST_STEPS)
        .collect();
    assert!((150..=300).contains(&steps.len()), "{}", steps.len());
    assert!(steps.iter().all(|record| record.lent.len() <= 2000));
    let size = |record: &Record| 3 + record.lent.len() + record.answer.len();
    let bytes: usize = records.iter().map(size).sum();
    assert!(bytes < 60_000, "{bytes}");
}
