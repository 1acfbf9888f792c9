//! The Rust side against the independent implementation, and against the figures of docs/FORMAT.md.

use bench::FlagTable;
use bench::compare::{SIDES, Side, agrees};
use bench::fast::reader::{Reader, Symbol};
use bench::fast::script::{Performed, replay};
use bench::fast::{Answer, Fetched, Given, Label, Refusal, Set, calls, flags, whole};
use bench::library;
use bench::reports::{SIZES, lone_observations, observation, small_observation};
use bench::trials::{ALL, Trial, permitted_of, random_table, trials};
use reference::attachment::Attachment;
use reference::call::Call;
use reference::cases::flag_tables::refused_tables;
use reference::cases::material::{
    Draft, fetch_text, fresh_observation, observation_with, put_text, random_value, symbols_of,
};
use reference::cases::{Case, Outcome};
use reference::edit::clear_with_indicators;
use reference::observation::Observation;
use reference::prng::Prng;
use reference::table::Scaled;
use reference::text;

#[test]
fn rust_side_agrees_with_the_unrelated_implementation() {
    let trials = trials(7, 20_000, &SIZES.map(observation));
    assert!(trials.len() > 20_000);
    for (index, trial) in trials.iter().enumerate() {
        assert!(agrees(Side::Rust, trial), "case {index}: {trial:?}");
    }
}

#[test]
fn library_agrees_with_the_unrelated_implementation() {
    let trials = trials(8, 5_000, &SIZES.map(observation));
    for (index, trial) in trials.iter().enumerate() {
        assert!(agrees(Side::Library, trial), "case {index}: {trial:?}");
    }
}

#[test]
fn every_changed_bit_of_a_report_is_judged_alike() {
    let mut prng = Prng::new(9);
    for size in SIZES.into_iter().take(2) {
        let sound = observation(size).packing();
        for bit in 0..8 * sound.len() {
            let mut report = sound.clone();
            report[bit / 8] ^= 0x80 >> (bit % 8);
            for table in [ALL, random_table(&mut prng)] {
                let report = report.clone();
                let case = Case::Judge { report };
                assert!(agrees(Side::Rust, &Trial { table, case }), "bit {bit}");
            }
        }
    }
}

/// The measured report of 900 bytes, whose first attachment is id 1, under a table without one of
/// its flags: every call is refused by 6, place 1, and changes nothing.
#[test]
fn a_report_of_another_table_is_refused_by_every_call() {
    let observation = observation(900);
    let report = observation.packing();
    let body = &observation.attachments[0].nibbles;
    let present = (0..14).find(|&index| body[index] > 0).expect("a flag");
    let mut table = ALL;
    table[present][usize::from(body[present]) - 1] = 0;
    assert_eq!(
        calls::judge(&report, &ALL).map(|given| given.number),
        Ok(900)
    );
    let refused = Refusal {
        number: 6,
        place: 1,
    };
    assert_eq!(calls::judge(&report, &table), Err(refused));
    let (content, output) = (vec![1], vec![0; 300]);
    let every = [
        Call::ReadField { field: 1 },
        Call::SetField { field: 3, value: 1 },
        Call::ClearField { field: 4 },
        Call::ClearWithIndicators { field: 31 },
        Call::ReadFlag { flag: 1 },
        Call::SetFlag { flag: 1, value: 1 },
        Call::ClearFlag {
            flag: present as u64 + 1,
        },
        Call::Put { id: 2, content },
        Call::Fetch {
            id: 5,
            output: output.clone(),
        },
        Call::Drop { id: 1 },
        put_text(&symbols_of(b"A1")),
        fetch_text(300),
    ];
    for call in every {
        let mut buffer = report.clone();
        let answer = call.run(&mut buffer, &permitted_of(&table));
        let refusal = answer.result.expect_err("refused");
        assert_eq!((refusal.number, refusal.place), (6, 1), "{call:?}");
        let calls = vec![call];
        let case = Case::Calls { buffer, calls };
        for side in SIDES {
            let trial = Trial {
                table,
                case: case.clone(),
            };
            assert!(agrees(side, &trial), "{side:?}: {trial:?}");
        }
    }
    for side in SIDES {
        let mut output = [0xA5; 6];
        let answer = side.find_indicators(&report, &mut output, &table);
        assert_eq!((answer.refusal, answer.place), (6, 1), "{side:?}");
        assert_eq!(output, [0xA5; 6], "{side:?}");
    }
}

/// Each of the five calls over a value, over the value 0, which no flag has, over nothing, and
/// refused. A set to the value that stood there is not counted.
#[test]
fn trials_have_what_stood_before() {
    let trials = trials(11, 4000, &SIZES.map(observation));
    let mut counts = [[0; 4]; 5];
    for Trial { table, case } in trials {
        let Outcome::Calls(ran) = case.run(&mut permitted_of(&table)) else {
            continue;
        };
        let Case::Calls { calls, .. } = case else {
            panic!("another outcome");
        };
        for (call, (answer, _)) in calls.iter().zip(ran) {
            let (row, new) = match *call {
                Call::SetField { value, .. } => (0, Some(value)),
                Call::ClearField { .. } => (1, None),
                Call::ClearWithIndicators { .. } => (2, None),
                Call::SetFlag { value, .. } => (3, Some(value)),
                Call::ClearFlag { .. } => (4, None),
                _ => continue,
            };
            let column = match answer.result.map(|numbers| numbers[0].value) {
                Ok(Some(former)) if new == Some(former) => continue,
                Ok(Some(0)) => 1,
                Ok(Some(_)) => 0,
                Ok(None) => 2,
                Err(_) => 3,
            };
            counts[row][column] += 1;
        }
    }
    for (row, counts) in counts.into_iter().enumerate() {
        for (column, count) in counts.into_iter().enumerate() {
            let due = row < 3 || column != 1;
            assert_eq!(count >= 100, due, "{row}, {column}: {count}");
        }
    }
}

const MISSING_VALUE: Answer = Ok(Given {
    label: Label::MissingValue,
    number: 0,
});
const MISSING_FLAG: Answer = Ok(Given {
    label: Label::MissingFlag,
    number: 0,
});

fn value(number: i64) -> Answer {
    let label = Label::Value;
    Ok(Given { label, number })
}

/// A refused call changes nothing of what the next one gives.
#[test]
fn sets_and_clears_of_a_field_give_what_stood_before() {
    let refused = |number, place| Err(Refusal { number, place });
    let steps = [
        (31, None, MISSING_VALUE),
        (31, Some(0), MISSING_VALUE),
        (31, Some(0), value(0)),
        (31, Some(286), value(0)),
        (31, Some(1000), refused(9, 31)),
        (31, Some(-999), value(286)),
        (31, Some(-1000), refused(9, 31)),
        (31, Some(999), value(-999)),
        (31, None, value(999)),
        (31, None, MISSING_VALUE),
        (5, Some(0), MISSING_VALUE),
        (5, None, value(0)),
        (26, Some(8700), MISSING_VALUE),
        (26, Some(10746), value(8700)),
        (26, None, value(10746)),
        (6, Some(3599), value(0)),
        (6, None, refused(10, 6)),
        (6, Some(1), value(3599)),
        (0, Some(1), refused(8, 0)),
        (47, None, refused(8, 0)),
    ];
    let mut buffer = fresh_observation().packing();
    for (index, (field, new, due)) in steps.into_iter().enumerate() {
        let read = calls::read_field(&buffer, field, &ALL);
        let answer = match new {
            Some(value) => calls::set_field(&mut buffer, field, value, &ALL),
            None => calls::clear_field(&mut buffer, field, &ALL),
        };
        assert_eq!(answer, due, "step {index}");
        assert!(due.is_err() || read == due, "step {index}");
    }
}

/// The flags begin in the high half of a byte and in the low one.
#[test]
fn sets_and_clears_of_a_flag_give_what_stood_before() {
    let flag = |number| {
        let label = Label::Flag;
        Ok(Given { label, number })
    };
    let refused = |number, place| Err(Refusal { number, place });
    let steps = [
        (6, None, MISSING_FLAG),
        (6, Some(1), MISSING_FLAG),
        (6, Some(10), flag(1)),
        (6, Some(11), refused(9, 6)),
        (6, Some(0), refused(9, 6)),
        (6, Some(10), flag(10)),
        (1, Some(4), MISSING_FLAG),
        (14, Some(7), MISSING_FLAG),
        (14, None, flag(7)),
        (6, None, flag(10)),
        (6, None, MISSING_FLAG),
        (1, None, flag(4)),
        (0, Some(1), refused(8, 0)),
        (15, None, refused(8, 0)),
    ];
    for before in [&[1][..], &[1, 1]] {
        let mut buffer = observation_with(&[(9, before), (1, &[0; 16])]).packing();
        for (index, (j, new, due)) in steps.into_iter().enumerate() {
            let read = calls::read_flag(&buffer, j, &ALL);
            let answer = match new {
                Some(value) => calls::set_flag(&mut buffer, j, value, &ALL),
                None => calls::clear_flag(&mut buffer, j, &ALL),
            };
            assert_eq!(answer, due, "step {index}");
            assert!(due.is_err() || read == due, "step {index}");
        }
        assert_eq!(calls::remove(&mut buffer, 1, &ALL), Ok(Given::NOTHING));
        assert_eq!(calls::set_flag(&mut buffer, 6, 1, &ALL), refused(11, 0));
        assert_eq!(calls::clear_flag(&mut buffer, 6, &ALL), refused(11, 0));
    }
}

/// Each number of them, also on the measured reports, and each refusal.
#[test]
fn trials_find_indicators() {
    let trials = trials(11, 4000, &SIZES.map(observation));
    let (mut found, mut refused) = ([0; 7], [0; 14]);
    for Trial { table, case } in trials {
        match case.run(&mut permitted_of(&table)) {
            Outcome::FindIndicators { result: Ok(n), .. } => found[n] += 1,
            Outcome::FindIndicators { result: Err(r), .. } => refused[usize::from(r.number)] += 1,
            _ => {}
        }
    }
    assert!(found.iter().all(|&count| count >= 20), "{found:?}");
    for number in [1, 2, 3, 4, 5, 6, 7, 13] {
        assert!(refused[number] >= 10, "{number}: {refused:?}");
    }
    for size in SIZES {
        let counts = lone_observations(size).map(|lone| lone.lone_indicators().len());
        assert_eq!(counts, [0, 1, 1, 1, 2, 2, 2, 6], "{size}");
    }
}

/// The indicators and their data.
const OF_INDICATORS: [usize; 14] = [17, 18, 19, 20, 21, 22, 27, 28, 29, 30, 31, 32, 36, 37];

/// A fresh observation with random values of these fields.
fn observation_of(fields: &[usize], prng: &mut Prng) -> Observation {
    let mut observation = fresh_observation();
    for &field in fields {
        observation.values[field - 1] = Some(random_value(prng, field));
    }
    observation
}

/// Those of the fourteen fields whose bit is set.
fn chosen(set: usize) -> Vec<usize> {
    let fields = OF_INDICATORS.into_iter().enumerate();
    let fields = fields.filter(|(index, _)| set >> index & 1 == 1);
    fields.map(|(_, field)| field).collect()
}

#[test]
fn indicators_are_found_for_every_choice_of_fields() {
    let mut prng = Prng::new(12);
    let mut counts = [0; 7];
    for set in 0..1 << 14 {
        let mut observation = observation_of(&chosen(set), &mut prng);
        let count = observation.lone_indicators().len();
        counts[count] += 1;
        let mut reports = vec![observation.packing()];
        observation.attachments.push(Attachment::new(5, vec![9]));
        reports.push(observation.packing());
        for report in reports {
            for room in [6, count, count.saturating_sub(1)] {
                let (report, output) = (report.clone(), vec![0xA5; room]);
                let case = Case::FindIndicators { report, output };
                let trial = Trial { table: ALL, case };
                assert!(agrees(Side::Rust, &trial), "{:?}", chosen(set));
            }
        }
    }
    assert!(counts.iter().all(|&count| count > 0), "{counts:?}");
}

/// Answer and bytes, for every choice of fields and each of the fourteen.
#[test]
fn indicators_go_for_every_choice_of_fields() {
    let mut prng = Prng::new(13);
    let permitted = permitted_of(&ALL);
    for set in 0..1 << 14 {
        let report = observation_of(&chosen(set), &mut prng).packing();
        for field in OF_INDICATORS {
            let (mut ours, mut theirs) = (report.clone(), report.clone());
            let answer = calls::clear_with_indicators(&mut ours, field, &ALL);
            let due = clear_with_indicators(&mut theirs, field as u64, &permitted);
            let due = due.expect("accepted").map_or(MISSING_VALUE, |v| value(v.0));
            assert_eq!(answer, due, "{field} of {:?}", chosen(set));
            assert_eq!(ours, theirs, "{field} of {:?}", chosen(set));
        }
    }
}

fn answer_of_count(count: usize) -> library::Answer {
    library::Answer {
        given: 3,
        first: count as i64,
        ..library::Answer::default()
    }
}

/// By the fields that are present. Attachment 5 hides them all, and then no output is needed.
#[test]
fn indicators_without_data_are_found() {
    let cases: [(&[usize], &[u8]); 19] = [
        (&[], &[]),
        (&[17], &[17]),
        (&[17, 18], &[]),
        (&[17, 20], &[17]),
        (&[19, 18], &[19]),
        (&[19, 20], &[]),
        (&[21], &[21]),
        (&[21, 22], &[]),
        (&[27], &[27]),
        (&[27, 28], &[]),
        (&[27, 29], &[]),
        (&[27, 30], &[]),
        (&[27, 31], &[]),
        (&[27, 32], &[27, 32]),
        (&[27, 28, 29, 30, 32], &[32]),
        (&[27, 31, 32], &[]),
        (&[36], &[36]),
        (&[36, 37], &[]),
        (&[17, 19, 21, 27, 32, 36], &[17, 19, 21, 27, 32, 36]),
    ];
    let mut prng = Prng::new(14);
    for (present, due) in cases {
        let mut observation = observation_of(present, &mut prng);
        let report = observation.packing();
        observation.attachments.push(Attachment::new(5, vec![0]));
        let hidden = observation.packing();
        for (side, room) in (0..9).flat_map(|room| SIDES.map(|side| (side, room))) {
            let mut output = vec![0xA5; room];
            let answer = side.find_indicators(&hidden, &mut output, &ALL);
            assert_eq!(answer, answer_of_count(0), "{side:?}: {present:?}");
            assert_eq!(output, vec![0xA5; room], "{side:?}: {present:?}");
            let answer = side.find_indicators(&report, &mut output, &ALL);
            if room < due.len() {
                let refused = (answer.refusal, answer.place, answer.given);
                assert_eq!(refused, (13, 0, 0), "{side:?}: {present:?}");
                assert_eq!(output, vec![0xA5; room], "{side:?}: {present:?}");
            } else {
                assert_eq!(answer, answer_of_count(due.len()), "{side:?}: {present:?}");
                assert_eq!(output[..due.len()], *due, "{side:?}");
                assert_eq!(output[due.len()..], vec![0xA5; room - due.len()]);
            }
        }
    }
}

/// The fields that are present, the one that is cleared, and those that are then left; the same
/// where attachment 5 stands. The former value is that of the field, not of an indicator.
#[test]
fn indicators_go_with_their_last_data() {
    let cases: [(&[usize], usize, &[usize]); 20] = [
        (&[17, 18], 18, &[]),
        (&[17, 18], 17, &[18]),
        (&[17], 18, &[]),
        (&[17, 19, 20], 20, &[17]),
        (&[19, 20], 19, &[20]),
        (&[21, 22], 22, &[]),
        (&[27, 28], 28, &[]),
        (&[27, 29], 29, &[]),
        (&[27, 30], 30, &[]),
        (&[27, 31], 31, &[]),
        (&[27, 28, 31], 28, &[27, 31]),
        (&[27, 29, 30], 30, &[27, 29]),
        (&[27, 30], 29, &[27, 30]),
        (&[27, 32], 28, &[32]),
        (&[27, 32], 31, &[]),
        (&[27, 28, 29, 30, 31, 32], 31, &[27, 28, 29, 30]),
        (&[27, 31, 32], 27, &[31, 32]),
        (&[36, 37], 37, &[]),
        (&[17, 19, 21, 26, 27, 32, 36], 26, &[17, 19, 21, 27, 32, 36]),
        (&[4, 17, 18], 5, &[4, 17, 18]),
    ];
    let mut prng = Prng::new(15);
    for (present, field, left) in cases {
        for attachments in [vec![], vec![Attachment::new(5, vec![7])]] {
            let mut observation = observation_of(present, &mut prng);
            observation.attachments = attachments;
            let mut buffer = observation.packing();
            buffer.extend([0xA5; 3]);
            let former = observation.values[field - 1];
            for &field in present.iter().filter(|field| !left.contains(field)) {
                observation.values[field - 1] = None;
            }
            let answer = calls::clear_with_indicators(&mut buffer, field, &ALL);
            let due = former.map_or(MISSING_VALUE, |former| value(former.0));
            assert_eq!(answer, due, "{field} of {present:?}");
            let mut due = observation.packing();
            due.extend([0xA5; 3]);
            assert_eq!(buffer, due, "{field} of {present:?}");
        }
    }
}

/// The report's refusals come first, and nothing is changed.
#[test]
fn calls_on_indicators_are_refused_in_the_order_of_their_checks() {
    let mut prng = Prng::new(16);
    let sound = observation_of(&[17, 27, 28], &mut prng).packing();
    let mut summed = sound.clone();
    summed[36] ^= 1;
    let mut odd = sound.clone();
    odd[37] = 1;
    let clears: [(&[u8], usize, u8, u8); 12] = [
        (&sound[..37], 0, 1, 0),
        (&summed, 47, 4, 0),
        (&odd, 7, 7, 0),
        (&sound, 0, 8, 0),
        (&sound, 47, 8, 0),
        (&sound, 256 + 28, 8, 0),
        (&sound, usize::MAX, 8, 0),
        (&sound, 1, 10, 1),
        (&sound, 2, 10, 2),
        (&sound, 3, 10, 3),
        (&sound, 6, 10, 6),
        (&sound, 7, 10, 7),
    ];
    for (report, field, number, place) in clears {
        let mut buffer = report.to_vec();
        let answer = calls::clear_with_indicators(&mut buffer, field, &ALL);
        assert_eq!(answer, Err(Refusal { number, place }), "{field}");
        assert_eq!(buffer, report, "{field}");
    }
    let finds: [(&[u8], usize, u8); 6] = [
        (&[], 0, 1),
        (&sound[..37], 0, 1),
        (&summed, 0, 4),
        (&odd, 0, 7),
        (&odd, 6, 7),
        (&sound, 0, 13),
    ];
    for (report, room, number) in finds {
        let mut output = vec![0xA5; room];
        let answer = calls::find_indicators(report, &mut output, &ALL);
        let place = 0;
        assert_eq!(answer, Err(Refusal { number, place }));
        assert_eq!(output, vec![0xA5; room]);
    }
}

/// An entry of kind 12 has 9 bytes; kind 13 is no call.
#[test]
fn a_script_clears_with_indicators() {
    let mut observation = fresh_observation();
    for (field, value) in [(27, 3), (31, 286), (32, 1)] {
        observation.values[field - 1] = Some(Scaled(value));
    }
    let mut buffer = observation.packing();
    let mut script = vec![12, 0, 0, 0, 0, 0, 0, 0, 31];
    script.extend(script.clone());
    script.extend([13, 0, 0, 0, 0, 0, 0, 0, 31]);
    let mut log = [0xA5; 100];
    let done = Performed {
        calls: 2,
        taken: 18,
        written: 74,
    };
    assert_eq!(replay(&mut buffer, &script, &mut log, &ALL), done);
    let mut due = [0; 74];
    (due[0], due[10], due[17], due[18]) = (1, 1, 1, 30);
    (due[37], due[47]) = (1, 129);
    assert_eq!(log[..74], due);
    assert_eq!(log[74..], [0xA5; 26]);
    assert_eq!(buffer, fresh_observation().packing());
}

/// Whether the Rust side takes a text's nibbles: in a report, beginning in the high half of a byte
/// and in the low one, and as a content.
fn text_taken(nibbles: &[u8]) -> [bool; 3] {
    let judged = |before: &[u8]| {
        let mut draft = Draft::of(&observation_with(&[(9, before)]));
        draft.attach(text::ID, nibbles);
        calls::judge(&draft.bytes(), &ALL).map(|_| ())
    };
    let mut buffer = fresh_observation().packing();
    buffer.resize(200, 0);
    let put = calls::put(&mut buffer, 4, nibbles, &ALL).map(|_| ());
    let taken = |answer, refusal| match answer {
        Ok(()) => true,
        Err(given) => {
            assert_eq!(given, refusal, "{nibbles:?}");
            false
        }
    };
    let refused = |number, place| Refusal { number, place };
    [
        taken(judged(&[1]), refused(6, 2)),
        taken(judged(&[1, 1]), refused(6, 2)),
        taken(put, refused(14, 0)),
    ]
}

#[test]
fn every_short_body_of_a_text_is_judged_as_the_writer_gives_it() {
    let mut sound = 0;
    for length in 1..=4 {
        for number in 0..16usize.pow(length) {
            let nibble = |place| (number >> (4 * place) & 15) as u8;
            let nibbles: Vec<u8> = (0..length).map(nibble).collect();
            let due = text::read(&nibbles).is_some();
            sound += usize::from(due);
            assert_eq!(text_taken(&nibbles), [due; 3], "{nibbles:?}");
        }
    }
    assert!(sound > 1000);
}

/// Mostly codes of spaces, escapes and pairs.
#[test]
fn longer_bodies_of_a_text_are_judged_as_the_writer_gives_them() {
    let mut prng = Prng::new(10);
    let mut sound = [0; 2];
    for _ in 0..100_000 {
        let length = 5 + prng.below(20);
        let digit = |prng: &mut Prng| prng.below(16) as u8;
        let mut nibble = || {
            let any = digit(&mut prng);
            prng.pick(&[1, 10, 10, 11, 15, 15, 12, any])
        };
        let nibbles: Vec<u8> = (0..length).map(|_| nibble()).collect();
        let due = text::read(&nibbles).is_some();
        sound[usize::from(due)] += 1;
        assert_eq!(text_taken(&nibbles), [due; 3], "{nibbles:?}");
    }
    assert!(sound.iter().all(|&count| count > 1000), "{sound:?}");
}

/// Nothing of the report changes where a text is refused.
#[test]
fn put_text_is_refused_in_the_order_of_its_checks() {
    let mut last_plain = [1; 90];
    last_plain[89] = 0;
    let cases: [(&[u8], &[u8], usize, u8); 12] = [
        (b"AB", &[0], 300, 13),
        (b"A", &[2, 0], 300, 13),
        (b"", &[0], 300, 13),
        (b"a", &[0], 300, 14),
        (b"A", &[2], 300, 14),
        (b" ", &[255], 300, 14),
        (&[0; 90], &last_plain, 300, 14),
        (&[b' '; 90], &[1; 90], 300, 12),
        (b"", &[], 300, 12),
        (b"  ", &[0, 0], 300, 12),
        (&[b'a'; 86], &[1; 86], 38, 12),
        (b"A", &[0], 39, 13),
    ];
    for (bytes, origins, length, number) in cases {
        let mut buffer = fresh_observation().packing();
        buffer.resize(length, 0xA5);
        let before = buffer.clone();
        let place = 0;
        let refusal = Refusal { number, place };
        let answer = calls::put_text(&mut buffer, bytes, origins, &ALL);
        assert_eq!(answer, Err(refusal), "{bytes:?}");
        assert_eq!(buffer, before);
    }
}

/// What put text answers that wrote so many nibbles of content.
fn nibbles(number: i64) -> Answer {
    let label = Label::Nibbles;
    Ok(Given { label, number })
}

/// Spaces at the end of a text are not written.
#[test]
fn nibbles_of_a_text_are_counted_there_and_back() {
    let cases: [(&[u8], &[u8], i64, usize); 9] = [
        (b"7", &[0], 1, 1),
        (b"Z", &[0], 2, 1),
        (b" ", &[1], 3, 1),
        (b"A1a", &[0, 0, 1], 6, 3),
        (b"A1  ", &[0; 4], 3, 2),
        (b"1  2", &[0; 4], 4, 4),
        (b"1                  2", &[0; 20], 4, 20),
        (&[b'5'; 255], &[0; 255], 255, 255),
        (&[b'a'; 85], &[1; 85], 255, 85),
    ];
    let mut buffer = fresh_observation().packing();
    buffer.resize(200, 0);
    for (bytes, origins, number, symbols) in cases {
        let put = calls::put_text(&mut buffer, bytes, origins, &ALL);
        assert_eq!(put, nibbles(number), "{bytes:?}");
        let due = Fetched {
            symbols,
            set: Set::Unknown,
            nibbles: number as u8,
        };
        let fetched = calls::fetch_text(&buffer, &mut [0; 300], &mut [0; 300], &ALL);
        assert_eq!(fetched, Ok(due), "{bytes:?}");
    }
}

/// Of 0 symbols there is no nibble to put.
#[test]
fn the_costliest_text_takes_three_nibbles_a_symbol() {
    for symbols in 0..=85 {
        for side in SIDES {
            let (mut bytes, mut origins) = ([0xA5; 90], [0x5A; 91]);
            let answer = side.costliest_text(symbols, &mut bytes, &mut origins[..85]);
            assert_eq!((answer.refusal, answer.given), (0, 0), "{side:?}");
            assert!(origins[..symbols].iter().all(|&origin| origin == 1));
            assert!(bytes[symbols..].iter().all(|&byte| byte == 0xA5));
            assert!(origins[symbols..].iter().all(|&origin| origin == 0x5A));
            let mut buffer = fresh_observation().packing();
            buffer.resize(200, 0);
            let put = calls::put_text(&mut buffer, &bytes[..symbols], &origins[..symbols], &ALL);
            let (number, place) = (12, 0);
            let due = match symbols {
                0 => Err(Refusal { number, place }),
                _ => nibbles(3 * symbols as i64),
            };
            assert_eq!(put, due, "{side:?}");
        }
    }
}

/// 9 comes before 13, and neither output is written.
#[test]
fn a_costliest_text_is_refused_in_the_order_of_its_checks() {
    for (symbols, room, number) in [
        (86, [86, 86], 9),
        (86, [0, 0], 9),
        (256, [90, 90], 9),
        (1 << 32, [90, 90], 9),
        (usize::MAX, [90, 0], 9),
        (85, [84, 85], 13),
        (85, [85, 84], 13),
        (1, [0, 0], 13),
    ] {
        for side in SIDES {
            let (mut bytes, mut origins) = (vec![0xA5; room[0]], vec![0xA5; room[1]]);
            let answer = side.costliest_text(symbols, &mut bytes, &mut origins);
            let given = (answer.refusal, answer.place, answer.given);
            assert_eq!(given, (number, 0, 0), "{side:?}: {symbols}");
            let both = bytes.iter().chain(&origins);
            assert_eq!(both.filter(|&&byte| byte != 0xA5).count(), 0);
        }
    }
}

#[test]
fn each_source_id_has_its_set() {
    let mut buffer = observation_with(&[(4, &[15, 4, 1])]).packing();
    let set = |buffer: &[u8]| {
        let (mut bytes, mut origins) = ([0xA5; 2], [0xA5; 3]);
        let fetched = calls::fetch_text(buffer, &mut bytes, &mut origins, &ALL);
        let fetched = fetched.expect("a text");
        assert_eq!((fetched.symbols, fetched.nibbles), (1, 3));
        assert_eq!((bytes, origins), ([65, 0xA5], [1, 0xA5, 0xA5]));
        fetched.set
    };
    assert_eq!(set(&buffer), Set::Unknown);
    for sid in 0..=254 {
        let due = match sid {
            4 | 18 => Set::Ascii,
            0 | 22 | 25.. => Set::Unknown,
            _ => Set::Ebcdic,
        };
        calls::set_field(&mut buffer, 10, sid, &ALL).expect("a source ID");
        assert_eq!(set(&buffer), due, "{sid}");
    }
}

#[test]
fn a_reader_of_each_side_gives_what_fetch_text_gives() {
    for size in SIZES {
        for observation in [observation(size), small_observation(size)] {
            let report = observation.packing();
            let (mut bytes, mut origins) = ([0; 2295], [0; 2295]);
            let fetched = calls::fetch_text(&report, &mut bytes, &mut origins, &ALL);
            let count = fetched.map_or(0, |fetched| fetched.symbols);
            let due: Vec<_> = bytes.into_iter().zip(origins).take(count).collect();
            for side in SIDES {
                let (answer, symbols) = side.read_out(&report, &ALL);
                let refusal = if size == 38 { 11 } else { 0 };
                assert_eq!((answer.refusal, answer.given), (refusal, 0), "{side:?}");
                assert_eq!(symbols, due, "{side:?}");
            }
        }
    }
}

#[test]
fn a_copy_of_a_reader_goes_on_alone() {
    let report = observation_with(&[(4, &[12, 1, 11, 0, 15, 4, 1])]).packing();
    let mut reader = Reader::open(&report, &ALL);
    let space = Symbol::Plain(b' ');
    let symbols = [
        Symbol::Plain(b'A'),
        space,
        space,
        space,
        Symbol::Original(65),
    ];
    for from in 0..symbols.len() {
        assert_eq!(reader.clone().collect::<Vec<_>>(), symbols[from..]);
        assert_eq!(reader.next(), Some(symbols[from]));
    }
    assert_eq!(reader.next(), None);
}

#[test]
fn a_refused_table_is_not_put_in_force() {
    let refusal = Refusal {
        number: 16,
        place: 0,
    };
    let former: FlagTable = [[7; 10]; 14];
    for marks in refused_tables() {
        let mut table = former;
        assert_eq!(flags::load_flags(&marks, &mut table), Err(refusal));
        assert_eq!(table, former);
    }
}

#[test]
fn a_loaded_table_stands_row_after_row() {
    let mut marks = [1; 140];
    marks[10] = 0;
    marks[139] = 0;
    let mut table = [[0; 10]; 14];
    assert_eq!(flags::load_flags(&marks, &mut table), Ok(Given::NOTHING));
    assert_eq!((table[1][0], table[13][9]), (0, 0));
    assert_eq!(
        table
            .as_flattened()
            .iter()
            .filter(|&&mark| mark == 1)
            .count(),
        138
    );
    flags::all_flags(&mut table);
    assert_eq!(table, ALL);
}

#[test]
fn examples_of_the_specification() {
    let mut buffer = [0xA5; 45];
    assert_eq!(
        whole::fresh([1, 1900, 1, 0, 0], &mut buffer),
        Ok(Given::NOTHING)
    );
    let mut due = [0; 38];
    due[..9].copy_from_slice(&[0, 0, 0, 0x59, 0x44, 0, 0, 0x17, 0x0A]);
    due[36] = 0xF0;
    assert_eq!(buffer[..38], due);
    assert_eq!(buffer[38..], [0xA5; 7]);
    assert_eq!(calls::set_field(&mut buffer, 31, 286, &ALL), MISSING_VALUE);
    assert_eq!(buffer[25..27], [0x14, 0x18]);
    assert_eq!(buffer[36], 251);
    let put = calls::put_text(&mut buffer, b"A1", &[0, 0], &ALL);
    assert_eq!(put, nibbles(3));
    assert_eq!(buffer[37..41], [0x10, 0x34, 0xC1, 0x10]);
    assert_eq!(buffer[36], 251);
}
