//! What has to be found of the costliest text: its refusals, its outputs and its choice.

use reference::line::inputs;
use reference::text::MOST_SYMBOLS;

use super::*;

type Costliest = unsafe extern "C" fn(usize, *mut u8, usize, *mut u8, usize) -> Answer;

fn with(costliest_text: Costliest) -> Library {
    Library {
        costliest_text,
        ..STAND_IN
    }
}

/// So many symbols, and outputs of two lengths.
fn costliest(symbols: u64, text: usize, origins: usize) -> Case {
    Case::Costliest {
        symbols,
        text: vec![0xEE; text],
        origins: vec![0xDD; origins],
    }
}

fn refused(refusal: u32, place: u64) -> Answer {
    Answer {
        refusal,
        place,
        ..Answer::default()
    }
}

/// The first difference, which has to be in a costliest text: the number of symbols and
/// the lengths of both outputs.
fn found_costliest(wrong: Costliest) -> (Difference, u64, [usize; 2]) {
    let found = found(with(wrong));
    let Given::Whole(Case::Costliest {
        symbols,
        text,
        origins,
    }) = &found.trial.given
    else {
        panic!("no costliest text: {}", found.trial);
    };
    let (symbols, lengths) = (*symbols, [text.len(), origins.len()]);
    (found, symbols, lengths)
}

/// The first difference among the costliest texts that are drawn.
fn difference_of(right: Costliest) -> Option<Difference> {
    let (mut harness, mut tally) = (Harness::new(with(right)), Tally::default());
    let trials = (0..CASES).flat_map(|case| trials(SEED, case));
    let mut drawn =
        trials.filter(|trial| matches!(trial.given, Given::Whole(Case::Costliest { .. })));
    drawn.find_map(|trial| compare(&mut harness, &mut tally, &trial))
}

/// Answers and buffers worked out by hand. Which bytes are chosen is not compared.
#[test]
fn a_costliest_text_has_the_header_s_form() {
    let accepted = Answer::default();
    let all = FlagTable::all();
    let mut harness = Harness::new(STAND_IN);
    for (symbols, lengths, answer) in [
        (0, (0, 0), accepted),
        (0, (3, 1), accepted),
        (2, (2, 2), accepted),
        (2, (3, 5), accepted),
        (85, (85, 85), accepted),
        (2, (1, 2), refused(13, 0)),
        (2, (2, 1), refused(13, 0)),
        (86, (86, 86), refused(9, 0)),
        (86, (0, 0), refused(9, 0)),
        (u64::MAX, (9, 9), refused(9, 0)),
    ] {
        let case = costliest(symbols, lengths.0, lengths.1);
        let chosen = if answer == accepted { symbols } else { 0 } as usize;
        for outcome in [expected::whole(&case, &all), harness.whole(&case, &all)] {
            assert_eq!(outcome.said, Said::Answer(answer), "{symbols} {lengths:?}");
            let names: Vec<&str> = outcome.buffers.iter().map(|(name, _)| *name).collect();
            assert_eq!(names, ["text", "origins"]);
            let [text, origins] = ["text", "origins"].map(|name| outcome.buffer(name).unwrap());
            let mut due = state_of(&vec![0xEE; lengths.0]);
            let behind = MARKED + chosen;
            assert_eq!(text[..MARKED], due[..MARKED]);
            assert_eq!(text[behind..], due[behind..]);
            due = state_of(&vec![0xDD; lengths.1]);
            due[MARKED..behind].fill(1);
            assert_eq!(origins, due);
        }
    }
}

/// A library that has this body for the costliest text.
macro_rules! library {
    ($name:ident($symbols:ident, $text:ident, $text_n:ident, $origins:ident, $origins_n:ident)
        $body:block) => {
        unsafe extern "C" fn $name(
            $symbols: usize,
            $text: *mut u8,
            $text_n: usize,
            $origins: *mut u8,
            $origins_n: usize,
        ) -> Answer $body
    };
}

/// A library that chooses its own bytes.
unsafe fn choose(
    lent: (usize, *mut u8, usize, *mut u8, usize),
    byte: fn(usize) -> u8,
    origin: fn(usize) -> u8,
) -> Answer {
    let (symbols, text, text_n, origins, origins_n) = lent;
    unsafe {
        let answer = stand_in::costliest_text(symbols, text, text_n, origins, origins_n);
        if answer.refusal == 0 {
            for place in 0..symbols {
                *text.add(place) = byte(place);
                *origins.add(place) = origin(place);
            }
        }
        answer
    }
}

/// A library by the byte and the origin that it chooses for each place.
macro_rules! choosing {
    ($byte:expr, $origin:expr) => {{
        library!(chosen(symbols, text, text_n, origins, origins_n) {
            let lent = (symbols, text, text_n, origins, origins_n);
            unsafe { choose(lent, $byte, $origin) }
        });
        chosen as Costliest
    }};
}

/// Any bytes will do where all are original.
#[test]
fn every_right_choice_passes() {
    for right in [
        choosing!(|_| b'a', |_| 1),
        choosing!(|_| b' ', |_| 1),
        choosing!(|_| 0, |_| 1),
        choosing!(|_| 255, |_| 1),
        choosing!(|place| 255 - 3 * place as u8, |_| 1),
    ] {
        assert!(difference_of(right).is_none());
    }
}

/// One nibble less: the first symbol is a letter.
#[test]
fn a_choice_one_nibble_cheaper_is_found() {
    let wrong = choosing!(|_| b'A', |place| (place != 0).into());
    let (found, symbols, lengths) = found_costliest(wrong);
    assert_eq!(found.expected.said, found.got.said);
    assert_eq!(differing(&found), ["text", "origins"]);
    assert_eq!((symbols, lengths), (1, [1, 1]));
    let shown = found.got.against(&found.expected);
    assert!(shown.contains("text 41"), "{shown}");
    assert!(shown.contains("origins 00"), "{shown}");
}

/// Only a text of 85 symbols is cheaper, by its last one.
#[test]
fn a_cheaper_choice_of_the_most_symbols_is_found() {
    let wrong = choosing!(|_| b'Z', |place| (place != MOST_SYMBOLS - 1).into());
    let (found, symbols, lengths) = found_costliest(wrong);
    assert!(differing(&found).contains(&"origins"));
    assert_eq!((symbols, lengths), (85, [85, 85]));
}

/// A digit, a space between originals and one at the end, which is not written.
#[test]
fn other_cheaper_choices_are_found() {
    for wrong in [
        choosing!(|_| b'7', |place| (place != 0).into()),
        choosing!(|_| b' ', |place| (place != 3).into()),
        choosing!(|_| b' ', |_| 0),
        choosing!(|_| b'7', |_| 0),
    ] {
        let (found, _, _) = found_costliest(wrong);
        assert_eq!(found.expected.said, found.got.said);
        assert!(differing(&found).contains(&"origins"));
    }
}

/// Three nibbles each by the table of the characters, but no symbols: a plain byte
/// without a short code, and origins over 1.
#[test]
fn a_choice_that_put_text_refuses_is_found() {
    for wrong in [
        choosing!(|_| b'a', |_| 0),
        choosing!(|_| b'a', |_| 2),
        choosing!(|_| b'a', |place| if place == 40 { 255 } else { 1 }),
    ] {
        let (found, _, _) = found_costliest(wrong);
        assert_eq!(found.expected.said, found.got.said);
        assert!(differing(&found).contains(&"origins"));
    }
}

/// The mark of the last symbol is left as it was lent.
#[test]
fn a_mark_that_is_not_written_is_found() {
    library!(wrong(symbols, text, text_n, origins, origins_n) {
        unsafe {
            let former = stand_in::input(origins, origins_n).to_vec();
            let answer = stand_in::costliest_text(symbols, text, text_n, origins, origins_n);
            if answer.refusal == 0 && symbols > 0 {
                *origins.add(symbols - 1) = former[symbols - 1];
            }
            answer
        }
    });
    let (found, symbols, lengths) = found_costliest(wrong);
    assert!(differing(&found).contains(&"origins"));
    assert_eq!((symbols, lengths), (1, [1, 1]));
}

#[test]
fn a_text_of_86_symbols_is_found() {
    library!(wrong(symbols, text, text_n, origins, origins_n) {
        if symbols != 86 || text_n.min(origins_n) < 86 {
            return unsafe { stand_in::costliest_text(symbols, text, text_n, origins, origins_n) };
        }
        unsafe {
            text.write_bytes(b'a', 86);
            origins.write_bytes(1, 86);
        }
        Answer::default()
    });
    let (found, symbols, lengths) = found_costliest(wrong);
    assert_eq!(found.expected.said, Said::Answer(refused(9, 0)));
    assert_eq!(found.got.said, Said::Answer(Answer::default()));
    assert_eq!((symbols, lengths), (86, [86, 86]));
}

#[test]
fn a_text_of_85_symbols_that_is_refused_is_found() {
    library!(wrong(symbols, text, text_n, origins, origins_n) {
        match symbols {
            85 => refused(9, 0),
            _ => unsafe { stand_in::costliest_text(symbols, text, text_n, origins, origins_n) },
        }
    });
    let (found, symbols, _) = found_costliest(wrong);
    assert_eq!((found.got.refusal(), symbols), (9, 85));
}

/// A number of which only the low bits are looked at.
#[test]
fn a_number_that_is_cut_is_found() {
    library!(to_a_byte(symbols, text, text_n, origins, origins_n) {
        let symbols = symbols % (1 << 8);
        unsafe { stand_in::costliest_text(symbols, text, text_n, origins, origins_n) }
    });
    library!(to_half(symbols, text, text_n, origins, origins_n) {
        let symbols = symbols % (1 << 32);
        unsafe { stand_in::costliest_text(symbols, text, text_n, origins, origins_n) }
    });
    library!(without_the_highest(symbols, text, text_n, origins, origins_n) {
        let symbols = symbols % (1 << 63);
        unsafe { stand_in::costliest_text(symbols, text, text_n, origins, origins_n) }
    });
    for (wrong, least) in [
        (to_a_byte as Costliest, 1 << 8),
        (to_half, 1 << 32),
        (without_the_highest, 1 << 63),
    ] {
        let (found, symbols, lengths) = found_costliest(wrong);
        assert_eq!((found.expected.refusal(), found.got.refusal()), (9, 0));
        assert!(symbols.is_power_of_two() && symbols >= least, "{symbols}");
        assert_eq!(lengths, [0, 0]);
    }
}

/// A byte of either output.
#[test]
fn a_byte_behind_the_symbols_is_found() {
    library!(in_text(symbols, text, text_n, origins, origins_n) {
        unsafe {
            let answer = stand_in::costliest_text(symbols, text, text_n, origins, origins_n);
            if answer.refusal == 0 && symbols < text_n {
                *text.add(symbols) ^= 1;
            }
            answer
        }
    });
    library!(in_origins(symbols, text, text_n, origins, origins_n) {
        unsafe {
            let answer = stand_in::costliest_text(symbols, text, text_n, origins, origins_n);
            if answer.refusal == 0 && symbols < origins_n {
                *origins.add(symbols) = 1;
            }
            answer
        }
    });
    for (wrong, touched, lengths) in [
        (in_text as Costliest, "text", [1, 0]),
        (in_origins, "origins", [0, 1]),
    ] {
        let (found, symbols, smallest) = found_costliest(wrong);
        assert_eq!(found.expected.said, found.got.said);
        assert_eq!(differing(&found), [touched]);
        assert_eq!((symbols, smallest), (0, lengths));
    }
}

/// The last byte of a longer output, and the byte in front of one.
#[test]
fn a_byte_at_an_end_of_an_output_is_found() {
    library!(at_the_end(symbols, text, text_n, origins, origins_n) {
        unsafe {
            let answer = stand_in::costliest_text(symbols, text, text_n, origins, origins_n);
            if answer.refusal == 0 && symbols + 9 <= origins_n {
                *origins.add(origins_n - 1) ^= 1;
            }
            answer
        }
    });
    library!(in_front(symbols, text, text_n, origins, origins_n) {
        unsafe {
            let answer = stand_in::costliest_text(symbols, text, text_n, origins, origins_n);
            if text_n > 0 {
                *text.sub(1) = 0;
            }
            answer
        }
    });
    assert_eq!(differing(&found_costliest(at_the_end).0), ["origins"]);
    let (found, _, _) = found_costliest(in_front);
    assert_eq!(differing(&found), ["text"]);
    let shown = found.got.against(&found.expected);
    assert!(shown.contains("before text"), "{shown}");
}

/// On 9 a symbol is written; on 13 what fits of the text, or of the origins.
#[test]
fn an_output_of_a_refused_call_that_is_written_is_found() {
    library!(on_9(symbols, text, text_n, origins, origins_n) {
        unsafe {
            let answer = stand_in::costliest_text(symbols, text, text_n, origins, origins_n);
            if answer.refusal == 9 && origins_n > 0 {
                *origins = 1;
            }
            answer
        }
    });
    library!(text_on_13(symbols, text, text_n, origins, origins_n) {
        unsafe {
            let answer = stand_in::costliest_text(symbols, text, text_n, origins, origins_n);
            if answer.refusal == 13 {
                text.write_bytes(b'a', text_n.min(symbols));
            }
            answer
        }
    });
    library!(origins_on_13(symbols, text, text_n, origins, origins_n) {
        unsafe {
            let answer = stand_in::costliest_text(symbols, text, text_n, origins, origins_n);
            if answer.refusal == 13 {
                origins.write_bytes(1, origins_n.min(symbols));
            }
            answer
        }
    });
    for (wrong, refusal, touched) in [
        (on_9 as Costliest, 9, "origins"),
        (text_on_13, 13, "text"),
        (origins_on_13, 13, "origins"),
    ] {
        let (found, _, _) = found_costliest(wrong);
        assert_eq!(found.expected.said, found.got.said);
        assert_eq!(found.expected.refusal(), refusal);
        assert_eq!(differing(&found), [touched]);
    }
}

#[test]
fn an_order_of_13_before_9_is_found() {
    library!(wrong(symbols, text, text_n, origins, origins_n) {
        if text_n.min(origins_n) < symbols {
            return refused(13, 0);
        }
        unsafe { stand_in::costliest_text(symbols, text, text_n, origins, origins_n) }
    });
    let (found, symbols, _) = found_costliest(wrong);
    assert_eq!((found.expected.refusal(), found.got.refusal()), (9, 13));
    assert!(symbols > 85);
}

/// Only one of the two outputs is looked at, and as much is written as there is room.
#[test]
fn a_short_output_that_is_taken_is_found() {
    library!(by_the_text(symbols, text, text_n, origins, origins_n) {
        let fits = symbols.min(origins_n);
        unsafe {
            let answer = stand_in::costliest_text(symbols, text, text_n, origins, origins_n);
            if answer.refusal != 13 || text_n < symbols {
                return answer;
            }
            stand_in::costliest_text(fits, text, text_n, origins, origins_n)
        }
    });
    library!(by_the_origins(symbols, text, text_n, origins, origins_n) {
        let fits = symbols.min(text_n);
        unsafe {
            let answer = stand_in::costliest_text(symbols, text, text_n, origins, origins_n);
            if answer.refusal != 13 || origins_n < symbols {
                return answer;
            }
            stand_in::costliest_text(fits, text, text_n, origins, origins_n)
        }
    });
    for (wrong, lengths) in [(by_the_text as Costliest, [1, 0]), (by_the_origins, [0, 1])] {
        let (found, symbols, smallest) = found_costliest(wrong);
        assert_eq!((found.expected.refusal(), found.got.refusal()), (13, 0));
        assert_eq!((symbols, smallest), (1, lengths));
    }
}

/// An output of just as many bytes is refused.
#[test]
fn an_output_that_fits_and_is_refused_is_found() {
    library!(wrong(symbols, text, text_n, origins, origins_n) {
        if symbols <= 85 && origins_n == symbols {
            return refused(13, 0);
        }
        unsafe { stand_in::costliest_text(symbols, text, text_n, origins, origins_n) }
    });
    let (found, _, _) = found_costliest(wrong);
    assert_eq!((found.expected.refusal(), found.got.refusal()), (0, 13));
}

/// The number of nibbles is given, or the number is the place of its refusal.
#[test]
fn a_number_that_a_costliest_text_gives_is_found() {
    library!(nibbles(symbols, text, text_n, origins, origins_n) {
        let mut answer =
            unsafe { stand_in::costliest_text(symbols, text, text_n, origins, origins_n) };
        if answer.refusal == 0 {
            (answer.given, answer.first) = (9, 3 * symbols as i64);
        }
        answer
    });
    library!(place(symbols, text, text_n, origins, origins_n) {
        let mut answer =
            unsafe { stand_in::costliest_text(symbols, text, text_n, origins, origins_n) };
        if answer.refusal == 9 {
            answer.place = symbols as u64;
        }
        answer
    });
    for (wrong, refusal) in [(nibbles as Costliest, 0), (place, 9)] {
        let (found, _, _) = found_costliest(wrong);
        assert_ne!(found.expected.said, found.got.said);
        assert_eq!(found.expected.refusal(), refusal);
        assert_eq!(differing(&found), [""; 0]);
    }
}

/// What the tally has never seen of the costliest text.
fn unseen(tally: &Tally) -> Vec<String> {
    let mut unseen = tally.unseen();
    unseen.retain(|name| name.starts_with("costliest"));
    unseen
}

fn run(tally: &mut Tally, case: Case) {
    let trial = Given::Whole(case).under(FlagTable::all());
    assert!(compare(&mut Harness::new(STAND_IN), tally, &trial).is_none());
}

/// Both refusals, and acceptance by the number of symbols.
#[test]
fn costliest_texts_are_counted() {
    let mut tally = Tally::default();
    let refusals = [0, 9, 13]
        .map(|refusal| format!("costliest, refusal {refusal} (0 is accepted)"))
        .to_vec();
    let lengths = ["0", "1 to 84", "85"]
        .map(|length| format!("costliest, accepted for {length} symbols"))
        .to_vec();
    assert_eq!(unseen(&tally), [&refusals[..], &lengths].concat());
    run(&mut tally, costliest(86, 90, 90));
    run(&mut tally, costliest(85, 84, 85));
    run(&mut tally, costliest(1, 0, 0));
    assert_eq!(unseen(&tally), [&refusals[..1], &lengths].concat());
    run(&mut tally, costliest(84, 84, 84));
    assert_eq!(unseen(&tally), [&lengths[..1], &lengths[2..]].concat());
    run(&mut tally, costliest(85, 85, 90));
    run(&mut tally, costliest(85, 85, 85));
    assert_eq!(unseen(&tally), lengths[..1]);
    run(&mut tally, costliest(0, 0, 0));
    assert_eq!(unseen(&tally), [""; 0]);
    run(&mut tally, costliest(1, 1, 1));
    run(&mut tally, costliest(43, 50, 50));
    let shown = tally.to_string();
    let none = |times: usize| "       -".repeat(times);
    let row = format!(
        "costliest           9        6{}       1{}       2{}",
        none(8),
        none(3),
        none(2)
    );
    for line in [
        &row[..],
        "costliest of        0  1 to 84       85",
        "                    1        3        2",
    ] {
        assert!(shown.lines().any(|shown| shown == line), "{shown}");
    }
}

/// A whole run fails where no text of 85 symbols was written.
#[test]
fn a_length_never_met_fails_a_whole_run() {
    let mut without = Tally::default();
    let mut harness = Harness::new(STAND_IN);
    for trial in (0..CASES).flat_map(|case| trials(SEED, case)) {
        let is_of_85 = matches!(
            trial.given,
            Given::Whole(Case::Costliest { symbols: 85, .. })
        );
        if !is_of_85 {
            assert!(compare(&mut harness, &mut without, &trial).is_none());
        }
    }
    assert_eq!(without.unseen(), ["costliest, accepted for 85 symbols"]);
    assert!(!without.passes(DEFAULT_CALLS));
    assert!(without.passes(DEFAULT_CALLS - 1));
}

/// About each edge: the most symbols and one more, wide numbers, and outputs that just
/// fit, that are too short by one, and that differ in length.
#[test]
fn costliest_texts_are_drawn_about_each_edge() {
    let mut counts = [0; 8];
    for trial in (0..CASES).flat_map(|case| trials(SEED, case)) {
        let Given::Whole(Case::Costliest {
            symbols,
            text,
            origins,
        }) = trial.given
        else {
            continue;
        };
        let lengths = [text.len() as u64, origins.len() as u64];
        let shorter = lengths[0].min(lengths[1]);
        let met = [
            symbols == 0,
            symbols == 85,
            symbols == 86,
            symbols > 1 << 32,
            symbols > 85 && shorter < 86,
            symbols <= 85 && lengths == [symbols; 2],
            (1..=85).contains(&symbols) && shorter == symbols - 1,
            lengths[0] != lengths[1],
        ];
        for (count, met) in counts.iter_mut().zip(met) {
            *count += usize::from(met);
        }
    }
    assert!(counts.iter().all(|&count| count >= 8), "{counts:?}");
}

#[test]
fn a_costliest_text_is_shown() {
    let given = Given::Whole(costliest(86, 1, 2));
    assert_eq!(given.to_string(), "costliest 86 EE DDDD");
    assert_eq!(inputs(&costliest(0, 0, 0)), "costliest 0 - -");
}

#[test]
fn fences_stop_a_costliest_text() {
    assert_stopped("costliest::write_past_the_text_of_a_costliest");
    assert_stopped("costliest::write_past_the_origins_of_a_costliest");
    assert_stopped("costliest::write_to_an_empty_text");
}

fn write_out(costliest_text: Costliest, case: &Case) {
    watched();
    let mut harness = Harness::new(with(costliest_text));
    harness.whole(case, &FlagTable::all());
}

#[test]
#[ignore = "dies; run by fences_stop_a_costliest_text"]
fn write_past_the_text_of_a_costliest() {
    library!(wrong(symbols, text, text_n, origins, origins_n) {
        unsafe {
            text.add(symbols).write_volatile(0);
            stand_in::costliest_text(symbols, text, text_n, origins, origins_n)
        }
    });
    write_out(wrong, &costliest(3, 3, 9));
}

#[test]
#[ignore = "dies; run by fences_stop_a_costliest_text"]
fn write_past_the_origins_of_a_costliest() {
    library!(wrong(symbols, text, text_n, origins, origins_n) {
        unsafe {
            origins.add(symbols).write_volatile(1);
            stand_in::costliest_text(symbols, text, text_n, origins, origins_n)
        }
    });
    write_out(wrong, &costliest(3, 9, 3));
}

#[test]
#[ignore = "dies; run by fences_stop_a_costliest_text"]
fn write_to_an_empty_text() {
    library!(wrong(symbols, text, text_n, origins, origins_n) {
        unsafe {
            text.write_volatile(0);
            stand_in::costliest_text(symbols, text, text_n, origins, origins_n)
        }
    });
    write_out(wrong, &costliest(0, 0, 0));
}
