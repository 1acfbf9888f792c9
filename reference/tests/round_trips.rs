//! Random observations, there and back.

mod common;

use common::all_flags::{fetch, fetch_text, is_valid, judge, pack, put, put_text, unpack};
use reference::cases::material::{
    random_body, random_flags, random_observation, random_text, tail_of, values_and_word,
};
use reference::flags::quality_code;
use reference::prng::Prng;
use reference::text::{Symbol, bytes, origins, read, write};

#[test]
fn observations_pack_and_are_read_back() {
    let mut prng = Prng::new(1);
    for _ in 0..400 {
        let observation = random_observation(&mut prng);
        let report = observation.packing();
        assert_eq!(report.len(), observation.size());
        let judged = judge(&report).unwrap();
        assert_eq!(judged.observation, observation);
        assert_eq!(judged.bytes, report.len());
        let sum: u64 = observation.codes().iter().map(|code| code.0).sum();
        assert_eq!(judged.ck, sum % 255);
        assert!(judge(&report[..report.len() - 1]).is_err());
    }
}

#[test]
fn reports_unpack_and_pack_back() {
    let mut prng = Prng::new(2);
    for _ in 0..400 {
        let observation = random_observation(&mut prng);
        let report = observation.packing();
        let mut values = [0x5555; 46];
        let mut tail = vec![0xEE; 4000];
        let given = unpack(&report, &mut values, &mut tail).unwrap();
        assert_eq!(
            (values.to_vec(), given.word),
            values_and_word(&observation, 0)
        );
        assert_eq!(given.present, given.word.count_ones() as usize);
        assert_eq!(tail[..given.tail], tail_of(&observation));
        assert!(tail[given.tail..].iter().all(|&byte| byte == 0xEE));
        assert_eq!(given.ac, observation.attachments.len());
        let mut output = vec![0xEE; given.bytes];
        let packed = pack(
            &values,
            given.word,
            given.rptin,
            &tail[..given.tail],
            &mut output,
        );
        assert_eq!(packed, Ok(given.bytes));
        assert_eq!(output, report);
    }
}

#[test]
fn an_accepted_report_is_the_packing_of_its_observation() {
    let mut prng = Prng::new(3);
    let mut accepted = 0;
    for _ in 0..4000 {
        let mut report = random_observation(&mut prng).packing();
        for _ in 0..1 + prng.below(2) {
            let index = prng.below(report.len());
            report[index] ^= 1 << prng.below(8);
        }
        if let Ok(judged) = judge(&report) {
            accepted += 1;
            assert_eq!(judged.observation.packing(), report[..judged.bytes]);
        }
    }
    assert!(accepted > 100 && accepted < 3900, "{accepted}");
}

#[test]
fn texts_go_in_and_come_out_without_trailing_spaces() {
    let mut prng = Prng::new(4);
    for _ in 0..3000 {
        let pieces = prng.below(30);
        let text = random_text(&mut prng, pieces);
        let from_last = text.iter().rev();
        let spaces = from_last
            .take_while(|&&symbol| symbol == Symbol::SPACE)
            .count();
        let kept = &text[..text.len() - spaces];
        let nibbles = write(&text);
        assert_eq!(nibbles.is_empty(), kept.is_empty());
        assert_eq!(read(&nibbles).as_deref(), Some(kept));
        if (1..=255).contains(&nibbles.len()) {
            let mut buffer = random_observation(&mut prng).packing();
            buffer.resize(buffer.len() + 150, 0);
            let put = put_text(&mut buffer, &bytes(&text), &origins(&text));
            assert_eq!(put, Ok(nibbles.len()));
            let (mut out, mut marks) = (vec![0xEE; kept.len() + 2], vec![0xDD; kept.len() + 1]);
            let fetched = fetch_text(&buffer, &mut out, &mut marks);
            let counts = fetched.map(|given| (given.symbols, given.nibbles));
            assert_eq!(counts, Ok((kept.len(), nibbles.len())));
            assert_eq!(out, [bytes(kept), vec![0xEE; 2]].concat());
            assert_eq!(marks, [origins(kept), vec![0xDD]].concat());
        }
    }
}

#[test]
fn contents_go_in_and_come_out() {
    let mut prng = Prng::new(5);
    for _ in 0..400 {
        let id = 1 + prng.below(15) as u8;
        let content = random_body(&mut prng, id);
        let mut buffer = random_observation(&mut prng).packing();
        buffer.resize(buffer.len() + 150, 0xA5);
        assert_eq!(put(&mut buffer, u64::from(id), &content), Ok(()));
        let mut output = vec![0xEE; 256];
        assert_eq!(
            fetch(&buffer, u64::from(id), &mut output),
            Ok(content.len())
        );
        assert_eq!(output[..content.len()], content);
        assert!(output[content.len()..].iter().all(|&byte| byte == 0xEE));
    }
}

#[test]
fn only_one_quality_code_is_valid() {
    let mut prng = Prng::new(6);
    for _ in 0..200 {
        let mut body = random_flags(&mut prng);
        let sound = quality_code(&body[..14]);
        for code in 0..=255_u8 {
            body[14] = code / 16;
            body[15] = code % 16;
            assert_eq!(is_valid(&body), code == sound);
        }
    }
}
