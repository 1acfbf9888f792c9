//! Cases in which two refusals fit at once, for each pair that an order decides.

use super::Case;
use super::costliest::{TOO_MANY, costliest};
use super::indicators::{find, of_fields};
use super::material::*;
use super::symbols::read_out;
use crate::attachment::with_header;
use crate::call::Call;
use crate::flags;
use crate::observation::Observation;
use crate::refusal::{Refusal, refusal};
use crate::table::{REQUIRED, fields};

/// Two refusals that fit one case. The first is its answer; with the first
/// fault mended, the second is.
#[derive(Clone, Debug)]
pub struct Pair {
    pub first: Refusal,
    pub second: Refusal,
    pub both: Case,
    pub mended: Case,
}

pub fn pairs() -> Vec<Pair> {
    let mut pairs = without_indicators();
    pairs.extend(find_indicators_pairs());
    pairs.extend(clear_with_indicators_pairs());
    pairs
}

/// The pairs of the calls that do not know indicators.
pub fn without_indicators() -> Vec<Pair> {
    let mut pairs = report_pairs();
    pairs.extend(unpack_pairs());
    pairs.extend(report_and_caller_pairs());
    pairs.extend(caller_pairs());
    pairs.extend(pack_pairs());
    pairs.extend(fresh_pairs());
    pairs.extend(read_out_pairs());
    pairs.extend(costliest_pairs());
    pairs
}

/// A fault of an attachment. Each stands second in its tail when it is alone.
#[derive(Clone, Copy, Debug, PartialEq, Eq)]
enum TailFault {
    ZeroLength,
    ZeroId,
    Repeated,
    FlagBody,
    TextBody,
    HeaderCut,
    DataCut,
}

const TAIL_FAULTS: [TailFault; 7] = [
    TailFault::ZeroLength,
    TailFault::ZeroId,
    TailFault::Repeated,
    TailFault::FlagBody,
    TailFault::TextBody,
    TailFault::HeaderCut,
    TailFault::DataCut,
];

impl TailFault {
    fn is_cut(self) -> bool {
        matches!(self, TailFault::HeaderCut | TailFault::DataCut)
    }

    fn refusal(self) -> Refusal {
        match self {
            TailFault::ZeroLength | TailFault::ZeroId | TailFault::Repeated => refusal(5, 2),
            TailFault::FlagBody | TailFault::TextBody => refusal(6, 2),
            TailFault::HeaderCut | TailFault::DataCut => refusal(1, 2),
        }
    }

    fn nibbles(self) -> Vec<u8> {
        match self {
            TailFault::ZeroLength => with_header(3, &[]),
            TailFault::ZeroId => with_header(0, &[1]),
            TailFault::Repeated => with_header(2, &[1]),
            TailFault::FlagBody => with_header(1, &[0; 15]),
            TailFault::TextBody => with_header(4, &[10]),
            TailFault::HeaderCut => vec![0],
            TailFault::DataCut => with_header(6, &[1; 10])[..9].to_vec(),
        }
    }
}

/// Orders of two faults in one tail. Nothing can follow an attachment that is
/// cut: pairs that begin with refusal 1 of an attachment cannot occur, save
/// within that one attachment.
fn tail_fault_orders() -> Vec<(TailFault, TailFault)> {
    let mut orders = Vec::new();
    for first in TAIL_FAULTS {
        for second in TAIL_FAULTS {
            if first != second && !first.is_cut() {
                orders.push((first, second));
            }
        }
    }
    orders
}

/// Two faults of the second of two attachments: both, and the first mended.
struct TailPair {
    first: Refusal,
    second: Refusal,
    both: Vec<u8>,
    mended: Vec<u8>,
}

fn within_one_attachment() -> Vec<TailPair> {
    let before = with_header(2, &[7, 7]);
    let behind = |nibbles: &[u8]| [before.clone(), nibbles.to_vec()].concat();
    let sound_flags = flags::body_of(&[1; 14]);
    let bad_flags = with_header(1, &[0; 15]);
    let bad_text = with_header(4, &[10; 8]);
    let pair = |first, second, both, mended| TailPair {
        first: refusal(first, 2),
        second: refusal(second, 2),
        both,
        mended,
    };
    vec![
        // The header is cut behind an AL of 0.
        pair(1, 5, behind(&[0, 0]), behind(&[0, 0, 5, 0])),
        // AID 0 or repeated, and the data do not fit. With AL 0 data always fit.
        pair(5, 1, behind(&[9, 9, 0, 1]), behind(&[9, 9, 6, 1])),
        pair(5, 1, behind(&[9, 9, 2, 1]), behind(&[9, 9, 6, 1])),
        // An invalid body is cut.
        pair(1, 6, behind(&bad_flags[..9]), behind(&bad_flags)),
        pair(1, 6, behind(&bad_text[..9]), behind(&bad_text)),
        // AL 0 is not 16; a repeated id 1 or 4 with an invalid body.
        pair(5, 6, behind(&[0, 0, 1]), behind(&[0, 1, 1, 0])),
        pair(
            5,
            6,
            [with_header(1, &sound_flags), bad_flags.clone()].concat(),
            [with_header(3, &sound_flags), bad_flags].concat(),
        ),
        pair(
            5,
            6,
            [with_header(4, &[1]), bad_text.clone()].concat(),
            [with_header(3, &[1]), bad_text].concat(),
        ),
    ]
}

/// A fault of a report.
#[derive(Clone, Copy, Debug, PartialEq, Eq)]
enum ReportFault {
    Short,
    High(usize),
    Missing(usize),
    Checksum,
    Tail(TailFault),
    Last,
}

impl ReportFault {
    fn refusal(self) -> Refusal {
        match self {
            ReportFault::Short => refusal(1, 0),
            ReportFault::High(field) => refusal(2, field),
            ReportFault::Missing(field) => refusal(3, field),
            ReportFault::Checksum => refusal(4, 0),
            ReportFault::Tail(fault) => fault.refusal(),
            ReportFault::Last => refusal(7, 0),
        }
    }
}

/// The faults in the order in which a report is checked.
fn report_faults() -> Vec<ReportFault> {
    let mut faults = vec![
        ReportFault::Short,
        ReportFault::High(1),
        ReportFault::Missing(2),
        ReportFault::High(3),
        ReportFault::Missing(6),
        ReportFault::Missing(7),
        ReportFault::High(46),
        ReportFault::Checksum,
    ];
    faults.extend(TAIL_FAULTS.map(ReportFault::Tail));
    faults.push(ReportFault::Last);
    faults
}

/// A fresh report with attachment 2 and some faults, in the order of checking.
fn report_with(faults: &[ReportFault]) -> Vec<u8> {
    observation_with_faults(&observation_with(&[(2, &[7])]), faults)
}

/// An observation with attachment 2 alone as a report with some faults.
fn observation_with_faults(observation: &Observation, faults: &[ReportFault]) -> Vec<u8> {
    let mut draft = Draft::of(observation);
    let mut length = None;
    for fault in faults {
        match *fault {
            ReportFault::Short => length = Some(37),
            ReportFault::High(field) => {
                draft.set_code(field, fields()[field - 1].highest + 1);
            }
            ReportFault::Missing(field) => draft.set_code(field, 0),
            ReportFault::Checksum => draft.card.ck += 1,
            ReportFault::Tail(fault) => {
                draft.card.ac += 1;
                draft.tail.extend(fault.nibbles());
            }
            ReportFault::Last => {
                // 75 nibbles and an odd tail leave no padding nibble.
                if draft.tail.len() % 2 == 1 {
                    draft.attach(14, &[3, 3]);
                }
                draft.last = 9;
            }
        }
    }
    let mut report = draft.bytes();
    report.truncate(length.unwrap_or(report.len()));
    report
}

/// Under 38 bytes no AC is there, so the first check meets no fault of the
/// tail. A cut attachment hides the end, so it meets no padding nibble.
fn can_meet(first: ReportFault, second: ReportFault) -> bool {
    match (first, second) {
        (ReportFault::Short, ReportFault::Tail(_) | ReportFault::Last) => false,
        (ReportFault::Tail(fault), ReportFault::Last) => !fault.is_cut(),
        (ReportFault::Tail(_), ReportFault::Tail(_)) => false,
        _ => true,
    }
}

fn judge_pair(first: ReportFault, second: ReportFault) -> Pair {
    Pair {
        first: first.refusal(),
        second: second.refusal(),
        both: Case::Judge {
            report: report_with(&[first, second]),
        },
        mended: Case::Judge {
            report: report_with(&[second]),
        },
    }
}

fn report_pairs() -> Vec<Pair> {
    let mut pairs = Vec::new();
    let faults = report_faults();
    for (index, &first) in faults.iter().enumerate() {
        for &second in &faults[index + 1..] {
            if can_meet(first, second) {
                pairs.push(judge_pair(first, second));
            }
        }
    }
    for (first, second) in tail_fault_orders() {
        pairs.push(judge_pair(
            ReportFault::Tail(first),
            ReportFault::Tail(second),
        ));
    }
    for pair in within_one_attachment() {
        let judge = |tail: &[u8]| {
            let mut draft = Draft::of(&fresh_observation());
            draft.card.ac = 2;
            draft.tail = tail.to_vec();
            Case::Judge {
                report: draft.bytes(),
            }
        };
        pairs.push(Pair {
            first: pair.first,
            second: pair.second,
            both: judge(&pair.both),
            mended: judge(&pair.mended),
        });
    }
    pairs
}

fn unpack_pairs() -> Vec<Pair> {
    let mut pairs = Vec::new();
    for fault in report_faults() {
        for (values, tail) in [(45, 100), (46, 3), (0, 0)] {
            let case = |faults: &[ReportFault]| Case::Unpack {
                report: report_with(faults),
                values: vec![-3; values],
                tail: vec![0xEE; tail],
            };
            pairs.push(Pair {
                first: fault.refusal(),
                second: refusal(13, 0),
                both: case(&[fault]),
                mended: case(&[]),
            });
        }
    }
    pairs
}

fn set_flag(flag: u64, value: i64) -> Call {
    Call::SetFlag { flag, value }
}

fn put(id: u64, content: &[u8]) -> Call {
    Call::Put {
        id,
        content: content.to_vec(),
    }
}

fn fetch_nothing(id: u64) -> Call {
    Call::Fetch {
        id,
        output: Vec::new(),
    }
}

/// Calls refused on the full buffer of a report that has attachment 2 alone.
fn refused_calls() -> Vec<(Refusal, Call)> {
    let read_flag = |flag| Call::ReadFlag { flag };
    let clear_flag = |flag| Call::ClearFlag { flag };
    let read = |field| Call::ReadField { field };
    let set = |field, value| Call::SetField { field, value };
    let clear = |field| Call::ClearField { field };
    let drop = |id| Call::Drop { id };
    vec![
        (refusal(8, 0), read(0)),
        (refusal(8, 0), set(47, 0)),
        (refusal(8, 0), clear(u64::MAX)),
        (refusal(8, 0), read_flag(0)),
        (refusal(8, 0), set_flag(15, 1)),
        (refusal(8, 0), clear_flag(15)),
        (refusal(8, 0), put(16, &[1])),
        (refusal(8, 0), fetch_nothing(0)),
        (refusal(8, 0), drop(16)),
        (refusal(9, 31), set(31, 1000)),
        (refusal(9, 14), set_flag(14, 11)),
        (refusal(10, 7), clear(7)),
        (refusal(11, 0), read_flag(1)),
        (refusal(11, 0), set_flag(1, 1)),
        (refusal(11, 0), clear_flag(1)),
        (refusal(11, 0), fetch_nothing(5)),
        (refusal(11, 0), drop(5)),
        (refusal(11, 0), fetch_text(0)),
        (refusal(12, 0), put(5, &[])),
        (refusal(12, 0), put_bytes(b" ", &[0])),
        (refusal(14, 0), put(5, &[16])),
        (refusal(14, 0), put(4, &[10])),
        (refusal(13, 0), put(5, &[1])),
        (refusal(13, 0), fetch_nothing(2)),
        (refusal(13, 0), put_bytes(b"1", &[0])),
        (refusal(13, 0), put_bytes(b"1", &[])),
        (refusal(14, 0), put_bytes(b"a", &[0])),
        (refusal(14, 0), put_bytes(b"1", &[2])),
    ]
}

fn one_call(buffer: Vec<u8>, call: &Call) -> Case {
    Case::Calls {
        buffer,
        calls: vec![call.clone()],
    }
}

fn report_and_caller_pairs() -> Vec<Pair> {
    let mut pairs = Vec::new();
    for fault in report_faults() {
        for (second, call) in refused_calls() {
            pairs.push(Pair {
                first: fault.refusal(),
                second,
                both: one_call(report_with(&[fault]), &call),
                mended: one_call(report_with(&[]), &call),
            });
        }
    }
    pairs
}

/// Two of the caller's refusals in one call, on the full buffer of a report
/// that has attachment 2 alone.
///
/// No call can meet the others: a field's 9 and 10 need a field, which 8 denies;
/// 9 and 10 belong to different calls; a set or a clear never meets 12, 14 or
/// 13, as no size changes; a put never meets 11, a fetch or a drop never 12 or
/// 14. An absent attachment asks for no output, so 11 with 13 is a fetch of an
/// absent id to an output that would be short for a standing one.
///
/// Put text judges its lengths (13) and its symbols (14) before 12.
fn caller_pairs() -> Vec<Pair> {
    let read_flag = |flag| Call::ReadFlag { flag };
    let clear_flag = |flag| Call::ClearFlag { flag };
    let drop = |id| Call::Drop { id };
    let pairs = [
        (8, refusal(9, 14), set_flag(15, 11), set_flag(14, 11)),
        (8, refusal(9, 1), set_flag(0, -1), set_flag(1, -1)),
        (8, refusal(11, 0), read_flag(0), read_flag(1)),
        (8, refusal(11, 0), set_flag(15, 1), set_flag(14, 1)),
        (8, refusal(11, 0), clear_flag(15), clear_flag(14)),
        (8, refusal(11, 0), fetch_nothing(16), fetch_nothing(15)),
        (8, refusal(11, 0), drop(0), drop(1)),
        (8, refusal(12, 0), put(16, &[]), put(15, &[])),
        (8, refusal(12, 0), put(0, &[1; 256]), put(1, &[1; 256])),
        (8, refusal(14, 0), put(0, &[16]), put(5, &[16])),
        (8, refusal(13, 0), put(16, &[1]), put(15, &[1])),
        (8, refusal(13, 0), fetch_nothing(0), fetch_nothing(2)),
        (11, refusal(13, 0), fetch_nothing(5), fetch_nothing(2)),
        (12, refusal(14, 0), put(5, &[16; 256]), put(5, &[16; 255])),
        (12, refusal(14, 0), put(1, &[]), put(1, &[0])),
        (12, refusal(14, 0), put(4, &[10; 256]), put(4, &[10; 255])),
        (12, refusal(13, 0), put(5, &[1; 256]), put(5, &[1; 255])),
        (12, refusal(13, 0), put(5, &[]), put(5, &[0])),
        (
            12,
            refusal(13, 0),
            put_bytes(&[b'a'; 86], &[1; 86]),
            put_bytes(&[b'a'; 85], &[1; 85]),
        ),
        (
            12,
            refusal(13, 0),
            put_bytes(b"  ", &[0; 2]),
            put_bytes(b"  7", &[0; 3]),
        ),
        (14, refusal(13, 0), put(5, &[16]), put(5, &[15])),
        (14, refusal(13, 0), put(1, &[0; 15]), put(1, &[0; 16])),
        (14, refusal(13, 0), put(4, &[10]), put(4, &[9])),
        (
            13,
            refusal(14, 0),
            put_bytes(b"1", &[2, 2]),
            put_bytes(b"1", &[2]),
        ),
        (
            13,
            refusal(14, 0),
            put_bytes(b"ab", &[0]),
            put_bytes(b"a", &[0]),
        ),
        (
            13,
            refusal(12, 0),
            put_bytes(b" ", &[]),
            put_bytes(b"", &[]),
        ),
        (
            13,
            refusal(12, 0),
            put_bytes(&[b'a'; 86], &[1; 85]),
            put_bytes(&[b'a'; 86], &[1; 86]),
        ),
        (
            14,
            refusal(12, 0),
            put_bytes(&[b'a'; 87], &[&[1; 86][..], &[0]].concat()),
            put_bytes(&[b'a'; 87], &[1; 87]),
        ),
        (
            14,
            refusal(12, 0),
            put_bytes(b"   ", &[0, 0, 2]),
            put_bytes(b"   ", &[0; 3]),
        ),
        (
            14,
            refusal(13, 0),
            put_bytes(b"1a", &[0, 0]),
            put_bytes(b"1a", &[0, 1]),
        ),
        (
            14,
            refusal(13, 0),
            put_bytes(b"1 ", &[0, 255]),
            put_bytes(b"1 ", &[0, 1]),
        ),
    ];
    let mut judged: Vec<Pair> = pairs
        .into_iter()
        .map(|(first, second, both, mended)| Pair {
            first: refusal(first, 0),
            second,
            both: one_call(report_with(&[]), &both),
            mended: one_call(report_with(&[]), &mended),
        })
        .collect();
    judged.push(Pair {
        first: refusal(9, 3),
        second: refusal(11, 0),
        both: one_call(report_with(&[]), &set_flag(3, 0)),
        mended: one_call(report_with(&[]), &set_flag(3, 1)),
    });
    judged
}

/// A fault of what pack is given.
#[derive(Clone, Copy, Debug, PartialEq, Eq)]
enum PackFault {
    FewValues,
    Bit(usize),
    Absent(usize),
    Value(usize),
    Byte,
    Tail(TailFault),
    Output,
}

impl PackFault {
    fn refusal(self) -> Refusal {
        match self {
            PackFault::FewValues | PackFault::Output => refusal(13, 0),
            PackFault::Bit(_) => refusal(8, 0),
            PackFault::Absent(field) => refusal(10, field),
            PackFault::Value(field) => refusal(9, field),
            PackFault::Byte => refusal(14, 0),
            PackFault::Tail(fault) => fault.refusal(),
        }
    }
}

/// The faults in the order in which pack checks.
fn pack_faults() -> Vec<PackFault> {
    let mut faults = vec![
        PackFault::FewValues,
        PackFault::Bit(0),
        PackFault::Bit(47),
        PackFault::Bit(63),
        PackFault::Absent(1),
        PackFault::Value(2),
        PackFault::Absent(3),
        PackFault::Value(4),
        PackFault::Value(45),
        PackFault::Byte,
    ];
    faults.extend(TAIL_FAULTS.map(PackFault::Tail));
    faults.push(PackFault::Output);
    faults
}

/// A fresh report's values with attachment 2 and some faults.
fn pack_with(faults: &[PackFault]) -> Case {
    let observation = observation_with(&[(2, &[7])]);
    let (mut values, mut word) = values_and_word(&observation, 0);
    let mut tail = tail_of(&observation);
    let mut room = 100;
    for fault in faults {
        match *fault {
            PackFault::FewValues => values.truncate(45),
            PackFault::Bit(bit) => word |= 1 << bit,
            PackFault::Absent(field) => word &= !(1 << field),
            PackFault::Value(field) => {
                word |= 1 << field;
                values[field - 1] = fields()[field - 1].highest_value().0 + 1;
            }
            PackFault::Byte => tail[3] = 16,
            PackFault::Tail(fault) => tail.extend(fault.nibbles()),
            PackFault::Output => room = observation.size() - 1,
        }
    }
    Case::Pack {
        values,
        word,
        rptin: 0,
        tail,
        output: vec![0xEE; room],
    }
}

/// Both kinds of 13 are one answer, and so are two bits of 8. A refused tail
/// has no report, so its 13 is an output that would be short without it.
fn pack_pairs() -> Vec<Pair> {
    let mut orders = Vec::new();
    let faults = pack_faults();
    for (index, &first) in faults.iter().enumerate() {
        for &second in &faults[index + 1..] {
            let both_in_tail = matches!((first, second), (PackFault::Tail(_), PackFault::Tail(_)));
            if first.refusal() != second.refusal() && !both_in_tail {
                orders.push((first, second));
            }
        }
    }
    for (first, second) in tail_fault_orders() {
        orders.push((PackFault::Tail(first), PackFault::Tail(second)));
    }
    let mut pairs: Vec<Pair> = orders
        .into_iter()
        .map(|(first, second)| Pair {
            first: first.refusal(),
            second: second.refusal(),
            both: pack_with(&[first, second]),
            mended: pack_with(&[second]),
        })
        .collect();
    for pair in within_one_attachment() {
        let (values, word) = values_and_word(&fresh_observation(), 0);
        let pack = |tail: &[u8]| Case::Pack {
            values: values.clone(),
            word,
            rptin: 0,
            tail: tail.to_vec(),
            output: vec![0xEE; 100],
        };
        pairs.push(Pair {
            first: pair.first,
            second: pair.second,
            both: pack(&pair.both),
            mended: pack(&pair.mended),
        });
    }
    pairs
}

fn fresh_pairs() -> Vec<Pair> {
    let fresh = |bad: &[usize], room: usize| {
        let mut required = [1, 1900, 1, 0, 0];
        for &index in bad {
            let field = fields()[REQUIRED[index] - 1];
            required[index] = field.highest_value().0 + 1;
        }
        Case::Fresh {
            required,
            output: vec![0xEE; room],
        }
    };
    let mut pairs = Vec::new();
    for (first, &field) in REQUIRED.iter().enumerate() {
        for (second, &other) in REQUIRED.iter().enumerate().skip(first + 1) {
            pairs.push(Pair {
                first: refusal(9, field),
                second: refusal(9, other),
                both: fresh(&[first, second], 40),
                mended: fresh(&[second], 40),
            });
        }
        pairs.push(Pair {
            first: refusal(9, field),
            second: refusal(13, 0),
            both: fresh(&[first], 37),
            mended: fresh(&[], 37),
        });
    }
    pairs
}

/// The report's refusal, then 11, then 13 for either output. A text behind a fault of
/// the report would have two symbols.
fn read_out_pairs() -> Vec<Pair> {
    let with_text = |mut report: Draft| {
        report.attach(4, &[1, 12, 1]);
        report.bytes()
    };
    let mut pairs = Vec::new();
    for fault in report_faults() {
        pairs.push(Pair {
            first: fault.refusal(),
            second: refusal(11, 0),
            both: read_out(&report_with(&[fault]), 2, 2),
            mended: read_out(&report_with(&[]), 2, 2),
        });
    }
    let sound = Draft::of(&observation_with(&[(2, &[7])]));
    let mut wrong = sound.clone();
    wrong.card.ck += 1;
    for (text, origins) in [(1, 2), (2, 1), (0, 0)] {
        pairs.push(Pair {
            first: refusal(4, 0),
            second: refusal(13, 0),
            both: read_out(&with_text(wrong.clone()), text, origins),
            mended: read_out(&with_text(sound.clone()), text, origins),
        });
        pairs.push(Pair {
            first: refusal(11, 0),
            second: refusal(13, 0),
            both: read_out(&sound.bytes(), text, origins),
            mended: read_out(&with_text(sound.clone()), text, origins),
        });
    }
    pairs
}

/// Too many symbols, then 13 for either output.
fn costliest_pairs() -> Vec<Pair> {
    let mut pairs = Vec::new();
    for symbols in TOO_MANY {
        for (text, origins) in [(84, 85), (85, 84), (84, 84)] {
            pairs.push(Pair {
                first: refusal(9, 0),
                second: refusal(13, 0),
                both: costliest(symbols, text, origins),
                mended: costliest(85, text, origins),
            });
        }
    }
    pairs
}

/// The report's refusal, then 13 for an output one byte short of what is found.
fn find_indicators_pairs() -> Vec<Pair> {
    let mut pairs = Vec::new();
    for fault in report_faults() {
        for indicators in [&[17][..], &[17, 19, 21, 27, 32, 36]] {
            let mut observation = of_fields(indicators, true);
            observation.attachments = observation_with(&[(2, &[7])]).attachments;
            let case = |faults: &[ReportFault]| {
                let report = observation_with_faults(&observation, faults);
                find(&report, indicators.len() - 1)
            };
            pairs.push(Pair {
                first: fault.refusal(),
                second: refusal(13, 0),
                both: case(&[fault]),
                mended: case(&[]),
            });
        }
    }
    pairs
}

/// The report's refusal, then 8 or 10. The two never meet.
fn clear_with_indicators_pairs() -> Vec<Pair> {
    let clear = |field| Call::ClearWithIndicators { field };
    let mut pairs = Vec::new();
    for fault in report_faults() {
        for (second, call) in [
            (refusal(8, 0), clear(0)),
            (refusal(8, 0), clear(47)),
            (refusal(8, 0), clear(256 + 18)),
            (refusal(10, 1), clear(1)),
            (refusal(10, 7), clear(7)),
        ] {
            pairs.push(Pair {
                first: fault.refusal(),
                second,
                both: one_call(report_with(&[fault]), &call),
                mended: one_call(report_with(&[]), &call),
            });
        }
    }
    pairs
}
