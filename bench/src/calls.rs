//! What each call is measured on.

use std::cell::RefCell;
use std::hint::black_box;

use bench::fast::reader::{Reader, Symbol as Read};
use bench::fast::{calls as fast, flags, script, whole};
use bench::reports::{lone_observations, observation, remarks, small_observation, small_remarks};
use bench::{FlagTable, library};
use reference::attachment::Attachment;
use reference::call::Call;
use reference::cases::material::{
    put_text as call_of, random_flag_table, random_flags, random_value, tail_of, values_and_word,
};
use reference::gate::script::script as script_of;
use reference::observation::Observation;
use reference::prng::Prng;
use reference::table::REQUIRED;
use reference::text::{self, Symbol};

use crate::measure::{Line, measure};

/// Room behind the report in its buffer.
const ROOM: usize = 256;
/// Arguments are taken in turn from a row of so many.
const ROW: usize = 64;
/// The table that both sides are lent: every flag is permitted.
static TABLE: FlagTable = [[1; 10]; 14];

struct Bed {
    size: usize,
    observation: Observation,
    /// The report, and room behind it.
    report: Vec<u8>,
    prng: Prng,
}

impl Bed {
    fn new(size: usize) -> Bed {
        Bed::of(size, observation(size))
    }

    fn of(size: usize, observation: Observation) -> Bed {
        let mut report = observation.packing();
        report.resize(size + ROOM, 0xA5);
        Bed {
            size,
            observation,
            report,
            prng: Prng::new(size as u64 + 1),
        }
    }

    fn row<T>(&mut self, mut make: impl FnMut(&mut Prng) -> T) -> [T; ROW] {
        std::array::from_fn(|_| make(&mut self.prng))
    }

    /// Measures a call that leaves its buffers as they were, or works on what the turn before left.
    /// The buffer is taken from its vector in each turn: the two words of a slice that was only
    /// just stored are read as one for arguments on the stack, which waits for those stores.
    fn steady<A>(
        &self,
        name: &'static str,
        row: &[A; ROW],
        here: impl Fn(&mut [u8], &A, &FlagTable),
        rust: impl Fn(&mut [u8], &A, &FlagTable),
    ) -> Line {
        let mut ours = self.report.clone();
        let mut theirs = self.report.clone();
        measure(
            name,
            self.size,
            &mut |turns| {
                for i in 0..turns {
                    here(
                        black_box(&mut ours).as_mut_slice(),
                        black_box(&row[i % ROW]),
                        black_box(&TABLE),
                    );
                }
            },
            &mut |turns| {
                for i in 0..turns {
                    rust(
                        black_box(&mut theirs).as_mut_slice(),
                        black_box(&row[i % ROW]),
                        black_box(&TABLE),
                    );
                }
            },
        )
    }

    /// The same of a call that changes the report's length: each turn begins with a copy of
    /// the report, on both sides alike and within the time.
    fn restored<A>(
        &self,
        name: &'static str,
        row: &[A; ROW],
        here: impl Fn(&mut [u8], &A, &FlagTable),
        rust: impl Fn(&mut [u8], &A, &FlagTable),
    ) -> Line {
        let report = &self.report[..];
        self.steady(
            name,
            row,
            |s, a, t| {
                s.copy_from_slice(report);
                here(black_box(s), a, t);
            },
            |s, a, t| {
                s.copy_from_slice(report);
                rust(black_box(s), a, t);
            },
        )
    }

    fn ids(&self) -> Vec<usize> {
        let ids = self.observation.attachments.iter();
        ids.map(|attachment| attachment.id as usize).collect()
    }
}

fn judge(bed: &mut Bed) -> Line {
    bed.steady(
        "judge",
        &[(); ROW],
        |s, _, t| {
            black_box(library::judge(s, t));
        },
        |s, _, t| {
            black_box(fast::judge(s, t)).ok();
        },
    )
}

/// Writes 38 bytes whatever the buffer's length.
fn fresh(bed: &mut Bed) -> Option<Line> {
    if bed.size > 38 {
        return None;
    }
    let row = bed.row(|prng| REQUIRED.map(|k| random_value(prng, k).0));
    Some(bed.steady(
        "fresh",
        &row,
        |s, v, _| {
            black_box(library::fresh(*v, s));
        },
        |s, v, _| {
            black_box(whole::fresh(*v, s)).ok();
        },
    ))
}

/// Takes no report, so that it is measured once.
fn all_flags(bed: &mut Bed) -> Option<Line> {
    if bed.size > 38 {
        return None;
    }
    let mut ours = [[0; 10]; 14];
    let mut theirs = [[0; 10]; 14];
    Some(measure(
        "all_flags",
        bed.size,
        &mut |turns| {
            for _ in 0..turns {
                library::all_flags(black_box(&mut ours));
            }
        },
        &mut |turns| {
            for _ in 0..turns {
                flags::all_flags(black_box(&mut theirs));
            }
        },
    ))
}

/// Takes no report, so that it is measured once. Every table is accepted. Of the answer only one
/// number is looked at: an answer stored just before is read as words of 16 bytes, which waits.
fn load_flags(bed: &mut Bed) -> Option<Line> {
    if bed.size > 38 {
        return None;
    }
    let row = bed.row(|prng| random_flag_table(prng).marks());
    let mut ours = TABLE;
    let mut theirs = TABLE;
    Some(measure(
        "load_flags",
        bed.size,
        &mut |turns| {
            for i in 0..turns {
                let marks = black_box(&row[i % ROW]);
                black_box(library::load_flags(marks, black_box(&mut ours)).refusal);
            }
        },
        &mut |turns| {
            for i in 0..turns {
                let marks = black_box(&row[i % ROW]);
                black_box(flags::load_flags(marks, black_box(&mut theirs)).is_ok());
            }
        },
    ))
}

/// Takes no report, so that it is measured once.
fn characters(bed: &mut Bed) -> Option<Line> {
    if bed.size > 38 {
        return None;
    }
    let mut ours = [0; 256];
    let mut theirs = [0; 256];
    Some(measure(
        "characters",
        bed.size,
        &mut |turns| {
            for _ in 0..turns {
                library::characters(black_box(&mut ours));
            }
        },
        &mut |turns| {
            for _ in 0..turns {
                fast::characters(black_box(&mut theirs));
            }
        },
    ))
}

/// Takes no report, so that it is measured once: 85 symbols, to outputs that just have room.
fn costliest(bed: &mut Bed) -> Option<Line> {
    if bed.size > 38 {
        return None;
    }
    let mut ours = ([0; 85], [0; 85]);
    let mut theirs = ([0; 85], [0; 85]);
    Some(measure(
        "costliest",
        bed.size,
        &mut |turns| {
            for _ in 0..turns {
                let (bytes, origins) = black_box(&mut ours);
                black_box(library::costliest_text(black_box(85), bytes, origins).refusal);
            }
        },
        &mut |turns| {
            for _ in 0..turns {
                let (bytes, origins) = black_box(&mut theirs);
                black_box(fast::costliest_text(black_box(85), bytes, origins).is_ok());
            }
        },
    ))
}

/// The measured reports have all data and mostly attachment 5, so that nothing would be found. In
/// turn there are eight in which none, one, two or six indicators have lost theirs.
fn find_indicators(bed: &mut Bed) -> Line {
    let reports = lone_observations(bed.size).map(|observation| {
        let mut report = observation.packing();
        report.resize(bed.size + ROOM, 0xA5);
        report
    });
    let row = bed.row(|prng| prng.below(reports.len()));
    let (ours, theirs) = (RefCell::new([0u8; 6]), RefCell::new([0u8; 6]));
    bed.steady(
        "find_indicators",
        &row,
        |_, index, t| {
            let report = black_box(&reports[*index]);
            let out = &mut *ours.borrow_mut();
            black_box(library::find_indicators(report, black_box(out), t));
        },
        |_, index, t| {
            let report = black_box(&reports[*index]);
            let out = &mut *theirs.borrow_mut();
            black_box(fast::find_indicators(report, black_box(out), t)).ok();
        },
    )
}

fn unpack(bed: &mut Bed) -> Line {
    let room = tail_of(&bed.observation).len();
    let outputs = || (vec![0i64; 46], vec![0u8; room]);
    let (ours, theirs) = (RefCell::new(outputs()), RefCell::new(outputs()));
    bed.steady(
        "unpack",
        &[(); ROW],
        |s, _, t| {
            let (values, tail) = &mut *ours.borrow_mut();
            let mut contents = [0; 6];
            black_box(library::unpack(s, values, tail, &mut contents, t));
            black_box((contents, values, tail));
        },
        |s, _, t| {
            let (values, tail) = &mut *theirs.borrow_mut();
            let mut contents = whole::Contents::default();
            black_box(whole::unpack(s, values, tail, &mut contents, t)).ok();
            black_box((contents, values, tail));
        },
    )
}

fn pack(bed: &mut Bed) -> Line {
    let (values, word) = values_and_word(&bed.observation, 0);
    let tail = tail_of(&bed.observation);
    bed.steady(
        "pack",
        &[(); ROW],
        |s, _, t| {
            black_box(library::pack(
                black_box(&values),
                word,
                0x1234,
                black_box(&tail),
                s,
                t,
            ));
        },
        |s, _, t| {
            black_box(whole::pack(
                black_box(&values),
                word,
                0x1234,
                black_box(&tail),
                s,
                t,
            ))
            .ok();
        },
    )
}

fn read_field(bed: &mut Bed) -> Line {
    let row = bed.row(|prng| 1 + prng.below(46));
    bed.steady(
        "read_field",
        &row,
        |s, k, t| {
            black_box(library::read_field(s, *k, t));
        },
        |s, k, t| {
            black_box(fast::read_field(s, *k, t)).ok();
        },
    )
}

fn set_field(bed: &mut Bed) -> Line {
    let row = bed.row(|prng| {
        let k = 1 + prng.below(46);
        (k, random_value(prng, k).0)
    });
    bed.steady(
        "set_field",
        &row,
        |s, (k, v), t| {
            black_box(library::set_field(s, *k, *v, t));
        },
        |s, (k, v), t| {
            black_box(fast::set_field(s, *k, *v, t)).ok();
        },
    )
}

fn clear_field(bed: &mut Bed) -> Line {
    let row = bed.row(|prng| 8 + prng.below(39));
    bed.steady(
        "clear_field",
        &row,
        |s, k, t| {
            black_box(library::clear_field(s, *k, t));
        },
        |s, k, t| {
            black_box(fast::clear_field(s, *k, t)).ok();
        },
    )
}

/// The fields of clear_field's row. Like those they are missing after the first turns, and so are
/// the indicators that have gone with them.
fn clear_with_indicators(bed: &mut Bed) -> Line {
    let row = bed.row(|prng| 8 + prng.below(39));
    bed.steady(
        "clear_with_indicators",
        &row,
        |s, k, t| {
            black_box(library::clear_with_indicators(s, *k, t));
        },
        |s, k, t| {
            black_box(fast::clear_with_indicators(s, *k, t)).ok();
        },
    )
}

fn read_flag(bed: &mut Bed) -> Line {
    let row = bed.row(|prng| 1 + prng.below(14));
    bed.steady(
        "read_flag",
        &row,
        |s, j, t| {
            black_box(library::read_flag(s, *j, t));
        },
        |s, j, t| {
            black_box(fast::read_flag(s, *j, t)).ok();
        },
    )
}

fn set_flag(bed: &mut Bed) -> Line {
    let row = bed.row(|prng| (1 + prng.below(14), 1 + prng.below(10)));
    bed.steady(
        "set_flag",
        &row,
        |s, (j, v), t| {
            black_box(library::set_flag(s, *j, *v, t));
        },
        |s, (j, v), t| {
            black_box(fast::set_flag(s, *j, *v, t)).ok();
        },
    )
}

fn clear_flag(bed: &mut Bed) -> Line {
    let row = bed.row(|prng| 1 + prng.below(14));
    bed.steady(
        "clear_flag",
        &row,
        |s, j, t| {
            black_box(library::clear_flag(s, *j, t));
        },
        |s, j, t| {
            black_box(fast::clear_flag(s, *j, t)).ok();
        },
    )
}

type Content = (usize, Vec<u8>);

fn put_line(bed: &Bed, name: &'static str, row: &[Content; ROW], restored: bool) -> Line {
    let here = |s: &mut [u8], (id, content): &Content, t: &FlagTable| {
        black_box(library::put(s, *id, content, t));
    };
    let rust = |s: &mut [u8], (id, content): &Content, t: &FlagTable| {
        black_box(fast::put(s, *id, content, t)).ok();
    };
    if restored {
        bed.restored(name, row, here, rust)
    } else {
        bed.steady(name, row, here, rust)
    }
}

/// A content of as many nibbles as an attachment has.
fn alike(prng: &mut Prng, attachment: &Attachment) -> Vec<u8> {
    match attachment.id {
        1 => random_flags(prng),
        4 => attachment.nibbles.clone(),
        _ => prng.nibbles(attachment.nibbles.len()),
    }
}

fn put_replace(bed: &mut Bed) -> Option<Line> {
    let standing = bed.observation.attachments.clone();
    if standing.is_empty() {
        return None;
    }
    let row = bed.row(|prng| {
        let attachment = prng.pick(&standing);
        (attachment.id as usize, alike(prng, &attachment))
    });
    Some(put_line(bed, "put_replace", &row, false))
}

/// An id that does not stand. The longest report has them all: its last one is taken off first.
fn put_append(bed: &mut Bed) -> Line {
    let ids = bed.ids();
    let free = (1..=15).rev().find(|id| !ids.contains(id));
    let mut shorter;
    let (bed, id) = match free {
        Some(id) => (bed, id),
        None => {
            shorter = Bed::new(bed.size);
            let last = shorter
                .observation
                .attachments
                .pop()
                .expect("fifteen stand");
            let mut report = shorter.observation.packing();
            report.resize(bed.size + ROOM, 0);
            shorter.report = report;
            (&mut shorter, last.id as usize)
        }
    };
    let row = bed.row(|prng| (id, prng.nibbles(120)));
    put_line(bed, "put_append", &row, true)
}

/// The first long attachment made shorter by an odd number, so that all behind it moves.
fn put_shorten(bed: &mut Bed) -> Option<Line> {
    let standing = bed.observation.attachments.get(1)?.clone();
    let length = standing.nibbles.len() - 11;
    let row = bed.row(|prng| (standing.id as usize, prng.nibbles(length)));
    Some(put_line(bed, "put_shorten", &row, true))
}

fn fetch(bed: &mut Bed) -> Line {
    let mut ids = bed.ids();
    if ids.is_empty() {
        ids.push(5);
    }
    let row = bed.row(|prng| prng.pick(&ids));
    let (ours, theirs) = (RefCell::new([0u8; 255]), RefCell::new([0u8; 255]));
    bed.steady(
        "fetch",
        &row,
        |s, id, t| {
            black_box(library::fetch(
                s,
                *id,
                black_box(&mut *ours.borrow_mut()),
                t,
            ));
        },
        |s, id, t| {
            black_box(fast::fetch(s, *id, black_box(&mut *theirs.borrow_mut()), t)).ok();
        },
    )
}

fn drop_line(bed: &mut Bed) -> Line {
    let mut ids = bed.ids();
    if ids.is_empty() {
        ids.push(5);
    }
    let row = bed.row(|prng| prng.pick(&ids));
    bed.restored(
        "drop",
        &row,
        |s, id, t| {
            black_box(library::remove(s, *id, t));
        },
        |s, id, t| {
            black_box(fast::remove(s, *id, t)).ok();
        },
    )
}

/// The bytes of a text and its origins.
type Text = (Vec<u8>, Vec<u8>);

/// Texts as long as the one that stands, each with another digit.
fn put_text_line(bed: &mut Bed, name: &'static str, remarks: fn(usize) -> Vec<Symbol>) -> Line {
    let stands = bed.observation.content(4).is_some();
    let length = bed.observation.content(4).map_or(120, <[u8]>::len);
    let row = bed.row(|prng| {
        let symbols = remarks(length);
        let (mut bytes, origins) = (text::bytes(&symbols), text::origins(&symbols));
        let index = prng.below(bytes.len());
        if bytes[index].is_ascii_digit() {
            bytes[index] = b'0' + prng.below(10) as u8;
        }
        (bytes, origins)
    });
    let here = |s: &mut [u8], (bytes, origins): &Text, t: &FlagTable| {
        black_box(library::put_text(s, bytes, origins, t));
    };
    let rust = |s: &mut [u8], (bytes, origins): &Text, t: &FlagTable| {
        black_box(fast::put_text(s, bytes, origins, t)).ok();
    };
    if stands {
        bed.steady(name, &row, here, rust)
    } else {
        bed.restored(name, &row, here, rust)
    }
}

fn fetch_text_line(bed: &Bed, name: &'static str) -> Line {
    let outputs = || RefCell::new(([0u8; 2300], [0u8; 2300]));
    let (ours, theirs) = (outputs(), outputs());
    bed.steady(
        name,
        &[(); ROW],
        |s, _, t| {
            let (bytes, origins) = &mut *ours.borrow_mut();
            black_box(library::fetch_text(
                s,
                black_box(bytes),
                black_box(origins),
                t,
            ));
        },
        |s, _, t| {
            let (bytes, origins) = &mut *theirs.borrow_mut();
            black_box(fast::fetch_text(s, black_box(bytes), black_box(origins), t)).ok();
        },
    )
}

/// A reader opened and read out. Each step is a call, and its symbol goes into a sum.
fn read_text_line(bed: &Bed, name: &'static str) -> Line {
    bed.steady(
        name,
        &[(); ROW],
        |s, _, t| {
            let mut reader = [0; 5];
            black_box(library::open_text(s, &mut reader, t));
            let mut sum = 0;
            loop {
                let symbol = library::next_symbol(s, &mut reader);
                if symbol.kind == 0 {
                    break;
                }
                sum += symbol.kind << 8 | symbol.byte;
            }
            black_box(sum);
        },
        |s, _, t| {
            let mut reader = Reader::open(s, t);
            black_box(&reader.refusal);
            let mut sum = 0;
            loop {
                match reader.next() {
                    None => break,
                    Some(Read::Plain(byte)) => sum += 1 << 8 | u32::from(byte),
                    Some(Read::Original(byte)) => sum += 2 << 8 | u32::from(byte),
                }
            }
            black_box(sum);
        },
    )
}

/// The report of this size whose text is in small letters; without a text it is as the other.
fn small(bed: &Bed) -> Option<Bed> {
    let size = bed.size;
    bed.observation.content(4)?;
    Some(Bed::of(size, small_observation(size)))
}

/// A list of twenty calls after which the report is as long as before.
fn list(bed: &mut Bed) -> Vec<Call> {
    let mut calls = Vec::new();
    for _ in 0..4 {
        let field = 8 + bed.prng.below(39) as u64;
        let value = random_value(&mut bed.prng, field as usize).0;
        calls.push(Call::ReadField { field });
        calls.push(Call::SetField { field, value });
    }
    calls.push(Call::ClearField { field: 20 });
    for flag in [3, 9] {
        calls.push(Call::ReadFlag { flag });
        calls.push(Call::SetFlag { flag, value: 5 });
    }
    calls.push(Call::ClearFlag { flag: 3 });
    if let Some(attachment) = bed.observation.attachments.last() {
        let id = attachment.id.into();
        let output = vec![0; 255];
        calls.push(Call::Fetch { id, output });
        calls.push(Call::Drop { id });
        let content = attachment.nibbles.clone();
        calls.push(Call::Put { id, content });
    } else {
        let (id, content) = (9, vec![7; 77]);
        calls.push(Call::Put { id, content });
        let output = vec![0; 255];
        calls.push(Call::Fetch { id, output });
        calls.push(Call::Drop { id });
    }
    let length = bed.observation.content(4).map_or(120, <[u8]>::len);
    calls.push(call_of(&remarks(length)));
    calls.push(Call::FetchText {
        text: vec![0; 400],
        origins: vec![0; 400],
    });
    calls.push(if bed.observation.content(4).is_some() {
        Call::ReadField { field: 46 }
    } else {
        Call::Drop { id: 4 }
    });
    calls
}

fn replay(bed: &mut Bed) -> Line {
    let entries = script_of(&list(bed));
    let (ours, theirs) = (RefCell::new(vec![0u8; 2048]), RefCell::new(vec![0u8; 2048]));
    bed.steady(
        "replay_20",
        &[(); ROW],
        |s, _, t| {
            black_box(library::replay(s, &entries, &mut ours.borrow_mut(), t));
        },
        |s, _, t| {
            black_box(script::replay(s, &entries, &mut theirs.borrow_mut(), t));
        },
    )
}

type Measured = fn(&mut Bed) -> Option<Line>;

const CALLS: [(&str, Measured); 28] = [
    ("judge", |bed| Some(judge(bed))),
    ("fresh", fresh),
    ("unpack", |bed| Some(unpack(bed))),
    ("pack", |bed| Some(pack(bed))),
    ("read_field", |bed| Some(read_field(bed))),
    ("set_field", |bed| Some(set_field(bed))),
    ("clear_field", |bed| Some(clear_field(bed))),
    ("clear_with_indicators", |bed| {
        Some(clear_with_indicators(bed))
    }),
    ("read_flag", |bed| Some(read_flag(bed))),
    ("set_flag", |bed| Some(set_flag(bed))),
    ("clear_flag", |bed| Some(clear_flag(bed))),
    ("put_replace", put_replace),
    ("put_append", |bed| Some(put_append(bed))),
    ("put_shorten", put_shorten),
    ("fetch", |bed| Some(fetch(bed))),
    ("drop", |bed| Some(drop_line(bed))),
    ("put_text", |bed| {
        Some(put_text_line(bed, "put_text", remarks))
    }),
    ("put_small", |bed| {
        let mut bed = Bed::of(bed.size, small_observation(bed.size));
        Some(put_text_line(&mut bed, "put_small", small_remarks))
    }),
    ("fetch_text", |bed| Some(fetch_text_line(bed, "fetch_text"))),
    ("fetch_small", |bed| {
        Some(fetch_text_line(&small(bed)?, "fetch_small"))
    }),
    ("read_text", |bed| Some(read_text_line(bed, "read_text"))),
    ("read_small", |bed| {
        Some(read_text_line(&small(bed)?, "read_small"))
    }),
    ("find_indicators", |bed| Some(find_indicators(bed))),
    ("costliest", costliest),
    ("characters", characters),
    ("all_flags", all_flags),
    ("load_flags", load_flags),
    ("replay_20", |bed| Some(replay(bed))),
];

/// Measures the calls on a report of this size, or the one of a name.
pub fn measured(size: usize, only: Option<&str>) -> Vec<Line> {
    let mut lines = Vec::new();
    for (name, call) in CALLS {
        if only.is_none_or(|only| name == only) {
            lines.extend(call(&mut Bed::new(size)));
        }
    }
    lines
}
