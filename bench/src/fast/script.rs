//! A script of calls performed on one buffer, and the log of their answers.

use super::{Answer, Label, calls, given};
use crate::FlagTable;

#[derive(Clone, Copy, Debug, Default, PartialEq, Eq)]
pub struct Performed {
    pub calls: usize,
    pub taken: usize,
    pub written: usize,
}

#[inline(always)]
fn number(s: &[u8]) -> Option<(u64, &[u8])> {
    let (n, rest) = s.split_first_chunk::<8>()?;
    Some((u64::from_be_bytes(*n), rest))
}

/// As many bytes as the number at the head says.
#[inline(always)]
fn counted(s: &[u8]) -> Option<(&[u8], &[u8])> {
    let (n, rest) = number(s)?;
    rest.split_at_checked(n as usize)
}

/// A record without its outputs: ten bytes, and three numbers with their labels.
const FRONT: usize = 37;

/// Writes a record up to its outputs, with one number at most.
#[inline(always)]
fn record(front: &mut [u8; FRONT], answer: Answer) {
    let (accepted, refusal, place, label, number) = match answer {
        Err(r) => (0, r.number, r.place, 0, 0),
        Ok(g) => (1, 0, 0, g.label as u8, g.number),
    };
    *front = [0; FRONT];
    front[0] = accepted;
    front[1] = refusal;
    front[9] = place;
    front[10] = label;
    front[11..19].copy_from_slice(&number.to_be_bytes());
}

/// Performs the entry at the head of a script; what is left of it, and how much was written.
#[inline(always)]
fn perform<'a>(
    b: &mut [u8],
    script: &'a [u8],
    log: &mut [u8],
    table: &FlagTable,
) -> Option<(&'a [u8], usize)> {
    let (&kind, rest) = script.split_first()?;
    let (front, behind) = log.split_first_chunk_mut::<FRONT>()?;
    let (k, after) = number(rest)?;
    let k = k as usize;
    let mut text = None;
    let (answer, rest, written) = match kind {
        1 => (calls::read_field(b, k, table), after, FRONT),
        2 => {
            let (v, after) = number(after)?;
            (calls::set_field(b, k, v as i64, table), after, FRONT)
        }
        3 => (calls::clear_field(b, k, table), after, FRONT),
        4 => (calls::read_flag(b, k, table), after, FRONT),
        5 => {
            let (v, after) = number(after)?;
            (calls::set_flag(b, k, v as usize, table), after, FRONT)
        }
        6 => (calls::clear_flag(b, k, table), after, FRONT),
        7 => {
            let (content, after) = counted(after)?;
            (calls::put(b, k, content, table), after, FRONT)
        }
        8 => {
            let (output, after) = counted(after)?;
            let out = behind.get_mut(..output.len())?;
            out.copy_from_slice(output);
            (calls::fetch(b, k, out, table), after, FRONT + output.len())
        }
        9 => (calls::remove(b, k, table), after, FRONT),
        10 => {
            let (text, after) = counted(rest)?;
            let (origins, after) = counted(after)?;
            (calls::put_text(b, text, origins, table), after, FRONT)
        }
        11 => {
            let (first, after) = counted(rest)?;
            let (second, after) = counted(after)?;
            let outputs = first.len() + second.len();
            let (out, origins) = behind.get_mut(..outputs)?.split_at_mut(first.len());
            out.copy_from_slice(first);
            origins.copy_from_slice(second);
            let fetched = calls::fetch_text(b, out, origins, table);
            text = fetched.ok();
            let answer = fetched.map(|fetched| given(Label::Count, fetched.symbols as i64));
            (answer, after, FRONT + outputs)
        }
        12 => (calls::clear_with_indicators(b, k, table), after, FRONT),
        _ => return None,
    };
    record(front, answer);
    if let Some(fetched) = text {
        front[19] = Label::Deck as u8;
        front[27] = fetched.set as u8;
        front[28] = Label::Nibbles as u8;
        front[36] = fetched.nibbles;
    }
    Some((rest, written))
}

#[inline(never)]
pub fn replay(b: &mut [u8], script: &[u8], log: &mut [u8], table: &FlagTable) -> Performed {
    let mut done = Performed::default();
    let mut rest = script;
    while let Some((behind, written)) = perform(b, rest, &mut log[done.written..], table) {
        done.calls += 1;
        done.written += written;
        rest = behind;
    }
    done.taken = script.len() - rest.len();
    done
}
