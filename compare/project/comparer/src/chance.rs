//! Random inputs, drawn so that the edges come up often.

use std::cmp::Reverse;

use crate::{
    query::{Context, Query, Span},
    random::Random,
    rules::Break,
    source::Source,
};

/// Bytes between the breaks: common ones, neighbours of CR and LF, and ones
/// that differ from them in the highest bit.
const FILL: &[u8] = b"xy z\x09\x0b\x0c\x0e\x00\x1a\x1d\x8a\x8d\xff";

/// Line lengths: very short, around 16, 64 and 256, and of any size.
const LINE_LENGTHS: [(u32, u32); 5] = [(0, 2), (12, 20), (60, 68), (250, 262), (0, 700)];

/// The ways to break lines: one kind throughout, or a mixture.
const BREAK_STYLES: [&[&str]; 5] =
    [&["\n"], &["\r\n"], &["\r"], &["\n", "\r\n", "\r"], &["\n\r", "\r\r\n", "\n\n", "\r\n\r\n"]];

const HUGE: [u32; 4] = [u32::MAX, u32::MAX - 1, 1 << 31, (1 << 31) - 1];

/// A source of up to a few bytes, most of them breaks.
pub fn short_source(random: &mut Random, longest: u32) -> Source {
    let length = random.between(0, longest);
    Source::new(&(0..length).map(|_| random.pick(b"x\r\n")).collect::<Vec<u8>>())
}

/// A source of a length between the two. It may end inside a CR LF.
pub fn long_source(random: &mut Random, (shortest, longest): (u32, u32)) -> Source {
    let length = random.between(shortest, longest) as usize;
    let one_line_length = random.pick(&[true, false]);
    let usual = random.pick(&LINE_LENGTHS);
    let breaks = random.pick(&BREAK_STYLES);
    let mut text = Vec::new();
    while text.len() < length {
        let (low, high) = if one_line_length { usual } else { random.pick(&LINE_LENGTHS) };
        text.extend((0..random.between(low, high)).map(|_| random.pick(FILL)));
        text.extend(random.pick(breaks).bytes());
    }
    text.truncate(length);
    Source::new(&text)
}

pub fn query(random: &mut Random, source: &Source) -> Query {
    Query { span: span(random, source), context: context(random) }
}

/// A context: mostly small, at times larger than any source.
pub fn context(random: &mut Random) -> Context {
    Context { before: lines(random), after: lines(random) }
}

fn lines(random: &mut Random) -> u32 {
    match random.between(0, 9) {
        0..=5 => random.between(0, 3),
        6 | 7 => random.between(0, 20),
        8 => random.between(0, 300),
        _ => random.pick(&HUGE),
    }
}

pub fn span(random: &mut Random, source: &Source) -> Span {
    let offset = offset(random, source);
    Span { offset, length: length(random, source, offset) }
}

/// An offset: anywhere, by a break, by the end, at times far past the end.
fn offset(random: &mut Random, source: &Source) -> u32 {
    let end = source.len() as u32;
    match random.between(0, 15) {
        0..=5 => random.between(0, end + 2),
        6..=11 if !source.breaks().is_empty() => by_a_break(random, source.breaks()),
        12..=14 => random.between(end.saturating_sub(3), end + 2),
        15 => random.pick(&HUGE),
        _ => 0,
    }
}

fn by_a_break(random: &mut Random, breaks: &[Break]) -> u32 {
    let place = random.between(0, breaks.len() as u32 - 1) as usize;
    let Break { start, end } = breaks[place];
    random.between((start as u32).saturating_sub(2), end as u32 + 2)
}

/// A length: small, up to a break or to the end, anything, at times huge. But
/// for the last, the span ends at most two past the source's end.
fn length(random: &mut Random, source: &Source, offset: u32) -> u32 {
    let room = (source.len() as u32 + 2).saturating_sub(offset);
    match random.between(0, 15) {
        0..=6 => random.between(0, room.min(3)),
        7 | 8 => random.between(0, room.min(80)),
        9..=11 if !source.breaks().is_empty() => {
            by_a_break(random, source.breaks()).saturating_sub(offset)
        }
        12 => room - random.between(0, room.min(2)),
        13 | 14 => random.between(0, room),
        15 => random.pick(&HUGE),
        _ => 0,
    }
}

/// The labels of one report: three to twelve spans, in rising, falling or any
/// order.
pub fn labels(random: &mut Random, source: &Source) -> Vec<Span> {
    let count = random.between(3, 12);
    let mut labels: Vec<Span> = (0..count).map(|_| span(random, source)).collect();
    match random.between(0, 3) {
        0 => labels.sort_by_key(|label| label.offset),
        1 => labels.sort_by_key(|label| Reverse(label.offset)),
        _ => {}
    }
    labels
}
