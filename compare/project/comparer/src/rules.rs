//! The rules that the port follows, written down as simply as can be.
//!
//! Rows on which both sides agree are not held against these rules. They serve
//! to say which queries fall under a known fault of the original, and what
//! each side must then answer.

use crate::{
    answer::{LookUp, Window, hash},
    query::Query,
    source::Source,
};

/// A line break: its first and its last byte.
pub struct Break {
    pub start: u64,
    pub end: u64,
}

/// All breaks: CR LF together, a CR with no LF after it, an LF with no CR
/// before it.
pub fn breaks(text: &[u8]) -> Vec<Break> {
    let mut found = Vec::new();
    for (place, &byte) in text.iter().enumerate() {
        let start = match byte {
            b'\r' if text.get(place + 1) == Some(&b'\n') => continue,
            b'\n' if place > 0 && text[place - 1] == b'\r' => place - 1,
            b'\r' | b'\n' => place,
            _ => continue,
        };
        found.push(Break { start: start as u64, end: place as u64 });
    }
    found
}

/// Whether a query has a window at all.
pub fn has_window(source: &Source, query: &Query) -> bool {
    let past = source.len() + 1;
    let Query { span, context } = query;
    let empty_past_the_end =
        context.before == 0 && span.length == 0 && u64::from(span.offset) == past;
    span.end() <= past && !empty_past_the_end
}

/// The payload of a query.
pub fn window(source: &Source, query: &Query) -> Option<Window> {
    if !has_window(source, query) {
        return None;
    }
    let offset = u64::from(query.span.offset);
    let line = breaks_before(source, offset).saturating_sub(u64::from(query.context.before));
    let start = if query.context.before == 0 { offset } else { line_start(source, line) };
    let end = window_end(source, query);
    let data = &source.text()[start as usize..end as usize];
    Some(Window {
        start,
        length: end - start,
        line,
        column: column(source, start),
        line_count: breaks_before(source, end),
        data_length: data.len() as u64,
        data_hash: hash(data),
    })
}

fn window_end(source: &Source, query: &Query) -> u64 {
    let last = query.span.last();
    if last == source.len() as i64 {
        return source.len();
    }
    if query.context.after == 0 {
        let holder = source.breaks().iter().find(|b| holds(b, last));
        return holder.map_or((last + 1) as u64, |b| b.end + 1);
    }
    let mut trailing = source.breaks().iter().filter(|b| b.start as i64 > last);
    trailing.nth(query.context.after as usize).map_or(source.len(), |b| b.end + 1)
}

const fn holds(line_break: &Break, place: i64) -> bool {
    line_break.start as i64 <= place && place <= line_break.end as i64
}

/// How many breaks end before an offset: the line that the offset is on.
fn breaks_before(source: &Source, offset: u64) -> u64 {
    source.breaks().iter().filter(|b| b.end < offset).count() as u64
}

fn line_start(source: &Source, line: u64) -> u64 {
    if line == 0 { 0 } else { source.breaks()[line as usize - 1].end + 1 }
}

/// The column of an offset; the LF of a CR LF has that of the CR.
fn column(source: &Source, offset: u64) -> u64 {
    let inside = source.breaks().iter().any(|b| b.start < offset && offset == b.end);
    let place = if inside { offset - 1 } else { offset };
    place - line_start(source, breaks_before(source, offset))
}

/// A look-up in a payload of the source.
pub fn look_up(source: &Source, window: &Window, at: u32) -> LookUp {
    let end = window.start + window.length;
    if u64::from(at) > end {
        return LookUp::Nothing;
    }
    let data = &source.text()[window.start as usize..end as usize];
    let mut place = u64::from(at).saturating_sub(window.start) as usize;
    if place > 0 && place < data.len() && &data[place - 1..=place] == b"\r\n" {
        place -= 1;
    }
    let passed = breaks(&data[..place]);
    LookUp::Place {
        line: window.line + passed.len() as u64,
        column: match passed.last() {
            Some(last) => place as u64 - (last.end + 1),
            None => window.column + place as u64,
        },
    }
}
