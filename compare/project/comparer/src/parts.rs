//! The three things that are compared, one row or one run of rows at a time.

use crate::{
    answer::{LookUp, Read},
    class::{explain_look_up, explain_read},
    query::{Context, Query, Span},
    source::Source,
    tally::Tally,
    the_original, the_port,
};

/// (a) One read on its own: one row.
pub fn compare_read(source: &Source, query: &Query, tally: &mut Tally) {
    let original = the_original::read(source, query);
    add_read(source, query, &original, tally, || format!("source {source}, {query}"));
}

/// (b) Reads of many spans on one scanner, each against the port's read of
/// that span alone: one row a span, up to the first panic.
pub fn compare_scan(source: &Source, context: Context, spans: &[Span], tally: &mut Tally) {
    let mut scanner = the_original::Scanner::new(source, context);
    for (place, &span) in spans.iter().enumerate() {
        let original = scanner.read(span);
        add_read(source, &Query { span, context }, &original, tally, || {
            describe_scan(source, context, &spans[..=place])
        });
        if matches!(original, Read::Failed(_)) {
            return;
        }
    }
}

/// (c) Look-ups in the payload of a read, at every offset up to two past the
/// payload's end and at the largest offset: one row each. Where the original
/// has no payload there is one row, in which the port must have none either.
pub fn compare_look_ups(source: &Source, query: &Query, tally: &mut Tally) {
    match the_original::payload(source, query) {
        Ok(Some(payload)) => {
            for at in (0..=payload.end() + 2).chain([u32::MAX]) {
                add_look_up(source, query, at, &payload.look_up(at), tally);
            }
        }
        Ok(None) => add_look_up(source, query, 0, &LookUp::NoWindow, tally),
        Err(reason) => add_look_up(source, query, 0, &LookUp::Failed(reason), tally),
    }
}

fn add_read(
    source: &Source,
    query: &Query,
    original: &Read,
    tally: &mut Tally,
    input: impl FnOnce() -> String,
) {
    let port = the_port::read(source, query);
    tally.add(original, &port, || explain_read(source, query, original, &port), input);
}

fn add_look_up(source: &Source, query: &Query, at: u32, original: &LookUp, tally: &mut Tally) {
    let port = the_port::look_up(source, query, at);
    tally.add(
        original,
        &port,
        || explain_look_up(source, query, at, original, &port),
        || format!("source {source}, {query}, look-up at {at}"),
    );
}

fn describe_scan(source: &Source, context: Context, spans: &[Span]) -> String {
    let list: Vec<String> = spans.iter().map(Span::to_string).collect();
    let list = list.join(" ");
    format!("source {source}, context {context}, the last of these on one scanner: {list}")
}
