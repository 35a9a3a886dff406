//! Short inputs: all of them up to a length.

use crate::{
    query::{Context, Query, Span},
    source::Source,
};

/// The bytes of short sources: one that is no break, and the two that are.
const ALPHABET: [u8; 3] = *b"x\r\n";

/// How far past the source's end a span may reach.
const PAST: u32 = 2;

/// Every source up to a length, shortest first.
pub fn sources(longest: u32) -> impl Iterator<Item = Source> {
    (0..=longest)
        .flat_map(|length| (0..3_usize.pow(length)).map(move |number| source(length, number)))
}

/// The source of a length whose bytes are the digits of a number to base 3.
fn source(length: u32, number: usize) -> Source {
    let digit = |place| ALPHABET[number / 3_usize.pow(length - 1 - place) % 3];
    Source::new(&(0..length).map(digit).collect::<Vec<u8>>())
}

/// Every span that ends at most two past the source's end.
pub fn spans(source: &Source) -> Vec<Span> {
    let end = source.len() as u32 + PAST;
    (0..=end)
        .flat_map(|offset| (0..=end - offset).map(move |length| Span { offset, length }))
        .collect()
}

/// Every context up to a number of lines on either side.
pub fn contexts(most: u32) -> impl Iterator<Item = Context> {
    (0..=most).flat_map(move |before| (0..=most).map(move |after| Context { before, after }))
}

/// Every query on a source, with contexts up to a number of lines.
pub fn queries(source: &Source, most: u32) -> impl Iterator<Item = Query> {
    let spans = spans(source);
    contexts(most)
        .flat_map(move |context| spans.clone().into_iter().map(move |span| Query { span, context }))
}
