//! Which rows are compared, and how many.

use crate::{
    chance,
    parts::{compare_look_ups, compare_read, compare_scan},
    random::Random,
    short,
    source::Source,
    tally::Tally,
};

/// Which sources a part is to cover.
#[derive(Clone, Copy, PartialEq, Eq)]
pub enum Sources {
    Short,
    All,
}

/// The lengths that random sources may have.
type Lengths = (u32, u32);

const MIDDLING: Lengths = (7, 300);
const LONG: Lengths = (300, 6000);

/// Short sources for reads and look-ups: their greatest length, and the most
/// lines of context on either side.
const LENGTH: u32 = 6;
const LINES: u32 = 3;

/// The same for pairs of spans on one scanner.
const PAIRED_LENGTH: u32 = 4;
const PAIRED_LINES: u32 = 2;

/// Random queries on each source of the reads.
const QUERIES: u32 = 100;

/// Seeds of the random numbers, one a part.
const READS_SEED: u64 = 1;
const SCANS_SEED: u64 = 2;
const LOOK_UPS_SEED: u64 = 3;

/// (a) Reads, each on its own.
pub fn reads(sources: Sources) -> Tally {
    let mut tally = Tally::new("(a) reads");
    for source in short::sources(LENGTH) {
        for query in short::queries(&source, LINES) {
            compare_read(&source, &query, &mut tally);
        }
    }
    if sources == Sources::All {
        let mut random = Random::new(READS_SEED);
        random_reads(&mut random, 5000, MIDDLING, &mut tally);
        random_reads(&mut random, 2000, LONG, &mut tally);
    }
    tally
}

fn random_reads(random: &mut Random, sources: u32, lengths: Lengths, tally: &mut Tally) {
    for _ in 0..sources {
        let source = chance::long_source(random, lengths);
        for _ in 0..QUERIES {
            compare_read(&source, &chance::query(random, &source), tally);
        }
    }
}

/// (b) Reads of many spans on one scanner.
pub fn scans(sources: Sources) -> Tally {
    let mut tally = Tally::new("(b) scanner");
    for source in short::sources(PAIRED_LENGTH) {
        scan_pairs(&source, &mut tally);
    }
    let mut random = Random::new(SCANS_SEED);
    for _ in 0..300_000 {
        let source = chance::short_source(&mut random, LENGTH);
        random_scan(&mut random, &source, &mut tally);
    }
    if sources == Sources::All {
        random_long_scans(&mut random, 25_000, MIDDLING, &mut tally);
        random_long_scans(&mut random, 25_000, LONG, &mut tally);
    }
    tally
}

/// Every ordered pair of spans.
fn scan_pairs(source: &Source, tally: &mut Tally) {
    let spans = short::spans(source);
    for context in short::contexts(PAIRED_LINES) {
        for &first in &spans {
            for &second in &spans {
                compare_scan(source, context, &[first, second], tally);
            }
        }
    }
}

fn random_long_scans(random: &mut Random, sources: u32, lengths: Lengths, tally: &mut Tally) {
    for _ in 0..sources {
        let source = chance::long_source(random, lengths);
        random_scan(random, &source, tally);
    }
}

fn random_scan(random: &mut Random, source: &Source, tally: &mut Tally) {
    let context = chance::context(random);
    let labels = chance::labels(random, source);
    compare_scan(source, context, &labels, tally);
}

/// (c) Look-ups in payloads.
pub fn look_ups() -> Tally {
    let mut tally = Tally::new("(c) look-ups");
    for source in short::sources(LENGTH) {
        for query in short::queries(&source, LINES) {
            compare_look_ups(&source, &query, &mut tally);
        }
    }
    let mut random = Random::new(LOOK_UPS_SEED);
    random_look_ups(&mut random, 10_000, MIDDLING, &mut tally);
    random_look_ups(&mut random, 700, LONG, &mut tally);
    tally
}

fn random_look_ups(random: &mut Random, sources: u32, lengths: Lengths, tally: &mut Tally) {
    for _ in 0..sources {
        let source = chance::long_source(random, lengths);
        compare_look_ups(&source, &chance::query(random, &source), tally);
    }
}
