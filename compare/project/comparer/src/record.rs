//! Writes a fixed list of the original's answers, for replay where no Rust is at hand.
//!
//! `source HEX` names the source of the lines after it. `read` has offset, length, before and after, and then start,
//! length, line, column and line_count, or `none`. `look` has the same four numbers and an offset, and then line and
//! column, or `none`.

use crate::{
    answer::{LookUp, Read},
    chance,
    query::{Context, Query},
    random::Random,
    short,
    source::Source,
    the_original,
};

/// Every source up to this length is asked everything, with up to so many lines of context.
const LENGTH: u32 = 2;
const LINES: u32 = 2;

/// Random sources: how many, of which lengths, and how many queries on each.
const RANDOM: [(u32, (u32, u32), u32); 2] = [(60, (7, 120), 8), (12, (250, 1500), 12)];
const LOOK_UPS: u32 = 3;
const SEED: u64 = 4;

pub fn print_list() {
    println!("# answers of oxc-miette 4.0.0, written by compare/record");
    for source in short::sources(LENGTH) {
        print_source(&source);
        for query in short::queries(&source, LINES) {
            print_read(&source, &query);
            if bare_or_single(query.context) {
                print_look_ups(&source, &query, |end| (0..=end + 1).collect());
            }
        }
    }
    let mut random = Random::new(SEED);
    for (sources, lengths, queries) in RANDOM {
        for _ in 0..sources {
            let source = chance::long_source(&mut random, lengths);
            print_source(&source);
            for _ in 0..queries {
                let query = chance::query(&mut random, &source);
                print_read(&source, &query);
                print_look_ups(&source, &query, |end| {
                    (0..LOOK_UPS).map(|_| random.between(0, end + 1)).collect()
                });
            }
        }
    }
}

/// No lines of context, or one on either side.
const fn bare_or_single(context: Context) -> bool {
    context.before == context.after && context.before < 2
}

fn print_source(source: &Source) {
    let hex: String = source.text().iter().map(|byte| format!("{byte:02x}")).collect();
    println!("source {hex}");
}

fn numbers(query: &Query) -> String {
    let Query { span, context } = query;
    format!("{} {} {} {}", span.offset, span.length, context.before, context.after)
}

fn print_read(source: &Source, query: &Query) {
    let answer = match the_original::read(source, query) {
        Read::Nothing => "none".to_owned(),
        Read::Window(w) => {
            format!("{} {} {} {} {}", w.start, w.length, w.line, w.column, w.line_count)
        }
        other => panic!("the original gave what no list can hold: {other}"),
    };
    println!("read {} {answer}", numbers(query));
}

fn print_look_ups(source: &Source, query: &Query, offsets: impl FnOnce(u32) -> Vec<u32>) {
    let Ok(Some(payload)) = the_original::payload(source, query) else {
        return;
    };
    for at in offsets(payload.end()) {
        let answer = match payload.look_up(at) {
            LookUp::Nothing => "none".to_owned(),
            LookUp::Place { line, column } => format!("{line} {column}"),
            other => panic!("the original gave what no list can hold: {other}"),
        };
        println!("look {} {at} {answer}", numbers(query));
    }
}
