//! Compares the port with the original, row by row, and prints the counts.
//!
//! `comparer all` compares everything, `comparer short` only reads and
//! scanners on short sources. The exit status is 0 only if no row differs
//! outside the known classes and the original never panics. `comparer record`
//! compares nothing and writes a list of the original's answers.

mod answer;
mod chance;
mod class;
mod parts;
mod plan;
mod query;
mod random;
mod record;
mod rules;
mod short;
mod source;
mod tally;
mod the_original;
mod the_port;

use std::process::ExitCode;

use plan::Sources;
use tally::Tally;

fn main() -> ExitCode {
    the_original::quiet_panics();
    let tallies = match std::env::args().nth(1).as_deref() {
        Some("all") => vec![plan::reads(Sources::All), plan::scans(Sources::All), plan::look_ups()],
        Some("short") => vec![plan::reads(Sources::Short), plan::scans(Sources::Short)],
        Some("record") => {
            record::print_list();
            return ExitCode::SUCCESS;
        }
        _ => {
            eprintln!("usage: comparer all|short|record");
            return ExitCode::FAILURE;
        }
    };
    tally::print(&tallies);
    if tallies.iter().all(Tally::clean) { ExitCode::SUCCESS } else { ExitCode::FAILURE }
}
