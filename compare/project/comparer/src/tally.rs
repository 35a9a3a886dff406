//! Counts the rows of one part of the comparison and keeps what is to be shown.

use crate::{answer::Answer, class::Class};

/// How many rows of a known class are shown, and how many of the others that
/// differ.
const SHOWN_OF_CLASS: usize = 1;
const SHOWN_OF_OTHERS: usize = 20;

/// The width of the first column of the table, and of the others.
const NAME_WIDTH: usize = 14;
const COUNT_WIDTH: usize = 12;

/// Rows of one kind: how many there are, and the first of them in full.
struct Kind {
    name: &'static str,
    count: u64,
    limit: usize,
    shown: Vec<String>,
}

pub struct Tally {
    name: &'static str,
    rows: u64,
    equal: u64,
    known: [Kind; Class::ALL.len()],
    otherwise: Kind,
    panics: Kind,
}

impl Kind {
    const fn new(name: &'static str, limit: usize) -> Self {
        Self { name, count: 0, limit, shown: Vec::new() }
    }

    fn add(&mut self, row: impl FnOnce() -> String) {
        self.count += 1;
        if self.shown.len() < self.limit {
            self.shown.push(row());
        }
    }
}

impl Tally {
    pub fn new(name: &'static str) -> Self {
        Self {
            name,
            rows: 0,
            equal: 0,
            known: Class::ALL.map(|class| Kind::new(class.name(), SHOWN_OF_CLASS)),
            otherwise: Kind::new("otherwise", SHOWN_OF_OTHERS),
            panics: Kind::new("panics", SHOWN_OF_OTHERS),
        }
    }

    /// Adds a row. The two functions are called only where the sides differ:
    /// one finds the class that explains it, the other describes the input.
    pub fn add<A: Answer>(
        &mut self,
        original: &A,
        port: &A,
        explain: impl FnOnce() -> Option<Class>,
        input: impl FnOnce() -> String,
    ) {
        self.rows += 1;
        let kind = if original.failed() {
            &mut self.panics
        } else if original == port {
            self.equal += 1;
            return;
        } else if let Some(class) = explain() {
            &mut self.known[class as usize]
        } else {
            &mut self.otherwise
        };
        kind.add(|| format!("  input:    {}\n  original: {original}\n  port:     {port}", input()));
    }

    /// Whether every row is equal or explained by a known class.
    pub const fn clean(&self) -> bool {
        self.otherwise.count == 0 && self.panics.count == 0
    }

    /// The kinds of rows that differ, in the order of the table.
    fn kinds(&self) -> impl Iterator<Item = &Kind> {
        self.known.iter().chain([&self.otherwise, &self.panics])
    }
}

/// Prints the table and, below it, the rows that are to be shown.
pub fn print(tallies: &[Tally]) {
    if let Some(first) = tallies.first() {
        print_line("", ["rows", "equal"].into_iter().chain(first.kinds().map(|kind| kind.name)));
    }
    for tally in tallies {
        let differing = tally.kinds().map(|kind| kind.count);
        print_line(tally.name, [tally.rows, tally.equal].into_iter().chain(differing));
    }
    for tally in tallies {
        print_shown(tally);
    }
}

fn print_line(name: &str, cells: impl Iterator<Item = impl ToString>) {
    print!("{name:NAME_WIDTH$}");
    for cell in cells {
        print!("{:>COUNT_WIDTH$}", cell.to_string());
    }
    println!();
}

fn print_shown(tally: &Tally) {
    for kind in tally.kinds() {
        for (place, row) in kind.shown.iter().enumerate() {
            println!("\n{}, {}, {} of {}:\n{row}", tally.name, kind.name, place + 1, kind.count);
        }
    }
}
