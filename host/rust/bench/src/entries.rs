//! The page entries of one mapping: as the library lists them, and plain ones beside it.

pub mod agree;
mod line;
mod plain;
mod report;

pub use line::{lines, Line};
pub use report::print;

use crate::timed;
use waylluqen::{page_entries, Mapping, Refusal};

/// How many entries are listed.
pub type Listed = Result<usize, Refusal>;

/// Lists the entries of a mapping in lent words.
pub type List = fn(Mapping, &mut [u64]) -> Listed;

fn library(mapping: Mapping, words: &mut [u64]) -> Listed {
    page_entries(mapping, words).map(|entries| entries.len())
}

pub type Contender = timed::Contender<List, ()>;

const LIBRARY: Contender = Contender {
    name: "library",
    begin: |()| Box::new(library),
};

const PLAIN: [Contender; 4] = [
    Contender {
        name: "one by one",
        begin: |()| Box::new(plain::one_by_one),
    },
    Contender {
        name: "counted",
        begin: |()| Box::new(plain::counted),
    },
    Contender {
        name: "by runs",
        begin: |()| Box::new(plain::by_runs),
    },
    Contender {
        name: "by cuts",
        begin: |()| Box::new(plain::by_cuts),
    },
];

/// The library first, then the plain ones.
pub fn contenders() -> Vec<&'static Contender> {
    [&LIBRARY].into_iter().chain(&PLAIN).collect()
}
