//! The lines of page entries: mappings of one kind, with the words that a driver lends to them all.

use super::{List, PLAIN};
use crate::timed::Timed;
use std::hint::black_box;
use waylluqen::{Mapping, ENTRY_WORDS, LIMIT, MAX_OBJECT};
use waylluqen::{PAGE_SIZE, PAGE_SIZE_1G, PAGE_SIZE_2M};
use waylluqen_model::entries::entry_count;
use waylluqen_model::random::Random;
use waylluqen_model::{self as model, PAGE_SIZES};

/// Words are lent for so many entries: as many as any mapping has that is not refused.
const ROOM: u64 = 4096;

/// About how many entries all mappings of a line have, and how many mappings a line has at least
/// and at most: with few, listed again and again, the processor would foresee every branch.
const ENTRIES: u64 = 16_384;
const MAPPINGS: [u64; 2] = [8, 512];

/// Makes another mapping of the same kind.
type Kind = fn(&mut Random) -> Mapping;

/// Mappings of one kind.
pub struct Line {
    pub what: &'static str,
    pub mappings: Vec<Mapping>,
    /// The entries that a mapping has, about.
    pub entries: usize,
    /// Whether they fit the words.
    pub fits: bool,
}

/// The mapping as the model has it.
pub fn modelled(mapping: &Mapping) -> model::Mapping {
    model::Mapping {
        address: mapping.address,
        size: mapping.size,
        object: mapping.object,
        offset: mapping.offset,
    }
}

fn entries_of(mapping: &Mapping) -> u64 {
    entry_count(&PAGE_SIZES, &modelled(mapping))
}

impl Line {
    fn new(what: &'static str, seed: u64, kind: Kind) -> Line {
        let mut random = Random::new(seed);
        let each = entries_of(&kind(&mut random));
        let fits = each <= ROOM;
        // Those that are refused are not made.
        let made = if fits { each } else { 1 };
        let [least, most] = MAPPINGS;
        let number = (ENTRIES / made).clamp(least, most);
        let mappings: Vec<Mapping> = (0..number).map(|_| kind(&mut random)).collect();
        let entries: u64 = mappings.iter().map(entries_of).sum();
        Line {
            what,
            mappings,
            entries: (entries / number) as usize,
            fits,
        }
    }
}

impl Timed for Line {
    type Manager = List;
    type Start = ();
    const KIND: &'static str = "entries";
    const PLAIN: usize = PLAIN.len();
    // A refusal is soon found, but not by counting one by one.
    const ROUNDS: usize = 300;
    const SIZE: &'static str = "entries";

    fn what(&self) -> &'static str {
        self.what
    }

    fn size(&self) -> usize {
        self.entries
    }

    fn start(&self) -> &() {
        &()
    }

    fn lent(&self) -> Vec<u64> {
        vec![0; ROOM as usize * ENTRY_WORDS]
    }

    fn calls(&self) -> usize {
        self.mappings.len()
    }

    #[inline(never)]
    fn make_calls(&self, list: &mut List, words: &mut [u64]) {
        for mapping in &self.mappings {
            let mapping = *black_box(mapping);
            let _ = black_box(list(mapping, words));
        }
    }

    /// There is one line of each kind.
    fn name(&self) -> String {
        self.what.to_string()
    }
}

/// A multiple of this in the lower half of all addresses.
fn anywhere(random: &mut Random, multiple: u64) -> u64 {
    random.below(LIMIT / 2 / multiple) * multiple
}

/// An offset that is apart from the address by this and by whole GiB.
fn offset_apart(random: &mut Random, address: u64, apart: u64) -> u64 {
    anywhere(random, PAGE_SIZE_1G) + address % PAGE_SIZE_1G + apart
}

/// A distance that is a multiple of 1 GiB, of 2 MiB or of a page, each as often.
fn some_apart(random: &mut Random) -> u64 {
    let multiple = random.pick(&PAGE_SIZES);
    random.below(PAGE_SIZE_1G / multiple) * multiple
}

fn mapping(random: &mut Random, address: u64, size: u64, apart: u64) -> Mapping {
    Mapping {
        address,
        size,
        object: 1 + random.below(MAX_OBJECT),
        offset: offset_apart(random, address, apart),
    }
}

fn one_page(random: &mut Random) -> Mapping {
    let (address, apart) = (anywhere(random, PAGE_SIZE), some_apart(random));
    mapping(random, address, PAGE_SIZE, apart)
}

/// 16 pages between two boundaries of 2 MiB, touching none.
fn between_boundaries(random: &mut Random) -> Mapping {
    let pages = PAGE_SIZE_2M / PAGE_SIZE;
    let first = 1 + random.below(pages - 17);
    let address = anywhere(random, PAGE_SIZE_2M) + first * PAGE_SIZE;
    let apart = some_apart(random);
    mapping(random, address, 16 * PAGE_SIZE, apart)
}

fn one_large_page(random: &mut Random) -> Mapping {
    let address = anywhere(random, PAGE_SIZE_2M);
    let apart = random.below(512) * PAGE_SIZE_2M;
    mapping(random, address, PAGE_SIZE_2M, apart)
}

fn in_large_pages(random: &mut Random) -> Mapping {
    let address = anywhere(random, PAGE_SIZE);
    let apart = (1 + random.below(511)) * PAGE_SIZE_2M;
    mapping(random, address, PAGE_SIZE_1G, apart)
}

fn in_step(random: &mut Random) -> Mapping {
    let address = anywhere(random, PAGE_SIZE);
    mapping(random, address, 8 * PAGE_SIZE_1G, 0)
}

fn in_small_pages(random: &mut Random) -> Mapping {
    let address = anywhere(random, PAGE_SIZE);
    let apart = (1 + random.below(511)) * PAGE_SIZE;
    mapping(random, address, 8 * PAGE_SIZE_2M, apart)
}

/// All of the space but for some pages, the offset some pages further on: nearly 2^36 entries.
fn too_many(random: &mut Random) -> Mapping {
    let address = random.below(1024) * PAGE_SIZE;
    let offset = address + (1 + random.below(511)) * PAGE_SIZE;
    Mapping {
        address,
        size: LIMIT - offset,
        object: 1 + random.below(MAX_OBJECT),
        offset,
    }
}

pub fn lines() -> Vec<Line> {
    let kinds: [(&str, Kind); 7] = [
        ("one page", one_page),
        ("64 KiB between boundaries", between_boundaries),
        ("2 MiB at a boundary", one_large_page),
        ("1 GiB, off by 2 MiB", in_large_pages),
        ("8 GiB in step", in_step),
        ("16 MiB, off by a page", in_small_pages),
        ("nearly 2^36 entries, refused", too_many),
    ];
    let line = |((what, kind), seed)| Line::new(what, seed, kind);
    kinds.into_iter().zip(1..).map(line).collect()
}

#[cfg(test)]
mod tests {
    use super::*;

    /// As many entries as each line is said to have, which fit or don't, of different mappings.
    #[test]
    fn lines_are_what_they_say() {
        let lines = lines();
        let sizes: Vec<usize> = lines.iter().map(|line| line.entries).collect();
        assert_eq!(sizes[..3], [1, 16, 1]);
        assert_eq!(sizes[3..6], [1023, 1030, 4096]);
        assert!(sizes[6] > (1 << 36) - 2000);
        for line in &lines {
            let fit = |mapping: &Mapping| entries_of(mapping) <= ROOM;
            assert!(line
                .mappings
                .iter()
                .all(|mapping| fit(mapping) == line.fits));
            assert!(line.mappings.len() >= 8);
            let [first, others @ ..] = &line.mappings[..] else {
                panic!("{} has no mappings", line.what);
            };
            assert!(!others.contains(first), "{} is one alone", line.what);
        }
    }
}
