//! A list of sparse ranges in lent words, and its rules.

use crate::{is_page_multiple, Extent, Space, PAGE};
use alloc::vec::Vec;

/// A range in a list is this many words.
pub const RANGE_WORDS: usize = 2;

/// A list has room for this many ranges at most; it may have room for none.
pub const MOST_RANGES: usize = 64;

/// The words of a range, in their order.
#[derive(Clone, Copy, Debug, PartialEq, Eq)]
pub struct SparseRange {
    pub start: u64,
    pub size: u64,
}

impl SparseRange {
    pub fn extent(&self) -> Extent {
        Extent::new(self.start, self.size)
    }

    pub fn words(&self) -> [u64; RANGE_WORDS] {
        [self.start, self.size]
    }
}

/// A list as it is lent: any words, and any count.
#[derive(Clone, Copy, Debug)]
pub struct List<'a> {
    pub words: &'a [u64],
    pub count: u64,
}

impl List<'_> {
    /// No word, and no range: what is lent where there are no sparse ranges.
    pub const NONE: List<'static> = List {
        words: &[],
        count: 0,
    };

    /// The number of ranges that there is room for.
    pub fn capacity(&self) -> usize {
        self.words.len() / RANGE_WORDS
    }
}

fn range_at(words: &[u64], place: usize) -> SparseRange {
    SparseRange {
        start: words[place * RANGE_WORDS],
        size: words[place * RANGE_WORDS + 1],
    }
}

/// Whether a range keeps its own rules, whatever stands beside it in a list.
fn range_holds(range: &SparseRange, space: &Space) -> bool {
    let aligned = is_page_multiple(range.start) && is_page_multiple(range.size);
    let extent = range.extent();
    aligned
        && range.size >= PAGE
        && extent.is_inside(&space.extent())
        && !space.reserves_byte_of(&extent)
}

/// Whether one range stands behind another in the space. They may touch.
fn comes_behind(range: &SparseRange, forerunner: &SparseRange) -> bool {
    let apart = !range.extent().shares_byte_with(&forerunner.extent());
    apart && range.start > forerunner.start
}

/// The ranges of a list that keeps its rules in a good space; nothing of one that does not.
pub fn ranges_of(list: &List, space: &Space) -> Option<Vec<SparseRange>> {
    let length = list.words.len();
    if length % RANGE_WORDS != 0 || length > MOST_RANGES * RANGE_WORDS {
        return None;
    }
    if list.count > list.capacity() as u64 {
        return None;
    }
    let places = 0..list.count as usize;
    let behind = &list.words[places.end * RANGE_WORDS..];
    let ranges: Vec<SparseRange> = places.map(|place| range_at(list.words, place)).collect();
    let sorted = ranges
        .windows(2)
        .all(|pair| comes_behind(&pair[1], &pair[0]));
    let each_holds = ranges.iter().all(|range| range_holds(range, space));
    let zeros_behind = behind.iter().all(|&word| word == 0);
    (each_holds && sorted && zeros_behind).then_some(ranges)
}
