//! A table of mappings in lent words, and its rules.

use crate::bind::least_operation_words;
use crate::ranges::ranges_of;
use crate::MAPPING_WORDS;
use crate::{answer, mapping_holds, space_holds, List, Mapping, Refused, Space, SparseRange};
use alloc::vec::Vec;

/// A table has room for one mapping at least and for this many at most.
pub const MOST_MAPPINGS: usize = 4096;

/// Whether a table may have this many words.
pub fn length_holds(words: usize) -> bool {
    words != 0 && words % MAPPING_WORDS == 0 && words <= MOST_MAPPINGS * MAPPING_WORDS
}

/// The number of mappings that there is room for.
pub fn capacity(table: &[u64]) -> usize {
    table.len() / MAPPING_WORDS
}

pub fn mapping_at(table: &[u64], place: usize) -> Mapping {
    let words = &table[place * MAPPING_WORDS..][..MAPPING_WORDS];
    Mapping {
        address: words[0],
        size: words[1],
        object: words[2],
        offset: words[3],
    }
}

fn overlaps_or_precedes(mapping: &Mapping, forerunner: &Mapping) -> bool {
    let overlaps = mapping.extent().shares_byte_with(&forerunner.extent());
    overlaps || mapping.address < forerunner.address
}

fn place_holds(space: &Space, table: &[u64], place: usize) -> bool {
    let mapping = mapping_at(table, place);
    let follows = place == 0 || !overlaps_or_precedes(&mapping, &mapping_at(table, place - 1));
    mapping_holds(&mapping, space) && follows
}

/// The lowest place of the first `count` at which a mapping breaks its rules, or overlaps or
/// precedes its forerunner.
pub fn bad_place(space: &Space, table: &[u64], count: usize) -> Option<usize> {
    (0..count).find(|&place| !place_holds(space, table, place))
}

/// Whether a word behind the first `count` mappings is not zero.
pub fn has_stale_word(table: &[u64], count: usize) -> bool {
    table[count * MAPPING_WORDS..].iter().any(|&word| word != 0)
}

/// What is mapped and what is sparse, as a call found it.
pub struct Found {
    pub mappings: Vec<Mapping>,
    pub ranges: Vec<SparseRange>,
}

/// The first reason in the space and in the lengths not to look at what a call was lent. A call
/// that writes operations was lent words for them.
pub fn check_lengths(
    space: &Space,
    table: &[u64],
    operation_words: Option<usize>,
) -> Result<(), Refused> {
    if !space_holds(space) {
        return Err(Refused::of(answer::BAD_SPACE));
    }
    if !length_holds(table.len()) {
        return Err(Refused::of(answer::BAD_TABLE_LENGTH));
    }
    let least = least_operation_words(capacity(table));
    if operation_words.is_some_and(|words| words < least) {
        return Err(Refused::of(answer::SHORT_OPERATIONS));
    }
    Ok(())
}

/// The first rule that a table or a list of good lengths breaks; else what is there.
pub fn check_contents(
    space: &Space,
    list: &List,
    table: &[u64],
    count: u64,
) -> Result<Found, Refused> {
    if count > capacity(table) as u64 {
        return Err(Refused::of(answer::BAD_COUNT));
    }
    let count = count as usize;
    if let Some(place) = bad_place(space, table, count) {
        return Err(Refused {
            number: answer::BAD_MAPPING,
            place: place as u64,
        });
    }
    if has_stale_word(table, count) {
        return Err(Refused::of(answer::STALE_WORDS));
    }
    let ranges = ranges_of(list, space).ok_or(Refused::of(answer::BAD_RANGES))?;
    let mappings = (0..count).map(|place| mapping_at(table, place)).collect();
    Ok(Found { mappings, ranges })
}

/// The first reason not to look at what a call was lent; else what is there.
pub fn check_lent(
    space: &Space,
    list: &List,
    table: &[u64],
    count: u64,
    operation_words: Option<usize>,
) -> Result<Found, Refused> {
    check_lengths(space, table, operation_words)?;
    check_contents(space, list, table, count)
}
