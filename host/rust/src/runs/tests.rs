//! Walks over ranges with their runs.

extern crate std;

use super::*;
use crate::{Mapping, Ranges, Table, LIMIT, PAGE_SIZE};
use std::vec::Vec;

/// The common space: `[0x10_0000, 0x20_0000)` with a part of its middle reserved.
const SPACE: Space = Space::new(0x10_0000, 0x10_0000).reserving(0x14_0000, 0x4_0000);

/// Two that touch and agree, with the space's first page; two around the reservation, with room
/// on both sides of it; one with the last page.
const WORDS: [u64; 20] = [
    0x10_0000, 0x2000, 7, 0x3000, // the first
    0x10_2000, 0x1000, 7, 0x5000, // goes on with it
    0x13_0000, 0x1000, 8, 0, // below the reservation
    0x19_0000, 0x3000, 9, 0x1000, // above it
    0x1f_f000, 0x1000, 1, 0, // the last
];
const VIEW: View<'_> = View::new(&WORDS, 5);
const EMPTY: View<'_> = View::new(&[0; 20], 0);

/// One over the first mappings and behind them, with one that touches; one up to the reservation;
/// one around the last mapping but one; one that the last mapping hides.
const RANGES: [u64; 12] = [
    0x10_1000, 0x3000, // over both, and a page more
    0x10_4000, 0x1000, // touches
    0x13_0000, 0x1_0000, // up to the reservation
    0x18_f000, 0x5000, // around
    0x1f_f000, 0x1000, // hidden
    0, 0,
];
const ALL: Range<u64> = 0x10_0000..0x20_0000;

/// No more than a walk should have, so that one without an end fails too.
fn runs(view: View<'_>, space: Space, range: Range<u64>) -> Vec<Run> {
    let runs: Result<_, _> = view.runs(space, range).take(WORDS.len()).collect();
    runs.expect("the table keeps its rules")
}

fn nothing(address: u64, bytes: u64) -> Run {
    let shown = Shown::Nothing;
    Run {
        address,
        bytes,
        shown,
    }
}

fn sparse(address: u64, bytes: u64) -> Run {
    let shown = Shown::Sparse;
    Run {
        address,
        bytes,
        shown,
    }
}

fn object(address: u64, bytes: u64, object: u64, offset: u64) -> Run {
    let shown = Shown::Object { object, offset };
    Run {
        address,
        bytes,
        shown,
    }
}

fn mapping(run: &Run) -> Option<Mapping> {
    match run.shown {
        Shown::Nothing | Shown::Sparse => None,
        Shown::Object { object, offset } => {
            Some(Mapping::from([run.address, run.bytes, object, offset]))
        }
    }
}

#[test]
fn a_whole_space_gives_its_mappings_back() {
    let all = runs(VIEW, SPACE, ALL);
    assert!(all.iter().filter_map(mapping).eq(VIEW.mappings()));
    // One behind the other, and each gap at once.
    let mut at = ALL.start;
    for run in &all {
        assert_eq!(run.address, at);
        at += run.bytes;
    }
    assert_eq!(at, ALL.end);
    let gap = |run: &Run| mapping(run).is_none();
    let gaps: Vec<Run> = all.into_iter().filter(gap).collect();
    let expected = [
        nothing(0x10_3000, 0x2_d000),
        nothing(0x13_1000, 0x5_f000), // across the reservation
        nothing(0x19_3000, 0x6_c000),
    ];
    assert_eq!(gaps, expected);
}

#[test]
fn touching_neighbours_stay_two() {
    let expected = [
        object(0x10_0000, 0x2000, 7, 0x3000),
        object(0x10_2000, 0x1000, 7, 0x5000),
    ];
    assert_eq!(runs(VIEW, SPACE, 0x10_0000..0x10_3000), expected);
}

#[test]
fn sparse_ranges_are_runs_of_their_own_off_mappings() {
    let view = VIEW.with_ranges(&RANGES, 5);
    let expected = [
        object(0x10_0000, 0x2000, 7, 0x3000),
        object(0x10_2000, 0x1000, 7, 0x5000),
        sparse(0x10_3000, 0x1000),
        sparse(0x10_4000, 0x1000), // the one that touches
        nothing(0x10_5000, 0x2_b000),
        object(0x13_0000, 0x1000, 8, 0),
        sparse(0x13_1000, 0xf000),
        nothing(0x14_0000, 0x4_f000), // across the reservation
        sparse(0x18_f000, 0x1000),
        object(0x19_0000, 0x3000, 9, 0x1000),
        sparse(0x19_3000, 0x1000),
        nothing(0x19_4000, 0x6_b000),
        object(0x1f_f000, 0x1000, 1, 0),
    ];
    assert_eq!(runs(view, SPACE, ALL), expected);
    // A range cuts them too.
    let expected = [sparse(0x10_3fff, 1), sparse(0x10_4000, 5)];
    assert_eq!(runs(view, SPACE, 0x10_3fff..0x10_4005), expected);
    // They are the table's too.
    let (mut words, mut range_words) = (WORDS, RANGES);
    let ranges = Ranges::with_count(&mut range_words, 5);
    let table = Table::with_count(&mut words, 5).with_ranges(ranges);
    assert!(table.runs(SPACE, ALL).eq(view.runs(SPACE, ALL)));
    assert!(table.view().ranges().eq(table.ranges().iter()));
}

#[test]
fn a_range_cuts_its_first_run_and_its_last() {
    let expected = [
        object(0x10_1fff, 1, 7, 0x4fff),
        object(0x10_2000, 0x1000, 7, 0x5000),
        nothing(0x10_3000, 1),
    ];
    assert_eq!(runs(VIEW, SPACE, 0x10_1fff..0x10_3001), expected);
    let expected = [nothing(0x12_0000, 0x1_0000), object(0x13_0000, 5, 8, 0)];
    assert_eq!(runs(VIEW, SPACE, 0x12_0000..0x13_0005), expected);
    // Both ends are in one run.
    let expected = [object(0x19_1008, 0x10, 9, 0x2008)];
    assert_eq!(runs(VIEW, SPACE, 0x19_1008..0x19_1018), expected);
    // From before the reservation and from inside it to behind it.
    let reserved = nothing(0x13_f000, 0x4_2000);
    assert_eq!(runs(VIEW, SPACE, 0x13_f000..0x18_1000), [reserved]);
    let reserved = nothing(0x14_0000, 0x4_1000);
    assert_eq!(runs(VIEW, SPACE, 0x14_0000..0x18_1000), [reserved]);
}

#[test]
fn no_run_is_in_an_empty_range() {
    let refused = View::new(&WORDS, 6);
    #[expect(clippy::reversed_empty_ranges)]
    let turned = 0x10_2000..0x10_1000;
    for range in [0x10_1000..0x10_1000, turned, 0..0, u64::MAX..u64::MAX] {
        assert_eq!(runs(VIEW, SPACE, range.clone()), []);
        // Nothing is looked up.
        assert_eq!(refused.runs(SPACE, range).next(), None);
    }
}

#[test]
fn a_refusal_is_the_last() {
    let mut words = WORDS;
    words[8] += 1;
    let damaged = View::new(&words, 5);
    for (view, space, refusal) in [
        (VIEW, Space::new(1, 2), Refusal::BadSpace),
        (View::new(&WORDS[1..], 4), SPACE, Refusal::BadTableLength),
        (View::new(&WORDS, 6), SPACE, Refusal::BadCount),
        (damaged, SPACE, Refusal::BadMapping { place: 2 }),
        (View::new(&WORDS, 4), SPACE, Refusal::StaleWords),
        (View::new(&WORDS, 0), SPACE, Refusal::StaleWords),
        (VIEW.with_ranges(&RANGES, 6), SPACE, Refusal::BadRanges),
        (VIEW.with_ranges(&RANGES, 4), SPACE, Refusal::BadRanges),
        (VIEW.with_ranges(&RANGES[1..], 5), SPACE, Refusal::BadRanges),
    ] {
        // Inside the space, outside it, and across its ends.
        for range in [ALL, 0..1, 0x10_0001..u64::MAX, u64::MAX - 1..u64::MAX] {
            let mut runs = view.runs(space, range);
            assert_eq!(runs.next(), Some(Err(refusal)));
            assert_eq!(runs.next(), None);
            assert_eq!(runs.next(), None);
        }
    }
}

#[test]
fn the_space_ends_a_walk() {
    let end = ALL.end;
    for range in [
        ALL.start - 1..end, // goes on inside
        0..u64::MAX,
        end..end + 1,
        LIMIT..u64::MAX,
        u64::MAX - 1..u64::MAX,
    ] {
        let mut runs = VIEW.runs(SPACE, range);
        assert_eq!(runs.next(), None);
        assert_eq!(runs.next(), None);
    }
    for behind in [end + 1, LIMIT, u64::MAX] {
        let mut walk = VIEW.runs(SPACE, end - 2..behind);
        assert_eq!(walk.next(), Some(Ok(object(end - 2, 2, 1, 0xffe))));
        assert_eq!(walk.next(), None);
        assert_eq!(walk.next(), None);
        assert_eq!(runs(EMPTY, SPACE, end - 2..behind), [nothing(end - 2, 2)]);
    }
}

#[test]
fn the_last_byte_below_the_limit() {
    let (last, widest) = (LIMIT - 1, Space::new(0, LIMIT));
    let words = [LIMIT - PAGE_SIZE, PAGE_SIZE, 7, 0];
    let full = View::new(&words, 1);
    for end in [LIMIT, LIMIT + 1, u64::MAX] {
        let expected = [object(last, 1, 7, PAGE_SIZE - 1)];
        assert_eq!(runs(full, widest, last..end), expected);
        assert_eq!(runs(EMPTY, widest, last..end), [nothing(last, 1)]);
        assert_eq!(runs(EMPTY, widest, 0..end), [nothing(0, LIMIT)]);
    }
    let expected = [
        nothing(0, LIMIT - PAGE_SIZE),
        object(LIMIT - PAGE_SIZE, PAGE_SIZE - 1, 7, 0),
    ];
    assert_eq!(runs(full, widest, 0..last), expected);
}
