//! Lists of sparse ranges for the comparisons: good ones, ways to damage them, and the rules that
//! damaged ones break.

use crate::numbers::{edge, size_to_edge, DELTAS};
use crate::tables::{free_parts, stale_word};
use waylluqen_model::random::Random;
use waylluqen_model::{self as model, Mapping, Space, SparseRange};
use waylluqen_model::{MOST_RANGES, PAGE, RANGE_WORDS};

pub const MOST_RANGE_WORDS: usize = MOST_RANGES * RANGE_WORDS;

/// A list to be lent: any words, and any count.
#[derive(Clone, Debug, Default)]
pub struct List {
    pub words: Vec<u64>,
    pub count: u64,
}

impl List {
    /// These ranges, and zeros for as many as there is room for.
    pub fn of(ranges: &[SparseRange], room: usize) -> List {
        let mut words: Vec<u64> = ranges.iter().flat_map(SparseRange::words).collect();
        words.resize(room * RANGE_WORDS, 0);
        List {
            words,
            count: ranges.len() as u64,
        }
    }

    /// As the model is lent it.
    pub fn lent(&self) -> model::List<'_> {
        model::List {
            words: &self.words,
            count: self.count,
        }
    }

    /// Whether there is no word and no range: what a table has without a list.
    pub fn is_none(&self) -> bool {
        self.words.is_empty() && self.count == 0
    }

    /// The number of words that as many ranges have as are counted; those of all where the count is
    /// too high.
    fn used(&self) -> usize {
        let room = self.words.len() / RANGE_WORDS;
        self.count.min(room as u64) as usize * RANGE_WORDS
    }

    /// The words behind as many ranges as are counted.
    pub fn behind(&mut self) -> &mut [u64] {
        let used = self.used();
        &mut self.words[used..]
    }

    /// The ranges that are counted, as far as there are words for them.
    pub fn ranges(&self) -> Vec<SparseRange> {
        let range = |words: &[u64]| SparseRange {
            start: words[0],
            size: words[1],
        };
        let words = &self.words[..self.used()];
        words.chunks_exact(RANGE_WORDS).map(range).collect()
    }
}

/// Every way to put ranges into so many pages from 0 on: each page is free, starts one, or
/// continues one.
pub fn every_list(pages: u32) -> impl Iterator<Item = Vec<SparseRange>> {
    (0..3u64.pow(pages)).filter_map(move |index| {
        let mut ranges: Vec<SparseRange> = Vec::new();
        let mut open = false;
        for page in 0..pages {
            match index / 3u64.pow(page) % 3 {
                0 => open = false,
                1 => {
                    open = true;
                    ranges.push(SparseRange {
                        start: u64::from(page) * PAGE,
                        size: PAGE,
                    });
                }
                _ => ranges.last_mut().filter(|_| open)?.size += PAGE,
            }
        }
        Some(ranges)
    })
}

/// Mappings of the same ranges. They show these objects by turns, without a break between those of
/// one object.
pub fn mappings_at(ranges: &[SparseRange], objects: [u64; 2]) -> Vec<Mapping> {
    let mapping = |(place, range): (usize, &SparseRange)| Mapping {
        address: range.start,
        size: range.size,
        object: objects[place % 2],
        offset: range.start + PAGE,
    };
    ranges.iter().enumerate().map(mapping).collect()
}

/// Addresses at which a range may begin or end: both ends of a part of the space, and between them
/// ends of mappings, pages beside those, and any.
fn some_edges(
    random: &mut Random,
    (start, end): (u64, u64),
    mappings: &[Mapping],
    number: u64,
) -> Vec<u64> {
    let mut edges = vec![start, end];
    for _ in 0..number {
        let any = start + random.below((end - start) / PAGE + 1) * PAGE;
        let near = match mappings.is_empty() {
            true => any,
            false => {
                let mapping = random.pick(mappings);
                random.pick(&[mapping.address, mapping.address + mapping.size])
            }
        };
        let beside = random.pick(&[0, 0, PAGE, 0u64.wrapping_sub(PAGE)]);
        let chosen = random.pick(&[any, near.wrapping_add(beside), near]);
        edges.push(chosen.clamp(start, end));
    }
    edges.sort_unstable();
    edges.dedup();
    edges
}

/// Ranges in a good space, up to so many: about the mappings' ends, of any length, many of them
/// touching.
pub fn some_ranges(
    random: &mut Random,
    space: &Space,
    mappings: &[Mapping],
    most: usize,
) -> Vec<SparseRange> {
    let mut ranges = Vec::new();
    for part in free_parts(space) {
        if part.0 == part.1 {
            continue;
        }
        let edges = some_edges(random, part, mappings, 2 * most as u64);
        for pair in edges.windows(2) {
            if ranges.len() < most && random.once_in(2) {
                ranges.push(SparseRange {
                    start: pair[0],
                    size: pair[1] - pair[0],
                });
            }
        }
    }
    ranges
}

/// A list of many ranges and room for a few more.
pub fn long_list(random: &mut Random, space: &Space, mappings: &[Mapping]) -> List {
    let ranges = some_ranges(random, space, mappings, MOST_RANGES);
    let spare = random.below(4) as usize;
    List::of(&ranges, (ranges.len() + spare).min(MOST_RANGES))
}

/// A good list: of no word, of no range, of some, or now and then of as many as there may be; full
/// or with room.
pub fn good_list(random: &mut Random, space: &Space, mappings: &[Mapping]) -> List {
    let most = match random.below(16) {
        0..=2 => return List::default(),
        3..=4 => 0,
        5 => MOST_RANGES,
        6 => random.below(MOST_RANGES as u64 + 1) as usize,
        _ => 1 + random.below(5) as usize,
    };
    let ranges = some_ranges(random, space, mappings, most);
    let left = MOST_RANGES - ranges.len();
    let spare = match random.below(8) {
        0..=1 => 0,
        2 => random.up_to(left as u64) as usize,
        _ => 1 + random.below(3) as usize,
    };
    List::of(&ranges, ranges.len() + spare.min(left))
}

/// Changes a list, at a place in the words of its ranges if it has any.
pub type Damage = fn(&mut Random, &Space, &mut List, usize);

/// Every way to damage a list of one range at least, with its name.
pub const DAMAGES: [(&str, Damage); 20] = [
    ("a bit flipped", |random, _, list, at| {
        list.words[at] ^= 1 << random.below(64);
    }),
    ("a byte more", |_, _, list, at| {
        list.words[at] = list.words[at].wrapping_add(1);
    }),
    ("a byte less", |_, _, list, at| {
        list.words[at] = list.words[at].wrapping_sub(1);
    }),
    ("a page more", |_, _, list, at| {
        list.words[at] = list.words[at].wrapping_add(PAGE);
    }),
    ("a page less", |_, _, list, at| {
        list.words[at] = list.words[at].wrapping_sub(PAGE);
    }),
    ("0", |_, _, list, at| list.words[at] = 0),
    ("an empty range", |_, _, list, at| list.words[at | 1] = 0),
    ("the highest", |_, _, list, at| list.words[at] = u64::MAX),
    ("any", |random, _, list, at| {
        list.words[at] = random.next_u64()
    }),
    ("at an edge of the space", |random, space, list, at| {
        list.words[at] = edge(random, space);
    }),
    ("up to an edge of the space", |random, space, list, at| {
        let start = list.words[at & !1];
        list.words[at | 1] = size_to_edge(random, space, start);
    }),
    ("outside", outside),
    ("into the reservation", into_reservation),
    ("to the neighbour's edge", to_neighbour),
    ("into the neighbour", into_neighbour),
    ("range swapped with another", |random, _, list, at| {
        let other = random.below(list.used() as u64) as usize & !1;
        list.words.swap(at & !1, other);
        list.words.swap(at | 1, other | 1);
    }),
    ("range twice", |_, _, list, at| {
        let forerunner = (at & !1).saturating_sub(RANGE_WORDS);
        list.words
            .copy_within(forerunner..forerunner + RANGE_WORDS, at & !1);
    }),
    ("stale", |random, _, list, _| make_stale(random, list)),
    ("another count", |random, _, list, _| {
        list.count = other_count(random, list);
    }),
    ("another length", |random, _, list, _| {
        other_length(random, list)
    }),
];

/// The last range up to behind the space's end, or the first one from before its start on.
fn outside(random: &mut Random, space: &Space, list: &mut List, _: usize) {
    let pages = (1 + random.below(4)) * PAGE;
    let last = list.used() - RANGE_WORDS;
    let words = &mut list.words;
    if random.once_in(2) {
        let end = space.start.wrapping_add(space.size);
        words[last + 1] = end.wrapping_add(pages).wrapping_sub(words[last]);
    } else {
        let end = words[0].wrapping_add(words[1]);
        words[0] = space.start.wrapping_sub(pages);
        words[1] = end.wrapping_sub(words[0]);
    }
}

/// The range before the reservation up to it or into it, or the one behind it from there on.
fn into_reservation(random: &mut Random, space: &Space, list: &mut List, _: usize) {
    let pages = random.below(4) * PAGE;
    let before = |range: &&SparseRange| range.start < space.reserved_start;
    let below = list.ranges().iter().take_while(before).count();
    let words = &mut list.words;
    if below > 0 && random.once_in(2) {
        let range = (below - 1) * RANGE_WORDS;
        let end = space.reserved_start.wrapping_add(pages);
        words[range + 1] = end.wrapping_sub(words[range]);
    } else if below * RANGE_WORDS + 1 < words.len() {
        let range = below * RANGE_WORDS;
        let end = words[range].wrapping_add(words[range + 1]);
        let start = space.reserved_start.wrapping_add(space.reserved_size);
        words[range] = start.wrapping_sub(pages);
        words[range + 1] = end.wrapping_sub(words[range]);
    }
}

/// A start where the forerunner ends or a size up to the next one, or a step beside it.
fn to_neighbour(random: &mut Random, _: &Space, list: &mut List, at: usize) {
    let delta = random.pick(&DELTAS);
    let (this, used) = (at & !1, list.used());
    let words = &mut list.words;
    if at == this && this >= RANGE_WORDS {
        let end = words[this - 2].wrapping_add(words[this - 1]);
        words[this] = end.wrapping_add(delta);
    } else if this + RANGE_WORDS < used {
        let room = words[this + 2].wrapping_sub(words[this]);
        words[this + 1] = room.wrapping_add(delta);
    }
}

/// The same range, longer by one page than its place.
fn into_neighbour(_: &mut Random, _: &Space, list: &mut List, at: usize) {
    let (this, used) = (at & !1, list.used());
    if this + RANGE_WORDS < used {
        let room = list.words[this + 2].wrapping_sub(list.words[this]);
        list.words[this + 1] = room.wrapping_add(PAGE);
    }
}

/// Puts words that are not zero behind the ranges, if there is room: one, often the first or the
/// last, or two that add up to 0, or any everywhere.
pub fn make_stale(random: &mut Random, list: &mut List) {
    let behind = list.behind();
    let Some(last) = behind.len().checked_sub(1) else {
        return;
    };
    let any = random.below(behind.len() as u64) as usize;
    match random.below(8) {
        0..=2 => behind[0] = stale_word(random),
        3..=4 => behind[last] = stale_word(random),
        5 => behind[any] = stale_word(random),
        6 => {
            behind[any] = stale_word(random);
            behind[last - any] = 0u64.wrapping_sub(behind[any]);
        }
        _ => behind.fill_with(|| random.next_u64()),
    }
}

/// Another count: about the number of ranges, the room and the words, or any.
fn other_count(random: &mut Random, list: &List) -> u64 {
    let words = list.words.len() as u64;
    let near = random.pick(&[0, list.count, words / 2, words, 1 << 32, 1 << 63]);
    match random.below(6) {
        0 => random.next_u64(),
        // What multiplied by two is right again in 64 bits.
        1 => list.count.wrapping_add(1 << 63),
        2 => u64::MAX,
        3 => near.wrapping_sub(1),
        4 => near.wrapping_add(1),
        _ => near,
    }
}

/// Another length: one word more or less, too many, or any.
fn other_length(random: &mut Random, list: &mut List) {
    let present = list.words.len();
    let length = match random.below(6) {
        0 => present + 1,
        1 => present.saturating_sub(1),
        2 => MOST_RANGE_WORDS + 1,
        3 => MOST_RANGE_WORDS + RANGE_WORDS,
        4 => random.below(2 * MOST_RANGE_WORDS as u64) as usize,
        _ => MOST_RANGE_WORDS,
    };
    list.words.resize(length, 0);
}

/// Damages a list in one of the ways; one without a range in one that needs none.
pub fn damage(random: &mut Random, space: &Space, list: &mut List) {
    let used = list.used();
    let (_, damage) = match used {
        0 => random.pick(&DAMAGES[DAMAGES.len() - 3..]),
        _ => random.pick(&DAMAGES),
    };
    let at = random.below(used.max(1) as u64) as usize;
    damage(random, space, list, at);
}

/// The rules of a list, by name.
pub const RULES: [&str; 9] = [
    "an odd length",
    "too many words",
    "a count above the room",
    "a start or size within a page",
    "an empty range",
    "an overlap or a wrong order",
    "outside the space",
    "in the reservation",
    "a stale word",
];

/// Which rules a list breaks in a good space. Of one that is not as long as it should be, or whose
/// count is too high, nothing else is asked.
pub fn broken_rules(space: &Space, list: &List) -> [bool; RULES.len()] {
    let mut broken = [false; RULES.len()];
    broken[0] = !list.words.len().is_multiple_of(RANGE_WORDS);
    broken[1] = list.words.len() > MOST_RANGE_WORDS;
    broken[2] = list.count > (list.words.len() / RANGE_WORDS) as u64;
    if broken.contains(&true) {
        return broken;
    }
    let end = u128::from(space.start) + u128::from(space.size);
    let reserved_end = u128::from(space.reserved_start) + u128::from(space.reserved_size);
    let mut before = 0;
    for SparseRange { start, size } in list.ranges() {
        let (from, to) = (u128::from(start), u128::from(start) + u128::from(size));
        broken[3] |= start % PAGE != 0 || size % PAGE != 0;
        broken[4] |= size == 0;
        broken[5] |= from < before;
        broken[6] |= start < space.start || end < to;
        broken[7] |= from < reserved_end && u128::from(space.reserved_start) < to;
        before = to;
    }
    broken[8] = list.clone().behind().iter().any(|&word| word != 0);
    broken
}

/// How often lists were refused that break one rule alone, by the rule.
#[derive(Debug, Default)]
pub struct Faults {
    pub alone: [u64; RULES.len()],
}

impl Faults {
    /// Counts a list that was refused, in a good space.
    pub fn count(&mut self, space: &Space, list: &List) {
        let broken = broken_rules(space, list);
        assert!(broken.contains(&true), "{list:x?} breaks no rule");
        if broken.iter().filter(|&&broken| broken).count() == 1 {
            for (times, broken) in self.alone.iter_mut().zip(broken) {
                *times += u64::from(broken);
            }
        }
    }

    /// Each rule was broken alone at least `least` times.
    pub fn assert_each(&self, least: u64) {
        for (rule, times) in RULES.iter().zip(self.alone) {
            assert!(times >= least, "{rule} came only {times} times");
        }
    }
}
