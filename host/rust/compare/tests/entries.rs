//! Page entries beside the model: mappings near the boundaries of every size, huge ones, those that
//! break a rule, and words that are just too few. And what holds of every list, without the model.

use std::collections::BTreeMap;
use waylluqen::ffi;
use waylluqen_compare::calls::Caller;
use waylluqen_compare::entries::some_entry_words;
use waylluqen_compare::entries::{assert_covers, assert_fewest, assert_shown, entries_in};
use waylluqen_compare::library::{self, Listed};
use waylluqen_compare::mappings::{beside, broken_rules, disturb_mapping};
use waylluqen_compare::mappings::{huge_mapping, near_mapping, APARTS, RULES};
use waylluqen_compare::numbers::{edges, HALF, LIMIT};
use waylluqen_model::answer::{BAD_MAPPING, SHORT_OUTPUT};
use waylluqen_model::entries::{entry_count, least_entries};
use waylluqen_model::random::Random;
use waylluqen_model::{Mapping, PageEntry, Refused};
use waylluqen_model::{ENTRY_WORDS, HIGHEST_OBJECT, PAGE, PAGE_SIZES};

const GIB: u64 = PAGE_SIZES[0];
const LARGE: u64 = PAGE_SIZES[1];

/// For so many entries there is always memory.
const MANY_ENTRIES: u64 = 1 << 19;

/// How many shapes a list can have: 1 GiB in the middle, with or without each of the smaller ones on
/// both sides; 2 MiB in the middle, with or without the smallest on both; the smallest alone.
const SHAPES: usize = 16 + 4 + 1;

fn mapping(address: u64, size: u64, offset: u64) -> Mapping {
    Mapping {
        address,
        size,
        object: 7,
        offset,
    }
}

fn words_for(entries: u64) -> usize {
    usize::try_from(entries).expect("words are counted") * ENTRY_WORDS
}

/// Compares, and counts what came.
struct Tally {
    caller: Caller,
    calls: u64,
    listed: u64,
    /// Lists that fill the words to the last, and that leave some.
    filled: [u64; 2],
    most: u64,
    /// Lists by the sizes that they have, in their order, each once in a row.
    shapes: BTreeMap<Vec<u64>, u64>,
    /// Refusals for the mapping, for one rule alone; and for words: none of them, one too few.
    broken: u64,
    alone: [u64; RULES.len()],
    short: u64,
    no_words: u64,
    one_short: u64,
}

impl Tally {
    fn new(seed: u64) -> Tally {
        Tally {
            caller: Caller::new(seed),
            calls: 0,
            listed: 0,
            filled: [0; 2],
            most: 0,
            shapes: BTreeMap::new(),
            broken: 0,
            alone: [0; RULES.len()],
            short: 0,
            no_words: 0,
            one_short: 0,
        }
    }

    fn compare(&mut self, mapping: &Mapping, words: usize) -> Listed {
        let listed = self.caller.compare_entries(mapping, words);
        self.calls += 1;
        match &listed {
            Ok(entries) => self.note_list(entries, words),
            Err(Refused { number, place }) => {
                assert_eq!(*place, 0);
                self.note_refusal(*number, mapping, words);
            }
        }
        listed
    }

    fn note_list(&mut self, entries: &[PageEntry], words: usize) {
        self.listed += 1;
        let left = words - entries.len() * ENTRY_WORDS;
        self.filled[usize::from(left > 0)] += 1;
        self.most = self.most.max(entries.len() as u64);
        let mut shape: Vec<u64> = entries.iter().map(|entry| entry.size).collect();
        shape.dedup();
        *self.shapes.entry(shape).or_default() += 1;
    }

    fn note_refusal(&mut self, number: u32, mapping: &Mapping, words: usize) {
        match number {
            BAD_MAPPING => {
                self.broken += 1;
                let broken = broken_rules(mapping);
                let is_one = broken.iter().filter(|&&broken| broken).count() == 1;
                for (times, broken) in self.alone.iter_mut().zip(broken) {
                    *times += u64::from(is_one && broken);
                }
            }
            SHORT_OUTPUT => {
                self.short += 1;
                self.no_words += u64::from(words == 0);
                let enough = words_for(entry_count(&PAGE_SIZES, mapping));
                self.one_short += u64::from(words + 1 == enough);
            }
            number => panic!("{number} is none of these"),
        }
    }

    /// With no word, one too few, just enough, and more. A list of more entries than this is only
    /// refused.
    fn compare_lengths(&mut self, mapping: &Mapping, most: u64) {
        let entries = entry_count(&PAGE_SIZES, mapping);
        let enough = words_for(entries.min(most));
        self.compare(mapping, 0).expect_err("no words");
        self.compare(mapping, enough - 1).expect_err("too few");
        if entries <= most {
            for words in [enough, enough + 1, enough + 7] {
                self.compare(mapping, words).expect("enough");
            }
        }
    }

    fn assert_shapes(&self, least: u64) {
        assert_eq!(self.shapes.len(), SHAPES, "{:x?}", self.shapes);
        for (shape, &times) in &self.shapes {
            assert!(times >= least, "{shape:x?} came only {times} times");
        }
    }

    /// Seen with `cargo test -- --nocapture`.
    fn print(&self, test: &str) {
        println!(
            "{test}: {} calls, {} listed, filled {:?}, up to {} entries, {} broken, for one rule \
             alone {:?}, {} short, {} without a word, {} by one, shapes {:x?}",
            self.calls,
            self.listed,
            self.filled,
            self.most,
            self.broken,
            self.alone,
            self.short,
            self.no_words,
            self.one_short,
            self.shapes,
        );
    }
}

#[test]
fn near_the_boundaries_of_every_size() {
    const MAPPINGS: u64 = 40_000;
    const MOST: u64 = 6000;
    let mut random = Random::new(601);
    let mut tally = Tally::new(602);
    for _ in 0..MAPPINGS {
        let mapping = near_mapping(&mut random);
        tally.compare_lengths(&mapping, MOST);
    }
    tally.print("near the boundaries of every size");
    tally.assert_shapes(50);
    assert_eq!(tally.broken, 0);
    assert!(tally.filled[0] >= MAPPINGS / 2 && tally.short >= MAPPINGS);
    assert!(tally.one_short >= MAPPINGS / 2 && tally.no_words == MAPPINGS);
}

/// Address and end at a boundary of each size and a page beside it, the offset apart by each of the
/// distances: every one with every other one.
fn each_boundary() -> impl Iterator<Item = Mapping> {
    let starts = [0, PAGE * 3, LARGE, 5 * GIB - LARGE, GIB].map(beside);
    let ends = [LARGE, GIB - LARGE, GIB, 2 * GIB, 2 * GIB + LARGE].map(beside);
    let ends = ends.concat();
    starts.concat().into_iter().flat_map(move |address| {
        let of_start = ends.clone().into_iter().flat_map(move |distance| {
            let end = address / GIB * GIB + distance;
            let size = end.saturating_sub(address);
            APARTS.map(|apart| mapping(address, size, address % GIB + apart))
        });
        of_start.filter(|mapping| mapping.size > 0)
    })
}

#[test]
fn each_boundary_with_each_other() {
    const MOST: u64 = 4000;
    let mut tally = Tally::new(604);
    for mapping in each_boundary() {
        // Offset and address the other way round; and up to the end of the space.
        let turned = Mapping {
            address: mapping.offset,
            offset: mapping.address,
            ..mapping
        };
        let up = LIMIT - (mapping.address + mapping.size).next_multiple_of(GIB);
        let last = Mapping {
            address: mapping.address + up,
            ..mapping
        };
        for mapping in [mapping, turned, last] {
            tally.compare_lengths(&mapping, MOST);
        }
    }
    tally.print("each boundary with each other");
    tally.assert_shapes(10);
    assert!(tally.listed >= 1000 && tally.one_short >= 1000);
}

/// Every length from none to some more than enough.
#[test]
fn slices_of_every_length() {
    let mut tally = Tally::new(606);
    let step = GIB - 2 * LARGE - 3 * PAGE;
    let mappings = [
        mapping(PAGE, PAGE, 0),
        mapping(LARGE, LARGE, 7 * LARGE),
        mapping(LARGE - PAGE, LARGE + 2 * PAGE, LARGE - PAGE),
        mapping(step, 2 * GIB, step),
        mapping(LARGE, 9 * PAGE, PAGE),
        mapping(LIMIT - GIB, GIB, GIB),
    ];
    for mapping in mappings {
        let enough = words_for(entry_count(&PAGE_SIZES, &mapping));
        for words in 0..enough + 8 {
            let listed = tally.compare(&mapping, words);
            assert_eq!(listed.is_ok(), words >= enough, "{words} of {enough}");
        }
        tally.compare(&mapping, enough * 100).expect("enough");
    }
    tally.print("slices of every length");
    // The pointer of a slice that never had memory.
    let [first, ..] = mappings.map(library::mapping);
    let refused = waylluqen::page_entries(first, &mut []).err();
    assert_eq!(refused, Some(waylluqen::Refusal::ShortOutput));
}

/// Random good mappings with one or two numbers moved to a rule's boundary, with words enough for
/// any of them or without: a broken mapping is refused for itself.
#[test]
fn broken_by_each_rule_alone() {
    const MAPPINGS: u64 = 200_000;
    const MOST_WORDS: usize = 300;
    let mut random = Random::new(611);
    let mut tally = Tally::new(612);
    for _ in 0..MAPPINGS {
        let mut mapping = near_mapping(&mut random);
        for _ in 0..1 + random.below(2) {
            disturb_mapping(&mut random, &mut mapping);
        }
        let is_broken = broken_rules(&mapping).contains(&true);
        let words = random.up_to(MOST_WORDS as u64) as usize;
        let listed = tally.compare(&mapping, words);
        assert_eq!(listed == Err(Refused::of(BAD_MAPPING)), is_broken);
    }
    tally.print("broken by each rule alone");
    for (rule, times) in RULES.iter().zip(tally.alone) {
        assert!(times >= 2000, "{rule} was broken alone only {times} times");
    }
    assert!(tally.short >= 5000 && tally.listed >= 5000);
}

/// Every address, size, object and offset at an edge, together.
#[test]
fn every_number_at_an_edge() {
    let mut tally = Tally::new(614);
    let mut random = Random::new(615);
    let addresses = edges(&[0, LARGE, LIMIT - LARGE, LIMIT, HALF]);
    let sizes = edges(&[0, PAGE, LARGE, LIMIT - LARGE, LIMIT, HALF]);
    let offsets = edges(&[0, LARGE, LIMIT - LARGE, LIMIT, LIMIT.wrapping_neg()]);
    let above = HIGHEST_OBJECT + 1;
    for &address in &addresses {
        for &size in &sizes {
            for &offset in &offsets {
                for object in [0, 1, above - 1, above, above + 1, HALF, u64::MAX] {
                    let mapping = Mapping {
                        address,
                        size,
                        object,
                        offset,
                    };
                    let words = random.pick(&[0, 3, 1536, 1600]);
                    tally.compare(&mapping, words).ok();
                }
            }
        }
    }
    tally.print("every number at an edge");
    assert!(tally.alone.iter().all(|&times| times >= 10));
    assert!(tally.listed >= 50 && tally.short >= 50);
}

#[test]
fn any_numbers() {
    let mut random = Random::new(621);
    let mut tally = Tally::new(622);
    for _ in 0..50_000 {
        let mut any = || match random.below(3) {
            0 => random.next_u64(),
            1 => random.below(LIMIT / PAGE) * PAGE,
            _ => random.up_to(64) * PAGE,
        };
        let mapping = Mapping {
            address: any(),
            size: any(),
            object: any(),
            offset: any(),
        };
        let words = random.below(200) as usize;
        tally.compare(&mapping, words).ok();
    }
    tally.print("any numbers");
    assert!(tally.broken >= 1000 && tally.listed >= 500 && tally.short >= 500);
}

/// Up to 2^48 bytes and nearly 2^36 entries: counted and not made, unless they are few.
#[test]
fn huge_mappings() {
    const MAPPINGS: u64 = 20_000;
    let mut random = Random::new(631);
    let mut tally = Tally::new(632);
    let mut most = 0;
    for _ in 0..MAPPINGS {
        let mapping = huge_mapping(&mut random);
        let entries = entry_count(&PAGE_SIZES, &mapping);
        most = most.max(entries);
        let words = some_entry_words(&mut random, &mapping, 20_000);
        tally.compare(&mapping, words).ok();
        tally.compare(&mapping, 0).expect_err("no words");
    }
    // A slice that would be enough if the number were cut to 32 bits.
    for entries in [1u64 << 32, (1 << 32) + 1, 1 << 34, (1 << 36) - 1] {
        let mapping = mapping(0, entries * PAGE, PAGE);
        for words in [0, 3, 6, 3000] {
            let refused = tally.compare(&mapping, words);
            assert_eq!(refused, Err(Refused::of(SHORT_OUTPUT)));
        }
    }
    tally.print("huge mappings");
    assert!(most >= (1 << 36) - 2, "only {most:#x} entries");
    assert!(tally.listed >= 1000 && tally.short >= 10_000);
}

/// Long lists, all of their entries.
#[test]
fn long_lists() {
    let mut tally = Tally::new(634);
    let step = GIB - LARGE - PAGE;
    for mapping in [
        mapping(0, LIMIT, 0),
        mapping(step, LIMIT - 2 * GIB, step + GIB),
        mapping(step, 600 * GIB, step + LARGE),
        mapping(step, GIB + LARGE, step + PAGE),
    ] {
        tally.compare_lengths(&mapping, MANY_ENTRIES);
    }
    tally.print("long lists");
    assert!(tally.most >= 1 << 18 && tally.listed == 12);
}

/// What the library lists, by its answer and its words alone.
fn listed(mapping: &Mapping, words: &mut [u64]) -> Vec<PageEntry> {
    let answer = ffi::page_entries(library::mapping(*mapping), words);
    assert_eq!((answer.refusal, answer.place), (0, 0), "{mapping:x?}");
    entries_in(&words[..words_for(answer.entries)])
}

/// Without the model: a list covers its mapping, shows what it shows, and none is shorter.
#[test]
fn what_holds_of_every_list() {
    const MAPPINGS: u64 = 20_000;
    let mut random = Random::new(641);
    let mut words = vec![9; words_for(3 * GIB / PAGE)];
    let mut by_size = [0; 3];
    let near = (0..MAPPINGS).map(|_| near_mapping(&mut random));
    let huge = [
        mapping(0, LIMIT, 0),
        mapping(PAGE, LIMIT - 2 * GIB, GIB + PAGE),
    ];
    for mapping in near.chain(each_boundary()).chain(huge) {
        // Small pages alone are so many that most of them say nothing new.
        let is_small = mapping.address % LARGE != mapping.offset % LARGE;
        if is_small && mapping.size > 2 * LARGE {
            continue;
        }
        let entries = listed(&mapping, &mut words);
        assert_covers(&mapping, &entries);
        assert_fewest(&mapping, &entries);
        for (times, size) in by_size.iter_mut().zip(PAGE_SIZES) {
            *times += entries.iter().filter(|entry| entry.size == size).count();
        }
    }
    println!("entries by size: {by_size:?}");
    assert!(by_size.iter().all(|&times| times >= 10_000));
}

/// Every list of aligned pages is tried: none has fewer entries.
#[test]
fn no_list_is_shorter() {
    let mut words = vec![9; words_for(4 * GIB / PAGE)];
    let mut tried = 0;
    for mapping in each_boundary().step_by(7) {
        let entries = listed(&mapping, &mut words).len() as u64;
        assert_eq!(
            Some(entries),
            least_entries(&PAGE_SIZES, &mapping),
            "{mapping:x?}"
        );
        tried += 1;
    }
    assert!(tried >= 250, "only {tried} mappings");
}

/// Look-ups in a table of the mapping show what the entries say.
#[test]
fn beside_look_ups() {
    const MAPPINGS: u64 = 5000;
    const MOST: u64 = 5000;
    let mut random = Random::new(651);
    let mut words = vec![9; words_for(MOST)];
    let mut looked = 0;
    for _ in 0..MAPPINGS {
        let mapping = near_mapping(&mut random);
        if entry_count(&PAGE_SIZES, &mapping) > MOST {
            continue;
        }
        let entries = listed(&mapping, &mut words);
        let some = entries.iter().step_by(1 + entries.len() / 40);
        for entry in some.chain(entries.last()) {
            assert_shown(&mapping, entry);
            looked += 2;
        }
    }
    assert!(looked >= 50_000, "only {looked} look-ups");
}

/// The two parts of a mapping that is cut at an address inside it.
fn parts_of(whole: &Mapping, cut: u64) -> [Mapping; 2] {
    let below = cut - whole.address;
    let lower = Mapping {
        size: below,
        ..*whole
    };
    let upper = Mapping {
        address: cut,
        size: whole.size - below,
        offset: whole.offset + below,
        ..*whole
    };
    [lower, upper]
}

/// Where a mapping may be cut so that the lists of both parts, one behind the other, are its list:
/// at a multiple of the largest size by which address and offset are in step.
#[test]
fn parts_one_behind_the_other() {
    const MAPPINGS: u64 = 20_000;
    const MOST: u64 = 3000;
    let mut random = Random::new(661);
    let mut words = vec![9; words_for(MOST)];
    let mut cuts = [0; 3];
    for _ in 0..MAPPINGS {
        let whole = near_mapping(&mut random);
        let in_step = |&size: &u64| whole.address % size == whole.offset % size;
        let step = PAGE_SIZES.iter().position(in_step).expect("in pages");
        let size = PAGE_SIZES[step];
        let first = whole.address.next_multiple_of(size);
        let end = whole.address + whole.size;
        if first >= end || entry_count(&PAGE_SIZES, &whole) > MOST {
            continue;
        }
        let cut = first + random.below((end - first).div_ceil(size)) * size;
        if cut == whole.address {
            continue;
        }
        let parts = parts_of(&whole, cut).map(|part| listed(&part, &mut words));
        assert!(
            parts.concat() == listed(&whole, &mut words),
            "{whole:x?} at {cut:#x}"
        );
        cuts[step] += 1;
    }
    println!("cuts by size: {cuts:?}");
    assert!(cuts.iter().all(|&times| times >= 1000), "{cuts:?}");
}

/// How many entries of a list a cut hits: each other one must stand in the list of its part too.
fn hit_entries(entries: &[PageEntry], parts: &[Vec<PageEntry>; 2], cut: u64) -> usize {
    let mut hit = 0;
    for entry in entries {
        let part = match entry {
            _ if cut <= entry.address => &parts[1],
            _ if entry.address + entry.size <= cut => &parts[0],
            _ => {
                hit += 1;
                continue;
            }
        };
        let place = part.binary_search_by_key(&entry.address, |one| one.address);
        let found = place.ok().map(|place| part[place]);
        assert_eq!(found, Some(*entry), "cut at {cut:#x}");
    }
    hit
}

/// Wherever a mapping is cut, the entries that the cut does not hit stay as they are.
#[test]
fn entries_that_a_cut_misses_stay() {
    const MAPPINGS: u64 = 10_000;
    const MOST: u64 = 1000;
    let mut random = Random::new(671);
    // A page of 1 GiB becomes some of 2 MiB and of 4 KiB.
    let mut words = vec![9; words_for(MOST + 1024)];
    let mut by_hits = [0; 2];
    for _ in 0..MAPPINGS {
        let whole = near_mapping(&mut random);
        if entry_count(&PAGE_SIZES, &whole) > MOST {
            continue;
        }
        let entries = listed(&whole, &mut words);
        // At an entry, or a page into it.
        let cut = random.pick(&entries).address + random.below(2) * PAGE;
        if cut == whole.address || cut == whole.address + whole.size {
            continue;
        }
        let parts = parts_of(&whole, cut).map(|part| listed(&part, &mut words));
        by_hits[hit_entries(&entries, &parts, cut)] += 1;
    }
    println!("cuts that hit no entry, and one: {by_hits:?}");
    assert!(by_hits.iter().all(|&times| times >= 500));
}
