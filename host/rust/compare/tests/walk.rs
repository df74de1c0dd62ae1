//! Walks over spaces by the library's look-ups, each from where the answer before it ends.

use std::ops::Range;
use waylluqen::{Run, Shown, View};
use waylluqen_compare::library;
use waylluqen_compare::tables::{
    any_address, cut_up, fill_space, filled, good_table, large_spaces, plain_spaces, small_spaces,
    Good, MANY_MAPPINGS,
};
use waylluqen_compare::walk::Walk;
use waylluqen_model::random::Random;
use waylluqen_model::{Mapping, MOST_MAPPINGS, PAGE};

#[test]
fn every_byte_of_every_run() {
    let mut random = Random::new(101);
    let mut bytes = 0;
    for space in small_spaces() {
        for mappings in [0, 1, 2, 2, 3, 3, 4, 8] {
            let good = fill_space(&mut random, space, mappings);
            let table = good.table(1);
            let walk = Walk::new(&table);
            let runs = walk.runs();
            walk.assert_mappings(&runs);
            for run in &runs {
                for behind in 0..run.bytes {
                    walk.assert_inside(run, behind);
                    bytes += 1;
                }
                walk.assert_end(run);
            }
        }
    }
    println!("every byte of every run: {bytes} bytes");
    assert_eq!(bytes, 4 * 8 * 8 * PAGE);
}

/// Walks over a table run by run, and looks at the second byte of each run, its last one, and one
/// of those between. Answers how many runs there are.
fn walk_over(random: &mut Random, good: &Good, spare: usize) -> usize {
    let table = good.table(spare);
    let walk = Walk::new(&table);
    let runs = walk.runs();
    walk.assert_mappings(&runs);
    for run in &runs {
        let last = run.bytes - 1;
        for behind in [1, random.below(last), last] {
            walk.assert_inside(run, behind);
        }
        walk.assert_end(run);
    }
    runs.len()
}

#[test]
fn walks_run_by_run() {
    const TABLES: u64 = 300;
    let mut random = Random::new(111);
    let mut runs = 0;
    for _ in 0..TABLES {
        let good = good_table(&mut random, 100);
        runs += walk_over(&mut random, &good, 2);
    }
    for space in plain_spaces() {
        let good = filled(&mut random, space, MANY_MAPPINGS);
        runs += walk_over(&mut random, &good, 0);
    }
    let [space, ..] = large_spaces();
    let good = filled(&mut random, space, MOST_MAPPINGS);
    runs += walk_over(&mut random, &good, 0);
    for (mappings, pages_each) in [(3, 1), (512, 2)] {
        // A gap, the mappings one by one, and a gap: there are no sparse ranges.
        let walked = walk_over(&mut random, &cut_up(mappings, pages_each), 0);
        assert_eq!(walked as u64, mappings + 2);
    }
    println!("walks run by run: {runs} runs");
    assert!(runs >= 10_000, "only {runs} runs");
}

fn whole(mapping: &Mapping) -> Run {
    let &Mapping {
        address,
        size,
        object,
        offset,
    } = mapping;
    Run {
        address,
        bytes: size,
        shown: Shown::Object { object, offset },
    }
}

/// What a range has of a run, if it has a byte of it.
fn part(run: &Run, range: &Range<u64>) -> Option<Run> {
    let start = run.address.max(range.start);
    let end = (run.address + run.bytes).min(range.end);
    let shown = match run.shown {
        Shown::Object { object, offset } => Shown::Object {
            object,
            offset: offset + start.saturating_sub(run.address),
        },
        other => other,
    };
    (start < end).then(|| Run {
        address: start,
        bytes: end - start,
        shown,
    })
}

/// What no mapping has, from one address to another, which may be the same: cut at the ends of the
/// sparse ranges, and sparse where one of them is.
fn gap(good: &Good, start: u64, end: u64) -> Vec<Run> {
    let (mut runs, mut free) = (Vec::new(), start);
    let mut add = |from: u64, to: u64, shown: Shown| {
        let run = Run {
            address: from,
            bytes: to.saturating_sub(from),
            shown,
        };
        runs.extend(part(&run, &(start..end)));
    };
    for range in good.list.ranges() {
        let range_end = range.start + range.size;
        add(free, range.start, Shown::Nothing);
        add(range.start, range_end, Shown::Sparse);
        free = free.max(range_end);
    }
    add(free, end, Shown::Nothing);
    runs
}

/// The runs of a range, by the mappings and the gaps beside them; none if it starts outside.
fn runs_of(good: &Good, range: &Range<u64>) -> Vec<Run> {
    let (start, end) = (good.space.start, good.space.start + good.space.size);
    if !(start..end).contains(&range.start) {
        return Vec::new();
    }
    let mut all = Vec::new();
    let mut free = start;
    for mapping in &good.mappings {
        all.extend(gap(good, free, mapping.address));
        all.push(whole(mapping));
        free = mapping.address + mapping.size;
    }
    all.extend(gap(good, free, end));
    all.iter().filter_map(|run| part(run, range)).collect()
}

#[test]
fn runs_of_ranges() {
    const TABLES: u64 = 3000;
    let mut random = Random::new(121);
    let (mut ranges, mut runs, mut sparse) = ([0; 3], 0, 0);
    for _ in 0..TABLES {
        let good = good_table(&mut random, 20);
        let table = good.table(1);
        let view =
            View::new(&table.words, table.count).with_ranges(&table.list.words, table.list.count);
        for _ in 0..20 {
            let [one, other] = [(); 2].map(|()| any_address(&mut random, &good));
            let range = one..other;
            let expected = runs_of(&good, &range);
            let answer = view.runs(library::space(&good.space), range.clone());
            // One more than there should be, for a walk that has no end.
            let answer: Result<Vec<Run>, _> = answer.take(expected.len() + 1).collect();
            assert_eq!(answer.as_ref(), Ok(&expected), "{range:x?}");
            ranges[expected.len().min(2)] += 1;
            runs += expected.len();
            let is_sparse = |run: &&Run| run.shown == Shown::Sparse;
            sparse += expected.iter().filter(is_sparse).count();
        }
    }
    println!(
        "runs of ranges: {ranges:?} of none, of one and of more; {runs} runs, {sparse} sparse"
    );
    assert!(ranges.iter().all(|&times| times >= 1000) && sparse >= 1000);
}
