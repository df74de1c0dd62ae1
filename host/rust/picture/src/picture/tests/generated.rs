//! Tables and requests of many kinds, the same ones in each run.

use super::View;
use crate::mapping::{Mapping, Range, Space, PAGE};
use crate::replay::{Grant, Operation};
use crate::script::Sparse;
use crate::text::{Kind, Side};

/// Numbers that follow from a seed.
struct Numbers(u64);

impl Numbers {
    fn below(&mut self, limit: u64) -> u64 {
        self.0 = self.0.wrapping_add(0x9e37_79b9_7f4a_7c15);
        let mut mixed = self.0;
        mixed = (mixed ^ (mixed >> 30)).wrapping_mul(0xbf58_476d_1ce4_e5b9);
        mixed = (mixed ^ (mixed >> 27)).wrapping_mul(0x94d0_49bb_1331_11eb);
        (mixed ^ (mixed >> 31)) % limit
    }

    fn one_of<T: Copy>(&mut self, choice: &[T]) -> T {
        choice[self.below(choice.len() as u64) as usize]
    }

    /// Bytes of whole pages, of any order of magnitude up to 2 to the power of `longest`.
    fn bytes(&mut self, longest: u64) -> u64 {
        let order = self.below(longest + 1);
        PAGE * (1 + self.below(1 << order))
    }
}

/// Ranges one behind the other, with and without gaps between them, in a space.
fn ranges(numbers: &mut Numbers) -> (Range, Vec<Range>) {
    let (most, longest) =
        numbers.one_of(&[(3, 30), (12, 3), (12, 12), (12, 30), (60, 6), (200, 12)]);
    let mut end = 0;
    let mut next = |numbers: &mut Numbers| {
        let start = end + numbers.below(2) * numbers.bytes(longest);
        end = start + numbers.bytes(longest);
        Range { start, end }
    };
    let ranges: Vec<Range> = (0..=numbers.below(most)).map(|_| next(numbers)).collect();
    end += numbers.below(2) * numbers.bytes(longest);
    // At the start of all addresses, somewhere, or at their end.
    let base = numbers.one_of(&[0, 0x7_5000, (1 << 48) - end]);
    let moved = |range: Range| Range {
        start: range.start + base,
        end: range.end + base,
    };
    let space = moved(Range { start: 0, end });
    (space, ranges.into_iter().map(moved).collect())
}

fn mapping(numbers: &mut Numbers, range: Range) -> Mapping {
    let few = 1 + numbers.below(40);
    let object = numbers.one_of(&[1, 9, 10, 12, 100, 0xffff_ffff, few, few]);
    let size = range.size();
    let offset = numbers.one_of(&[0, PAGE, 0x12_3000, (1 << 48) - size]);
    Mapping::of([range.start, size, object, offset]).unwrap()
}

/// The operation that takes a range out of a mapping.
fn cut(old: &Mapping, range: &Range, keep: bool) -> Operation {
    let rest = |start: u64, end: u64| {
        let words = [start, end - start, old.object, old.offset_of(start)];
        Mapping::of(words).unwrap()
    };
    let mut rests = Vec::new();
    if old.range.start < range.start {
        rests.push((Side::Lower, rest(old.range.start, range.start)));
    }
    if range.end < old.range.end {
        rests.push((Side::Upper, rest(range.end, old.range.end)));
    }
    let kind = match rests.is_empty() {
        true => Kind::Unmap,
        false => Kind::Remap,
    };
    Operation {
        kind,
        named: *old,
        keep,
        rests,
    }
}

/// Takes the range out of the table, and puts the new mapping there.
fn bind(before: Vec<Mapping>, range: Range, new: Option<Mapping>, keep: bool) -> Grant {
    let (mut operations, mut after) = (Vec::new(), Vec::new());
    for old in &before {
        if old.range.shares_byte_with(&range) {
            operations.push(cut(old, &range, keep));
            let rests = operations.last().map(|one| one.rests.clone());
            after.extend(rests.unwrap().into_iter().map(|(_, rest)| rest));
        } else {
            after.push(*old);
        }
    }
    if let Some(named) = new {
        operations.push(Operation {
            kind: Kind::Map,
            named,
            keep: false,
            rests: Vec::new(),
        });
        after.push(named);
        after.sort_by_key(|mapping| mapping.range.start);
    }
    Grant {
        before,
        operations,
        after,
        ..Grant::default()
    }
}

/// Sparse ranges between some of the edges, off the reservation; those of a request for one of them
/// differ by it.
fn sparse(numbers: &mut Numbers, space: &Space, edges: &[u64], is_request: bool) -> Sparse {
    let mut edges: Vec<u64> = edges.to_vec();
    edges.sort_unstable();
    edges.dedup();
    edges.retain(|_| numbers.below(2) == 0);
    let is_free = |range: &Range| {
        !space
            .reservation
            .is_some_and(|one| one.shares_byte_with(range))
    };
    let between = edges.windows(2).map(|pair| Range {
        start: pair[0],
        end: pair[1],
    });
    let mut ranges: Vec<Range> = between.filter(is_free).collect();
    ranges.retain(|_| numbers.below(2) == 0);
    let mut sparse = Sparse {
        before: ranges.clone(),
        after: ranges,
        changed: None,
    };
    if is_request && !sparse.after.is_empty() {
        let place = numbers.below(sparse.after.len() as u64) as usize;
        let one = numbers.one_of(&[true, false]);
        let other = if one {
            &mut sparse.before
        } else {
            &mut sparse.after
        };
        sparse.changed = Some(other.remove(place));
    }
    sparse
}

/// A range from or near one edge to another, outside of the reservation.
fn request(numbers: &mut Numbers, space: &Space, edges: &[u64]) -> Option<Range> {
    let mut edge = || {
        let (edge, by) = (numbers.one_of(edges), numbers.below(3) * PAGE);
        let moved = numbers.one_of(&[edge, edge + by, edge.saturating_sub(by)]);
        moved.clamp(space.range.start, space.range.end)
    };
    let is_free = |range: &Range| {
        let reserved = |reservation: Range| reservation.shares_byte_with(range);
        range.start < range.end && !space.reservation.is_some_and(reserved)
    };
    let range = |(start, end)| Range { start, end };
    (0..20).map(|_| range((edge(), edge()))).find(is_free)
}

pub fn view(seed: u64) -> View {
    let mut numbers = Numbers(seed);
    let (range, mut ranges) = ranges(&mut numbers);
    let is_reserved = numbers.below(3) == 0;
    let place = numbers.below(ranges.len() as u64) as usize;
    let reservation = is_reserved.then(|| ranges.remove(place));
    let space = Space { range, reservation };
    let all = ranges.iter().chain([&range]).chain(&reservation);
    let edges: Vec<u64> = all.flat_map(|range| [range.start, range.end]).collect();
    let ranges = ranges.into_iter();
    let before: Vec<Mapping> = ranges.map(|range| mapping(&mut numbers, range)).collect();
    let alone = numbers.below(8) == 0;
    let keep = numbers.below(2) == 0;
    // From a seed of their own, so that the rest is as without them; every other view has some.
    let mut other = Numbers(!seed);
    let has_sparse = seed % 2 == 1;
    let is_sparse = has_sparse && other.below(3) == 0;
    let mut grant = match request(&mut numbers, &space, &edges) {
        Some(range) if !alone && !is_sparse => {
            let new = mapping(&mut numbers, range);
            let is_map = numbers.below(2) == 0;
            bind(before, range, is_map.then_some(new), keep)
        }
        _ => Grant {
            after: before.clone(),
            before,
            ..Grant::default()
        },
    };
    if has_sparse {
        grant.sparse = sparse(&mut other, &space, &edges, is_sparse && !alone);
    }
    View {
        title: format!("Seed {seed}"),
        space,
        grant,
        alone,
    }
}

/// The requests are what a request is, and of every kind.
#[test]
fn views_of_every_kind() {
    let views: Vec<View> = (0..400).map(view).collect();
    let kinds: [fn(&View) -> bool; 15] = [
        |view| view.alone,
        |view| view.space.reservation.is_some(),
        |view| view.grant.before.is_empty(),
        |view| view.grant.before.len() > 100,
        |view| view.grant.operations.len() > 16,
        |view| view.grant.operations.iter().any(|one| one.rests.len() == 2),
        |view| view.grant.after.len() < view.grant.before.len(),
        |view| view.grant.after.iter().any(|one| one.object == 0xffff_ffff),
        |view| view.space.range.end == 1 << 48,
        |view| view.space.range.size() < 1 << 16,
        |view| !view.grant.operations.is_empty() && !view.grant.sparse.after.is_empty(),
        |view| view.grant.sparse.before.len() > 10,
        |view| view.grant.sparse.before.len() < view.grant.sparse.after.len(),
        |view| view.grant.sparse.before.len() > view.grant.sparse.after.len(),
        |view| {
            let touch = |pair: &[Range]| pair[0].end == pair[1].start;
            view.grant.sparse.after.windows(2).any(touch)
        },
    ];
    for (at, kind) in kinds.iter().enumerate() {
        assert!(views.iter().any(kind), "{at}");
    }
    for View { space, grant, .. } in &views {
        for table in [&grant.before, &grant.after] {
            let is_there = |mapping: &Mapping| space.check("mapping", &mapping.range).is_ok();
            assert!(table.iter().all(is_there));
            let in_order = |pair: &[Mapping]| pair[0].range.end <= pair[1].range.start;
            assert!(table.windows(2).all(in_order));
        }
        for ranges in [&grant.sparse.before, &grant.sparse.after] {
            assert!(ranges
                .iter()
                .all(|range| space.check("range", range).is_ok()));
            assert!(ranges.windows(2).all(|pair| pair[0].end <= pair[1].start));
        }
    }
}
