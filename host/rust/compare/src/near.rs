//! Requests at and beside the edges of a table's mappings and of its list's ranges, and ways to
//! disturb both.

use crate::numbers::{pages_in, LIMIT};
use crate::requests::{disturb_record, good_record, MAP, UNMAP};
use crate::tables::{disturb_table, free_parts, Good, Table};
use waylluqen_model::random::Random;
use waylluqen_model::{Mapping, Record, Request, SparseRange, PAGE};

/// An end of a mapping, a page beside it, or a page of it.
fn edge_of(random: &mut Random, mapping: &Mapping) -> u64 {
    let end = mapping.address + mapping.size;
    match random.below(10) {
        0..=2 => mapping.address,
        3..=4 => end,
        5 => mapping.address.saturating_sub(PAGE),
        6 => mapping.address + PAGE,
        7 => end - PAGE,
        8 => end + PAGE,
        _ => mapping.address + random.below(mapping.size / PAGE) * PAGE,
    }
}

/// A range in the middle of a mapping of three pages at least.
fn inner_range(random: &mut Random, mapping: &Mapping) -> (u64, u64) {
    let inner = mapping.address + PAGE;
    pages_in(random, inner, inner + mapping.size - 2 * PAGE)
}

/// A range in one free part of the space, near the mapping at `first` and perhaps some behind it.
fn near_range(random: &mut Random, good: &Good, first: usize) -> (u64, u64) {
    let mappings = &good.mappings;
    if mappings[first].size >= 3 * PAGE && random.once_in(4) {
        return inner_range(random, &mappings[first]);
    }
    let further = match random.below(8) {
        0..=3 => 0,
        4 => 1,
        5 => 2,
        6 => random.below(5) as usize,
        _ => random.up_to(mappings.len() as u64) as usize,
    };
    let last = mappings[(first + further).min(mappings.len() - 1)];
    let first = mappings[first];
    let ends = (edge_of(random, &first), edge_of(random, &last));
    range_in_part(good, first.address, ends)
}

/// The range from one address to another, as far as it is in the free part that has `inside`.
fn range_in_part(good: &Good, inside: u64, (from, to): (u64, u64)) -> (u64, u64) {
    let has_it = |&(start, end): &(u64, u64)| (start..end).contains(&inside);
    let part = free_parts(&good.space).into_iter().find(has_it);
    let (start, end) = part.expect("a good mapping or range is in a free part");
    let from = from.clamp(start, end - PAGE);
    (from, to.clamp(from + PAGE, end) - from)
}

/// What to map there: as the old mapping starts, as it goes on, the like but for one, or any. And
/// what is not to be taken for going on: the displacement with the other sign, the same sum.
fn near_object(random: &mut Random, old: &Mapping, (addr, range): (u64, u64)) -> (u32, u64) {
    let highest = LIMIT - range;
    let any = (
        1 + random.below(u64::from(u32::MAX)) as u32,
        random.up_to(highest / PAGE) * PAGE,
    );
    let object = old.object as u32;
    let goes_on = old.offset.wrapping_add(addr.wrapping_sub(old.address));
    let other_sign = addr.wrapping_add(old.address.wrapping_sub(old.offset));
    let same_sum = old.offset.wrapping_add(old.address.wrapping_sub(addr));
    let (handle, offset) = match random.below(12) {
        0..=1 => (object, old.offset),
        2..=4 => (object, goes_on),
        5 => (any.0, goes_on),
        6 => (any.0, old.offset),
        7 => (object, any.1),
        8 => (object, other_sign),
        9 => (object, same_sum),
        _ => any,
    };
    (handle, offset.min(highest))
}

/// Where to ask for a sparse range near one that there is: there, with one of its ends, beside it,
/// into it, over it and its neighbour, or up to that one.
fn near_sparse_range(random: &mut Random, good: &Good, ranges: &[SparseRange]) -> (u64, u64) {
    let place = random.below(ranges.len() as u64) as usize;
    let SparseRange { start, size } = ranges[place];
    let next = ranges[(place + 1).min(ranges.len() - 1)];
    let (end, pages) = (start + size, (1 + random.below(3)) * PAGE);
    let ends = match random.below(12) {
        0..=3 => (start, end),
        4 => (start, end + pages),
        5 => (start, start + PAGE),
        6 => (start + PAGE, end),
        7 => (start.saturating_sub(pages), start),
        8 => (end, end + pages),
        9 => (start.saturating_sub(PAGE), end + PAGE),
        10 => (start, next.start + next.size),
        _ => (end, next.start),
    };
    range_in_part(good, start, ends)
}

/// A request with the flag that keeps its own rules: near a sparse range that there is, or near a
/// mapping.
pub fn near_sparse_record(random: &mut Random, good: &Good) -> Record {
    let ranges = good.list.ranges();
    let (addr, range) = match ranges.is_empty() || random.once_in(4) {
        true if good.mappings.is_empty() => {
            let Record { addr, range, .. } = good_record(random, &good.space);
            (addr, range)
        }
        true => {
            let first = random.below(good.mappings.len() as u64) as usize;
            near_range(random, good, first)
        }
        false => near_sparse_range(random, good, &ranges),
    };
    let is_one = ranges.contains(&SparseRange {
        start: addr,
        size: range,
    });
    let op = match is_one {
        true => random.pick(&[MAP, UNMAP, UNMAP, UNMAP]),
        false => random.pick(&[MAP, MAP, UNMAP]),
    };
    Record::sparse(op, addr, range)
}

/// A request that keeps its rules where the table does; some have the flag.
pub fn near_record(random: &mut Random, good: &Good) -> Record {
    match random.once_in(5) {
        true => near_sparse_record(random, good),
        false => near_plain_record(random, good),
    }
}

/// One without the flag.
pub fn near_plain_record(random: &mut Random, good: &Good) -> Record {
    let first = random.below(good.mappings.len() as u64) as usize;
    let (addr, range) = near_range(random, good, first);
    let op = random.pick(&[MAP, MAP, UNMAP]);
    let (handle, bo_offset) = if op == MAP {
        near_object(random, &good.mappings[first], (addr, range))
    } else {
        (0, 0)
    };
    Record::plain(op, handle, addr, bo_offset, range)
}

/// The request that makes this mapping.
pub fn record_of(mapping: &Mapping) -> Record {
    let &Mapping {
        address,
        size,
        object,
        offset,
    } = mapping;
    let handle = u32::try_from(object).expect("an object has 32 bits");
    Record::plain(MAP, handle, address, offset, size)
}

/// A request that hits one mapping or touches one, so that the count changes little.
pub fn narrow_record(random: &mut Random, good: &Good) -> Record {
    let old = random.pick(&good.mappings);
    let end = old.address + old.size;
    let (addr, range) = match random.below(6) {
        0 => (old.address, old.size),
        1 => (end, PAGE),
        2 => (old.address, PAGE),
        3 => (end - PAGE, PAGE),
        _ if old.size >= 3 * PAGE => (old.address + PAGE, PAGE),
        _ => (old.address, 2 * PAGE),
    };
    let Record {
        handle, bo_offset, ..
    } = record_of(&old);
    let same = Record::plain(MAP, handle, addr, bo_offset, range);
    let going_on = Record::plain(MAP, handle, addr, bo_offset + (addr - old.address), range);
    let unmap = Record::plain(UNMAP, 0, addr, 0, range);
    random.pick(&[same, going_on, unmap])
}

/// Numbers that no record holds: op and object have 64 bits, and flags, if there are any.
pub fn widen(random: &mut Random, request: &mut Request) {
    let high = 1 << (32 + random.below(32));
    match random.below(5) {
        4 if request.flags != 0 => request.flags |= high,
        0 => request.op |= high,
        1 => request.op = random.next_u64(),
        2 => request.object |= high,
        _ => request.object = random.pick(&[0, 1, u64::MAX, 1 << 32, (1 << 32) - 1]),
    }
}

/// Leaves most as they are; else changes the table, the request, or both, so that two numbers would
/// fit and the order decides.
pub fn disturb(random: &mut Random, good: &Good, table: &mut Table, record: &mut Record) {
    let (table_times, record_times) = match random.below(16) {
        0..=2 => (1, 0),
        3 => (0, 1),
        4 => (0, 2),
        5 => (2, 1),
        _ => (0, 0),
    };
    for _ in 0..table_times {
        disturb_table(random, good, table);
    }
    for _ in 0..record_times {
        disturb_record(random, record, &good.space);
    }
}
