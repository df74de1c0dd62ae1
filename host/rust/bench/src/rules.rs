//! The rules of a space, a table, a list of sparse ranges and a request in plain safe Rust, for
//! 64-bit numbers of any value.

use waylluqen::{Refusal, Request, Space, LIMIT, MAX_MAPPINGS, MAX_OBJECT, MAX_RANGES};
use waylluqen::{MAPPING_WORDS, OPERATION_WORDS, PAGE_SIZE, RANGE_WORDS};
use waylluqen_compare::lists::List;

/// Address, size, object, offset.
pub type Mapping = [u64; MAPPING_WORDS];

/// Start and size.
pub type SparseRange = [u64; RANGE_WORDS];

/// The ends of a space that keeps its rules, and of its reservation.
#[derive(Clone, Copy)]
pub struct Bounds {
    pub start: u64,
    pub end: u64,
    pub reserved_start: u64,
    pub reserved_end: u64,
}

pub fn bounds(space: Space) -> Result<Bounds, Refusal> {
    keeping_bounds(space).ok_or(Refusal::BadSpace)
}

fn keeping_bounds(space: Space) -> Option<Bounds> {
    let all = space.start | space.size | space.reserved_start | space.reserved_size;
    if !all.is_multiple_of(PAGE_SIZE) || space.size == 0 {
        return None;
    }
    let end = space.start.checked_add(space.size)?;
    let reserved_end = space.reserved_start.checked_add(space.reserved_size)?;
    let reservation_holds = if space.reserved_size == 0 {
        space.reserved_start == 0
    } else {
        space.start <= space.reserved_start && reserved_end <= end
    };
    (end <= LIMIT && reservation_holds).then_some(Bounds {
        start: space.start,
        end,
        reserved_start: space.reserved_start,
        reserved_end,
    })
}

/// The room of a table of so many words.
pub fn capacity(words: usize) -> Result<usize, Refusal> {
    if words == 0 || !words.is_multiple_of(MAPPING_WORDS) || words > MAX_MAPPINGS * MAPPING_WORDS {
        return Err(Refusal::BadTableLength);
    }
    Ok(words / MAPPING_WORDS)
}

pub fn check_list(list: &[u64], capacity: usize) -> Result<(), Refusal> {
    if list.len() < (capacity + 1) * OPERATION_WORDS {
        return Err(Refusal::ShortOperations);
    }
    Ok(())
}

/// Checks a list, and gives its ranges. Without one there is nothing to look at.
pub fn check_ranges<'a>(bounds: &Bounds, list: &'a List) -> Result<&'a [SparseRange], Refusal> {
    keeping_ranges(bounds, list).ok_or(Refusal::BadRanges)
}

fn keeping_ranges<'a>(bounds: &Bounds, list: &'a List) -> Option<&'a [SparseRange]> {
    let (places, rest) = list.words.as_chunks();
    if !rest.is_empty() || places.len() > MAX_RANGES {
        return None;
    }
    let count = usize::try_from(list.count).ok()?;
    let (ranges, behind) = places.split_at_checked(count)?;
    let mut floor = bounds.start;
    for &[start, size] in ranges {
        let end = start.checked_add(size)?;
        let holds = (start | size).is_multiple_of(PAGE_SIZE)
            && size != 0
            && floor <= start
            && end <= bounds.end
            && (end <= bounds.reserved_start || bounds.reserved_end <= start);
        if !holds {
            return None;
        }
        floor = end;
    }
    let zeros_behind = behind.iter().all(|range| *range == [0; RANGE_WORDS]);
    zeros_behind.then_some(ranges)
}

#[cold]
pub fn bad_mapping(place: usize) -> Refusal {
    let place = place as u64;
    Refusal::BadMapping { place }
}

/// The end of the mapping if it keeps its rules and starts at `floor` or above; a test at a time.
pub fn checked_end(bounds: &Bounds, floor: u64, mapping: &Mapping) -> Option<u64> {
    let &[address, size, object, offset] = mapping;
    let aligned = (address | size | offset).is_multiple_of(PAGE_SIZE);
    let end = address.checked_add(size)?;
    let offset_end = offset.checked_add(size)?;
    let holds = aligned
        && size != 0
        && (1..=MAX_OBJECT).contains(&object)
        && offset_end <= LIMIT
        && floor <= address
        && end <= bounds.end
        && (end <= bounds.reserved_start || bounds.reserved_end <= address);
    holds.then_some(end)
}

/// The same, all tests at once: whether it holds, and the end.
pub fn masked_end(bounds: &Bounds, floor: u64, mapping: &Mapping) -> (bool, u64) {
    let &[address, size, object, offset] = mapping;
    // A sum that wraps, or a size of 0, is not above what it started from.
    let end = address.wrapping_add(size);
    let offset_end = offset.wrapping_add(size);
    let holds = (address | size | offset).is_multiple_of(PAGE_SIZE)
        & (object.wrapping_sub(1) < MAX_OBJECT)
        & (floor <= address)
        & (address < end)
        & (end <= bounds.end)
        & (offset < offset_end)
        & (offset_end <= LIMIT)
        & ((end <= bounds.reserved_start) | (bounds.reserved_end <= address));
    (holds, end)
}

/// Checks a request without flags whose op is a good one, and gives the end of its range.
pub fn check_request(bounds: &Bounds, request: &Request) -> Result<u64, Refusal> {
    let &Request {
        op,
        address,
        size,
        object,
        offset,
        ..
    } = request;
    if !(address | size | offset).is_multiple_of(PAGE_SIZE) || size == 0 {
        return Err(Refusal::Unaligned);
    }
    let end = address.checked_add(size).ok_or(Refusal::OutsideSpace)?;
    if address < bounds.start || bounds.end < end {
        return Err(Refusal::OutsideSpace);
    }
    if address < bounds.reserved_end && bounds.reserved_start < end {
        return Err(Refusal::Reserved);
    }
    if op == Request::UNMAP {
        let names_nothing = object == 0 && offset == 0;
        return names_nothing.then_some(end).ok_or(Refusal::BadObject);
    }
    if !(1..=MAX_OBJECT).contains(&object) {
        return Err(Refusal::BadObject);
    }
    match offset.checked_add(size) {
        Some(offset_end) if offset_end <= LIMIT => Ok(end),
        _ => Err(Refusal::BadOffset),
    }
}
