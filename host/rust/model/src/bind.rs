//! What a map or an unmap does: the answer, the operations, and the mappings afterwards.

use crate::request::form_refusal;
use crate::table::{capacity, check_lent, Found};
use crate::{answer, decode, request_refusal, Extent, List, Mapping, Refused, Request, Space};
use crate::{SparseRange, MAP, MAPPING_WORDS};
use alloc::vec::Vec;

/// An operation is this many words.
pub const OPERATION_WORDS: usize = 14;

pub const KIND_MAP: u64 = 0;
pub const KIND_REMAP: u64 = 1;
pub const KIND_UNMAP: u64 = 2;

/// The lent words that a request on a table of `capacity` mappings asks for.
pub fn least_operation_words(capacity: usize) -> usize {
    (capacity + 1) * OPERATION_WORDS
}

/// One line of the list for the driver. `named` is the old mapping; for a map it is the new one.
#[derive(Clone, Copy, Debug, PartialEq, Eq)]
pub struct Operation {
    pub kind: u64,
    pub keep: bool,
    pub named: Mapping,
    pub lower: Option<Mapping>,
    pub upper: Option<Mapping>,
}

impl Operation {
    pub fn words(&self) -> [u64; OPERATION_WORDS] {
        let rest = |rest: Option<Mapping>| rest.map_or([0; MAPPING_WORDS], |rest| rest.words());
        let mut words = [0; OPERATION_WORDS];
        words[0] = self.kind;
        words[1] = u64::from(self.keep);
        words[2..6].copy_from_slice(&self.named.words());
        words[6..10].copy_from_slice(&rest(self.lower));
        words[10..14].copy_from_slice(&rest(self.upper));
        words
    }
}

/// What a granted request leaves.
#[derive(Clone, Debug, PartialEq, Eq)]
pub struct Grant {
    pub operations: Vec<Operation>,
    pub count: u64,
    pub mappings: Vec<Mapping>,
    pub ranges: Vec<SparseRange>,
}

/// A number of a space that keeps its rules, or an offset that a mapping has.
fn word(value: u128) -> u64 {
    u64::try_from(value).expect("at most 2^48")
}

/// What is left of `old` in front of the range.
fn lower_rest(old: &Mapping, range: &Extent) -> Option<Mapping> {
    let whole = old.extent();
    (whole.start < range.start).then(|| Mapping {
        size: word(range.start - whole.start),
        ..*old
    })
}

/// What is left of `old` behind the range.
fn upper_rest(old: &Mapping, range: &Extent) -> Option<Mapping> {
    let whole = old.extent();
    (range.end < whole.end).then(|| Mapping {
        address: word(range.end),
        size: word(whole.end - range.end),
        object: old.object,
        offset: word(u128::from(old.offset) + (range.end - whole.start)),
    })
}

/// Whether the old mapping shows what is asked for, on each page that both have.
fn keeps(old: &Mapping, request: &Request) -> bool {
    new_mapping(request)
        .is_some_and(|new| old.object == new.object && old.displacement() == new.displacement())
}

/// The operation that a hit mapping gets.
fn cut(old: &Mapping, request: &Request) -> Operation {
    let range = request.extent();
    let inside = old.extent().is_inside(&range);
    Operation {
        kind: if inside { KIND_UNMAP } else { KIND_REMAP },
        keep: keeps(old, request),
        named: *old,
        lower: lower_rest(old, &range),
        upper: upper_rest(old, &range),
    }
}

fn new_mapping(request: &Request) -> Option<Mapping> {
    (request.op == MAP).then_some(Mapping {
        address: request.address,
        size: request.size,
        object: request.object,
        offset: request.offset,
    })
}

/// Carries out a request that is not refused for itself: first who is hit, then what comes of it.
/// The sparse ranges stay.
pub(crate) fn carry_out(Found { mappings, ranges }: Found, request: &Request) -> Grant {
    let range = request.extent();
    let (hit, spared): (Vec<Mapping>, Vec<Mapping>) = mappings
        .iter()
        .partition(|old| old.extent().shares_byte_with(&range));
    let new = new_mapping(request);
    let mut operations: Vec<Operation> = hit.iter().map(|old| cut(old, request)).collect();
    let lower = operations.iter().filter_map(|operation| operation.lower);
    let upper = operations.iter().filter_map(|operation| operation.upper);
    let added = lower.clone().count() + upper.clone().count() + new.iter().count();
    let count = (mappings.len() - hit.len() + added) as u64;

    let mut after: Vec<Mapping> = spared;
    after.extend(lower.chain(upper).chain(new));
    after.sort_by_key(|mapping| mapping.address);
    operations.extend(new.map(|named| Operation {
        kind: KIND_MAP,
        keep: false,
        named,
        lower: None,
        upper: None,
    }));
    Grant {
        operations,
        count,
        mappings: after,
        ranges,
    }
}

/// The ranges after one more, in its place, unless it shares a byte with one of them.
fn with_range(ranges: &[SparseRange], new: SparseRange) -> Result<Vec<SparseRange>, Refused> {
    let in_the_way = |range: &SparseRange| range.extent().shares_byte_with(&new.extent());
    if ranges.iter().any(in_the_way) {
        return Err(Refused::of(answer::RANGE_OVERLAPS));
    }
    let mut after = ranges.to_vec();
    after.push(new);
    after.sort_by_key(|range| range.start);
    Ok(after)
}

/// The ranges without one of them, unless it is none of them or something is mapped there.
fn without_range(found: &Found, old: SparseRange) -> Result<Vec<SparseRange>, Refused> {
    let is_there = |mapping: &Mapping| mapping.extent().shares_byte_with(&old.extent());
    if !found.ranges.contains(&old) || found.mappings.iter().any(is_there) {
        return Err(Refused::of(answer::NO_SUCH_RANGE));
    }
    let mut after = found.ranges.clone();
    after.retain(|range| *range != old);
    Ok(after)
}

/// Adds a sparse range or removes one. Nothing is for the driver to do, and the mappings stay.
fn change_ranges(found: Found, request: &Request) -> Result<Grant, Refused> {
    let asked = SparseRange {
        start: request.address,
        size: request.size,
    };
    let ranges = match request.op {
        MAP => with_range(&found.ranges, asked),
        _ => without_range(&found, asked),
    };
    Ok(Grant {
        operations: Vec::new(),
        count: found.mappings.len() as u64,
        mappings: found.mappings,
        ranges: ranges?,
    })
}

/// The answer to a request by numbers.
pub fn bind(
    space: &Space,
    list: &List,
    table: &[u64],
    count: u64,
    operation_words: usize,
    request: &Request,
) -> Result<Grant, Refused> {
    if let Some(number) = form_refusal(request) {
        return Err(Refused::of(number));
    }
    let found = check_lent(space, list, table, count, Some(operation_words))?;
    if let Some(number) = request_refusal(request, space) {
        return Err(Refused::of(number));
    }
    let grant = match request.is_sparse() {
        true => change_ranges(found, request)?,
        false => carry_out(found, request),
    };
    if grant.count > capacity(table) as u64 || grant.ranges.len() > list.capacity() {
        return Err(Refused::of(answer::NO_ROOM));
    }
    Ok(grant)
}

/// The answer to a request in a record.
pub fn bind_record(
    space: &Space,
    list: &List,
    table: &[u64],
    count: u64,
    operation_words: usize,
    record: &[u8],
) -> Result<Grant, Refused> {
    let request = decode(record).map_err(Refused::of)?;
    bind(space, list, table, count, operation_words, &request)
}
