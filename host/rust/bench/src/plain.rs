//! The same calls in plain safe Rust, without proofs, on the same lent words. The check and the
//! search are written in six ways, since only a clock knows the quickest.

use crate::cut::{cut, lower_rest, map_operation, new_mapping, upper_rest};
use crate::manager::{Bound, Grant, Looked, Manager};
use crate::rules::{bad_mapping, bounds, capacity, check_list, check_ranges, check_request};
use crate::rules::{checked_end, masked_end, Bounds, Mapping};
use crate::seen::{seen_in, seen_off};
use std::marker::PhantomData;
use std::ops::Range;
use waylluqen::{Refusal, Request, Space, LIMIT, MAPPING_WORDS, MAX_OBJECT};
use waylluqen::{OPERATION_WORDS, PAGE_SIZE};
use waylluqen_compare::tables::Table;

/// The places of mappings in a table, or why it is refused.
type Places = Result<Range<usize>, Refusal>;

/// A way to check the mappings of a table, and to find those that have a byte from `first` to
/// `last`; where none has, the start of the places is that of the next one.
pub trait Way {
    fn hits(bounds: &Bounds, mappings: &[Mapping], first: u64, last: u64) -> Places;
}

/// Checks with a branch for each rule, then goes through the table once more.
pub struct Checked;

/// Checks with a branch for each mapping, then searches by halves.
pub struct Masked;

/// Checks as `Masked` does, and finds the places in the same pass.
pub struct Merged;

/// Collects the broken rules of all mappings, and looks for the place only if there are any.
pub struct Folded;

/// Joins the words and the differences of all mappings, looks at them once, and leaves the
/// reservation to a search.
pub struct Joined;

/// Checks as the library does: as `Joined`, but joins gaps, and goes by places, the library by
/// blocks of four words; then searches by halves.
pub struct Indexed;

/// The places by halves, in a table that keeps its rules.
fn find(mappings: &[Mapping], first: u64, last: u64) -> Range<usize> {
    let low = mappings.partition_point(|mapping| mapping[0] + mapping[1] <= first);
    let behind = mappings[low..].iter();
    let hit = behind.take_while(|mapping| mapping[0] <= last).count();
    low..low + hit
}

impl Way for Checked {
    fn hits(bounds: &Bounds, mappings: &[Mapping], first: u64, last: u64) -> Places {
        let mut floor = bounds.start;
        for (place, mapping) in mappings.iter().enumerate() {
            match checked_end(bounds, floor, mapping) {
                Some(end) => floor = end,
                None => return Err(bad_mapping(place)),
            }
        }
        let below = mappings.iter();
        let low = below
            .take_while(|mapping| mapping[0] + mapping[1] <= first)
            .count();
        let behind = mappings[low..].iter();
        let hit = behind.take_while(|mapping| mapping[0] <= last).count();
        Ok(low..low + hit)
    }
}

impl Way for Masked {
    fn hits(bounds: &Bounds, mappings: &[Mapping], first: u64, last: u64) -> Places {
        let mut floor = bounds.start;
        for (place, mapping) in mappings.iter().enumerate() {
            let (holds, end) = masked_end(bounds, floor, mapping);
            if !holds {
                return Err(bad_mapping(place));
            }
            floor = end;
        }
        Ok(find(mappings, first, last))
    }
}

impl Way for Merged {
    fn hits(bounds: &Bounds, mappings: &[Mapping], first: u64, last: u64) -> Places {
        let mut floor = bounds.start;
        let mut hits = 0..0;
        for (place, mapping) in mappings.iter().enumerate() {
            let (holds, end) = masked_end(bounds, floor, mapping);
            if !holds {
                return Err(bad_mapping(place));
            }
            floor = end;
            hits.start += usize::from(end <= first);
            hits.end += usize::from(mapping[0] <= last);
        }
        Ok(hits)
    }
}

/// The rules that a mapping breaks, as bits, and its end. Numbers of 49 bits leave the sign free.
fn broken_rules(bounds: &Bounds, floor: u64, mapping: &Mapping) -> (u64, u64) {
    const UNALIGNED_OR_LARGE: u64 = (PAGE_SIZE - 1) | !((1 << 49) - 1);
    let &[address, size, object, offset] = mapping;
    let end = address.wrapping_add(size);
    let bits = ((address | size | offset) & UNALIGNED_OR_LARGE) | (object & !MAX_OBJECT);
    let signs = size.wrapping_sub(1)
        | object.wrapping_sub(1)
        | address.wrapping_sub(floor)
        | bounds.end.wrapping_sub(end)
        | LIMIT.wrapping_sub(offset.wrapping_add(size))
        | (bounds.reserved_start.wrapping_sub(end) & address.wrapping_sub(bounds.reserved_end));
    (bits | (signs >> 63), end)
}

/// Refuses the table if a mapping breaks a rule.
#[cold]
fn find_bad(bounds: &Bounds, mappings: &[Mapping]) -> Result<(), Refusal> {
    let mut floor = bounds.start;
    let bad = mappings.iter().position(|mapping| {
        let (holds, end) = masked_end(bounds, floor, mapping);
        floor = end;
        !holds
    });
    bad.map_or(Ok(()), |place| Err(bad_mapping(place)))
}

impl Way for Folded {
    fn hits(bounds: &Bounds, mappings: &[Mapping], first: u64, last: u64) -> Places {
        let mut floor = bounds.start;
        let mut broken = 0;
        for mapping in mappings {
            let (rules, end) = broken_rules(bounds, floor, mapping);
            broken |= rules;
            floor = end;
        }
        if broken != 0 {
            find_bad(bounds, mappings)?;
        }
        Ok(find(mappings, first, last))
    }
}

/// Whether all mappings keep their rules where nothing is reserved.
fn all_fit(bounds: &Bounds, mappings: &[Mapping]) -> bool {
    let mut floor = bounds.start;
    let (mut words, mut objects, mut differences) = (0, 0, 0);
    for &[address, size, object, offset] in mappings {
        let last_byte = size.wrapping_sub(1);
        words |= address | size | offset;
        objects |= object;
        differences |= last_byte
            | object.wrapping_sub(1)
            | address.wrapping_sub(floor)
            | offset.wrapping_add(last_byte);
        floor = address.wrapping_add(size);
    }
    words.is_multiple_of(PAGE_SIZE)
        & (words <= LIMIT)
        & (objects <= MAX_OBJECT)
        & (differences < LIMIT)
        & (floor <= bounds.end)
}

/// Whether no mapping of an ascending table has a byte in the reservation.
fn spare_reservation(bounds: &Bounds, mappings: &[Mapping]) -> bool {
    let is_below = |mapping: &Mapping| mapping[0] + mapping[1] <= bounds.reserved_start;
    let first = mappings.get(mappings.partition_point(is_below));
    first.is_none_or(|mapping| bounds.reserved_end <= mapping[0])
}

impl Way for Joined {
    fn hits(bounds: &Bounds, mappings: &[Mapping], first: u64, last: u64) -> Places {
        if !(all_fit(bounds, mappings) && spare_reservation(bounds, mappings)) {
            find_bad(bounds, mappings)?;
        }
        Ok(find(mappings, first, last))
    }
}

/// Whether all mappings keep their rules where nothing is reserved. Gaps are joined instead of
/// addresses, and the loop goes by places: so the compiler takes four mappings at a time without
/// sorting their words first, with a third of the instructions less than `all_fit`.
#[allow(clippy::needless_range_loop)]
fn all_fit_by_places(bounds: &Bounds, mappings: &[Mapping]) -> bool {
    let mut floor = bounds.start;
    let (mut words, mut objects, mut differences) = (0, 0, 0);
    for place in 0..mappings.len() {
        let [address, size, object, offset] = mappings[place];
        let last_byte = size.wrapping_sub(1);
        // Above an aligned floor an aligned gap ends at an aligned address.
        words |= address.wrapping_sub(floor) | size | offset;
        objects |= object;
        differences |= last_byte | object.wrapping_sub(1) | offset.wrapping_add(last_byte);
        floor = address.wrapping_add(size);
    }
    words.is_multiple_of(PAGE_SIZE)
        & (words <= LIMIT)
        & (objects <= MAX_OBJECT)
        & (differences < LIMIT)
        & (floor <= bounds.end)
}

/// The quickest check without a search, for batches too.
pub fn check_mappings(bounds: &Bounds, mappings: &[Mapping]) -> Result<(), Refusal> {
    if all_fit_by_places(bounds, mappings) && spare_reservation(bounds, mappings) {
        return Ok(());
    }
    find_bad(bounds, mappings)
}

impl Way for Indexed {
    fn hits(bounds: &Bounds, mappings: &[Mapping], first: u64, last: u64) -> Places {
        check_mappings(bounds, mappings)?;
        Ok(find(mappings, first, last))
    }
}

/// How many mappings are joined in a turn: of the ways to look at zeros that were tried this one
/// was the quickest, from few to as many as may be.
const BLOCK: usize = 32;

fn join(all: &mut Mapping, mapping: &Mapping) {
    for (all, word) in all.iter_mut().zip(mapping) {
        *all |= word;
    }
}

/// Whether every word of these places is zero.
pub fn are_zero(places: &[Mapping]) -> bool {
    let mut all = [0; MAPPING_WORDS];
    let (blocks, rest) = places.as_chunks::<BLOCK>();
    for block in blocks {
        block.iter().for_each(|mapping| join(&mut all, mapping));
    }
    rest.iter().for_each(|mapping| join(&mut all, mapping));
    all == [0; MAPPING_WORDS]
}

/// Refuses a table with another word than zero behind its mappings.
pub fn check_behind(behind: &[Mapping]) -> Result<(), Refusal> {
    are_zero(behind).then_some(()).ok_or(Refusal::StaleWords)
}

/// So many mappings are cleared sooner than the C library is called.
const FEW: usize = 4;

/// Makes the words of these places zero.
fn clear(places: &mut [Mapping]) {
    if places.len() <= FEW {
        places.fill([0; MAPPING_WORDS]);
    } else {
        places.as_flattened_mut().fill(0);
    }
}

/// A table in lent words, with a list in others.
pub struct Plain<W> {
    table: Table,
    way: PhantomData<W>,
}

impl<W> Plain<W> {
    pub fn new(table: &Table) -> Plain<W> {
        Plain {
            table: table.clone(),
            way: PhantomData,
        }
    }
}

pub fn counted(count: u64, capacity: usize) -> Result<usize, Refusal> {
    let count = usize::try_from(count).unwrap_or(usize::MAX);
    (count <= capacity)
        .then_some(count)
        .ok_or(Refusal::BadCount)
}

fn bind<W: Way>(space: Space, lent: &mut Table, list: &mut [u64], request: &Request) -> Bound {
    if request.op > Request::UNMAP {
        return Err(Refusal::BadOp);
    }
    let bounds = bounds(space)?;
    let capacity = capacity(lent.words.len())?;
    check_list(list, capacity)?;
    let count = counted(lent.count, capacity)?;
    let table: &mut [Mapping] = lent.words.as_chunks_mut().0;
    let last = request.address.wrapping_add(request.size).wrapping_sub(1);
    let (mappings, behind) = table.split_at(count);
    let hits = W::hits(&bounds, mappings, request.address, last)?;
    check_behind(behind)?;
    check_ranges(&bounds, &lent.list)?;
    let end = check_request(&bounds, request)?;
    change(table, count, list, request, hits, end)
}

/// Carries out a request that is in order, unless there is no room.
fn change(
    table: &mut [Mapping],
    count: usize,
    list: &mut [u64],
    request: &Request,
    hits: Range<usize>,
    end: u64,
) -> Bound {
    let hit = &table[hits.clone()];
    let lower = hit.first().and_then(|old| lower_rest(request, old));
    let upper = hit.last().and_then(|old| upper_rest(end, old));
    let new = [lower, new_mapping(request), upper];
    let behind = hits.start + new.iter().flatten().count();
    let after = behind + (count - hits.end);
    if after > table.len() {
        return Err(Refusal::NoRoom);
    }
    let (operations, _) = list.as_chunks_mut::<OPERATION_WORDS>();
    for (operation, old) in operations.iter_mut().zip(hit) {
        *operation = cut(request, end, old);
    }
    let mut number = hit.len();
    if let [_, Some(new), _] = &new {
        operations[number] = map_operation(new);
        number += 1;
    }
    table.copy_within(hits.end..count, behind);
    let places = table[hits.start..behind].iter_mut();
    for (place, new) in places.zip(new.iter().flatten()) {
        *place = *new;
    }
    if after < count {
        clear(&mut table[after..count]);
    }
    Ok(Grant {
        operations: number as u64,
        count: after as u64,
    })
}

fn lookup<W: Way>(space: Space, lent: &Table, address: u64) -> Looked {
    let bounds = bounds(space)?;
    let count = counted(lent.count, capacity(lent.words.len())?)?;
    let table: &[Mapping] = lent.words.as_chunks().0;
    let (mappings, behind) = table.split_at(count);
    let hits = W::hits(&bounds, mappings, address, address)?;
    check_behind(behind)?;
    let ranges = check_ranges(&bounds, &lent.list)?;
    Ok(match mappings.get(hits.start) {
        Some(mapping) if mapping[0] <= address => seen_in(mapping, address),
        next => seen_off(&bounds, ranges, next.map(|next| next[0]), address),
    })
}

impl<W: Way> Manager for Plain<W> {
    fn bind(&mut self, space: Space, request: Request, list: &mut [u64]) -> Bound {
        let grant = bind::<W>(space, &mut self.table, list, &request)?;
        self.table.count = grant.count;
        Ok(grant)
    }

    fn lookup(&mut self, space: Space, address: u64) -> Looked {
        lookup::<W>(space, &self.table, address)
    }

    fn table(&self) -> (Vec<u64>, u64) {
        (self.table.words.clone(), self.table.count)
    }
}

#[cfg(test)]
mod tests {
    use super::*;

    /// About where the ways of clearing and of looking change, at 4 and at multiples of 32.
    const LENGTHS: [usize; 10] = [0, 1, 2, 4, 5, 31, 32, 33, 96, 100];

    #[test]
    fn any_word_is_seen_and_cleared() {
        for length in LENGTHS {
            let mut table = vec![[0; MAPPING_WORDS]; length];
            assert!(are_zero(&table));
            for place in 0..length * MAPPING_WORDS {
                table.as_flattened_mut()[place] = 1 << (place % 64);
                assert!(!are_zero(&table), "word {place} of {length} mappings");
                clear(&mut table);
                assert!(table.as_flattened().iter().all(|&word| word == 0));
            }
        }
    }

    /// Two that add up to 0, and two that are alike.
    #[test]
    fn two_words_are_seen() {
        for pair in [[1, u64::MAX], [1 << 63, 1 << 63], [7, 7]] {
            for places in [[0, 1], [0, 4], [3, 4 * BLOCK], [4 * BLOCK, 4 * BLOCK + 7]] {
                let mut table = vec![[0; MAPPING_WORDS]; BLOCK + 2];
                for (place, word) in places.into_iter().zip(pair) {
                    table.as_flattened_mut()[place] = word;
                }
                assert!(!are_zero(&table), "{places:?} {pair:?}");
            }
        }
    }
}
