//! Requests one after the other on a table that keeps its rules, in plain safe Rust.

use super::rules::{decode, Record};
use crate::cut::{cut, map_operation, unmap_operation, upper_rest, Operation, MAP};
use crate::rules::{check_request, Bounds, Mapping};
use waylluqen::{Refusal, Request};

/// A table while requests change it, and their operations.
pub struct Turns<'a> {
    pub table: &'a mut [Mapping],
    pub count: usize,
    /// The highest count so far: behind so many mappings all words are as they were.
    pub most: usize,
    pub operations: &'a mut [Operation],
    pub used: usize,
    /// The place of the last request.
    last: usize,
}

/// A way to find the first place whose mapping starts at an address or above.
pub trait Find {
    fn find(mappings: &[Mapping], last: usize, address: u64) -> usize;
}

/// By halves.
pub struct ByHalves;

impl Find for ByHalves {
    #[inline(always)]
    fn find(mappings: &[Mapping], _: usize, address: u64) -> usize {
        mappings.partition_point(|mapping| mapping[0] < address)
    }
}

/// Where the last request was or next to it, else by halves.
pub struct Nearby;

impl Find for Nearby {
    #[inline(always)]
    fn find(mappings: &[Mapping], last: usize, address: u64) -> usize {
        let is_below = |mapping: &Mapping| mapping[0] < address;
        if last == 0 || mappings.get(last - 1).is_some_and(is_below) {
            for (place, mapping) in mappings.iter().enumerate().skip(last).take(2) {
                if !is_below(mapping) {
                    return place;
                }
            }
        }
        mappings.partition_point(is_below)
    }
}

/// The places that a request hits, and what it leaves of the mappings there.
struct Hits {
    low: usize,
    high: usize,
    has_lower: bool,
    upper: Option<Mapping>,
}

impl<'a> Turns<'a> {
    pub fn new(words: &'a mut [u64], count: usize, list: &'a mut [u64]) -> Turns<'a> {
        Turns {
            table: words.as_chunks_mut().0,
            count,
            most: count,
            operations: list.as_chunks_mut().0,
            used: 0,
            last: 0,
        }
    }

    #[inline(always)]
    fn hits<F: Find>(&self, start: u64, end: u64) -> Hits {
        let mappings = &self.table[..self.count];
        let mut low = F::find(mappings, self.last, start);
        let before = low.checked_sub(1).map(|before| mappings[before]);
        let has_lower = before.is_some_and(|[address, size, ..]| start < address + size);
        low -= usize::from(has_lower);
        let hit = mappings[low..].iter().take_while(|old| old[0] < end);
        let high = low + hit.count();
        let last = mappings[low..high].last();
        Hits {
            low,
            high,
            has_lower,
            upper: last.and_then(|old| upper_rest(end, old)),
        }
    }

    #[inline(always)]
    pub fn take<F: Find>(&mut self, bounds: &Bounds, record: &Record) -> Result<(), Refusal> {
        let request = decode(record)?;
        let end = check_request(bounds, &request)?;
        let hits = self.hits::<F>(request.address, end);
        let is_map = usize::from(request.op == Request::MAP);
        let new = usize::from(hits.has_lower) + is_map + usize::from(hits.upper.is_some());
        let behind = hits.low + new;
        let after = behind + (self.count - hits.high);
        if after > self.table.len() {
            return Err(Refusal::NoRoom);
        }
        let number = hits.high - hits.low + is_map;
        let Some(operations) = self.operations[self.used..].get_mut(..number) else {
            return Err(Refusal::ShortOutput);
        };
        let hit = &self.table[hits.low..hits.high];
        let is_whole = !hits.has_lower && hits.upper.is_none();
        write_operations(operations, &request, end, hit, is_whole);
        if hits.high != behind {
            self.table.copy_within(hits.high..self.count, behind);
        }
        put(&mut self.table[hits.low..behind], &request, &hits);
        self.used += number;
        self.last = hits.low;
        self.count = after;
        self.most = self.most.max(after);
        Ok(())
    }

    /// Takes all requests back.
    #[cold]
    pub fn take_back(&mut self) {
        self.count = take_back(self.table, self.count, &self.operations[..self.used]);
    }

    /// Makes the words that are free now zero.
    pub fn clear_free(&mut self) {
        self.table[self.count..self.most].as_flattened_mut().fill(0);
    }
}

/// The operations of the mappings that are hit, as a whole or not, and of the new one.
#[inline(always)]
pub fn write_operations(
    operations: &mut [Operation],
    request: &Request,
    end: u64,
    hit: &[Mapping],
    is_whole: bool,
) {
    let mut operations = operations.iter_mut();
    if is_whole {
        for (old, operation) in hit.iter().zip(&mut operations) {
            *operation = unmap_operation(request, old);
        }
    } else {
        for (old, operation) in hit.iter().zip(&mut operations) {
            *operation = cut(request, end, old);
        }
    }
    if let Some(operation) = operations.next() {
        *operation = map_operation(&named(request));
    }
}

/// The mapping that a request to map asks for.
pub fn named(request: &Request) -> Mapping {
    [
        request.address,
        request.size,
        request.object,
        request.offset,
    ]
}

/// Puts what a request makes into its places, of which the first still has its old mapping.
#[inline(always)]
fn put(places: &mut [Mapping], request: &Request, hits: &Hits) {
    let mut at = 0;
    if hits.has_lower {
        places[0][1] = request.address - places[0][0];
        at = 1;
    }
    if request.op == Request::MAP {
        places[at] = named(request);
        at += 1;
    }
    if let Some(upper) = hits.upper {
        places[at] = upper;
    }
}

/// Takes requests back by their operations, the last one first, and tells how many mappings there
/// are then.
pub fn take_back(table: &mut [Mapping], mut count: usize, operations: &[Operation]) -> usize {
    for operation in operations.iter().rev() {
        let &[kind, _, a, b, c, d, _, lower_size, _, _, _, upper_size, _, _] = operation;
        let place = table[..count].partition_point(|mapping| mapping[0] < a);
        let (old, made) = match kind {
            MAP => (0, 1),
            _ => (
                1,
                usize::from(lower_size != 0) + usize::from(upper_size != 0),
            ),
        };
        table.copy_within(place + made..count, place + old);
        if old == 1 {
            table[place] = [a, b, c, d];
        }
        count = count - made + old;
    }
    count
}
