//! The same calls on a map of the standard library: a change moves no mapping, and the check goes
//! through the map.

use crate::cut::{cut, lower_rest, map_operation, new_mapping, upper_rest};
use crate::manager::{Bound, Grant, Looked, Manager};
use crate::rules::{bad_mapping, bounds, capacity, check_list, check_ranges, check_request};
use crate::rules::{masked_end, Bounds, Mapping};
use crate::seen::{seen_in, seen_off};
use std::collections::BTreeMap;
use waylluqen::{Refusal, Request, Space, MAPPING_WORDS, OPERATION_WORDS};
use waylluqen_compare::lists::List;
use waylluqen_compare::tables::Table;

/// Size, object and offset by their address.
pub struct Tree {
    pub mappings: BTreeMap<u64, [u64; 3]>,
    /// Of the table that it stands for.
    pub words: usize,
    /// In lent words, as beside a table.
    pub list: List,
}

fn mapping((&address, &[size, object, offset]): (&u64, &[u64; 3])) -> Mapping {
    [address, size, object, offset]
}

impl Tree {
    /// The mappings of a table whose addresses ascend.
    pub fn new(table: &Table) -> Tree {
        let (mappings, _) = table.words.as_chunks::<MAPPING_WORDS>();
        let mappings = mappings[..table.count as usize].iter();
        let entry = |&[address, size, object, offset]: &Mapping| (address, [size, object, offset]);
        Tree {
            mappings: mappings.map(entry).collect(),
            words: table.words.len(),
            list: table.list.clone(),
        }
    }

    pub fn check(&self, bounds: &Bounds) -> Result<(), Refusal> {
        let mut floor = bounds.start;
        for (place, entry) in self.mappings.iter().enumerate() {
            let (holds, end) = masked_end(bounds, floor, &mapping(entry));
            if !holds {
                return Err(bad_mapping(place));
            }
            floor = end;
        }
        Ok(())
    }

    /// The mapping with the highest address at or below this one.
    fn at_or_below(&self, address: u64) -> Option<Mapping> {
        self.mappings.range(..=address).next_back().map(mapping)
    }

    /// Those that have a byte in `[start, end)`, ascending.
    fn hits(&self, start: u64, end: u64) -> impl DoubleEndedIterator<Item = Mapping> + '_ {
        let reaching = self
            .at_or_below(start)
            .filter(|old| start < old[0] + old[1]);
        let from = reaching.map_or(start, |old| old[0]);
        self.mappings.range(from..end).map(mapping)
    }

    pub fn insert(&mut self, [address, size, object, offset]: Mapping) {
        self.mappings.insert(address, [size, object, offset]);
    }

    /// Carries out a request that is in order, unless there is no room. The list has room.
    pub fn change(
        &mut self,
        capacity: usize,
        list: &mut [u64],
        request: &Request,
        end: u64,
    ) -> Bound {
        let hits = || self.hits(request.address, end);
        let lower = hits().next().and_then(|old| lower_rest(request, &old));
        let upper = hits().next_back().and_then(|old| upper_rest(end, &old));
        let new = [lower, new_mapping(request), upper];
        let mut number = hits().count();
        if self.mappings.len() - number + new.iter().flatten().count() > capacity {
            return Err(Refusal::NoRoom);
        }
        let (operations, _) = list.as_chunks_mut::<OPERATION_WORDS>();
        for (operation, old) in operations.iter_mut().zip(hits()) {
            *operation = cut(request, end, &old);
        }
        for operation in &operations[..number] {
            self.mappings.remove(&operation[2]);
        }
        if let [_, Some(new), _] = &new {
            operations[number] = map_operation(new);
            number += 1;
        }
        for new in new.into_iter().flatten() {
            self.insert(new);
        }
        Ok(Grant {
            operations: number as u64,
            count: self.mappings.len() as u64,
        })
    }
}

impl Manager for Tree {
    fn bind(&mut self, space: Space, request: Request, list: &mut [u64]) -> Bound {
        if request.op > Request::UNMAP {
            return Err(Refusal::BadOp);
        }
        let bounds = bounds(space)?;
        let capacity = capacity(self.words)?;
        check_list(list, capacity)?;
        self.check(&bounds)?;
        check_ranges(&bounds, &self.list)?;
        let end = check_request(&bounds, &request)?;
        self.change(capacity, list, &request, end)
    }

    fn lookup(&mut self, space: Space, address: u64) -> Looked {
        let bounds = bounds(space)?;
        capacity(self.words)?;
        self.check(&bounds)?;
        let ranges = check_ranges(&bounds, &self.list)?;
        let below = self.at_or_below(address);
        let found = below.filter(|&[start, size, ..]| address - start < size);
        Ok(match found {
            Some(mapping) => seen_in(&mapping, address),
            None => {
                let next = self.mappings.range(address..).next();
                seen_off(&bounds, ranges, next.map(|(&start, _)| start), address)
            }
        })
    }

    fn table(&self) -> (Vec<u64>, u64) {
        let mut words: Vec<u64> = self.mappings.iter().flat_map(mapping).collect();
        words.resize(self.words, 0);
        (words, self.mappings.len() as u64)
    }
}
