//! The same on a map of the standard library, which is checked once for a batch.

use super::rules::{check_lengths, clear, decode, take_turns, whole, Lengths, Record};
use super::{Batched, Manager};
use crate::cut::{Operation, MAP};
use crate::manager::{self, Bound, Grant};
use crate::rules::{check_ranges, check_request, Bounds};
use crate::tree::Tree;
use waylluqen::{Refusal, Space, OPERATION_WORDS};

/// The requests of a batch on a map, and their operations so far.
struct Turns<'a> {
    tree: &'a mut Tree,
    bounds: Bounds,
    capacity: usize,
    list: &'a mut [u64],
    used: usize,
}

impl Turns<'_> {
    fn take(&mut self, record: &Record) -> Result<(), Refusal> {
        let request = decode(record)?;
        let end = check_request(&self.bounds, &request)?;
        let left = &mut self.list[self.used * OPERATION_WORDS..];
        // No request has more operations than there are mappings, and one.
        let is_short = left.len() < (self.tree.mappings.len() + 1) * OPERATION_WORDS;
        let grant = match is_short {
            true => self.tree.change_short(self.capacity, left, |tree, list| {
                tree.change(self.capacity, list, &request, end)
            }),
            false => self.tree.change(self.capacity, left, &request, end),
        }?;
        self.used += grant.operations as usize;
        Ok(())
    }
}

impl Tree {
    /// Makes a change where its operations may not fit into the words that are left.
    #[cold]
    fn change_short(
        &mut self,
        capacity: usize,
        left: &mut [u64],
        change: impl FnOnce(&mut Tree, &mut [u64]) -> Bound,
    ) -> Bound {
        let mut list = vec![0; (capacity + 1) * OPERATION_WORDS];
        let grant = change(self, &mut list)?;
        let words = grant.operations as usize * OPERATION_WORDS;
        let Some(left) = left.get_mut(..words) else {
            self.take_back(&list[..words]);
            return Err(Refusal::ShortOutput);
        };
        left.copy_from_slice(&list[..words]);
        Ok(grant)
    }

    /// Takes requests back by their operations, the last one first.
    #[cold]
    fn take_back(&mut self, list: &[u64]) {
        let operations: &[Operation] = list.as_chunks().0;
        for &[kind, _, a, b, c, d, _, _, _, _, upper, upper_size, _, _] in operations.iter().rev() {
            // The new mapping, or the lower rest.
            self.mappings.remove(&a);
            if upper_size != 0 {
                self.mappings.remove(&upper);
            }
            if kind != MAP {
                self.insert([a, b, c, d]);
            }
        }
    }
}

impl Manager for Tree {
    fn bind_batch(
        &mut self,
        space: Space,
        records: &[u8],
        work: &mut [u64],
        list: &mut [u64],
    ) -> Batched {
        let lengths = check_lengths(space, self.words, records, work, list).map_err(whole)?;
        let Lengths {
            bounds,
            capacity,
            records,
        } = lengths;
        self.check(&bounds).map_err(whole)?;
        check_ranges(&bounds, &self.list).map_err(whole)?;
        let mut turns = Turns {
            tree: self,
            bounds,
            capacity,
            list,
            used: 0,
        };
        let taken = take_turns(records, |record| turns.take(record));
        let used = turns.used;
        // It works in no lent words.
        clear(work);
        if let Err(refused) = taken {
            self.take_back(&list[..used * OPERATION_WORDS]);
            list.fill(0);
            return Err(refused);
        }
        Ok(Grant {
            operations: used as u64,
            count: self.mappings.len() as u64,
        })
    }

    fn empty(&mut self, _: usize) {
        self.mappings.clear();
    }

    fn table(&self) -> (Vec<u64>, u64) {
        manager::Manager::table(self)
    }
}
