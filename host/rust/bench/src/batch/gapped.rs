//! A batch on a table whose free places go along with the requests, as an editor's do with its
//! cursor: a request where the last one was moves no mapping, and any other those between the two.

use super::rules::{check, clear, decode, take_turns, Checked, Record};
use super::turns::{named, take_back, write_operations};
use super::{Batched, Way};
use crate::cut::{cut, upper_rest, Operation};
use crate::manager::Grant;
use crate::rules::{check_request, Bounds, Mapping};
use waylluqen::{Refusal, Request, Space};
use waylluqen_compare::tables::Table;

pub struct Gapped;

/// A table while requests change it: free places begin at `gap`, and mappings go on at `stop`.
struct Turns<'a> {
    table: &'a mut [Mapping],
    gap: usize,
    stop: usize,
    /// How many mappings more there may be.
    room: usize,
    operations: &'a mut [Operation],
    used: usize,
}

impl<'a> Turns<'a> {
    fn new(words: &'a mut [u64], count: usize, list: &'a mut [u64], requests: usize) -> Turns<'a> {
        let table = words.as_chunks_mut().0;
        let room = table.len() - count;
        // No request makes more than two mappings more, so that what is behind stays.
        let stop = count + room.min(2 * requests);
        Turns {
            table: &mut table[..stop],
            gap: count,
            stop,
            room,
            operations: list.as_chunks_mut().0,
            used: 0,
        }
    }

    /// Moves the gap in front of the first mapping that starts at the address or above.
    #[inline(always)]
    fn move_gap(&mut self, address: u64) {
        let is_below = |mapping: &Mapping| mapping[0] < address;
        let (low, high) = (&self.table[..self.gap], &self.table[self.stop..]);
        if low.last().is_some_and(|mapping| !is_below(mapping)) {
            let place = low.partition_point(is_below);
            let moved = self.gap - place;
            if self.gap != self.stop {
                self.table.copy_within(place..self.gap, self.stop - moved);
            }
            self.gap = place;
            self.stop -= moved;
        } else if high.first().is_some_and(is_below) {
            let end = self.stop + high.partition_point(is_below);
            if self.gap != self.stop {
                self.table.copy_within(self.stop..end, self.gap);
            }
            self.gap += end - self.stop;
            self.stop = end;
        }
    }

    #[inline(always)]
    fn take(&mut self, bounds: &Bounds, record: &Record) -> Result<(), Refusal> {
        let request = decode(record)?;
        let end = check_request(bounds, &request)?;
        self.move_gap(request.address);
        let (low, high) = self.table.split_at_mut(self.stop);
        // One that starts below the range may reach into it.
        let reaching = low[..self.gap].last_mut();
        let reaching = reaching.filter(|old| request.address < old[0] + old[1]);
        let hit = high.iter().take_while(|old| old[0] < end).count();
        let hit = &high[..hit];
        let last = hit.last().or(reaching.as_deref());
        let upper = last.and_then(|old| upper_rest(end, old));
        let is_map = usize::from(request.op == Request::MAP);
        let made = is_map + usize::from(upper.is_some());
        if self.room + hit.len() < made {
            return Err(Refusal::NoRoom);
        }
        let number = usize::from(reaching.is_some()) + hit.len() + is_map;
        let Some(operations) = self.operations[self.used..].get_mut(..number) else {
            return Err(Refusal::ShortOutput);
        };
        let (first, others) = operations.split_at_mut(usize::from(reaching.is_some()));
        if let ([operation], Some(old)) = (first, reaching) {
            *operation = cut(&request, end, old);
            old[1] = request.address - old[0];
        }
        write_operations(others, &request, end, hit, upper.is_none());
        self.room = self.room + hit.len() - made;
        self.used += number;
        self.stop += hit.len();
        self.put(&request, upper);
        Ok(())
    }

    /// Puts what a request makes to both sides of the gap.
    #[inline(always)]
    fn put(&mut self, request: &Request, upper: Option<Mapping>) {
        if let Some(upper) = upper {
            self.stop -= 1;
            self.table[self.stop] = upper;
        }
        if request.op == Request::MAP {
            self.table[self.gap] = named(request);
            self.gap += 1;
        }
    }

    /// Moves the gap behind all mappings, and tells how many there are.
    fn close(&mut self) -> usize {
        if self.gap != self.stop {
            self.table.copy_within(self.stop.., self.gap);
        }
        self.gap + (self.table.len() - self.stop)
    }
}

impl Way for Gapped {
    fn bind_batch(
        space: Space,
        lent: &mut Table,
        bytes: &[u8],
        work: &mut [u64],
        list: &mut [u64],
    ) -> Batched {
        let Checked {
            bounds,
            count,
            records,
        } = check(space, lent, bytes, work, list)?;
        let mut turns = Turns::new(&mut lent.words, count, list, records.len());
        let taken = take_turns(records, |record| turns.take(&bounds, record));
        let mut after = turns.close();
        let used = turns.used;
        if taken.is_err() {
            after = take_back(turns.table, after, &turns.operations[..used]);
        }
        turns.table[after..].as_flattened_mut().fill(0);
        if taken.is_err() {
            list.fill(0);
        }
        clear(work);
        taken.map(|()| Grant {
            operations: used as u64,
            count: after as u64,
        })
    }
}
