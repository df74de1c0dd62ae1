//! The lines of batches: 64 requests each, all granted.

use super::{Manager, PLAIN};
use crate::line::{back, replace, space_and_mappings, split, table, unmap, Change};
use crate::timed::Timed;
use std::hint::black_box;
use waylluqen::{batch_list_words, Request, MAPPING_WORDS, MAX_BATCH};
use waylluqen_compare::batches::Batch;
use waylluqen_compare::library;
use waylluqen_compare::tables::Table;
use waylluqen_model::random::Random;
use waylluqen_model::{Space, PAGE};

/// The room of the tables that are timed.
const SIZES: [usize; 4] = [64, 256, 512, 4096];

/// A change and what puts it back take two of the requests.
const CHANGES: usize = MAX_BATCH / 2;

type Mapping = [u64; MAPPING_WORDS];

/// How many batches a line has: with one alone, made again and again, the processor would foresee
/// every branch of its searches. Fewer in a large table, where they take longer.
fn batches(room: usize) -> usize {
    (16_384 / room).clamp(4, 16)
}

/// Batches that leave the table as it was, or are put back by hand.
pub struct Line {
    pub what: &'static str,
    pub room: usize,
    pub table: Table,
    pub space: waylluqen::Space,
    /// The records of each.
    pub batches: Vec<Vec<u8>>,
    /// Whether the table is empty, and is made so again by hand.
    pub starts_empty: bool,
}

impl Line {
    fn new(
        what: &'static str,
        table: Table,
        requests: impl Fn(&mut Random) -> Vec<Request>,
    ) -> Line {
        let room = table.words.len() / MAPPING_WORDS;
        let mut random = Random::new(room as u64);
        let batch = |_| {
            let requests = requests(&mut random);
            assert_eq!(requests.len(), MAX_BATCH);
            requests.iter().flat_map(|one| one.record()).collect()
        };
        Line {
            what,
            room,
            space: library::space(&table.space),
            batches: (0..batches(room)).map(batch).collect(),
            starts_empty: table.count == 0,
            table,
        }
    }

    /// A batch with these records, and the words that are lent to it.
    pub fn batch<'a>(&'a self, records: &'a [u8]) -> Batch<'a> {
        Batch {
            table: &self.table,
            work_words: self.table.words.len(),
            operation_words: batch_list_words(self.room, MAX_BATCH),
            records,
        }
    }
}

impl Timed for Line {
    type Manager = dyn Manager;
    type Start = Table;
    const KIND: &'static str = "batches";
    const PLAIN: usize = PLAIN.len();
    // A timing takes longer than one of single calls, by the number of the batches.
    const ROUNDS: usize = 300;
    const SIZE: &'static str = "mappings";

    fn what(&self) -> &'static str {
        self.what
    }

    fn size(&self) -> usize {
        self.room
    }

    fn start(&self) -> &Table {
        &self.table
    }

    /// Words to work in, as many as the table's, and for operations: behind those of the others a
    /// single call still has enough.
    fn lent(&self) -> Vec<u64> {
        let batch = self.batch(&[]);
        vec![0; batch.work_words + batch.operation_words]
    }

    fn calls(&self) -> usize {
        self.batches.len()
    }

    #[inline(never)]
    fn make_calls(&self, manager: &mut Self::Manager, lent: &mut [u64]) {
        let (work, list) = lent.split_at_mut(self.table.words.len());
        for records in &self.batches {
            let records = black_box(&records[..]);
            let _ = black_box(manager.bind_batch(self.space, records, work, list));
            if self.starts_empty {
                // Timed and counted too, for all alike: no call takes out all mappings at once.
                manager.empty(MAX_BATCH);
            }
        }
    }
}

/// So many of the mappings, each once, in any order.
fn different(random: &mut Random, mut mappings: Vec<Mapping>) -> Vec<Mapping> {
    for at in 0..CHANGES {
        let other = at + random.below((mappings.len() - at) as u64) as usize;
        mappings.swap(at, other);
    }
    mappings.truncate(CHANGES);
    mappings
}

/// Other objects over different mappings of a full table, and then the old ones back.
fn map_over(room: usize) -> Line {
    let (space, mappings) = space_and_mappings(room);
    let table = table(space, &mappings, room);
    Line::new("map over one mapping", table, |random| {
        let olds = different(random, mappings.clone());
        let changes = olds.iter().copied().map(replace);
        changes.chain(olds.iter().copied().map(back)).collect()
    })
}

/// Changes of some mappings, each put back by the next request.
fn pairs(random: &mut Random, olds: &[Mapping], change: Change) -> Vec<Request> {
    let pair = |_| {
        let old = random.pick(olds);
        [change(old), back(old)]
    };
    (0..CHANGES).flat_map(pair).collect()
}

/// Pages into the middle of mappings of three, in a table with no more room than that takes.
fn map_into(room: usize) -> Line {
    let (space, mappings) = space_and_mappings(room - 2);
    let table = table(space, &mappings, room);
    let is_large = |[_, size, ..]: &Mapping| *size == 3 * PAGE;
    let olds: Vec<Mapping> = mappings.into_iter().filter(is_large).collect();
    Line::new("map into one and undo", table, |random| {
        pairs(random, &olds, split)
    })
}

/// Mappings of a full table go and come back.
fn unmap_and_map(room: usize) -> Line {
    let (space, mappings) = space_and_mappings(room);
    let table = table(space, &mappings, room);
    Line::new("unmap and map", table, |random| {
        pairs(random, &mappings, unmap)
    })
}

/// A driver's start-up: 1 to 16 pages each, some with a page between them; most of them one behind
/// the other from the bottom of the space on, and every fourth below the one before it at the top.
fn start_up(random: &mut Random, space: &Space) -> Vec<Request> {
    let (mut bottom, mut top) = (space.start, space.start + space.size);
    let map = |place: usize| {
        let size = (1 + random.below(16)) * PAGE;
        let gap = random.below(2) * PAGE;
        let object = 1 + place as u64;
        if place % 4 == 3 {
            top -= size + gap;
            return Request::map(top, size, object, 0);
        }
        bottom += size + gap;
        Request::map(bottom - size, size, object, 0)
    };
    (0..MAX_BATCH).map(map).collect()
}

/// In a space of 4 GiB with a reservation in its middle, which the mappings don't reach.
fn map_into_empty(room: usize) -> Line {
    let (start, size) = (1 << 32, 1 << 32);
    let space = Space {
        start,
        size,
        reserved_start: start + size / 2,
        reserved_size: 16 * PAGE,
    };
    let table = table(space, &[], room);
    Line::new("64 maps into an empty space", table, |random| {
        start_up(random, &space)
    })
}

pub fn lines() -> Vec<Line> {
    let kinds = [map_over, map_into, unmap_and_map, map_into_empty];
    let of_kind = |line: fn(usize) -> Line| SIZES.map(line);
    kinds.into_iter().flat_map(of_kind).collect()
}
