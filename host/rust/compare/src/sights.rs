//! How often look-ups had each kind of answer, and what ended it.

use crate::tables::Table;
use std::ops::Range;
use waylluqen_model::{Seen, Shown, SparseRange, MAPPING_WORDS};

#[derive(Debug, Default)]
pub struct Sights {
    /// Addresses that show an object, up to their mapping's end.
    pub objects: u64,
    /// Those of which a touching neighbour goes on with the same bytes.
    pub continued: u64,
    /// Those that are in a sparse range too, and those whose answer goes on over the edge of one.
    pub over_ranges: u64,
    pub over_edges: u64,
    /// Addresses that show nothing up to the next mapping, up to a sparse range, and up to the
    /// space's end.
    pub gaps: u64,
    pub before_ranges: u64,
    pub last_gaps: u64,
    /// Addresses that are sparse up to the next mapping, and up to their range's end; those of which
    /// a touching range goes on.
    pub before_mappings: u64,
    pub sparse: u64,
    pub touching: u64,
    pub outside: u64,
}

/// The mapping at or behind an address, in the words of an ascending table.
fn mapping_from(table: &Table, address: u64) -> Option<&[u64; MAPPING_WORDS]> {
    let mappings = &table.words.as_chunks().0[..table.count as usize];
    mappings.get(mappings.partition_point(|mapping: &[u64; MAPPING_WORDS]| mapping[0] < address))
}

impl Sights {
    /// Counts the answer to a look-up in a good table.
    pub fn count(&mut self, table: &Table, address: u64, seen: Seen) {
        let end = address.wrapping_add(seen.bytes);
        match seen.shown {
            Shown::Object { object, offset } => {
                self.objects += 1;
                let next = mapping_from(table, end);
                let goes_on = next.is_some_and(|&[start, _, next, from]| {
                    (start, next, from) == (end, object, offset + seen.bytes)
                });
                self.continued += u64::from(goes_on);
                self.count_over(table, address..end);
            }
            Shown::Nothing if seen.bytes == 0 => self.outside += 1,
            Shown::Nothing => self.count_gap(table, end),
            Shown::Sparse => self.count_sparse(table, end),
        }
    }

    /// Of an address in a mapping, up to where it ends.
    fn count_over(&mut self, table: &Table, bytes: Range<u64>) {
        let ranges = table.list.ranges();
        let has = |range: &SparseRange| range.extent().has(bytes.start);
        self.over_ranges += u64::from(ranges.iter().any(has));
        let inside = |edge: u64| bytes.start < edge && edge < bytes.end;
        let is_cut = |range: &SparseRange| inside(range.start) || inside(range.start + range.size);
        self.over_edges += u64::from(ranges.iter().any(is_cut));
    }

    fn count_gap(&mut self, table: &Table, end: u64) {
        let starts = |range: &SparseRange| range.start == end;
        if end == table.space.start + table.space.size {
            self.last_gaps += 1;
        } else if table.list.ranges().iter().any(starts) {
            self.before_ranges += 1;
        } else {
            self.gaps += 1;
        }
    }

    fn count_sparse(&mut self, table: &Table, end: u64) {
        let ranges = table.list.ranges();
        let ends = |range: &SparseRange| range.start + range.size == end;
        let starts = |range: &SparseRange| range.start == end;
        if ranges.iter().any(ends) {
            self.sparse += 1;
            self.touching += u64::from(ranges.iter().any(starts));
        } else {
            self.before_mappings += 1;
        }
    }

    /// How many addresses show nothing.
    pub fn nothing(&self) -> u64 {
        self.gaps + self.before_ranges + self.last_gaps + self.outside
    }

    /// Each kind with its name.
    pub fn kinds(&self) -> [(&'static str, u64); 11] {
        [
            ("an object", self.objects),
            ("an object that a neighbour continues", self.continued),
            ("an object in a range", self.over_ranges),
            ("an object over a range's edge", self.over_edges),
            ("nothing up to a mapping", self.gaps),
            ("nothing up to a range", self.before_ranges),
            ("nothing up to the space's end", self.last_gaps),
            ("sparse up to a mapping", self.before_mappings),
            ("sparse up to the range's end", self.sparse),
            ("sparse up to another range", self.touching),
            ("outside the space", self.outside),
        ]
    }
}
