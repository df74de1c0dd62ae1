//! What a driver does with how far an answer goes on: walks over a space, run by run.

use crate::library;
use crate::tables::Table;
use waylluqen::{Mapping, Run, Seen, Shown, SparseRange, View};

/// What is seen `bytes` behind an address of which this is seen, as far as that goes on.
pub fn moved(seen: Seen, bytes: u64) -> Seen {
    let shown = match seen.shown {
        Shown::Object { object, offset } => Shown::Object {
            object,
            offset: offset + bytes,
        },
        other => other,
    };
    Seen {
        shown,
        bytes: seen.bytes - bytes,
    }
}

/// The mapping that a run is, if it is the whole of one.
fn mapping(run: &Run) -> Option<Mapping> {
    match run.shown {
        Shown::Nothing | Shown::Sparse => None,
        Shown::Object { object, offset } => {
            Some(Mapping::from([run.address, run.bytes, object, offset]))
        }
    }
}

/// The place of the mapping that has the address, if one has it.
fn owner(view: View, address: u64) -> Option<usize> {
    let has = |mapping: Mapping| {
        let (start, end) = (mapping.address, mapping.address + mapping.size);
        (start..end).contains(&address)
    };
    view.mappings().position(has)
}

/// The place of the sparse range that has the address, if one has it.
fn range_of(view: View, address: u64) -> Option<usize> {
    let has = |range: SparseRange| (range.start..range.start + range.size).contains(&address);
    view.ranges().position(has)
}

/// What tells an address from its neighbour: its mapping, and only where it has none its range.
fn look(view: View, address: u64) -> (Option<usize>, Option<usize>) {
    match owner(view, address) {
        Some(owner) => (Some(owner), None),
        None => (None, range_of(view, address)),
    }
}

/// The library's look-ups in a good table.
pub struct Walk<'a> {
    table: &'a Table,
    view: View<'a>,
    end: u64,
}

impl<'a> Walk<'a> {
    pub fn new(table: &'a Table) -> Walk<'a> {
        Walk {
            table,
            view: View::new(&table.words, table.count)
                .with_ranges(&table.list.words, table.list.count),
            end: table.space.start + table.space.size,
        }
    }

    pub fn look_up(&self, address: u64) -> Seen {
        let space = library::space(&self.table.space);
        let seen = self.view.lookup(space, address);
        seen.expect("nothing is wrong with the table")
    }

    /// The runs of the space, each from where the one before it ends.
    pub fn runs(&self) -> Vec<Run> {
        let mut runs = Vec::new();
        let mut address = self.table.space.start;
        while address < self.end {
            let Seen { shown, bytes } = self.look_up(address);
            let left = self.end - address;
            assert!((1..=left).contains(&bytes), "{bytes:#x} at {address:#x}");
            runs.push(Run {
                address,
                bytes,
                shown,
            });
            address += bytes;
        }
        runs
    }

    /// Asserts that the runs are the table's mappings, whole, in their order and each once, with
    /// at most one run of another kind before each and behind the last, and one more for each edge
    /// of a range; and that of the others those are sparse that a range has.
    pub fn assert_mappings(&self, runs: &[Run]) {
        let mappings = runs.iter().filter_map(mapping);
        assert!(mappings.eq(self.view.mappings()), "the runs {runs:x?}");
        let most = 2 * self.view.count() + 1 + 2 * self.table.list.count;
        assert!(runs.len() as u64 <= most, "{} look-ups", runs.len());
        for run in runs.iter().filter(|run| mapping(run).is_none()) {
            let range = range_of(self.view, run.address);
            let shown = match range {
                Some(_) => Shown::Sparse,
                None => Shown::Nothing,
            };
            assert_eq!(run.shown, shown, "{run:x?}");
        }
    }

    /// Asserts that the byte so far behind a run's first shows what follows, as far as the run goes
    /// on.
    pub fn assert_inside(&self, run: &Run, behind: u64) {
        let &Run {
            address,
            bytes,
            shown,
        } = run;
        let seen = self.look_up(address + behind);
        assert_eq!(
            seen,
            moved(Seen { shown, bytes }, behind),
            "{behind:#x} behind {address:#x}"
        );
    }

    /// Asserts that the first byte behind a run is the space's end, or that its mapping is another
    /// one, or is none; and of what no mapping has, its range.
    pub fn assert_end(&self, run: &Run) {
        let behind = run.address + run.bytes;
        if behind == self.end {
            let outside = Seen {
                shown: Shown::Nothing,
                bytes: 0,
            };
            assert_eq!(self.look_up(behind), outside);
        } else {
            let looks = [run.address, behind].map(|address| look(self.view, address));
            assert_ne!(looks[0], looks[1], "{run:x?} goes on");
        }
    }
}
