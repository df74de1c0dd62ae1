//! Batches of requests: the library's, and plain ones beside it.

pub mod agree;
mod gapped;
mod line;
mod plain;
mod report;
mod rules;
mod tree;
mod turns;

pub use line::{lines, Line};
pub use report::print;

use crate::manager::{lent_types, Grant};
use crate::timed;
use crate::tree::Tree;
use gapped::Gapped;
use plain::{Copied, Halved, Undone, Worked};
use rules::take_turns;
use std::marker::PhantomData;
use waylluqen::{BatchRefusal, Space, MAPPING_WORDS, OPERATION_WORDS};
use waylluqen_compare::tables::Table;

pub type Batched = Result<Grant, BatchRefusal>;

/// Keeps the mappings of a space beside a list of sparse ranges, and checks both once for a batch.
pub trait Manager {
    /// Carries out the requests in these records, all or none, with words to work in and for the
    /// operations.
    fn bind_batch(
        &mut self,
        space: Space,
        records: &[u8],
        work: &mut [u64],
        list: &mut [u64],
    ) -> Batched;

    /// Takes out all mappings by hand, of which there are so many.
    fn empty(&mut self, count: usize);

    /// The table as words, and its count.
    fn table(&self) -> (Vec<u64>, u64);
}

/// A way to carry out a batch on a table in lent words.
pub trait Way {
    fn bind_batch(
        space: Space,
        table: &mut Table,
        records: &[u8],
        work: &mut [u64],
        list: &mut [u64],
    ) -> Batched;
}

/// A manager of lent words.
struct Lent<W> {
    table: Table,
    way: PhantomData<W>,
}

impl<W: Way + 'static> Lent<W> {
    fn begin(table: &Table) -> Box<dyn Manager> {
        Box::new(Lent {
            table: table.clone(),
            way: PhantomData::<W>,
        })
    }
}

impl<W: Way> Manager for Lent<W> {
    fn bind_batch(
        &mut self,
        space: Space,
        records: &[u8],
        work: &mut [u64],
        list: &mut [u64],
    ) -> Batched {
        let grant = W::bind_batch(space, &mut self.table, records, work, list)?;
        self.table.count = grant.count;
        Ok(grant)
    }

    fn empty(&mut self, count: usize) {
        self.table.words[..count * MAPPING_WORDS].fill(0);
        self.table.count = 0;
    }

    fn table(&self) -> (Vec<u64>, u64) {
        (self.table.words.clone(), self.table.count)
    }
}

struct Library;

impl Way for Library {
    fn bind_batch(
        space: Space,
        table: &mut Table,
        records: &[u8],
        work: &mut [u64],
        list: &mut [u64],
    ) -> Batched {
        let mut table = lent_types(table);
        let operations = table.bind_batch_records(space, records, work, list)?;
        Ok(Grant {
            operations: operations.len() as u64,
            count: table.count(),
        })
    }
}

/// The library's call for one request, for each of them: nothing is taken back where one is refused.
struct Single;

impl Way for Single {
    fn bind_batch(
        space: Space,
        table: &mut Table,
        records: &[u8],
        _: &mut [u64],
        list: &mut [u64],
    ) -> Batched {
        let mut table = lent_types(table);
        let mut used = 0;
        take_turns(records.as_chunks().0, |record| {
            let list = &mut list[used * OPERATION_WORDS..];
            used += table.bind_record(space, record, list)?.len();
            Ok(())
        })?;
        Ok(Grant {
            operations: used as u64,
            count: table.count(),
        })
    }
}

pub type Contender = timed::Contender<dyn Manager>;

const LIBRARY: Contender = Contender {
    name: "library",
    begin: Lent::<Library>::begin,
};

const PLAIN: [Contender; 4] = [
    Contender {
        name: "copied",
        begin: Lent::<Copied>::begin,
    },
    Contender {
        name: "worked",
        begin: Lent::<Worked>::begin,
    },
    Contender {
        name: "undone",
        begin: Lent::<Undone>::begin,
    },
    Contender {
        name: "halved",
        begin: Lent::<Halved>::begin,
    },
];

/// Apart from the plain ones: it keeps the table in another form while the batch goes on, which
/// nobody would write first. So it shows what could be had, and does not count for the quickest.
const GAPPED: Contender = Contender {
    name: "gapped",
    begin: Lent::<Gapped>::begin,
};

const SINGLE: Contender = Contender {
    name: "single calls",
    begin: Lent::<Single>::begin,
};

const TREE: Contender = Contender {
    name: "BTreeMap",
    begin: |table| Box::new(Tree::new(table)),
};

/// Those that carry out a batch, all or none, in lent words, which can be any.
fn lent() -> impl Iterator<Item = &'static Contender> {
    [&LIBRARY].into_iter().chain(&PLAIN).chain([&GAPPED])
}

/// The library first, then the plain ones and the one with a gap, then single calls and the tree.
pub fn contenders() -> Vec<&'static Contender> {
    lent().chain([&SINGLE, &TREE]).collect()
}
