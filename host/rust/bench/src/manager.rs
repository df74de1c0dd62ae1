//! What is timed: managers of one address space, the library's and plain ones beside it.

use crate::plain::{Checked, Folded, Indexed, Joined, Masked, Merged, Plain};
use crate::timed;
use crate::tree::Tree;
use waylluqen::{Ranges, Refusal, Request, Seen, Shown, Space};
use waylluqen_compare::tables::Table;

/// What a granted request answers.
#[derive(Clone, Copy, Debug, PartialEq, Eq)]
pub struct Grant {
    pub operations: u64,
    pub count: u64,
}

pub type Bound = Result<Grant, Refusal>;
pub type Looked = Result<Seen, Refusal>;

/// A number that depends on all of an answer's.
fn numbers_taken(looked: Looked) -> u64 {
    match looked {
        Ok(Seen { shown, bytes }) => match shown {
            Shown::Nothing | Shown::Sparse => bytes,
            Shown::Object { object, offset } => object ^ offset ^ bytes,
        },
        Err(refusal) => refusal.number().into(),
    }
}

/// Keeps the mappings of a space beside a list of sparse ranges, and checks both at each call. It is
/// asked without the flag alone, so that the list stays.
pub trait Manager {
    fn bind(&mut self, space: Space, request: Request, list: &mut [u64]) -> Bound;
    fn lookup(&mut self, space: Space, address: u64) -> Looked;

    /// Looks an address up and takes the answer's numbers, as a driver does: the answer itself need
    /// not be stored.
    fn look_up(&mut self, space: Space, address: u64) -> u64 {
        numbers_taken(self.lookup(space, address))
    }

    /// The table as words, and its count.
    fn table(&self) -> (Vec<u64>, u64);
}

pub type Contender = timed::Contender<dyn Manager>;

pub const LIBRARY: Contender = Contender {
    name: "library",
    begin: |table| {
        Box::new(Library {
            table: table.clone(),
        })
    },
};

pub const PLAIN: [Contender; 6] = [
    Contender {
        name: "checked",
        begin: |table| Box::new(Plain::<Checked>::new(table)),
    },
    Contender {
        name: "masked",
        begin: |table| Box::new(Plain::<Masked>::new(table)),
    },
    Contender {
        name: "merged",
        begin: |table| Box::new(Plain::<Merged>::new(table)),
    },
    Contender {
        name: "folded",
        begin: |table| Box::new(Plain::<Folded>::new(table)),
    },
    Contender {
        name: "joined",
        begin: |table| Box::new(Plain::<Joined>::new(table)),
    },
    Contender {
        name: "indexed",
        begin: |table| Box::new(Plain::<Indexed>::new(table)),
    },
];

/// Its mappings are in a map of the standard library, not in lent words.
pub const TREE: Contender = Contender {
    name: "BTreeMap",
    begin: |table| Box::new(Tree::new(table)),
};

/// Those whose mappings are in lent words, which can be any.
pub fn lent() -> impl Iterator<Item = &'static Contender> {
    [&LIBRARY].into_iter().chain(&PLAIN)
}

/// The library first, then the plain ones, the tree last.
pub fn contenders() -> Vec<&'static Contender> {
    lent().chain([&TREE]).collect()
}

struct Library {
    table: Table,
}

/// What is lent to a call of the library. A list of no word is the one that a table has by itself.
#[inline]
pub fn lent_types(table: &mut Table) -> waylluqen::Table<'_> {
    let Table {
        words, count, list, ..
    } = table;
    let lent = waylluqen::Table::with_count(words, *count);
    match list.is_none() {
        true => lent,
        false => lent.with_ranges(Ranges::with_count(&mut list.words, list.count)),
    }
}

impl Manager for Library {
    fn bind(&mut self, space: Space, request: Request, list: &mut [u64]) -> Bound {
        let mut table = lent_types(&mut self.table);
        let operations = table.bind(space, request, list)?.len() as u64;
        let count = table.count();
        self.table.count = count;
        Ok(Grant { operations, count })
    }

    fn lookup(&mut self, space: Space, address: u64) -> Looked {
        lent_types(&mut self.table).lookup(space, address)
    }

    fn table(&self) -> (Vec<u64>, u64) {
        (self.table.words.clone(), self.table.count)
    }
}
