// SPDX-License-Identifier: MIT
//! Keeps the mappings of a GPU address space: maps, unmaps and looks addresses up.
//!
//! A driver lends words for a [`Table`] of mappings and words for a list of operations. To map or
//! unmap a range it asks [`Table::bind`], which cuts what is mapped there out of the table and
//! gives the operations to carry out; [`Table::bind_batch`] does so for a whole array of requests,
//! all or none. [`Table::lookup`] tells what an address shows and how far
//! that goes on, and [`Table::runs`] walks a range by it; so does a [`View`], a table by shared
//! borrow. A table can have sparse ranges beside it, as Vulkan's sparse residency needs them:
//! [`Ranges`], in words that are lent too. [`page_entries`] lists the page entries of one mapping,
//! with large pages among them. Nothing is asked of the words and the numbers: a table, a list of
//! ranges, a request or a mapping that breaks a rule is refused with a [`Refusal`], and then no lent
//! word has changed.
//!
//! The work is done by a proved static library; this crate gives it a safe Rust interface.
//!
//! ```
//! use waylluqen::{operation_list_words, table_words, Operation, Request, Shown, Space, Table};
//!
//! const CAPACITY: usize = 8;
//! let space = Space::new(0x10_0000, 0x10_0000);
//! let mut words = [0; table_words(CAPACITY)];
//! let mut list = [0; operation_list_words(CAPACITY)];
//! let mut table = Table::empty(&mut words);
//!
//! let request = Request::map(0x10_0000, 0x3000, 7, 0);
//! for operation in table.bind(space, request, &mut list)? {
//!     match operation {
//!         Operation::Map(new) => assert_eq!(new.size, 0x3000), // write page entries
//!         Operation::Remap { old, rests, keep } => unreachable!("{old:?} {rests:?} {keep}"),
//!         Operation::Unmap { old, keep } => unreachable!("{old:?} {keep}"),
//!     }
//! }
//! let seen = table.lookup(space, 0x10_2008)?;
//! assert_eq!(seen.shown, Shown::Object { object: 7, offset: 0x2008 });
//! assert_eq!(seen.bytes, 0xff8); // to the mapping's end
//! # Ok::<(), waylluqen::Refusal>(())
//! ```

#![no_std]
#![deny(unsafe_code)]
#![warn(missing_docs)]

mod batch;
pub mod ffi;
mod mapping;
mod operation;
mod pages;
mod ranges;
mod refusal;
mod request;
mod runs;
mod seen;
mod space;
mod table;
mod view;

pub use batch::BatchRefusal;
pub use mapping::Mapping;
pub use operation::{Operation, Operations, Rests};
pub use pages::{page_entries, PageEntries, PageEntry};
pub use ranges::{Ranges, SparseRange};
pub use refusal::Refusal;
pub use request::{check_request, Request};
pub use runs::{Run, Runs};
pub use seen::{Seen, Shown};
pub use space::Space;
pub use table::Table;
pub use view::View;

/// The size of a page in bytes: addresses, sizes and offsets are multiples of it.
///
/// ```
/// use waylluqen::{check_request, Space, PAGE_SIZE};
///
/// // A space has at least one page; this record is too short all the same.
/// assert!(check_request(Space::new(0, PAGE_SIZE), &[]).is_err());
/// ```
pub const PAGE_SIZE: u64 = 4096;

/// The size of a large page in bytes, 2 MiB. A [`PageEntry`] has it where its address and offset are
/// multiples of it.
///
/// ```
/// use waylluqen::{page_entries, Mapping, ENTRY_WORDS, PAGE_SIZE_2M};
///
/// let mapping = Mapping { address: 0, size: PAGE_SIZE_2M, object: 7, offset: PAGE_SIZE_2M };
/// let mut words = [0; ENTRY_WORDS];
/// assert_eq!(page_entries(mapping, &mut words)?.len(), 1);
/// # Ok::<(), waylluqen::Refusal>(())
/// ```
pub const PAGE_SIZE_2M: u64 = 1 << 21;

/// The size of the largest page in bytes, 1 GiB. A [`PageEntry`] has it where its address and offset
/// are multiples of it.
///
/// ```
/// use waylluqen::{page_entries, Mapping, ENTRY_WORDS, PAGE_SIZE_1G, PAGE_SIZE_2M};
///
/// let size = PAGE_SIZE_1G + PAGE_SIZE_2M;
/// let mapping = Mapping { address: 0, size, object: 7, offset: PAGE_SIZE_1G };
/// let mut words = [0; 2 * ENTRY_WORDS];
/// let sizes = page_entries(mapping, &mut words)?.map(|entry| entry.size);
/// assert!(sizes.eq([PAGE_SIZE_1G, PAGE_SIZE_2M]));
/// # Ok::<(), waylluqen::Refusal>(())
/// ```
pub const PAGE_SIZE_1G: u64 = 1 << 30;

/// No space ends above this, and no mapping's part of its object.
///
/// ```
/// use waylluqen::{Refusal, Space, Table, LIMIT, PAGE_SIZE};
///
/// let mut words = [0; 4];
/// let table = Table::empty(&mut words);
/// assert_eq!(table.lookup(Space::new(0, LIMIT), 0)?.bytes, LIMIT);
/// assert_eq!(table.lookup(Space::new(PAGE_SIZE, LIMIT), 0), Err(Refusal::BadSpace));
/// # Ok::<(), Refusal>(())
/// ```
pub const LIMIT: u64 = 1 << 48;

/// The highest number of an object; the lowest is 1.
///
/// ```
/// use waylluqen::{operation_list_words, Refusal, Request, Space, Table, MAX_OBJECT, PAGE_SIZE};
///
/// let mut words = [0; 4];
/// let mut list = [0; operation_list_words(1)];
/// let mut table = Table::empty(&mut words);
/// let request = Request::map(0, PAGE_SIZE, MAX_OBJECT + 1, 0);
/// let answer = table.bind(Space::new(0, PAGE_SIZE), request, &mut list);
/// assert_eq!(answer.err(), Some(Refusal::BadObject));
/// ```
pub const MAX_OBJECT: u64 = 0xffff_ffff;

/// A table has room for 1 to this many mappings. With room for so many it has 131,072 bytes, and
/// the operation words for it have 458,864: too much for a stack.
///
/// ```
/// use waylluqen::{table_words, Refusal, Space, Table, MAX_MAPPINGS, PAGE_SIZE};
///
/// let space = Space::new(0, PAGE_SIZE);
/// let mut words = vec![0; table_words(MAX_MAPPINGS)];
/// assert!(Table::empty(&mut words).lookup(space, 0).is_ok());
/// words.resize(table_words(MAX_MAPPINGS + 1), 0);
/// let refused = Table::empty(&mut words).lookup(space, 0);
/// assert_eq!(refused, Err(Refusal::BadTableLength));
/// ```
pub const MAX_MAPPINGS: usize = 4096;

/// A list of sparse ranges has room for 0 to this many.
///
/// ```
/// use waylluqen::{range_words, Refusal, Space, View, MAX_RANGES, PAGE_SIZE};
///
/// let (space, view) = (Space::new(0, PAGE_SIZE), View::new(&[0; 4], 0));
/// let longest = [0; range_words(MAX_RANGES)];
/// assert!(view.with_ranges(&longest, 0).lookup(space, 0).is_ok());
/// let longer = [0; range_words(MAX_RANGES + 1)];
/// assert_eq!(view.with_ranges(&longer, 0).lookup(space, 0), Err(Refusal::BadRanges));
/// ```
pub const MAX_RANGES: usize = 64;

/// A batch has 0 to this many requests.
///
/// ```
/// use waylluqen::{batch_list_words, Refusal, Request, Space, Table, MAX_BATCH, PAGE_SIZE};
///
/// let space = Space::new(0, PAGE_SIZE);
/// let (mut words, mut work) = ([0; 4], [0; 4]);
/// let mut list = [0; batch_list_words(1, MAX_BATCH)];
/// let mut table = Table::empty(&mut words);
/// let requests = [Request::map(0, PAGE_SIZE, 7, 0); MAX_BATCH];
/// assert!(table.bind_batch(space, requests, &mut work, &mut list).is_ok());
///
/// let requests = [Request::map(0, PAGE_SIZE, 7, 0); MAX_BATCH + 1];
/// let refused = table.bind_batch(space, requests, &mut work, &mut list).unwrap_err();
/// assert_eq!((refused.request, refused.refusal), (None, Refusal::BadRecordLength));
/// ```
pub const MAX_BATCH: usize = 64;

/// A mapping in a table is this many words: address, size, object, offset.
///
/// ```
/// use waylluqen::{Mapping, MAPPING_WORDS};
///
/// let words: [u64; MAPPING_WORDS] = [0x1000, 0x2000, 7, 0];
/// assert_eq!(Mapping::from(words).size, 0x2000);
/// ```
pub const MAPPING_WORDS: usize = 4;

/// A sparse range in a list is this many words: start, size.
///
/// ```
/// use waylluqen::{SparseRange, RANGE_WORDS};
///
/// let words: [u64; RANGE_WORDS] = [0x1000, 0x2000];
/// assert_eq!(SparseRange::from(words).size, 0x2000);
/// ```
pub const RANGE_WORDS: usize = 2;

/// An operation is this many words; [`Operation::read`] reads them.
///
/// ```
/// use waylluqen::{Operation, OPERATION_WORDS};
///
/// let words: [u64; OPERATION_WORDS] = [2, 0, 0x1000, 0x1000, 7, 0, 0, 0, 0, 0, 0, 0, 0, 0];
/// assert!(matches!(Operation::read(&words), Some(Operation::Unmap { keep: false, .. })));
/// ```
pub const OPERATION_WORDS: usize = 14;

/// A page entry is this many words: address, offset, size.
///
/// ```
/// use waylluqen::{PageEntry, ENTRY_WORDS};
///
/// let words: [u64; ENTRY_WORDS] = [0x1000, 0x5000, 0x1000];
/// assert_eq!(PageEntry::from(words).offset, 0x5000);
/// ```
pub const ENTRY_WORDS: usize = 3;

/// A request record is this many bytes.
///
/// ```
/// use waylluqen::{check_request, Refusal, Space, RECORD_BYTES};
///
/// let space = Space::new(0, 0x1_0000);
/// let longer = [0; RECORD_BYTES + 1];
/// assert_eq!(check_request(space, &longer), Err(Refusal::BadRecordLength));
/// ```
pub const RECORD_BYTES: usize = 40;

/// How many words a table with room for `capacity` mappings has.
///
/// ```
/// use waylluqen::{table_words, Table};
///
/// let mut words = [0; table_words(8)];
/// assert_eq!(Table::empty(&mut words).capacity(), 8);
/// ```
pub const fn table_words(capacity: usize) -> usize {
    capacity * MAPPING_WORDS
}

/// How many words a list with room for `capacity` sparse ranges has.
///
/// ```
/// use waylluqen::{range_words, Ranges};
///
/// let mut words = [0; range_words(8)];
/// assert_eq!(Ranges::empty(&mut words).capacity(), 8);
/// ```
pub const fn range_words(capacity: usize) -> usize {
    capacity * RANGE_WORDS
}

/// How many operation words a request on a table of that capacity is lent at least: no such
/// request writes more.
///
/// ```
/// use waylluqen::{operation_list_words, table_words, Refusal, Request, Space, Table};
///
/// let space = Space::new(0, 0x1_0000);
/// let mut words = [0; table_words(8)];
/// let mut table = Table::empty(&mut words);
/// let request = Request::unmap(0, 0x1000);
/// let mut list = [0; operation_list_words(8)];
/// assert!(table.bind(space, request, &mut list).is_ok());
/// let refused = table.bind(space, request, &mut list[1..]).err();
/// assert_eq!(refused, Some(Refusal::ShortOperations));
/// ```
pub const fn operation_list_words(capacity: usize) -> usize {
    (capacity + 1) * OPERATION_WORDS
}

/// How many operation words are enough for a batch of so many requests on a table of that
/// capacity: it is not refused for want of operation words. There are no more operations than
/// mappings before the batch and four for each request.
///
/// With fewer, but [`operation_list_words`] at least, a batch is granted if its operations fit.
///
/// ```
/// use waylluqen::{batch_list_words, operation_list_words, table_words};
/// use waylluqen::{Refusal, Request, Space, Table};
///
/// let space = Space::new(0, 0x1_0000);
/// let (mut words, mut work) = ([0; table_words(3)], [0; table_words(3)]);
/// let mut table = Table::empty(&mut words);
/// let requests = [1, 2, 3, 4, 5].map(|object| Request::map(0x1000, 0x1000, object, 0));
///
/// let mut list = [0; operation_list_words(3)];
/// let refused = table.bind_batch(space, requests, &mut work, &mut list).unwrap_err();
/// assert_eq!((refused.request, refused.refusal), (Some(2), Refusal::ShortOutput));
///
/// let mut list = [0; batch_list_words(3, 5)];
/// assert_eq!(table.bind_batch(space, requests, &mut work, &mut list)?.len(), 9);
/// # Ok::<(), waylluqen::BatchRefusal>(())
/// ```
pub const fn batch_list_words(capacity: usize, requests: usize) -> usize {
    (capacity + 1 + 4 * requests) * OPERATION_WORDS
}

/// How many words are enough for the page entries of a mapping of so many bytes: there is room for
/// pages of 4 KiB alone.
///
/// With fewer they are listed too, if they fit.
///
/// ```
/// use waylluqen::{entry_list_words, page_entries, Mapping, Refusal};
///
/// let mapping = Mapping { address: 0x1000, size: 0x3000, object: 7, offset: 0x5000 };
/// let mut words = [0; entry_list_words(0x3000)];
/// assert_eq!(page_entries(mapping, &mut words)?.len(), 3);
/// assert_eq!(page_entries(mapping, &mut words[1..]).err(), Some(Refusal::ShortOutput));
/// # Ok::<(), Refusal>(())
/// ```
pub const fn entry_list_words(bytes: u64) -> usize {
    (bytes / PAGE_SIZE) as usize * ENTRY_WORDS
}
