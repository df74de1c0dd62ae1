//! The static library's calls, with their answers in the words in which C has them. All `unsafe`
//! is in this file; `include/waylluqen.h` says what the calls are.
//!
//! For tests and benchmarks that look at every word of an answer; others use
//! [`Table`](crate::Table) and [`View`](crate::View).
//!
//! ```
//! use waylluqen::{ffi, operation_list_words, table_words, Request, Space};
//!
//! let space = Space::new(0, 0x1_0000);
//! let mut table = [0; table_words(2)];
//! let mut list = [0; operation_list_words(2)];
//! let request = Request::map(0x1000, 0x1000, 7, 0);
//! let answer = ffi::bind(space, &[], 0, &mut table, 0, &mut list, request.into());
//! assert_eq!((answer.refusal, answer.count), (0, 1));
//! assert_eq!(ffi::lookup(space, &[], 0, &table, answer.count, 0x1008).offset, 8);
//! ```

#![allow(unsafe_code)]

use crate::{Mapping, Request, Space};

/// The answer to a look-up: `waylluqen_translation`. What does not apply is 0.
///
/// ```
/// use waylluqen::{ffi, Space};
///
/// let seen = ffi::lookup(Space::new(0, 0x1_0000), &[], 0, &[0x1000, 0x1000, 7, 0], 1, 0x1008);
/// assert_eq!((seen.refusal, seen.place), (0, 0));
/// assert_eq!((seen.shown, seen.object, seen.offset, seen.bytes), (1, 7, 8, 0xff8));
/// ```
#[repr(C)]
#[derive(Clone, Copy, Debug, PartialEq, Eq)]
pub struct Translation {
    /// The number of the refusal; 0 where the look-up is answered.
    pub refusal: u64,
    /// The place of a mapping that is refused.
    pub place: u64,
    /// What the address shows: 0 is nothing, 1 an object, 2 sparse.
    pub shown: u64,
    /// The object that the address shows.
    pub object: u64,
    /// The byte of the object that it shows.
    pub offset: u64,
    /// For how many bytes, from the address on, the answer goes on in the same way.
    pub bytes: u64,
}

/// A request by numbers, which has no flags: `waylluqen_request`.
///
/// ```
/// use waylluqen::{ffi, Request};
///
/// let unmap = ffi::Numbers { op: 1, address: 0, size: 0x1000, object: 0, offset: 0 };
/// assert_eq!(unmap, Request::unmap(0, 0x1000).into());
/// ```
#[repr(C)]
#[derive(Clone, Copy, Debug, PartialEq, Eq)]
pub struct Numbers {
    /// 0 is map, 1 unmap.
    pub op: u64,
    /// The first address of the range.
    pub address: u64,
    /// The size of the range in bytes.
    pub size: u64,
    /// What is to be mapped.
    pub object: u64,
    /// The byte of the object that the first address is to show.
    pub offset: u64,
}

impl From<Request> for Numbers {
    /// All but the flags.
    #[inline]
    fn from(request: Request) -> Numbers {
        Numbers {
            op: request.op,
            address: request.address,
            size: request.size,
            object: request.object,
            offset: request.offset,
        }
    }
}

/// The answer to a request or to a batch: `waylluqen_answer`.
///
/// ```
/// use waylluqen::{ffi, Request, Space};
///
/// let (space, unmap) = (Space::new(0, 0x1_0000), Request::unmap(0, 0x1000));
/// let answer = ffi::bind(space, &[0; 2], 0, &mut [0; 4], 9, &mut [0; 28], unmap.into());
/// let expected = ffi::Answer { refusal: 4, place: 0, operations: 0, count: 9, ranges: 0 };
/// assert_eq!(answer, expected);
/// ```
#[repr(C)]
#[derive(Clone, Copy, Debug, PartialEq, Eq)]
pub struct Answer {
    /// The number of the refusal; 0 where the request or the batch is granted.
    pub refusal: u64,
    /// The place of a mapping that is refused, or of a request in a batch, else 0.
    pub place: u64,
    /// How many operations were written; 0 on a refusal.
    pub operations: u64,
    /// How many mappings the table has now; on a refusal the count that came in.
    pub count: u64,
    /// How many sparse ranges the list has now; on a refusal the count that came in.
    pub ranges: u64,
}

/// The answer that comes with page entries: `waylluqen_pages`.
///
/// ```
/// use waylluqen::{ffi, Mapping};
///
/// let mapping = Mapping { address: 0, size: 0x3000, object: 7, offset: 0x1000 };
/// let answer = ffi::page_entries(mapping, &mut [0; 8]);
/// assert_eq!(answer, ffi::Pages { refusal: 16, place: 0, entries: 0 });
/// ```
#[repr(C)]
#[derive(Clone, Copy, Debug, PartialEq, Eq)]
pub struct Pages {
    /// The number of the refusal; 0 where the entries are listed.
    pub refusal: u64,
    /// 0: there is one mapping.
    pub place: u64,
    /// How many entries were written; 0 on a refusal.
    pub entries: u64,
}

extern "C" {
    fn waylluqen_interface_6() -> u32;

    fn waylluqen_check_request(
        record: *const u8,
        record_bytes: usize,
        start: u64,
        size: u64,
        reserved_start: u64,
        reserved_size: u64,
    ) -> u32;

    fn waylluqen_lookup(
        space: Space,
        ranges: *const u64,
        range_words: usize,
        range_count: u64,
        table: *const u64,
        table_words: usize,
        count: u64,
        address: u64,
    ) -> Translation;

    fn waylluqen_bind(
        space: Space,
        ranges: *const u64,
        range_words: usize,
        range_count: u64,
        table: *mut u64,
        table_words: usize,
        count: u64,
        operations: *mut u64,
        operation_words: usize,
        request: Numbers,
    ) -> Answer;

    fn waylluqen_bind_record(
        space: Space,
        ranges: *mut u64,
        range_words: usize,
        range_count: u64,
        table: *mut u64,
        table_words: usize,
        count: u64,
        operations: *mut u64,
        operation_words: usize,
        record: *const u8,
        record_bytes: usize,
    ) -> Answer;

    fn waylluqen_bind_batch(
        space: Space,
        ranges: *const u64,
        range_words: usize,
        range_count: u64,
        table: *mut u64,
        table_words: usize,
        count: u64,
        work: *mut u64,
        work_words: usize,
        operations: *mut u64,
        operation_words: usize,
        records: *const u8,
        record_bytes: usize,
    ) -> Answer;

    fn waylluqen_page_entries(mapping: Mapping, entries: *mut u64, entry_words: usize) -> Pages;
}

// Needs the archive that these declarations are of: with another one the program does not link.
#[used]
static INTERFACE: unsafe extern "C" fn() -> u32 = waylluqen_interface_6;

/// Calls `waylluqen_check_request`: the number of the first reason to refuse a record, or 0.
///
/// ```
/// use waylluqen::{ffi, Space};
///
/// assert_eq!(ffi::check_request(Space::new(0, 0x1_0000), &[0; 39]), 12);
/// ```
#[inline]
pub fn check_request(space: Space, record: &[u8]) -> u32 {
    // SAFETY: a slice's pointer is not null, also where the slice is empty, and all its bytes can
    // be read. The call takes any numbers and writes nowhere.
    unsafe {
        waylluqen_check_request(
            record.as_ptr(),
            record.len(),
            space.start,
            space.size,
            space.reserved_start,
            space.reserved_size,
        )
    }
}

/// Calls `waylluqen_lookup`.
///
/// ```
/// use waylluqen::{ffi, Space};
///
/// let seen = ffi::lookup(Space::new(0, 0x1_0000), &[0x2000, 0x4000], 1, &[0; 4], 0, 0x3000);
/// assert_eq!((seen.refusal, seen.shown, seen.bytes), (0, 2, 0x3000));
/// ```
#[inline]
pub fn lookup(
    space: Space,
    ranges: &[u64],
    range_count: u64,
    table: &[u64],
    count: u64,
    address: u64,
) -> Translation {
    // SAFETY: a slice's pointer is aligned and not null, also where the slice is empty, and all its
    // words can be read. The call takes any numbers and writes nowhere.
    unsafe {
        waylluqen_lookup(
            space,
            ranges.as_ptr(),
            ranges.len(),
            range_count,
            table.as_ptr(),
            table.len(),
            count,
            address,
        )
    }
}

/// Calls `waylluqen_bind`.
///
/// ```
/// use waylluqen::{ffi, Request, Space};
///
/// let (space, map) = (Space::new(0, 0x1_0000), Request::map(0, 0x1000, 7, 0));
/// let answer = ffi::bind(space, &[], 0, &mut [0; 4], 0, &mut [0; 28], map.into());
/// let expected = ffi::Answer { refusal: 0, place: 0, operations: 1, count: 1, ranges: 0 };
/// assert_eq!(answer, expected);
/// ```
#[inline]
pub fn bind(
    space: Space,
    ranges: &[u64],
    range_count: u64,
    table: &mut [u64],
    count: u64,
    operations: &mut [u64],
    request: Numbers,
) -> Answer {
    // SAFETY: the pointers of slices are aligned and not null, also where a slice is empty, and
    // their words can be read. Those of the two exclusive slices can be written, and nothing
    // overlaps them. The call takes any numbers and writes nowhere else.
    unsafe {
        waylluqen_bind(
            space,
            ranges.as_ptr(),
            ranges.len(),
            range_count,
            table.as_mut_ptr(),
            table.len(),
            count,
            operations.as_mut_ptr(),
            operations.len(),
            request,
        )
    }
}

/// Calls `waylluqen_bind_record`.
///
/// ```
/// use waylluqen::{ffi, Space};
///
/// let (space, mut ranges) = (Space::new(0, 0x1_0000), [0; 2]);
/// let mut record = [0; 40];
/// record[5] = 1; // map with the sparse flag
/// record[33] = 0x10; // the first page
/// let answer = ffi::bind_record(space, &mut ranges, 0, &mut [0; 4], 0, &mut [0; 28], &record);
/// let expected = ffi::Answer { refusal: 0, place: 0, operations: 0, count: 0, ranges: 1 };
/// assert_eq!((answer, ranges), (expected, [0, 0x1000]));
/// ```
#[inline]
pub fn bind_record(
    space: Space,
    ranges: &mut [u64],
    range_count: u64,
    table: &mut [u64],
    count: u64,
    operations: &mut [u64],
    record: &[u8],
) -> Answer {
    // SAFETY: as in `bind`, with three exclusive slices; and all bytes of the record can be read,
    // its pointer is not null, and an exclusive slice does not overlap it.
    unsafe {
        waylluqen_bind_record(
            space,
            ranges.as_mut_ptr(),
            ranges.len(),
            range_count,
            table.as_mut_ptr(),
            table.len(),
            count,
            operations.as_mut_ptr(),
            operations.len(),
            record.as_ptr(),
            record.len(),
        )
    }
}

/// Calls `waylluqen_bind_batch`.
///
/// ```
/// use waylluqen::{ffi, Request, Space};
///
/// let (space, mut table, mut work) = (Space::new(0, 0x1_0000), [0; 4], [9; 4]);
/// let requests = [Request::map(0, 0x1000, 7, 0), Request::unmap(0, 0x1000)];
/// let records = requests.map(Request::record).concat();
/// let list = &mut [9; 28];
/// let answer = ffi::bind_batch(space, &[], 0, &mut table, 0, &mut work, list, &records);
/// let expected = ffi::Answer { refusal: 0, place: 0, operations: 2, count: 0, ranges: 0 };
/// assert_eq!((answer, table, work), (expected, [0; 4], [0; 4]));
/// assert_eq!((list[0], list[14]), (0, 2)); // a map, an unmap
/// ```
#[inline]
#[allow(clippy::too_many_arguments)] // as C has them
pub fn bind_batch(
    space: Space,
    ranges: &[u64],
    range_count: u64,
    table: &mut [u64],
    count: u64,
    work: &mut [u64],
    operations: &mut [u64],
    records: &[u8],
) -> Answer {
    // SAFETY: as in `bind_record`, with three exclusive slices too: the table, the words to work in
    // and those for operations. The list of ranges is only read.
    unsafe {
        waylluqen_bind_batch(
            space,
            ranges.as_ptr(),
            ranges.len(),
            range_count,
            table.as_mut_ptr(),
            table.len(),
            count,
            work.as_mut_ptr(),
            work.len(),
            operations.as_mut_ptr(),
            operations.len(),
            records.as_ptr(),
            records.len(),
        )
    }
}

/// Calls `waylluqen_page_entries`.
///
/// ```
/// use waylluqen::{ffi, Mapping};
///
/// let mapping = Mapping { address: 0x1000, size: 0x2000, object: 7, offset: 0x5000 };
/// let mut words = [9; 7];
/// let answer = ffi::page_entries(mapping, &mut words);
/// assert_eq!(answer, ffi::Pages { refusal: 0, place: 0, entries: 2 });
/// assert_eq!(words, [0x1000, 0x5000, 0x1000, 0x2000, 0x6000, 0x1000, 9]);
/// ```
#[inline]
pub fn page_entries(mapping: Mapping, entries: &mut [u64]) -> Pages {
    // SAFETY: an exclusive slice's pointer is aligned and not null, also where the slice is empty,
    // and all its words can be read and written. The call takes any numbers and writes nowhere else.
    unsafe { waylluqen_page_entries(mapping, entries.as_mut_ptr(), entries.len()) }
}
