//! Why a call is refused.

use core::fmt;

/// The first rule that a call's table, numbers or record break. No lent word has changed then; but a
/// batch that is refused for one of its requests leaves zeros to work in and for operations, see
/// [`BatchRefusal`](crate::BatchRefusal).
///
/// Where several apply, the answer is the first in the order 12, 13, 14, 1 to 3, 15, 4, 5, 17, 18,
/// 6 to 10, 19, 20, 11, 16 of their [numbers](Refusal::number). In a batch 13 and 14 come in their
/// request's turn, behind 18 and before its 6.
///
/// ```
/// use waylluqen::{operation_list_words, Refusal, Request, Space, Table};
///
/// let mut words = [0; 4];
/// let mut list = [0; operation_list_words(1)];
/// let mut table = Table::empty(&mut words);
/// let space = Space::new(0, 0x1_0000).reserving(0xf000, 0x1000);
/// let refusal = table.bind(space, Request::map(0xe000, 0x2000, 7, 0), &mut list).unwrap_err();
/// assert_eq!(refusal, Refusal::Reserved);
/// assert_eq!(refusal.to_string(), "the range shares a byte with the reservation");
///
/// let text = Refusal::BadMapping { place: 3 }.to_string();
/// assert_eq!(text, "a mapping in the table breaks its rules (place 3)");
/// ```
#[derive(Clone, Copy, Debug, PartialEq, Eq, Hash)]
#[non_exhaustive]
pub enum Refusal {
    /// The space breaks its rules.
    BadSpace,
    /// The table's length is 0, not a multiple of four words, or has room for too many mappings.
    BadTableLength,
    /// There are fewer operation words than [`operation_list_words`](crate::operation_list_words).
    ShortOperations,
    /// The count is above the table's capacity.
    BadCount,
    /// A mapping in the table breaks its rules, or overlaps or precedes the one before it. For
    /// [`page_entries`](crate::page_entries): the mapping breaks its rules in a space from 0 to
    /// [`LIMIT`](crate::LIMIT) with nothing reserved.
    BadMapping {
        /// The lowest such place, from 0; 0 for page entries.
        place: u64,
    },
    /// The address, size or offset is not a multiple of a page, or the size is 0.
    Unaligned,
    /// The range is not inside the space.
    OutsideSpace,
    /// The range shares a byte with the reservation.
    Reserved,
    /// A map of object 0 or above [`MAX_OBJECT`](crate::MAX_OBJECT); an unmap, or any request with
    /// the [sparse flag](crate::Request::SPARSE), with an object or an offset.
    BadObject,
    /// A map whose offset plus size is above [`LIMIT`](crate::LIMIT).
    BadOffset,
    /// There would be more mappings afterwards than the table has room for, or more sparse ranges
    /// than their list has room for.
    NoRoom,
    /// The record is not [`RECORD_BYTES`](crate::RECORD_BYTES) bytes long. A batch: its length is
    /// not a multiple of that, or there are more than [`MAX_BATCH`](crate::MAX_BATCH) records.
    BadRecordLength,
    /// The op is neither map nor unmap.
    BadOp,
    /// The flags are neither 0 nor [`Request::SPARSE`](crate::Request::SPARSE), or a record's pad is
    /// not 0. In a batch the flags have to be 0.
    BadFlags,
    /// The work table of a batch is not exactly as long as the table.
    ///
    /// ```
    /// use waylluqen::{operation_list_words, Refusal, Request, Space, Table};
    ///
    /// let space = Space::new(0, 0x1_0000);
    /// let (mut words, mut work) = ([0; 4], [0; 8]);
    /// let mut list = [0; operation_list_words(1)];
    /// let mut table = Table::empty(&mut words);
    /// let nothing: [Request; 0] = [];
    /// let refused = table.bind_batch(space, nothing, &mut work, &mut list).unwrap_err();
    /// assert_eq!(refused.refusal, Refusal::BadWorkLength);
    /// assert!(table.bind_batch(space, nothing, &mut work[..4], &mut list).is_ok());
    /// ```
    BadWorkLength,
    /// The operations of a batch's request don't fit the words that are left behind those of the
    /// requests before it. With [`batch_list_words`](crate::batch_list_words) they do. The entries of
    /// [`page_entries`](crate::page_entries) don't fit the words that are lent for them. With
    /// [`entry_list_words`](crate::entry_list_words) they do.
    ///
    /// ```
    /// use waylluqen::{operation_list_words, Refusal, Request, Space, Table};
    ///
    /// let space = Space::new(0, 0x1_0000);
    /// let (mut words, mut work) = ([0; 4], [0; 4]);
    /// let mut list = [0; operation_list_words(1)]; // two operations
    /// let mut table = Table::empty(&mut words);
    /// // The first has one operation, the second would have two.
    /// let requests = [Request::map(0, 0x1000, 7, 0), Request::map(0, 0x1000, 8, 0)];
    /// let refused = table.bind_batch(space, requests, &mut work, &mut list).unwrap_err();
    /// assert_eq!((refused.request, refused.refusal), (Some(1), Refusal::ShortOutput));
    /// assert_eq!(table.count(), 0);
    /// ```
    ShortOutput,
    /// A word behind the table's last mapping is not 0.
    ///
    /// So a count that is too low does not pass for a shorter table. Words that a
    /// [`Table`](crate::Table) alone writes, with the count that it gives, are never refused so.
    ///
    /// ```
    /// use waylluqen::{Refusal, Shown, Space, View};
    ///
    /// let space = Space::new(0, 0x1_0000);
    /// let words = [0x1000, 0x1000, 7, 0, 0x4000, 0x1000, 8, 0, 0, 0, 0, 0];
    /// let seen = View::new(&words, 2).lookup(space, 0x4000)?;
    /// assert_eq!(seen.shown, Shown::Object { object: 8, offset: 0 });
    /// for too_low in [0, 1] {
    ///     let refused = View::new(&words, too_low).lookup(space, 0x4000);
    ///     assert_eq!(refused, Err(Refusal::StaleWords));
    /// }
    /// // Four zeros are no mapping, so that one too high is refused as well.
    /// let refused = View::new(&words, 3).lookup(space, 0x4000);
    /// assert_eq!(refused, Err(Refusal::BadMapping { place: 2 }));
    /// # Ok::<(), Refusal>(())
    /// ```
    StaleWords,
    /// The list of sparse ranges breaks its rules, see [`Ranges`](crate::Ranges).
    ///
    /// Words that a [`Table`](crate::Table) alone writes, with the count that it gives, are never
    /// refused so.
    ///
    /// ```
    /// use waylluqen::{Refusal, Space, View};
    ///
    /// let space = Space::new(0, 0x1_0000);
    /// let view = View::new(&[0; 4], 0);
    /// let touching = [0x1000, 0x1000, 0x2000, 0x1000];
    /// assert!(view.with_ranges(&touching, 2).lookup(space, 0).is_ok());
    /// let overlapping = [0x1000, 0x2000, 0x2000, 0x1000];
    /// let refused = view.with_ranges(&overlapping, 2).lookup(space, 0);
    /// assert_eq!(refused, Err(Refusal::BadRanges));
    /// ```
    BadRanges,
    /// A map with the [sparse flag](crate::Request::SPARSE) shares a byte with a sparse range.
    ///
    /// ```
    /// use waylluqen::{operation_list_words, Ranges, Refusal, Request, Space, Table};
    ///
    /// let space = Space::new(0, 0x1_0000);
    /// let (mut words, mut range_words) = ([0; 4], [0x2000, 0x1000, 0, 0]);
    /// let mut list = [0; operation_list_words(1)];
    /// let ranges = Ranges::with_count(&mut range_words, 1);
    /// let mut table = Table::empty(&mut words).with_ranges(ranges);
    /// let refused = table.bind(space, Request::map_sparse(0x1000, 0x2000), &mut list).err();
    /// assert_eq!(refused, Some(Refusal::RangeOverlaps));
    /// assert!(table.bind(space, Request::map_sparse(0x1000, 0x1000), &mut list).is_ok());
    /// ```
    RangeOverlaps,
    /// For an unmap with the [sparse flag](crate::Request::SPARSE): no sparse range has exactly its
    /// start and size, or a mapping shares a byte with it.
    ///
    /// ```
    /// use waylluqen::{operation_list_words, Ranges, Refusal, Request, Space, Table};
    ///
    /// let space = Space::new(0, 0x1_0000);
    /// let (mut words, mut range_words) = ([0; 4], [0x2000, 0x2000]);
    /// let mut list = [0; operation_list_words(1)];
    /// let ranges = Ranges::with_count(&mut range_words, 1);
    /// let mut table = Table::empty(&mut words).with_ranges(ranges);
    /// let refused = table.bind(space, Request::unmap_sparse(0x2000, 0x1000), &mut list).err();
    /// assert_eq!(refused, Some(Refusal::NoSuchRange));
    /// assert!(table.bind(space, Request::unmap_sparse(0x2000, 0x2000), &mut list).is_ok());
    /// ```
    NoSuchRange,
}

impl Refusal {
    /// The refusal's number, as C has it.
    ///
    /// ```
    /// use waylluqen::Refusal;
    ///
    /// assert_eq!(Refusal::NoRoom.number(), 11);
    /// assert_eq!(Refusal::BadMapping { place: 3 }.number(), 5);
    /// let batch = [Refusal::BadWorkLength, Refusal::ShortOutput];
    /// assert_eq!(batch.map(Refusal::number), [15, 16]);
    /// let sparse = [Refusal::BadRanges, Refusal::RangeOverlaps, Refusal::NoSuchRange];
    /// assert_eq!(sparse.map(Refusal::number), [18, 19, 20]);
    /// ```
    pub const fn number(self) -> u32 {
        match self {
            Refusal::BadSpace => 1,
            Refusal::BadTableLength => 2,
            Refusal::ShortOperations => 3,
            Refusal::BadCount => 4,
            Refusal::BadMapping { .. } => 5,
            Refusal::Unaligned => 6,
            Refusal::OutsideSpace => 7,
            Refusal::Reserved => 8,
            Refusal::BadObject => 9,
            Refusal::BadOffset => 10,
            Refusal::NoRoom => 11,
            Refusal::BadRecordLength => 12,
            Refusal::BadOp => 13,
            Refusal::BadFlags => 14,
            Refusal::BadWorkLength => 15,
            Refusal::ShortOutput => 16,
            Refusal::StaleWords => 17,
            Refusal::BadRanges => 18,
            Refusal::RangeOverlaps => 19,
            Refusal::NoSuchRange => 20,
        }
    }

    /// The refusal that an answer's first two words are, if they are one.
    #[inline]
    pub(crate) fn check(number: u64, place: u64) -> Result<(), Refusal> {
        match number {
            0 => Ok(()),
            _ => Err(Refusal::of(number, place)),
        }
    }

    #[cold]
    fn of(number: u64, place: u64) -> Refusal {
        match number {
            1 => Refusal::BadSpace,
            2 => Refusal::BadTableLength,
            3 => Refusal::ShortOperations,
            4 => Refusal::BadCount,
            5 => Refusal::BadMapping { place },
            6 => Refusal::Unaligned,
            7 => Refusal::OutsideSpace,
            8 => Refusal::Reserved,
            9 => Refusal::BadObject,
            10 => Refusal::BadOffset,
            11 => Refusal::NoRoom,
            12 => Refusal::BadRecordLength,
            13 => Refusal::BadOp,
            14 => Refusal::BadFlags,
            15 => Refusal::BadWorkLength,
            16 => Refusal::ShortOutput,
            17 => Refusal::StaleWords,
            18 => Refusal::BadRanges,
            19 => Refusal::RangeOverlaps,
            20 => Refusal::NoSuchRange,
            _ => unreachable!("the library is proved to answer no other number"),
        }
    }
}

impl fmt::Display for Refusal {
    fn fmt(&self, f: &mut fmt::Formatter<'_>) -> fmt::Result {
        f.write_str(match self {
            Refusal::BadSpace => "the space breaks its rules",
            Refusal::BadTableLength => "the table's length is not one that a table has",
            Refusal::ShortOperations => "there are too few operation words",
            Refusal::BadCount => "the count is above the table's capacity",
            Refusal::BadMapping { place } => {
                return write!(f, "a mapping in the table breaks its rules (place {place})");
            }
            Refusal::Unaligned => "an address, size or offset is not a multiple of a page",
            Refusal::OutsideSpace => "the range is not inside the space",
            Refusal::Reserved => "the range shares a byte with the reservation",
            Refusal::BadObject => "the object is not one that can be asked for",
            Refusal::BadOffset => "the offset plus the size is too high",
            Refusal::NoRoom => "there is no room for the mappings or ranges afterwards",
            Refusal::BadRecordLength => "the record is not 40 bytes long",
            Refusal::BadOp => "the op is neither map nor unmap",
            Refusal::BadFlags => "the flags are not known, or pad is not 0",
            Refusal::BadWorkLength => "the work table is not as long as the table",
            Refusal::ShortOutput => "the output is too short for what is to be written",
            Refusal::StaleWords => "a word behind the table's last mapping is not 0",
            Refusal::BadRanges => "the list of sparse ranges breaks its rules",
            Refusal::RangeOverlaps => "the range shares a byte with a sparse range",
            Refusal::NoSuchRange => "there is no such sparse range, or a mapping is in it",
        })
    }
}

impl core::error::Error for Refusal {}
