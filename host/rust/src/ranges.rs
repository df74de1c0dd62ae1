//! A list of sparse ranges in lent words.

use crate::RANGE_WORDS;

/// A sparse range, as a list has it: a page of `[start, start + size)` that no mapping has is
/// sparse.
///
/// ```
/// let range = waylluqen::SparseRange::from([0x1000, 0x4000]);
/// assert_eq!((range.start, range.size), (0x1000, 0x4000));
/// ```
#[derive(Clone, Copy, Debug, PartialEq, Eq, Hash)]
pub struct SparseRange {
    /// The first address.
    pub start: u64,
    /// The size in bytes.
    pub size: u64,
}

impl From<[u64; RANGE_WORDS]> for SparseRange {
    fn from([start, size]: [u64; RANGE_WORDS]) -> SparseRange {
        SparseRange { start, size }
    }
}

/// The ranges that stand in a list's words, unchecked.
pub(crate) fn read(words: &[u64], count: u64) -> impl Iterator<Item = SparseRange> + '_ {
    let count = usize::try_from(count).unwrap_or(usize::MAX);
    let range = |words: &[u64]| {
        let words: [u64; RANGE_WORDS] = words.try_into().ok()?;
        Some(SparseRange::from(words))
    };
    words
        .chunks_exact(RANGE_WORDS)
        .take(count)
        .filter_map(range)
}

/// The sparse ranges of a space, in lent words, and their count:
/// [`Table::with_ranges`](crate::Table::with_ranges) takes them.
///
/// The ranges stand at the front in ascending order, two words each: start, size. All words behind
/// them are 0. Any words and any count are allowed; each call on the table checks them, and refuses
/// a list that breaks a rule with [`BadRanges`](crate::Refusal::BadRanges). The rules: the length is
/// even, and at most 128 words; the count is at most half of it; start and size of a range are
/// multiples of a page, and the size is not 0; no range overlaps another or the reservation, though
/// it may touch; all are inside the space.
///
/// ```
/// use waylluqen::{operation_list_words, range_words, table_words};
/// use waylluqen::{Ranges, Request, Shown, Space, SparseRange, Table};
///
/// let space = Space::new(0, 0x1_0000);
/// let (mut words, mut range_words) = ([0; table_words(4)], [0; range_words(2)]);
/// let mut list = [0; operation_list_words(4)];
/// let mut table = Table::empty(&mut words).with_ranges(Ranges::empty(&mut range_words));
/// let _ = table.bind(space, Request::map_sparse(0x4000, 0x8000), &mut list)?;
/// let _ = table.bind(space, Request::map(0x5000, 0x1000, 7, 0), &mut list)?;
/// assert!(table.ranges().iter().eq([SparseRange { start: 0x4000, size: 0x8000 }]));
/// assert_eq!(table.lookup(space, 0x4000)?.shown, Shown::Sparse);
/// assert_eq!(table.lookup(space, 0x5000)?.shown, Shown::Object { object: 7, offset: 0 });
/// # Ok::<(), waylluqen::Refusal>(())
/// ```
#[derive(Debug)]
pub struct Ranges<'a> {
    pub(crate) words: &'a mut [u64],
    pub(crate) count: u64,
}

impl<'a> Ranges<'a> {
    /// An empty list: all words become 0.
    ///
    /// ```
    /// let mut words = [9; waylluqen::range_words(3)];
    /// let ranges = waylluqen::Ranges::empty(&mut words);
    /// assert_eq!((ranges.count(), ranges.capacity()), (0, 3));
    /// assert_eq!(ranges.words(), [0; 6]);
    /// ```
    pub fn empty(words: &'a mut [u64]) -> Ranges<'a> {
        words.fill(0);
        Ranges { words, count: 0 }
    }

    /// The list of `count` ranges that the words hold, such as an earlier [`Ranges`] left them. No
    /// word is changed.
    ///
    /// ```
    /// use waylluqen::{Ranges, Refusal, Shown, Space, Table};
    ///
    /// let space = Space::new(0, 0x1_0000);
    /// let (mut words, mut range_words) = ([0; 4], [0x1000, 0x2000, 0x3000, 0x1000]);
    /// let ranges = Ranges::with_count(&mut range_words, 2);
    /// let seen = Table::empty(&mut words).with_ranges(ranges).lookup(space, 0x3000)?;
    /// assert_eq!(seen.shown, Shown::Sparse);
    ///
    /// // A count that is too low does not pass for a shorter list.
    /// let ranges = Ranges::with_count(&mut range_words, 1);
    /// let refused = Table::empty(&mut words).with_ranges(ranges).lookup(space, 0x3000);
    /// assert_eq!(refused, Err(Refusal::BadRanges));
    /// # Ok::<(), Refusal>(())
    /// ```
    pub fn with_count(words: &'a mut [u64], count: u64) -> Ranges<'a> {
        Ranges { words, count }
    }

    /// How many ranges there are.
    ///
    /// ```
    /// let mut words = [0x1000, 0x4000, 0, 0];
    /// assert_eq!(waylluqen::Ranges::with_count(&mut words, 1).count(), 1);
    /// ```
    pub fn count(&self) -> u64 {
        self.count
    }

    /// How many ranges there is room for.
    ///
    /// ```
    /// let mut words = [0; 128];
    /// assert_eq!(waylluqen::Ranges::empty(&mut words).capacity(), waylluqen::MAX_RANGES);
    /// ```
    pub fn capacity(&self) -> usize {
        self.words.len() / RANGE_WORDS
    }

    /// The lent words.
    ///
    /// ```
    /// let mut words = [0x1000, 0x4000];
    /// assert_eq!(waylluqen::Ranges::with_count(&mut words, 1).words(), [0x1000, 0x4000]);
    /// ```
    pub fn words(&self) -> &[u64] {
        self.words
    }

    /// The ranges as they stand, unchecked: no more than the count, and no more than there is room
    /// for.
    ///
    /// ```
    /// use waylluqen::{Ranges, SparseRange};
    ///
    /// let mut words = [0x1000, 0x4000, 0, 0];
    /// let ranges = Ranges::with_count(&mut words, 1);
    /// assert!(ranges.iter().eq([SparseRange::from([0x1000, 0x4000])]));
    /// ```
    pub fn iter(&self) -> impl Iterator<Item = SparseRange> + '_ {
        read(self.words, self.count)
    }
}

/// A list with room for no range, which costs no word: what a table has by itself.
///
/// ```
/// let ranges = waylluqen::Ranges::default();
/// assert_eq!((ranges.count(), ranges.capacity()), (0, 0));
/// ```
impl Default for Ranges<'_> {
    fn default() -> Self {
        Ranges {
            words: &mut [],
            count: 0,
        }
    }
}

#[cfg(test)]
mod tests;
