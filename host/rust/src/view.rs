//! A table by shared borrow: all that can be asked of its words without a change.

use crate::{ffi, ranges, Mapping, Refusal, Runs, Seen, Space, SparseRange, MAPPING_WORDS};
use core::ops::Range;

/// The mappings of a space by shared borrow: the words and the count of a
/// [`Table`](crate::Table), to look up in and to walk over.
///
/// It is for words that something else owns, and for look-ups beside each other: it can be copied
/// and sent to other threads, and no table changes while one is in use.
///
/// ```
/// use std::thread;
/// use waylluqen::{Shown, Space, Table};
///
/// let space = Space::new(0, 0x1_0000);
/// let mut words = [0x1000, 0x1000, 7, 0, 0x4000, 0x2000, 8, 0];
/// let table = Table::with_count(&mut words, 2);
/// let view = table.view();
/// let found = thread::scope(|scope| {
///     let one = scope.spawn(|| view.lookup(space, 0x1008));
///     let other = scope.spawn(|| view.lookup(space, 0x5008));
///     (one.join().unwrap(), other.join().unwrap())
/// });
/// assert_eq!(found.0?.shown, Shown::Object { object: 7, offset: 8 });
/// assert_eq!(found.1?.shown, Shown::Object { object: 8, offset: 0x1008 });
/// # Ok::<(), waylluqen::Refusal>(())
/// ```
#[derive(Clone, Copy, Debug)]
pub struct View<'a> {
    words: &'a [u64],
    count: u64,
    range_words: &'a [u64],
    range_count: u64,
}

impl<'a> View<'a> {
    /// The table of `count` mappings that the words hold, with zeros behind them, and without sparse
    /// ranges. Any words and any count are allowed; each look-up checks them.
    ///
    /// ```
    /// use waylluqen::{Shown, Space, View};
    ///
    /// struct AddressSpace {
    ///     bounds: Space,
    ///     words: Vec<u64>,
    ///     count: u64,
    /// }
    ///
    /// impl AddressSpace {
    ///     fn is_mapped(&self, address: u64) -> bool {
    ///         let view = View::new(&self.words, self.count);
    ///         let seen = view.lookup(self.bounds, address);
    ///         seen.is_ok_and(|seen| matches!(seen.shown, Shown::Object { .. }))
    ///     }
    /// }
    ///
    /// let words = vec![0x1000, 0x1000, 7, 0];
    /// let space = AddressSpace { bounds: Space::new(0, 0x1_0000), words, count: 1 };
    /// assert!(space.is_mapped(0x1fff) && !space.is_mapped(0x2000));
    /// ```
    #[inline]
    pub const fn new(words: &'a [u64], count: u64) -> View<'a> {
        View {
            words,
            count,
            range_words: &[],
            range_count: 0,
        }
    }

    /// The same table with the `range_count` sparse ranges that these words hold, as
    /// [`Ranges`](crate::Ranges) has them.
    ///
    /// ```
    /// use waylluqen::{Seen, Shown, Space, View};
    ///
    /// let space = Space::new(0, 0x1_0000);
    /// let view = View::new(&[0x2000, 0x1000, 7, 0], 1).with_ranges(&[0x1000, 0x4000, 0, 0], 1);
    /// let sparse = |bytes| Ok(Seen { shown: Shown::Sparse, bytes });
    /// assert_eq!(view.lookup(space, 0x1000), sparse(0x1000)); // up to the mapping
    /// assert_eq!(view.lookup(space, 0x3000), sparse(0x2000)); // up to the range's end
    /// assert_eq!(view.lookup(space, 0x5000)?.shown, Shown::Nothing);
    /// # Ok::<(), waylluqen::Refusal>(())
    /// ```
    #[inline]
    #[must_use]
    pub const fn with_ranges(self, range_words: &'a [u64], range_count: u64) -> View<'a> {
        View {
            range_words,
            range_count,
            ..self
        }
    }

    /// How many mappings there are.
    ///
    /// ```
    /// assert_eq!(waylluqen::View::new(&[0x1000, 0x2000, 7, 0], 1).count(), 1);
    /// ```
    #[inline]
    pub const fn count(self) -> u64 {
        self.count
    }

    /// How many mappings there is room for.
    ///
    /// ```
    /// assert_eq!(waylluqen::View::new(&[0; 32], 0).capacity(), 8);
    /// ```
    #[inline]
    pub const fn capacity(self) -> usize {
        self.words.len() / MAPPING_WORDS
    }

    /// The words, for as long as they are lent.
    ///
    /// ```
    /// let words = [0x1000, 0x2000, 7, 0];
    /// let same = waylluqen::View::new(&words, 1).words();
    /// assert_eq!(same, words);
    /// ```
    #[inline]
    pub const fn words(self) -> &'a [u64] {
        self.words
    }

    /// The mappings as they stand, unchecked: no more than the count, and no more than there is
    /// room for.
    ///
    /// ```
    /// use waylluqen::{Mapping, View};
    ///
    /// let view = View::new(&[0x1000, 0x2000, 7, 0, 0, 0, 0, 0], 1);
    /// assert!(view.mappings().eq([Mapping::from([0x1000, 0x2000, 7, 0])]));
    /// ```
    pub fn mappings(self) -> impl Iterator<Item = Mapping> + 'a {
        let count = usize::try_from(self.count).unwrap_or(usize::MAX);
        let mapping = |words: &[u64]| {
            let words: [u64; MAPPING_WORDS] = words.try_into().ok()?;
            Some(Mapping::from(words))
        };
        let words = self.words.chunks_exact(MAPPING_WORDS).take(count);
        words.filter_map(mapping)
    }

    /// The sparse ranges as they stand, unchecked: no more than their count, and no more than there
    /// is room for.
    ///
    /// ```
    /// use waylluqen::{SparseRange, View};
    ///
    /// let view = View::new(&[0; 4], 0).with_ranges(&[0x1000, 0x4000, 0, 0], 1);
    /// assert!(view.ranges().eq([SparseRange::from([0x1000, 0x4000])]));
    /// ```
    pub fn ranges(self) -> impl Iterator<Item = SparseRange> + 'a {
        ranges::read(self.range_words, self.range_count)
    }

    /// Tells what the byte at `address` shows, and how far that goes on. Any address will do, also
    /// one outside the space.
    ///
    /// # Errors
    ///
    /// The first of [`BadSpace`](Refusal::BadSpace), [`BadTableLength`](Refusal::BadTableLength),
    /// [`BadCount`](Refusal::BadCount), [`BadMapping`](Refusal::BadMapping),
    /// [`StaleWords`](Refusal::StaleWords) and [`BadRanges`](Refusal::BadRanges) that applies.
    ///
    /// ```
    /// use waylluqen::{Refusal, Seen, Shown, Space, View};
    ///
    /// let space = Space::new(0, 0x1_0000);
    /// let view = View::new(&[0x1000, 0x2000, 7, 0x5000, 0, 0, 0, 0], 1);
    /// let shown = Shown::Object { object: 7, offset: 0x6008 };
    /// assert_eq!(view.lookup(space, 0x2008), Ok(Seen { shown, bytes: 0xff8 }));
    /// assert_eq!(view.lookup(space, 0x3000), Ok(Seen { shown: Shown::Nothing, bytes: 0xd000 }));
    /// assert_eq!(view.lookup(Space::new(1, 2), 0x3000), Err(Refusal::BadSpace));
    ///
    /// let lost_count = View::new(view.words(), 0);
    /// assert_eq!(lost_count.lookup(space, 0x2008), Err(Refusal::StaleWords));
    /// ```
    #[inline]
    pub fn lookup(self, space: Space, address: u64) -> Result<Seen, Refusal> {
        let (ranges, range_count) = (self.range_words, self.range_count);
        let answer = ffi::lookup(space, ranges, range_count, self.words, self.count, address);
        Refusal::check(answer.refusal, answer.place)?;
        Ok(Seen::read(answer))
    }

    /// Walks a range by what look-ups tell of how far an answer goes on: one look-up a run, each of
    /// which checks the table and the sparse ranges, with the words behind them. The last run is cut
    /// at the range's end.
    ///
    /// The walk ends at the space's end, so that a range that starts outside has no run, also where
    /// it goes on inside. An empty range has none either, and nothing is looked up. A look-up that
    /// is refused is the last: what [`lookup`](View::lookup) is refused for.
    ///
    /// ```
    /// use waylluqen::{Run, Shown, Space, View};
    ///
    /// let space = Space::new(0, 0x8000);
    /// // Two that touch stay two, though the second goes on with the first one's object.
    /// let view = View::new(&[0x1000, 0x2000, 7, 0, 0x3000, 0x1000, 7, 0x2000], 2);
    /// let runs: Vec<Run> = view.runs(space, 0x2000..0x1_0000).collect::<Result<_, _>>()?;
    /// let object = |offset| Shown::Object { object: 7, offset };
    /// let expected = [
    ///     Run { address: 0x2000, bytes: 0x1000, shown: object(0x1000) },
    ///     Run { address: 0x3000, bytes: 0x1000, shown: object(0x2000) },
    ///     Run { address: 0x4000, bytes: 0x4000, shown: Shown::Nothing },
    /// ];
    /// assert_eq!(runs, expected);
    ///
    /// // Sparse ranges are told apart too, but not below a mapping.
    /// let view = view.with_ranges(&[0x1000, 0x3000, 0x5000, 0x1000, 0x6000, 0x1000], 3);
    /// let mut runs = view.runs(space, 0x3000..0x1_0000);
    /// assert_eq!(runs.next(), Some(Ok(expected[1])));
    /// for shown in [Shown::Nothing, Shown::Sparse, Shown::Sparse, Shown::Nothing] {
    ///     let run = runs.next().unwrap()?;
    ///     assert_eq!((run.shown, run.bytes), (shown, 0x1000));
    /// }
    /// assert_eq!(runs.next(), None);
    /// # Ok::<(), waylluqen::Refusal>(())
    /// ```
    #[inline]
    pub const fn runs(self, space: Space, range: Range<u64>) -> Runs<'a> {
        Runs::new(self, space, range)
    }
}
