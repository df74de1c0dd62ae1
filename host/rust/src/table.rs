//! A table of mappings in lent words.

use crate::{ffi, BatchRefusal, Mapping, Operations, Ranges, Refusal, Request, Runs, Seen, Space};
use crate::{View, MAX_BATCH, RECORD_BYTES};
use core::ops::Range;

/// The mappings of a space, in lent words, and their count.
///
/// The mappings stand at the front in ascending order, four words each: address, size, object,
/// offset. All words behind them are 0. Any words and any count are allowed; each call checks them,
/// and refuses a table that breaks a rule.
///
/// A table can have sparse ranges beside it, see [`Table::with_ranges`].
///
/// ```
/// use waylluqen::{operation_list_words, table_words, Request, Shown, Space, Table};
///
/// let space = Space::new(0, 0x1_0000);
/// let mut words = [0; table_words(4)];
/// let mut list = [0; operation_list_words(4)];
/// let mut table = Table::empty(&mut words);
/// let _ = table.bind(space, Request::map(0, 0x3000, 7, 0), &mut list)?;
/// let _ = table.bind(space, Request::unmap(0x1000, 0x1000), &mut list)?;
/// assert_eq!(table.count(), 2);
/// assert_eq!(table.lookup(space, 0x1000)?.shown, Shown::Nothing);
/// # Ok::<(), waylluqen::Refusal>(())
/// ```
#[derive(Debug)]
pub struct Table<'a> {
    words: &'a mut [u64],
    count: u64,
    ranges: Ranges<'a>,
}

impl<'a> Table<'a> {
    /// An empty table: all words become 0. It has no sparse ranges, and no room for any.
    ///
    /// ```
    /// let mut words = [9; waylluqen::table_words(2)];
    /// let table = waylluqen::Table::empty(&mut words);
    /// assert_eq!((table.count(), table.capacity()), (0, 2));
    /// assert_eq!(table.words(), [0; 8]);
    /// ```
    pub fn empty(words: &'a mut [u64]) -> Table<'a> {
        words.fill(0);
        Table::with_count(words, 0)
    }

    /// The table of `count` mappings that the words hold, such as an earlier [`Table`] left them. It
    /// has no sparse ranges, and no room for any.
    ///
    /// No word is changed. Those behind the last mapping have to be 0, also where the words were
    /// copied to a longer slice; with a count that is too low they are not, and each call is refused
    /// with [`StaleWords`](Refusal::StaleWords).
    ///
    /// ```
    /// use waylluqen::{Refusal, Space, Table};
    ///
    /// let space = Space::new(0, 0x1_0000);
    /// let mut words = [0x1000, 0x1000, 7, 0, 0x2000, 0x1000, 8, 0];
    /// assert!(Table::with_count(&mut words, 2).lookup(space, 0).is_ok());
    ///
    /// // A count that is too low does not pass for a shorter table.
    /// let refused = Table::with_count(&mut words, 1).lookup(space, 0);
    /// assert_eq!(refused, Err(Refusal::StaleWords));
    ///
    /// // The offset of the second is not a multiple of a page.
    /// words[7] = 1;
    /// let refused = Table::with_count(&mut words, 2).lookup(space, 0);
    /// assert_eq!(refused, Err(Refusal::BadMapping { place: 1 }));
    /// ```
    pub fn with_count(words: &'a mut [u64], count: u64) -> Table<'a> {
        Table {
            words,
            count,
            ranges: Ranges::default(),
        }
    }

    /// The same table with these sparse ranges: look-ups see them, and requests with the
    /// [sparse flag](Request::SPARSE) change them.
    ///
    /// ```
    /// use waylluqen::{operation_list_words, range_words, table_words};
    /// use waylluqen::{Ranges, Refusal, Request, Shown, Space, Table};
    ///
    /// let space = Space::new(0, 0x1_0000);
    /// let (mut words, mut range_words) = ([0; table_words(2)], [0; range_words(1)]);
    /// let mut list = [0; operation_list_words(2)];
    /// let mut table = Table::empty(&mut words).with_ranges(Ranges::empty(&mut range_words));
    /// // A sparse texture, of which one tile has memory for a while.
    /// let _ = table.bind(space, Request::map_sparse(0x4000, 0x8000), &mut list)?;
    /// let _ = table.bind(space, Request::map(0x5000, 0x1000, 7, 0), &mut list)?;
    /// let _ = table.bind(space, Request::unmap(0x5000, 0x1000), &mut list)?;
    /// assert_eq!(table.lookup(space, 0x5000)?.shown, Shown::Sparse);
    /// let _ = table.bind(space, Request::unmap_sparse(0x4000, 0x8000), &mut list)?;
    /// assert_eq!(table.lookup(space, 0x5000)?.shown, Shown::Nothing);
    ///
    /// // Without room for ranges there can be none.
    /// let mut table = Table::empty(&mut words);
    /// let refused = table.bind(space, Request::map_sparse(0x4000, 0x8000), &mut list).err();
    /// assert_eq!(refused, Some(Refusal::NoRoom));
    /// # Ok::<(), Refusal>(())
    /// ```
    #[must_use]
    pub fn with_ranges(self, ranges: Ranges<'a>) -> Table<'a> {
        Table { ranges, ..self }
    }

    /// Its sparse ranges.
    ///
    /// ```
    /// use waylluqen::{Ranges, SparseRange, Table};
    ///
    /// let (mut words, mut range_words) = ([0; 4], [0x1000, 0x4000, 0, 0]);
    /// let ranges = Ranges::with_count(&mut range_words, 1);
    /// let table = Table::empty(&mut words).with_ranges(ranges);
    /// assert_eq!((table.ranges().count(), table.ranges().capacity()), (1, 2));
    /// assert!(table.ranges().iter().eq([SparseRange { start: 0x1000, size: 0x4000 }]));
    /// assert_eq!(Table::empty(&mut [0; 4]).ranges().capacity(), 0);
    /// ```
    #[inline]
    pub fn ranges(&self) -> &Ranges<'a> {
        &self.ranges
    }

    /// The table by shared borrow.
    ///
    /// ```
    /// use waylluqen::{Shown, Space, Table};
    ///
    /// let mut words = [0x1000, 0x1000, 7, 0, 0x4000, 0x2000, 8, 0];
    /// let table = Table::with_count(&mut words, 2);
    /// let (one, other) = (table.view(), table.view());
    /// assert_eq!((one.count(), other.count()), (2, 2));
    /// let seen = one.lookup(Space::new(0, 0x1_0000), 0x5000)?;
    /// assert_eq!(seen.shown, Shown::Object { object: 8, offset: 0x1000 });
    /// # Ok::<(), waylluqen::Refusal>(())
    /// ```
    #[inline]
    pub fn view(&self) -> View<'_> {
        View::new(self.words, self.count).with_ranges(self.ranges.words, self.ranges.count)
    }

    /// How many mappings there are.
    ///
    /// ```
    /// let mut words = [0; 4];
    /// assert_eq!(waylluqen::Table::empty(&mut words).count(), 0);
    /// ```
    pub fn count(&self) -> u64 {
        self.view().count()
    }

    /// How many mappings there is room for.
    ///
    /// ```
    /// let mut words = [0; 32];
    /// assert_eq!(waylluqen::Table::empty(&mut words).capacity(), 8);
    /// ```
    pub fn capacity(&self) -> usize {
        self.view().capacity()
    }

    /// The lent words.
    ///
    /// ```
    /// let mut words = [0x1000, 0x2000, 7, 0];
    /// let table = waylluqen::Table::with_count(&mut words, 1);
    /// assert_eq!(table.words(), [0x1000, 0x2000, 7, 0]);
    /// ```
    pub fn words(&self) -> &[u64] {
        self.view().words()
    }

    /// The mappings as they stand, unchecked: no more than the count, and no more than there is
    /// room for.
    ///
    /// ```
    /// use waylluqen::{Mapping, Table};
    ///
    /// let mut words = [0x1000, 0x2000, 7, 0, 0, 0, 0, 0];
    /// let table = Table::with_count(&mut words, 1);
    /// assert!(table.mappings().eq([Mapping::from([0x1000, 0x2000, 7, 0])]));
    /// ```
    pub fn mappings(&self) -> impl Iterator<Item = Mapping> + '_ {
        self.view().mappings()
    }

    /// Tells what the byte at `address` shows, and how far that goes on. Any address will do, also
    /// one outside the space.
    ///
    /// # Errors
    ///
    /// The first of [`BadSpace`](Refusal::BadSpace), [`BadTableLength`](Refusal::BadTableLength),
    /// [`BadCount`](Refusal::BadCount), [`BadMapping`](Refusal::BadMapping),
    /// [`StaleWords`](Refusal::StaleWords) and [`BadRanges`](Refusal::BadRanges) that applies.
    ///
    /// ```
    /// use waylluqen::{Refusal, Seen, Shown, Space, Table};
    ///
    /// let space = Space::new(0, 0x1_0000);
    /// let mut words = [0x1000, 0x2000, 7, 0x5000, 0, 0, 0, 0];
    /// let table = Table::with_count(&mut words, 1);
    /// let shown = Shown::Object { object: 7, offset: 0x6008 };
    /// assert_eq!(table.lookup(space, 0x2008), Ok(Seen { shown, bytes: 0xff8 }));
    /// assert_eq!(table.lookup(space, 0x3000), Ok(Seen { shown: Shown::Nothing, bytes: 0xd000 }));
    /// assert_eq!(table.lookup(Space::new(1, 2), 0x3000), Err(Refusal::BadSpace));
    /// ```
    #[inline]
    pub fn lookup(&self, space: Space, address: u64) -> Result<Seen, Refusal> {
        self.view().lookup(space, address)
    }

    /// Walks a range, one look-up a run; see [`View::runs`].
    ///
    /// ```
    /// use waylluqen::{Shown, Space, Table};
    ///
    /// let space = Space::new(0, 0x1_0000);
    /// let mut words = [0x1000, 0x2000, 7, 0, 0x8000, 0x1000, 8, 0];
    /// let table = Table::with_count(&mut words, 2);
    /// let mut free = 0;
    /// for run in table.runs(space, 0x2000..0x9000) {
    ///     let run = run?;
    ///     if run.shown == Shown::Nothing {
    ///         free += run.bytes;
    ///     }
    /// }
    /// assert_eq!(free, 0x5000);
    /// # Ok::<(), waylluqen::Refusal>(())
    /// ```
    #[inline]
    pub fn runs(&self, space: Space, range: Range<u64>) -> Runs<'_> {
        self.view().runs(space, range)
    }

    /// Maps or unmaps a range, and gives the operations for it, which it writes to the lent
    /// `list`.
    ///
    /// A mapping that shares a byte with the range is cut: what is outside the range stays. Each
    /// page of a mapped range then shows what was asked, each page of an unmapped one is sparse or
    /// shows nothing, as the sparse ranges say, and every other page shows what it showed before.
    /// All words behind the table's mappings are 0; the list's words behind the operations stay.
    ///
    /// With the [sparse flag](Request::SPARSE) a sparse range is added or removed, and nothing else
    /// changes: there are no operations. A driver then writes the page entries by itself, see
    /// `Sparse ranges` in `include/waylluqen.h`.
    ///
    /// # Errors
    ///
    /// The first of [`BadOp`](Refusal::BadOp), [`BadFlags`](Refusal::BadFlags),
    /// [`BadSpace`](Refusal::BadSpace), [`BadTableLength`](Refusal::BadTableLength),
    /// [`ShortOperations`](Refusal::ShortOperations), [`BadCount`](Refusal::BadCount),
    /// [`BadMapping`](Refusal::BadMapping), [`StaleWords`](Refusal::StaleWords),
    /// [`BadRanges`](Refusal::BadRanges), [`Unaligned`](Refusal::Unaligned),
    /// [`OutsideSpace`](Refusal::OutsideSpace), [`Reserved`](Refusal::Reserved),
    /// [`BadObject`](Refusal::BadObject), [`BadOffset`](Refusal::BadOffset),
    /// [`RangeOverlaps`](Refusal::RangeOverlaps), [`NoSuchRange`](Refusal::NoSuchRange) and
    /// [`NoRoom`](Refusal::NoRoom) that applies. No word of the table, of the sparse ranges or of the
    /// list has changed then.
    ///
    /// ```
    /// use waylluqen::{operation_list_words, table_words, Refusal, Request, Space, Table};
    ///
    /// let space = Space::new(0, 0x1_0000);
    /// let mut words = [0; table_words(2)];
    /// let mut list = [0; operation_list_words(2)];
    /// let mut table = Table::empty(&mut words);
    /// let _ = table.bind(space, Request::map(0, 0x3000, 7, 0), &mut list)?;
    /// let _ = table.bind(space, Request::unmap(0x1000, 0x1000), &mut list)?;
    /// assert_eq!(table.words(), [0, 0x1000, 7, 0, 0x2000, 0x1000, 7, 0x2000]);
    ///
    /// // There is no room for a third.
    /// let refused = table.bind(space, Request::map(0x4000, 0x1000, 9, 0), &mut list).err();
    /// assert_eq!(refused, Some(Refusal::NoRoom));
    /// # Ok::<(), Refusal>(())
    /// ```
    #[inline]
    pub fn bind<'o>(
        &mut self,
        space: Space,
        request: Request,
        list: &'o mut [u64],
    ) -> Result<Operations<'o>, Refusal> {
        if request.flags != 0 {
            // Only a record has flags.
            return self.bind_record(space, &request.record(), list);
        }
        let (ranges, range_count) = (&*self.ranges.words, self.ranges.count);
        let request = request.into();
        let answer = ffi::bind(
            space,
            ranges,
            range_count,
            self.words,
            self.count,
            list,
            request,
        );
        self.take(answer, list)
    }

    /// Does what [`bind`](Table::bind) does for a request that comes as a record, as a program
    /// handed it over; see [`check_request`](crate::check_request).
    ///
    /// # Errors
    ///
    /// [`BadRecordLength`](Refusal::BadRecordLength) if that applies, else what
    /// [`bind`](Table::bind) gives. A pad that is not 0 is [`BadFlags`](Refusal::BadFlags) too.
    ///
    /// ```
    /// use waylluqen::{operation_list_words, Mapping, Operation, Refusal, Space, Table};
    ///
    /// let space = Space::new(0x10_0000, 0x10_0000);
    /// let mut words = [0; 4];
    /// let mut list = [0; operation_list_words(1)];
    /// let mut table = Table::empty(&mut words);
    /// let mut record = [0; 40];
    /// record[8] = 7; // map object 7
    /// record[18] = 0x10; // at 0x10_0000
    /// record[33] = 0x10; // one page
    /// let new = Mapping::from([0x10_0000, 0x1000, 7, 0]);
    /// assert!(table.bind_record(space, &record, &mut list)?.eq([Operation::Map(new)]));
    ///
    /// let refused = table.bind_record(space, &record[1..], &mut list).err();
    /// assert_eq!(refused, Some(Refusal::BadRecordLength));
    /// # Ok::<(), Refusal>(())
    /// ```
    #[inline]
    pub fn bind_record<'o>(
        &mut self,
        space: Space,
        record: &[u8],
        list: &'o mut [u64],
    ) -> Result<Operations<'o>, Refusal> {
        let (ranges, range_count) = (&mut *self.ranges.words, self.ranges.count);
        let answer = ffi::bind_record(
            space,
            ranges,
            range_count,
            self.words,
            self.count,
            list,
            record,
        );
        self.take(answer, list)
    }

    /// Maps and unmaps by a whole array of requests, all or none, and gives the operations of all,
    /// which it writes to the lent `list`: each request's behind those of the one before.
    ///
    /// It takes anything that becomes a record: a [`Request`], or the bytes of a record; those of a
    /// slice are its `iter().copied()`. Each is asked for on what the ones before it left, and does
    /// what [`bind`](Table::bind) does for it; flags are not taken here, also not the
    /// [sparse flag](Request::SPARSE). No requests are granted too, with no operations, if all that is
    /// lent is in order.
    ///
    /// `work` is a second table to work in, exactly as long as the table: any words, which are 0
    /// after a grant. There are at least [`operation_list_words`](crate::operation_list_words) for
    /// `list`, and [`batch_list_words`](crate::batch_list_words) are always enough; the words behind
    /// the last operation stay. The sparse ranges are checked, and never change.
    ///
    /// The records stand on the stack meanwhile, 2,600 bytes. Those that stand in a row anyway are
    /// taken where they are by [`bind_batch_records`](Table::bind_batch_records).
    ///
    /// # Errors
    ///
    /// What [`BatchRefusal`] says, and then nothing of the batch is left: no word of the table and of
    /// the sparse ranges has changed, and the count is what it was. Where a request is refused, which
    /// it names, all words of `list` and of `work` are 0; where the batch itself is, they are as they
    /// were.
    ///
    /// More than [`MAX_BATCH`] requests are refused with
    /// [`BadRecordLength`](Refusal::BadRecordLength): it takes one more from the iterator, to know
    /// that there are too many, and leaves the rest. A request with a number that a record has no
    /// room for is refused in its turn, for what [`bind`](Table::bind) refuses it for; see
    /// [`Request::record`].
    ///
    /// ```
    /// use waylluqen::{batch_list_words, table_words, BatchRefusal, Operation, Refusal};
    /// use waylluqen::{Request, Shown, Space, Table};
    ///
    /// const FIRMWARE: u64 = 1;
    /// const RING: u64 = 2;
    /// let space = Space::new(0x10_0000, 0x10_0000).reserving(0x10_0000, 0x1000);
    /// let (mut words, mut work) = ([0; table_words(8)], [0; table_words(8)]);
    /// let mut list = [0; batch_list_words(8, 4)];
    /// let mut table = Table::empty(&mut words);
    ///
    /// // A driver's start-up: all of it, or the device stays off.
    /// let start_up = [
    ///     Request::map(0x10_4000, 0x8000, FIRMWARE, 0),
    ///     Request::unmap(0x10_8000, 0x1000), // a guard page within
    ///     Request::map(0x11_0000, 0x2000, RING, 0),
    ///     Request::map(0x11_2000, 0x2000, RING, 0), // once more, for what goes over its end
    /// ];
    /// let operations = table.bind_batch(space, start_up, &mut work, &mut list)?;
    /// assert_eq!(operations.len(), 4);
    /// for operation in operations {
    ///     match operation {
    ///         Operation::Map(new) => assert!(new.object <= RING), // write page entries
    ///         Operation::Remap { old, .. } => assert_eq!(old.object, FIRMWARE), // the guard page
    ///         Operation::Unmap { old, keep } => unreachable!("{old:?} {keep}"),
    ///     }
    /// }
    /// assert_eq!(table.count(), 4);
    ///
    /// // Of what follows nothing is done: the last is in the reservation.
    /// let more = [Request::unmap(0x10_4000, 0x8000), Request::map(0x10_0000, 0x1000, 3, 0)];
    /// let refused = table.bind_batch(space, more, &mut work, &mut list).unwrap_err();
    /// assert_eq!(refused, BatchRefusal { request: Some(1), refusal: Refusal::Reserved });
    /// assert_eq!(table.count(), 4);
    /// let shown = Shown::Object { object: FIRMWARE, offset: 0x5000 };
    /// assert_eq!(table.lookup(space, 0x10_9000)?.shown, shown);
    /// assert!(list.iter().chain(&work).all(|&word| word == 0));
    /// # Ok::<(), Box<dyn std::error::Error>>(())
    /// ```
    pub fn bind_batch<'o, R>(
        &mut self,
        space: Space,
        requests: impl IntoIterator<Item = R>,
        work: &mut [u64],
        list: &'o mut [u64],
    ) -> Result<Operations<'o>, BatchRefusal>
    where
        R: Into<[u8; RECORD_BYTES]>,
    {
        // Room for one too many, which the library refuses.
        let mut records = [0; (MAX_BATCH + 1) * RECORD_BYTES];
        let mut bytes = 0;
        for (record, request) in records.chunks_exact_mut(RECORD_BYTES).zip(requests) {
            record.copy_from_slice(&request.into());
            bytes += RECORD_BYTES;
        }
        self.bind_batch_records(space, &records[..bytes], work, list)
    }

    /// Does what [`bind_batch`](Table::bind_batch) does for records in a row, as a program handed
    /// them over; see [`check_request`](crate::check_request).
    ///
    /// # Errors
    ///
    /// What [`bind_batch`](Table::bind_batch) gives. Bytes that are not whole records are
    /// [`BadRecordLength`](Refusal::BadRecordLength) too.
    ///
    /// ```
    /// use waylluqen::{batch_list_words, table_words, BatchRefusal, Refusal, Request, Space, Table};
    ///
    /// let space = Space::new(0, 0x1_0000);
    /// let (mut words, mut work) = ([0; table_words(4)], [0; table_words(4)]);
    /// let mut list = [0; batch_list_words(4, 3)];
    /// let mut table = Table::empty(&mut words);
    /// let requests = [0, 0x1000, 0x2000].map(|address| Request::map(address, 0x1000, 7, address));
    /// let bytes = requests.map(Request::record).concat();
    /// let operations = table.bind_batch_records(space, &bytes, &mut work, &mut list)?;
    /// assert_eq!(operations.len(), 3);
    ///
    /// let refused = table.bind_batch_records(space, &bytes[1..], &mut work, &mut list).unwrap_err();
    /// assert_eq!((refused.request, refused.refusal), (None, Refusal::BadRecordLength));
    /// assert_eq!(refused.to_string(), "the batch is not 0 to 64 records of 40 bytes");
    /// # Ok::<(), BatchRefusal>(())
    /// ```
    #[inline]
    pub fn bind_batch_records<'o>(
        &mut self,
        space: Space,
        records: &[u8],
        work: &mut [u64],
        list: &'o mut [u64],
    ) -> Result<Operations<'o>, BatchRefusal> {
        let (ranges, range_count) = (&*self.ranges.words, self.ranges.count);
        let answer = ffi::bind_batch(
            space,
            ranges,
            range_count,
            self.words,
            self.count,
            work,
            list,
            records,
        );
        BatchRefusal::check(answer.refusal, answer.place)?;
        self.count = answer.count;
        Ok(Operations::new(list, answer.operations))
    }

    /// Takes the counts that an answer gives, and reads the operations that it wrote.
    #[inline]
    fn take<'o>(
        &mut self,
        answer: ffi::Answer,
        list: &'o [u64],
    ) -> Result<Operations<'o>, Refusal> {
        Refusal::check(answer.refusal, answer.place)?;
        self.count = answer.count;
        self.ranges.count = answer.ranges;
        Ok(Operations::new(list, answer.operations))
    }
}
