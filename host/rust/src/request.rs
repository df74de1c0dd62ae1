//! A request, by numbers or as a record.

use crate::{ffi, Refusal, Space, RECORD_BYTES};

/// A request by numbers. Any numbers are allowed; [`Table::bind`](crate::Table::bind) refuses those
/// that break a rule.
///
/// ```
/// use waylluqen::Request;
///
/// let (op, flags) = (Request::UNMAP, 0);
/// let request = Request { op, flags, address: 0x1000, size: 0x1000, object: 0, offset: 0 };
/// assert_eq!(request, Request::unmap(0x1000, 0x1000));
/// ```
#[derive(Clone, Copy, Debug, PartialEq, Eq, Hash)]
pub struct Request {
    /// [`Request::MAP`] or [`Request::UNMAP`].
    pub op: u64,
    /// 0, or [`Request::SPARSE`].
    pub flags: u64,
    /// The first address of the range.
    pub address: u64,
    /// The size of the range in bytes.
    pub size: u64,
    /// What is to be mapped; 0 for an unmap, and with a flag.
    pub object: u64,
    /// The byte of the object that the first address is to show; 0 for an unmap, and with a flag.
    pub offset: u64,
}

impl Request {
    /// The op of a request to map.
    ///
    /// ```
    /// use waylluqen::Request;
    ///
    /// assert_eq!(Request::map(0, 0x1000, 7, 0).op, Request::MAP);
    /// ```
    pub const MAP: u64 = 0;

    /// The op of a request to unmap.
    ///
    /// ```
    /// use waylluqen::Request;
    ///
    /// assert_eq!(Request::unmap(0, 0x1000).op, Request::UNMAP);
    /// ```
    pub const UNMAP: u64 = 1;

    /// The flag with which a map adds a sparse range, and an unmap removes one.
    ///
    /// ```
    /// use waylluqen::{operation_list_words, Refusal, Request, Space, Table};
    ///
    /// let space = Space::new(0, 0x1_0000);
    /// let mut words = [0; 4];
    /// let mut list = [0; operation_list_words(1)];
    /// let mut table = Table::empty(&mut words);
    /// let sparse = Request::map_sparse(0, 0x1000);
    /// assert_eq!(sparse.flags, Request::SPARSE);
    ///
    /// // It is the only flag.
    /// let other = Request { flags: 2 * Request::SPARSE, ..sparse };
    /// let refused = table.bind(space, other, &mut list).err();
    /// assert_eq!(refused, Some(Refusal::BadFlags));
    /// ```
    pub const SPARSE: u64 = 256;

    /// Asks that `[address, address + size)` show an object from an offset on.
    ///
    /// ```
    /// let request = waylluqen::Request::map(0x1000, 0x2000, 7, 0x5000);
    /// assert_eq!((request.address, request.size), (0x1000, 0x2000));
    /// assert_eq!((request.object, request.offset), (7, 0x5000));
    /// ```
    pub const fn map(address: u64, size: u64, object: u64, offset: u64) -> Request {
        Request {
            op: Request::MAP,
            flags: 0,
            address,
            size,
            object,
            offset,
        }
    }

    /// Asks that `[address, address + size)` show no object.
    ///
    /// ```
    /// let request = waylluqen::Request::unmap(0x1000, 0x2000);
    /// assert_eq!((request.address, request.size), (0x1000, 0x2000));
    /// ```
    pub const fn unmap(address: u64, size: u64) -> Request {
        Request {
            op: Request::UNMAP,
            flags: 0,
            address,
            size,
            object: 0,
            offset: 0,
        }
    }

    /// Asks that `[address, address + size)` be a sparse range. It may lie over mappings, and touch
    /// other sparse ranges, with which it is not joined.
    ///
    /// ```
    /// use waylluqen::{operation_list_words, Ranges, Request, Shown, Space, Table};
    ///
    /// let space = Space::new(0, 0x1_0000);
    /// let (mut words, mut range_words) = ([0; 4], [0; waylluqen::range_words(1)]);
    /// let mut list = [0; operation_list_words(1)];
    /// let mut table = Table::empty(&mut words).with_ranges(Ranges::empty(&mut range_words));
    /// let operations = table.bind(space, Request::map_sparse(0x1000, 0x4000), &mut list)?;
    /// assert_eq!(operations.len(), 0);
    /// let seen = table.lookup(space, 0x2000)?;
    /// assert_eq!((seen.shown, seen.bytes), (Shown::Sparse, 0x3000));
    /// # Ok::<(), waylluqen::Refusal>(())
    /// ```
    pub const fn map_sparse(address: u64, size: u64) -> Request {
        Request {
            flags: Request::SPARSE,
            ..Request::map(address, size, 0, 0)
        }
    }

    /// Asks that the sparse range with exactly this start and size be one no longer. As long as a
    /// mapping shares a byte with it, that is refused.
    ///
    /// ```
    /// use waylluqen::{operation_list_words, Ranges, Refusal, Request, Space, Table};
    ///
    /// let space = Space::new(0, 0x1_0000);
    /// let (mut words, mut range_words) = ([0x1000, 0x1000, 7, 0], [0x1000, 0x4000]);
    /// let mut list = [0; operation_list_words(1)];
    /// let ranges = Ranges::with_count(&mut range_words, 1);
    /// let mut table = Table::with_count(&mut words, 1).with_ranges(ranges);
    /// let unmap = Request::unmap_sparse(0x1000, 0x4000);
    /// assert_eq!(table.bind(space, unmap, &mut list).err(), Some(Refusal::NoSuchRange));
    ///
    /// let _ = table.bind(space, Request::unmap(0x1000, 0x1000), &mut list)?;
    /// let _ = table.bind(space, unmap, &mut list)?;
    /// assert_eq!(table.ranges().count(), 0);
    /// # Ok::<(), Refusal>(())
    /// ```
    pub const fn unmap_sparse(address: u64, size: u64) -> Request {
        Request {
            flags: Request::SPARSE,
            ..Request::unmap(address, size)
        }
    }

    /// The request as a record, as a program hands it over; see [`check_request`] for its fields.
    ///
    /// Op, flags and object have 32 bits in a record. A number that has more becomes one that is
    /// refused for the same reason, so that the same is refused of both: the highest op or flags
    /// that there are, and an object that can't be asked for.
    ///
    /// ```
    /// use waylluqen::{check_request, Refusal, Request, Space};
    ///
    /// let space = Space::new(0, 0x1_0000);
    /// let record = Request::map(0x1000, 0x2000, 7, 0x5000).record();
    /// assert_eq!((record[8], record[17], record[25], record[33]), (7, 0x10, 0x50, 0x20));
    /// assert_eq!(check_request(space, &record), Ok(()));
    ///
    /// let record = Request::map(0x1000, 0x2000, 1 << 32, 0).record();
    /// assert_eq!(check_request(space, &record), Err(Refusal::BadObject));
    /// ```
    pub fn record(self) -> [u8; RECORD_BYTES] {
        // To map no object is refused, to unmap one, or one of a sparse range.
        let no_object = match (self.op, self.flags) {
            (Request::MAP, 0) => 0,
            _ => u32::MAX,
        };
        let short = |number: u64, other: u32| u32::try_from(number).unwrap_or(other).to_le_bytes();
        let mut record = [0; RECORD_BYTES];
        record[0..4].copy_from_slice(&short(self.op, u32::MAX));
        record[4..8].copy_from_slice(&short(self.flags, u32::MAX));
        record[8..12].copy_from_slice(&short(self.object, no_object));
        record[16..24].copy_from_slice(&self.address.to_le_bytes());
        record[24..32].copy_from_slice(&self.offset.to_le_bytes());
        record[32..40].copy_from_slice(&self.size.to_le_bytes());
        record
    }
}

/// [`Request::record`], by which [`Table::bind_batch`](crate::Table::bind_batch) takes requests.
///
/// ```
/// use waylluqen::{Request, RECORD_BYTES};
///
/// let request = Request::map(0x1000, 0x2000, 7, 0x5000);
/// assert_eq!(<[u8; RECORD_BYTES]>::from(request), request.record());
/// ```
impl From<Request> for [u8; RECORD_BYTES] {
    fn from(request: Request) -> [u8; RECORD_BYTES] {
        request.record()
    }
}

/// What is wrong with a request record, whatever the table and its sparse ranges; for a driver that
/// turns a bad request down before it takes any lock.
///
/// A record is 40 bytes, each field little-endian: `op`, `flags`, `handle` and `pad` of four bytes,
/// `addr`, `bo_offset` and `range` of eight.
///
/// # Errors
///
/// The first of [`BadRecordLength`](Refusal::BadRecordLength), [`BadOp`](Refusal::BadOp),
/// [`BadFlags`](Refusal::BadFlags), [`BadSpace`](Refusal::BadSpace),
/// [`Unaligned`](Refusal::Unaligned), [`OutsideSpace`](Refusal::OutsideSpace),
/// [`Reserved`](Refusal::Reserved), [`BadObject`](Refusal::BadObject) and
/// [`BadOffset`](Refusal::BadOffset) that applies.
///
/// ```
/// use waylluqen::{check_request, Refusal, Space};
///
/// let space = Space::new(0x10_0000, 0x10_0000);
/// let mut record = [0; 40];
/// record[8] = 7; // map object 7
/// record[18] = 0x10; // at 0x10_0000
/// record[33] = 0x10; // one page
/// assert_eq!(check_request(space, &record), Ok(()));
///
/// record[18] = 0x20;
/// assert_eq!(check_request(space, &record), Err(Refusal::OutsideSpace));
/// ```
pub fn check_request(space: Space, record: &[u8]) -> Result<(), Refusal> {
    Refusal::check(u64::from(ffi::check_request(space, record)), 0)
}
