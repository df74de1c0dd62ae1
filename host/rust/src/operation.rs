//! The operations that a request leaves for a driver, read from their words.

use crate::{Mapping, MAPPING_WORDS, OPERATION_WORDS};
use core::iter::FusedIterator;
use core::slice::ChunksExact;

// Where an operation's words stand.
const KIND: usize = 0;
const KEEP: usize = 1;
const NAMED: usize = 2;
const LOWER: usize = 6;
const UPPER: usize = 10;

const KIND_MAP: u64 = 0;
const KIND_REMAP: u64 = 1;
const KIND_UNMAP: u64 = 2;

/// What a remap leaves of a mapping: it shows what it showed.
///
/// ```
/// use waylluqen::{operation_list_words, table_words, Mapping, Operation, Request, Rests};
/// use waylluqen::{Space, Table};
///
/// let space = Space::new(0, 0x1_0000);
/// let mut words = [0; table_words(2)];
/// let mut list = [0; operation_list_words(2)];
/// let mut table = Table::empty(&mut words);
/// let _ = table.bind(space, Request::map(0, 0x3000, 7, 0), &mut list)?;
///
/// // A hole in its middle leaves two.
/// let hole = table.bind(space, Request::unmap(0x1000, 0x1000), &mut list)?.next();
/// let Some(Operation::Remap { rests: Rests::Both { lower, upper }, .. }) = hole else {
///     panic!("{hole:?}");
/// };
/// assert_eq!(lower, Mapping::from([0, 0x1000, 7, 0]));
/// assert_eq!(upper, Mapping::from([0x2000, 0x1000, 7, 0x2000]));
/// # Ok::<(), waylluqen::Refusal>(())
/// ```
#[derive(Clone, Copy, Debug, PartialEq, Eq, Hash)]
pub enum Rests {
    /// The part below the requested range.
    Lower(Mapping),
    /// The part above the requested range.
    Upper(Mapping),
    /// A part on each side.
    Both {
        /// The part below.
        lower: Mapping,
        /// The part above.
        upper: Mapping,
    },
}

/// What a driver has to do.
///
/// `keep` is true if the request is a map and the old mapping has its object and its displacement:
/// the offset less the address, which may be below zero. Then the old mapping's pages inside the
/// range, which are those between its rests, show already what the new mapping shows there, and a
/// driver can leave their entries alone. Any number of a list's operations can have it, also with
/// others between them.
///
/// ```
/// use waylluqen::{Mapping, Operation, Rests};
///
/// /// How many page entries a driver has to clear before the map.
/// fn to_clear(operation: Operation) -> u64 {
///     let bytes = match operation {
///         Operation::Map(_)
///         | Operation::Remap { keep: true, .. }
///         | Operation::Unmap { keep: true, .. } => 0,
///         Operation::Remap { old, rests: Rests::Lower(rest) | Rests::Upper(rest), .. } => {
///             old.size - rest.size
///         }
///         Operation::Remap { old, rests: Rests::Both { lower, upper }, .. } => {
///             old.size - lower.size - upper.size
///         }
///         Operation::Unmap { old, .. } => old.size,
///     };
///     bytes / waylluqen::PAGE_SIZE
/// }
///
/// let old = Mapping { address: 0, size: 0x3000, object: 7, offset: 0 };
/// let rests = Rests::Lower(Mapping { size: 0x1000, ..old });
/// assert_eq!(to_clear(Operation::Remap { old, rests, keep: false }), 2);
/// assert_eq!(to_clear(Operation::Remap { old, rests, keep: true }), 0);
/// ```
#[derive(Clone, Copy, Debug, PartialEq, Eq, Hash)]
pub enum Operation {
    /// Map the new mapping.
    Map(Mapping),
    /// Unmap the old mapping but for its rests.
    Remap {
        /// The mapping that is cut.
        old: Mapping,
        /// What it leaves.
        rests: Rests,
        /// Whether its pages inside the range show what the new mapping shows there.
        keep: bool,
    },
    /// Unmap the old mapping.
    Unmap {
        /// The mapping that goes.
        old: Mapping,
        /// Whether its pages inside the range show what the new mapping shows there.
        keep: bool,
    },
}

impl Operation {
    /// Reads an operation's words; `None` for words that no request leaves.
    ///
    /// ```
    /// use waylluqen::{Mapping, Operation};
    ///
    /// let words = [0, 0, 0x1000, 0x2000, 7, 0, 0, 0, 0, 0, 0, 0, 0, 0];
    /// let new = Mapping::from([0x1000, 0x2000, 7, 0]);
    /// assert_eq!(Operation::read(&words), Some(Operation::Map(new)));
    /// assert_eq!(Operation::read(&[3; 14]), None);
    /// ```
    pub fn read(words: &[u64; OPERATION_WORDS]) -> Option<Operation> {
        let named = mapping_at(words, NAMED);
        let keep = match words[KEEP] {
            0 => false,
            1 => true,
            _ => return None,
        };
        match (words[KIND], rest_at(words, LOWER), rest_at(words, UPPER)) {
            (KIND_MAP, None, None) if !keep => Some(Operation::Map(named)),
            (KIND_UNMAP, None, None) => Some(Operation::Unmap { old: named, keep }),
            (KIND_REMAP, lower, upper) => Some(Operation::Remap {
                old: named,
                rests: rests(lower, upper)?,
                keep,
            }),
            _ => None,
        }
    }
}

fn mapping_at(words: &[u64; OPERATION_WORDS], at: usize) -> Mapping {
    Mapping::from([words[at], words[at + 1], words[at + 2], words[at + 3]])
}

/// Four zeros are no rest.
fn rest_at(words: &[u64; OPERATION_WORDS], at: usize) -> Option<Mapping> {
    let rest = mapping_at(words, at);
    (rest != Mapping::from([0; MAPPING_WORDS])).then_some(rest)
}

fn rests(lower: Option<Mapping>, upper: Option<Mapping>) -> Option<Rests> {
    match (lower, upper) {
        (Some(lower), Some(upper)) => Some(Rests::Both { lower, upper }),
        (Some(lower), None) => Some(Rests::Lower(lower)),
        (None, Some(upper)) => Some(Rests::Upper(upper)),
        (None, None) => None,
    }
}

/// The operations of a granted request, in the order in which a driver carries them out: one for
/// each mapping that was hit, ascending, and a map's own at the very end. Those of a batch are its
/// requests' operations, one request's behind the other's.
///
/// ```
/// use waylluqen::{operation_list_words, Mapping, Operation, Request, Space, Table};
///
/// let space = Space::new(0, 0x1_0000);
/// let mut words = [0; 4];
/// let mut list = [0; operation_list_words(1)];
/// let mut table = Table::empty(&mut words);
/// let _ = table.bind(space, Request::map(0, 0x1000, 7, 0), &mut list)?;
///
/// let mut operations = table.bind(space, Request::map(0, 0x2000, 7, 0), &mut list)?;
/// assert_eq!(operations.len(), 2);
/// let old = Mapping { address: 0, size: 0x1000, object: 7, offset: 0 };
/// let new = Mapping { size: 0x2000, ..old };
/// assert_eq!(operations.next(), Some(Operation::Unmap { old, keep: true }));
/// assert_eq!(operations.next(), Some(Operation::Map(new)));
/// assert_eq!(operations.next(), None);
/// # Ok::<(), waylluqen::Refusal>(())
/// ```
#[derive(Clone, Debug)]
#[must_use = "a driver has to carry these out"]
pub struct Operations<'a> {
    words: ChunksExact<'a, u64>,
}

impl<'a> Operations<'a> {
    /// The first `number` operations of a list that the library wrote.
    #[inline]
    pub(crate) fn new(list: &'a [u64], number: u64) -> Operations<'a> {
        let written = &list[..number as usize * OPERATION_WORDS];
        Operations {
            words: written.chunks_exact(OPERATION_WORDS),
        }
    }
}

impl Iterator for Operations<'_> {
    type Item = Operation;

    fn next(&mut self) -> Option<Operation> {
        let words = self.words.next()?.try_into().ok()?;
        Some(Operation::read(words).expect("the library is proved to write operations"))
    }

    fn size_hint(&self) -> (usize, Option<usize>) {
        self.words.size_hint()
    }
}

impl ExactSizeIterator for Operations<'_> {}

impl FusedIterator for Operations<'_> {}
