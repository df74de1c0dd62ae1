//! What an address shows, and how far that goes on.

use crate::ffi;

const SHOWN_NOTHING: u64 = 0;
const SHOWN_OBJECT: u64 = 1;
const SHOWN_SPARSE: u64 = 2;

/// What an address shows.
///
/// ```
/// use waylluqen::{Shown, Space, View};
///
/// let space = Space::new(0, 0x1_0000);
/// let view = View::new(&[0x1000, 0x2000, 7, 0x5000], 1).with_ranges(&[0x2000, 0x2000], 1);
/// let byte = Shown::Object { object: 7, offset: 0x6008 };
/// assert_eq!(view.lookup(space, 0x2008)?.shown, byte);
/// assert_eq!(view.lookup(space, 0x3000)?.shown, Shown::Sparse);
/// assert_eq!(view.lookup(space, 0x4000)?.shown, Shown::Nothing);
/// # Ok::<(), waylluqen::Refusal>(())
/// ```
#[derive(Clone, Copy, Debug, PartialEq, Eq, Hash)]
pub enum Shown {
    /// Nothing: it is in no mapping and in no sparse range.
    Nothing,
    /// No object, but an access does not fault: it is in no mapping, but in a sparse range.
    Sparse,
    /// A byte of an object.
    Object {
        /// The object, from 1 to [`MAX_OBJECT`](crate::MAX_OBJECT).
        object: u64,
        /// The byte's offset in it.
        offset: u64,
    },
}

/// The answer to a look-up: what the address shows, and how far that goes on.
///
/// ```
/// use waylluqen::{Seen, Shown, Space, View};
///
/// let space = Space::new(0, 0x1_0000);
/// let view = View::new(&[0x1000, 0x2000, 7, 0, 0x8000, 0x1000, 8, 0], 2);
/// // To the mapping's end; to the next mapping's address; to the space's end; outside.
/// let shown = Shown::Object { object: 7, offset: 0x800 };
/// assert_eq!(view.lookup(space, 0x1800), Ok(Seen { shown, bytes: 0x1800 }));
/// assert_eq!(view.lookup(space, 0x4000), Ok(Seen { shown: Shown::Nothing, bytes: 0x4000 }));
/// assert_eq!(view.lookup(space, 0x9000), Ok(Seen { shown: Shown::Nothing, bytes: 0x7000 }));
/// assert_eq!(view.lookup(space, 0x1_0000), Ok(Seen { shown: Shown::Nothing, bytes: 0 }));
///
/// // Sparse ranges stop it off mappings, also where one touches another.
/// let view = view.with_ranges(&[0x5000, 0x1000, 0x6000, 0x8000], 2);
/// assert_eq!(view.lookup(space, 0x1800), Ok(Seen { shown, bytes: 0x1800 }));
/// assert_eq!(view.lookup(space, 0x4000), Ok(Seen { shown: Shown::Nothing, bytes: 0x1000 }));
/// assert_eq!(view.lookup(space, 0x5000), Ok(Seen { shown: Shown::Sparse, bytes: 0x1000 }));
/// assert_eq!(view.lookup(space, 0x6000), Ok(Seen { shown: Shown::Sparse, bytes: 0x2000 }));
/// ```
#[derive(Clone, Copy, Debug, PartialEq, Eq, Hash)]
pub struct Seen {
    /// What the address shows.
    pub shown: Shown,
    /// For how many bytes, from the address on, that goes on in the same way: to the mapping's end,
    /// each byte with the next one of the object; off mappings, to what comes first: the next
    /// mapping's address, the start or the end of a sparse range, the space's end. At least 1 inside
    /// the space, 0 outside.
    ///
    /// A neighbour is not counted in, also where it touches: a mapping that goes on with the same
    /// object, a sparse range behind another one. A gap is not cut at the reservation.
    pub bytes: u64,
}

impl Seen {
    /// Reads an answer that is no refusal.
    #[inline]
    pub(crate) fn read(answer: ffi::Translation) -> Seen {
        let shown = match answer.shown {
            SHOWN_NOTHING => Shown::Nothing,
            SHOWN_SPARSE => Shown::Sparse,
            SHOWN_OBJECT => Shown::Object {
                object: answer.object,
                offset: answer.offset,
            },
            _ => unreachable!("the library is proved to answer no other word"),
        };
        Seen {
            shown,
            bytes: answer.bytes,
        }
    }
}
