//! A mapping.

use crate::MAPPING_WORDS;

/// A mapping, as a table and an operation have it: `[address, address + size)` shows an object
/// from an offset on.
///
/// ```
/// let mapping = waylluqen::Mapping::from([0x1000, 0x2000, 7, 0x5000]);
/// assert_eq!((mapping.address, mapping.size), (0x1000, 0x2000));
/// assert_eq!((mapping.object, mapping.offset), (7, 0x5000));
/// ```
#[repr(C)]
#[derive(Clone, Copy, Debug, PartialEq, Eq, Hash)]
pub struct Mapping {
    /// The first address.
    pub address: u64,
    /// The size in bytes.
    pub size: u64,
    /// What it shows, from 1 to [`MAX_OBJECT`](crate::MAX_OBJECT).
    pub object: u64,
    /// The byte of the object that the first address shows.
    pub offset: u64,
}

impl From<[u64; MAPPING_WORDS]> for Mapping {
    fn from([address, size, object, offset]: [u64; MAPPING_WORDS]) -> Mapping {
        Mapping {
            address,
            size,
            object,
            offset,
        }
    }
}
