//! An address space.

/// An address space, and the part of it that nobody may map. Any numbers are allowed; each call
/// checks them.
///
/// The rules: all four are multiples of a page; the size is not 0; the space ends at or below
/// [`LIMIT`](crate::LIMIT); the reservation is inside the space, and may be all of it; where nothing
/// is reserved both its numbers are 0. A space that breaks one is refused with
/// [`BadSpace`](crate::Refusal::BadSpace).
///
/// ```
/// use waylluqen::{Refusal, Space, Table};
///
/// let mut words = [0; 4];
/// let table = Table::empty(&mut words);
/// let space = Space { start: 0, size: 0x8000, reserved_start: 0x7000, reserved_size: 0x1000 };
/// assert!(table.lookup(space, 0).is_ok());
/// assert_eq!(table.lookup(Space { size: 0x7000, ..space }, 0), Err(Refusal::BadSpace));
/// ```
#[repr(C)]
#[derive(Clone, Copy, Debug, PartialEq, Eq, Hash)]
pub struct Space {
    /// The first address.
    pub start: u64,
    /// The size in bytes.
    pub size: u64,
    /// The first reserved address; 0 where nothing is reserved.
    pub reserved_start: u64,
    /// The size of the reservation in bytes; 0 where nothing is reserved.
    pub reserved_size: u64,
}

impl Space {
    /// `[start, start + size)` with nothing reserved.
    ///
    /// ```
    /// let space = waylluqen::Space::new(0x10_0000, 0x8000);
    /// assert_eq!((space.start, space.size, space.reserved_size), (0x10_0000, 0x8000, 0));
    /// ```
    pub const fn new(start: u64, size: u64) -> Space {
        Space {
            start,
            size,
            reserved_start: 0,
            reserved_size: 0,
        }
    }

    /// The same space with `[start, start + size)` reserved.
    ///
    /// ```
    /// let space = waylluqen::Space::new(0x10_0000, 0x8000).reserving(0x10_7000, 0x1000);
    /// assert_eq!((space.reserved_start, space.reserved_size), (0x10_7000, 0x1000));
    /// ```
    #[must_use]
    pub const fn reserving(self, start: u64, size: u64) -> Space {
        Space {
            reserved_start: start,
            reserved_size: size,
            ..self
        }
    }
}
