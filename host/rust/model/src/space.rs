//! The address space and its rules.

use crate::{is_page_multiple, Extent, LIMIT, PAGE};

#[derive(Clone, Copy, Debug, PartialEq, Eq)]
pub struct Space {
    pub start: u64,
    pub size: u64,
    pub reserved_start: u64,
    pub reserved_size: u64,
}

impl Space {
    pub fn extent(&self) -> Extent {
        Extent::new(self.start, self.size)
    }

    /// The reserved part, if there is one.
    pub fn reservation(&self) -> Option<Extent> {
        if self.reserved_size == 0 {
            return None;
        }
        Some(Extent::new(self.reserved_start, self.reserved_size))
    }

    /// Whether a byte of `extent` is reserved.
    pub fn reserves_byte_of(&self, extent: &Extent) -> bool {
        self.reservation()
            .is_some_and(|reservation| extent.shares_byte_with(&reservation))
    }
}

/// Whether the space keeps its rules.
pub fn space_holds(space: &Space) -> bool {
    let aligned = is_page_multiple(space.start)
        && is_page_multiple(space.size)
        && is_page_multiple(space.reserved_start)
        && is_page_multiple(space.reserved_size);
    let reservation_holds = match space.reservation() {
        None => space.reserved_start == 0,
        Some(reservation) => reservation.is_inside(&space.extent()),
    };
    aligned && space.size >= PAGE && space.extent().end <= LIMIT && reservation_holds
}
