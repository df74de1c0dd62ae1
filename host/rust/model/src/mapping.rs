//! A mapping and its rules.

use crate::{is_page_multiple, Extent, Space, LIMIT, PAGE};

/// A mapping in a table is this many words.
pub const MAPPING_WORDS: usize = 4;

/// Objects are counted from 1 to this.
pub const HIGHEST_OBJECT: u64 = (1 << 32) - 1;

/// The words of a mapping, in their order.
#[derive(Clone, Copy, Debug, PartialEq, Eq)]
pub struct Mapping {
    pub address: u64,
    pub size: u64,
    pub object: u64,
    pub offset: u64,
}

impl Mapping {
    pub fn extent(&self) -> Extent {
        Extent::new(self.address, self.size)
    }

    pub fn words(&self) -> [u64; MAPPING_WORDS] {
        [self.address, self.size, self.object, self.offset]
    }

    /// The offset less the address, which may be below zero.
    pub fn displacement(&self) -> i128 {
        i128::from(self.offset) - i128::from(self.address)
    }
}

/// Whether the mapping keeps its own rules, whatever stands beside it in a table.
pub fn mapping_holds(mapping: &Mapping, space: &Space) -> bool {
    let aligned = is_page_multiple(mapping.address)
        && is_page_multiple(mapping.size)
        && is_page_multiple(mapping.offset);
    let object_holds = (1..=HIGHEST_OBJECT).contains(&mapping.object);
    let offset_holds = Extent::new(mapping.offset, mapping.size).end <= LIMIT;
    let extent = mapping.extent();
    aligned
        && mapping.size >= PAGE
        && object_holds
        && offset_holds
        && extent.is_inside(&space.extent())
        && !space.reserves_byte_of(&extent)
}
