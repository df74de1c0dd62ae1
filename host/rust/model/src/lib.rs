//! The rules, written a second time in plain Rust, so that the library and the script program can be
//! compared to them.
//!
//! It is made to be read next to the rules, not to be fast: sums are `u128`, so none wraps.

#![no_std]
#![forbid(unsafe_code)]

extern crate alloc;

pub mod answer;
pub mod batch;
pub mod bind;
pub mod entries;
pub mod extent;
pub mod lookup;
pub mod mapping;
pub mod pages;
pub mod random;
pub mod ranges;
pub mod replay;
pub mod request;
pub mod script;
pub mod space;
pub mod table;
pub mod write;

pub use answer::Refused;
pub use batch::{bind_batch, BatchRefused, MOST_REQUESTS};
pub use bind::{bind, bind_record, Grant, Operation, OPERATION_WORDS};
pub use entries::{page_entries, PageEntry, ENTRY_WORDS, PAGE_SIZES};
pub use extent::Extent;
pub use lookup::{lookup, Seen, Shown};
pub use mapping::{mapping_holds, Mapping, HIGHEST_OBJECT, MAPPING_WORDS};
pub use pages::Pages;
pub use ranges::{List, SparseRange, MOST_RANGES, RANGE_WORDS};
pub use replay::replay;
pub use request::{decode, request_refusal, Record, Request};
pub use request::{MAP, RECORD_BYTES, SPARSE, UNMAP};
pub use script::{script, SCRIPT_MAPPINGS, SCRIPT_RANGES};
pub use space::{space_holds, Space};
pub use table::MOST_MAPPINGS;

/// Every address, size and offset is a multiple of a page.
pub const PAGE: u64 = 4096;

/// No space and no object goes above this.
pub const LIMIT: u128 = 1 << 48;

pub fn is_page_multiple(value: u64) -> bool {
    value % PAGE == 0
}

/// The answer to a request record: the record first, then the space, then the request in it.
pub fn check_request(record: &[u8], space: &Space) -> u32 {
    let request = match decode(record) {
        Ok(request) => request,
        Err(refusal) => return refusal,
    };
    if !space_holds(space) {
        return answer::BAD_SPACE;
    }
    request_refusal(&request, space).unwrap_or(answer::OK)
}
