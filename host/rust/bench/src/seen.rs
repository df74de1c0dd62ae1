//! What an address shows and how far, by the mapping that a search found, in plain safe Rust.

use crate::rules::{Bounds, Mapping, SparseRange};
use waylluqen::{Seen, Shown};

/// In a mapping that has the address.
pub fn seen_in(&[start, size, object, offset]: &Mapping, address: u64) -> Seen {
    let moved = address - start;
    Seen {
        shown: Shown::Object {
            object,
            offset: offset + moved,
        },
        bytes: size - moved,
    }
}

/// Where no mapping has the address; the next one starts at `next`, if there is one.
pub fn seen_off(bounds: &Bounds, ranges: &[SparseRange], next: Option<u64>, address: u64) -> Seen {
    if !(bounds.start..bounds.end).contains(&address) {
        return Seen {
            shown: Shown::Nothing,
            bytes: 0,
        };
    }
    let end = next.unwrap_or(bounds.end);
    let behind = ranges.partition_point(|&[start, size]| start + size <= address);
    let (shown, end) = match ranges.get(behind) {
        Some(&[start, size]) if start <= address => (Shown::Sparse, end.min(start + size)),
        Some(&[start, _]) => (Shown::Nothing, end.min(start)),
        None => (Shown::Nothing, end),
    };
    Seen {
        shown,
        bytes: end - address,
    }
}
