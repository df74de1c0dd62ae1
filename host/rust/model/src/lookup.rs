//! What a byte address shows, and how far that goes on.

use crate::table::{check_lent, Found};
use crate::{Extent, List, Mapping, Refused, Space, SparseRange};

/// What an address shows.
#[derive(Clone, Copy, Debug, PartialEq, Eq)]
pub enum Shown {
    Nothing,
    /// No object, but a sparse range has it.
    Sparse,
    /// The byte of an object.
    Object {
        object: u64,
        offset: u64,
    },
}

/// What an address shows, and the number of bytes from it on for which that goes on.
#[derive(Clone, Copy, Debug, PartialEq, Eq)]
pub struct Seen {
    pub shown: Shown,
    pub bytes: u64,
}

/// What a mapping shows at an address that it has.
fn shown_by(mapping: &Mapping, address: u64) -> Shown {
    Shown::Object {
        object: mapping.object,
        offset: mapping.offset + (address - mapping.address),
    }
}

/// From an address of the space to the nearest edge behind it, of these or the space's; whatever
/// their order. From any other address 0.
fn bytes_to_edge(space: &Extent, extents: impl Iterator<Item = Extent>, address: u64) -> u64 {
    if !space.has(address) {
        return 0;
    }
    let address = u128::from(address);
    let edges = extents
        .chain([*space])
        .flat_map(|extent| [extent.start, extent.end]);
    let nearest = edges.filter(|&edge| address < edge).min();
    let bytes = nearest.expect("the space ends behind it") - address;
    u64::try_from(bytes).expect("at most 2^48")
}

/// What `address` shows in a good space. A mapping that has it hides the ranges and their edges.
fn seen(space: &Extent, Found { mappings, ranges }: &Found, address: u64) -> Seen {
    let mapped = mappings.iter().map(Mapping::extent);
    let sparse = ranges.iter().map(SparseRange::extent);
    let found = mappings
        .iter()
        .find(|mapping| mapping.extent().has(address));
    match found {
        Some(mapping) => Seen {
            shown: shown_by(mapping, address),
            bytes: bytes_to_edge(space, mapped, address),
        },
        None => Seen {
            shown: match sparse.clone().any(|range| range.has(address)) {
                true => Shown::Sparse,
                false => Shown::Nothing,
            },
            bytes: bytes_to_edge(space, mapped.chain(sparse), address),
        },
    }
}

/// What `address` shows in the first `count` mappings of a table and in a list, and how far.
pub fn lookup(
    space: &Space,
    list: &List,
    table: &[u64],
    count: u64,
    address: u64,
) -> Result<Seen, Refused> {
    let found = check_lent(space, list, table, count, None)?;
    Ok(seen(&space.extent(), &found, address))
}
