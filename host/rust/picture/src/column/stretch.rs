//! What a column has, from the space's start to its end.
//!
//! The edges of both columns make the bands of the layout, but a size that is told is a
//! stretch's: a gap after a request can be longer than the gap before it at the same height.

use crate::mapping::{Mapping, Range, Space};
use crate::number::{count, hex, size};

#[derive(Clone, Copy, Debug, PartialEq)]
pub enum What {
    Gap,
    /// What a sparse range has that is in no mapping.
    Sparse,
    Reservation,
    Mapping(Mapping),
    /// As many mappings, and the gaps between them.
    LeftOut(usize),
}

#[derive(Clone, Copy, Debug, PartialEq)]
pub struct Stretch {
    pub range: Range,
    pub what: What,
}

pub fn object_and_offset(mapping: &Mapping) -> String {
    format!("object {} + {}", mapping.object, hex(mapping.offset))
}

impl Stretch {
    pub fn size(&self) -> String {
        size(self.range.size())
    }

    /// What it is and its size.
    pub fn told(&self) -> String {
        let size = self.size();
        match self.what {
            What::Gap => format!("{size} free"),
            What::Sparse => format!("{size} sparse"),
            What::Reservation => format!("reserved, {size}"),
            What::Mapping(mapping) => format!("{}, {size}", object_and_offset(&mapping)),
            What::LeftOut(mappings) => format!("{}, {size}", count(mappings, "mapping")),
        }
    }
}

/// What no mapping has, from one address to another: cut at the edges of sparse ranges.
fn gaps(sparse: &[Range], free: Range, out: &mut Vec<Stretch>) {
    let mut start = free.start;
    let mut put = |end: u64, what: What| {
        let range = Range { start, end };
        if start < end {
            out.push(Stretch { range, what });
            start = end;
        }
    };
    for range in sparse.iter().filter(|range| range.shares_byte_with(&free)) {
        put(range.start, What::Gap);
        put(range.end.min(free.end), What::Sparse);
    }
    put(free.end, What::Gap);
}

/// The stretches of a column, one behind the other. Of the table's mappings those in the ranges
/// `left_out` are put together.
pub fn stretches(
    space: &Space,
    table: &[Mapping],
    sparse: &[Range],
    left_out: &[Range],
) -> Vec<Stretch> {
    let shown = table.iter().filter(|mapping| {
        let has_it = |range: &Range| mapping.range.is_inside(range);
        !left_out.iter().any(has_it)
    });
    let mappings = shown.map(|mapping| (mapping.range, What::Mapping(*mapping)));
    let reservation = space.reservation.map(|range| (range, What::Reservation));
    let together = left_out.iter().map(|range| {
        let inside = table.iter().filter(|one| one.range.is_inside(range));
        (*range, What::LeftOut(inside.count()))
    });
    let mut taken: Vec<(Range, What)> = mappings.chain(reservation).chain(together).collect();
    taken.sort_by_key(|(range, _)| range.start);

    let mut out = Vec::new();
    let mut start = space.range.start;
    for (range, what) in taken {
        let end = range.start;
        gaps(sparse, Range { start, end }, &mut out);
        out.push(Stretch { range, what });
        start = range.end;
    }
    let end = space.range.end;
    gaps(sparse, Range { start, end }, &mut out);
    out
}

#[cfg(test)]
mod tests;
