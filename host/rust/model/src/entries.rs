//! The page entries that cover a mapping, as few as can be.
//!
//! From the mapping's address on, always the largest page that starts there and fits. Pages of one
//! size in a row are taken at once, so that the number of 2^36 entries is known soon too.

use crate::{answer, mapping_holds, Mapping, Refused, Space, LIMIT, PAGE};
use alloc::vec;
use alloc::vec::Vec;

/// An entry is this many words.
pub const ENTRY_WORDS: usize = 3;

/// The sizes of a page, from the largest down: 1 GiB, 2 MiB, 4 KiB.
pub const PAGE_SIZES: [u64; 3] = [1 << 30, 1 << 21, PAGE];

/// From 0 to 2^48, nothing reserved.
const WHOLE_SPACE: Space = Space {
    start: 0,
    size: LIMIT as u64,
    reserved_start: 0,
    reserved_size: 0,
};

/// The words of an entry, in their order.
#[derive(Clone, Copy, Debug, PartialEq, Eq)]
pub struct PageEntry {
    pub address: u64,
    pub offset: u64,
    pub size: u64,
}

impl PageEntry {
    pub fn words(&self) -> [u64; ENTRY_WORDS] {
        [self.address, self.offset, self.size]
    }
}

/// Entries of one size, one behind the other.
#[derive(Clone, Copy, Debug, PartialEq, Eq)]
pub struct Run {
    pub first: PageEntry,
    pub entries: u64,
}

impl Run {
    fn bytes(&self) -> u64 {
        self.first.size * self.entries
    }

    pub fn entries(self) -> impl Iterator<Item = PageEntry> {
        let Run { first, entries } = self;
        (0..entries).map(move |place| PageEntry {
            address: first.address + place * first.size,
            offset: first.offset + place * first.size,
            size: first.size,
        })
    }
}

/// What is left of a mapping: address, offset and bytes.
#[derive(Clone, Copy)]
struct Left {
    address: u64,
    offset: u64,
    bytes: u64,
}

impl Left {
    fn of(mapping: &Mapping) -> Left {
        Left {
            address: mapping.address,
            offset: mapping.offset,
            bytes: mapping.size,
        }
    }

    /// Whether a page of this size may start it.
    fn starts_with(&self, size: u64) -> bool {
        self.address % size == 0 && self.offset % size == 0 && size <= self.bytes
    }

    /// The part of it that is so many bytes further on.
    fn behind(&self, bytes: u64) -> Left {
        Left {
            address: self.address + bytes,
            offset: self.offset + bytes,
            bytes: self.bytes - bytes,
        }
    }

    /// How far it is to where a page of this size may start, if it may anywhere. If not at the
    /// first boundary, then at none behind it: the offset is off there as well, and fewer bytes are
    /// left.
    fn distance_to(&self, size: u64) -> Option<u64> {
        let to_boundary = (size - self.address % size) % size;
        let fits = to_boundary <= self.bytes && self.behind(to_boundary).starts_with(size);
        fits.then_some(to_boundary)
    }

    /// The largest pages that may start it, up to where a larger one may start.
    fn first_run(&self, sizes: &[u64]) -> Run {
        let chosen = sizes.iter().position(|&size| self.starts_with(size));
        let chosen = chosen.expect("all is in pages of the least size");
        let (size, larger) = (sizes[chosen], &sizes[..chosen]);
        let distances = larger.iter().filter_map(|&size| self.distance_to(size));
        let bytes = distances.min().unwrap_or(self.bytes);
        Run {
            first: PageEntry {
                address: self.address,
                offset: self.offset,
                size,
            },
            entries: bytes / size,
        }
    }
}

/// The runs of a mapping, from its address on, in pages of these sizes, which come from the largest
/// down, each a multiple of the next. Its address, size and offset are multiples of the last.
pub fn runs<'a>(sizes: &'a [u64], mapping: &Mapping) -> impl Iterator<Item = Run> + 'a {
    let mut left = Left::of(mapping);
    core::iter::from_fn(move || {
        let run = (left.bytes > 0).then(|| left.first_run(sizes))?;
        left = left.behind(run.bytes());
        Some(run)
    })
}

/// How many entries it takes, without making them.
pub fn entry_count(sizes: &[u64], mapping: &Mapping) -> u64 {
    runs(sizes, mapping).map(|run| run.entries).sum()
}

/// How many a mapping takes at least, if any list covers it: by all lists of aligned entries, from
/// the last byte down. For mappings of few pages of the last size.
pub fn least_entries(sizes: &[u64], mapping: &Mapping) -> Option<u64> {
    let page = *sizes.last()?;
    let whole = Left::of(mapping);
    let pages = (mapping.size / page) as usize;
    // For so many of the last pages how few entries cover them; none cover none.
    let mut least = vec![Some(0); pages + 1];
    for last in 1..=pages {
        let left = whole.behind((pages - last) as u64 * page);
        let first = sizes.iter().filter(|&&size| left.starts_with(size));
        let counts = first.filter_map(|size| least[last - (size / page) as usize]);
        least[last] = counts.min().map(|count: u64| count + 1);
    }
    least[pages]
}

/// The entries of a mapping, with so many words lent for them.
pub fn page_entries(mapping: &Mapping, words: usize) -> Result<Vec<PageEntry>, Refused> {
    if !mapping_holds(mapping, &WHOLE_SPACE) {
        return Err(Refused::of(answer::BAD_MAPPING));
    }
    let count = entry_count(&PAGE_SIZES, mapping);
    if u128::from(count) * ENTRY_WORDS as u128 > words as u128 {
        return Err(Refused::of(answer::SHORT_OUTPUT));
    }
    Ok(runs(&PAGE_SIZES, mapping).flat_map(Run::entries).collect())
}
