//! The same page by page: each page of a small space may be a mapping's, which shows a page of an
//! object, and may be a sparse range's.
//!
//! A request paints the pages of its range. Nothing here knows of hits, rests or operations, nor of
//! a list that is searched.

use crate::{answer, Mapping, Request, Seen, Shown, Space, SparseRange, MAP, PAGE};
use alloc::vec;
use alloc::vec::Vec;
use core::ops::Range;

/// What a mapped page shows, and whose it is: two mappings may show one object without a break.
#[derive(Clone, Copy, Debug, PartialEq, Eq)]
pub struct Mapped {
    pub owner: usize,
    pub object: u64,
    pub offset: u64,
}

/// A page: what is mapped there, and which sparse range it is in: two of them may touch.
#[derive(Clone, Copy, Debug, Default, PartialEq, Eq)]
pub struct Page {
    pub mapped: Option<Mapped>,
    pub range: Option<usize>,
}

impl Page {
    fn owner(&self) -> Option<usize> {
        self.mapped.map(|mapped| mapped.owner)
    }

    /// What tells it from its neighbour: the mapping, and only where there is none the range.
    fn look(&self) -> (Option<usize>, Option<usize>) {
        match self.mapped {
            Some(mapped) => (Some(mapped.owner), None),
            None => (None, self.range),
        }
    }
}

/// The pages of a space, from its start.
#[derive(Clone, Debug, PartialEq, Eq)]
pub struct Pages {
    pub start: u64,
    pub pages: Vec<Page>,
    /// How many mappings and ranges there have been; the next one's number.
    owners: usize,
}

impl Pages {
    /// The pages as these mappings and ranges have them.
    pub fn new(space: &Space, mappings: &[Mapping], ranges: &[SparseRange]) -> Pages {
        let mut painted = Pages {
            start: space.start,
            pages: vec![Page::default(); (space.size / PAGE) as usize],
            owners: 0,
        };
        for mapping in mappings {
            let owner = painted.next_owner();
            painted.paint(mapping, Some(owner));
        }
        for range in ranges {
            let owner = painted.next_owner();
            painted.mark(range.start, range.size, Some(owner));
        }
        painted
    }

    fn next_owner(&mut self) -> usize {
        self.owners += 1;
        self.owners
    }

    /// Paints a map's pages for a new owner, or wipes an unmap's. With the flag it is the sparse
    /// ranges' paint, and what is mapped stays.
    pub fn ask(&mut self, request: &Request) {
        let new_owner = self.next_owner();
        let owner = (request.op == MAP).then_some(new_owner);
        if request.is_sparse() {
            return self.mark(request.address, request.size, owner);
        }
        let range = Mapping {
            address: request.address,
            size: request.size,
            object: request.object,
            offset: request.offset,
        };
        self.paint(&range, owner);
    }

    /// The places of a range's pages.
    fn places(&self, address: u64, size: u64) -> Range<usize> {
        let first = ((address - self.start) / PAGE) as usize;
        first..first + (size / PAGE) as usize
    }

    fn paint(&mut self, range: &Mapping, owner: Option<usize>) {
        let places = self.places(range.address, range.size);
        for (page, place) in places.enumerate() {
            self.pages[place].mapped = owner.map(|owner| Mapped {
                owner,
                object: range.object,
                offset: range.offset + page as u64 * PAGE,
            });
        }
    }

    fn mark(&mut self, start: u64, size: u64, owner: Option<usize>) {
        let places = self.places(start, size);
        for page in &mut self.pages[places] {
            page.range = owner;
        }
    }

    /// What a request for a sparse range that keeps its own rules is refused for, but for want of
    /// room: to be added, a page of it is one's already; to be removed, its pages are not all pages
    /// of one, or something is mapped there.
    pub fn refusal(&self, request: &Request) -> Option<u32> {
        let places = self.places(request.address, request.size);
        let pages = &self.pages[places.clone()];
        if request.op == MAP {
            let taken = pages.iter().any(|page| page.range.is_some());
            return taken.then_some(answer::RANGE_OVERLAPS);
        }
        let owner = pages[0].range;
        let is_of_it = |place: usize| self.pages[place].range == owner;
        let is_one = owner.is_some()
            && (0..self.pages.len()).all(|place| is_of_it(place) == places.contains(&place));
        let is_free = pages.iter().all(|page| page.mapped.is_none());
        (!is_one || !is_free).then_some(answer::NO_SUCH_RANGE)
    }

    /// What the first byte of a page shows, and for how many bytes: those of the pages from there on
    /// that have its mapping, or have none and its range, or have none of either as it has.
    pub fn seen(&self, page: usize) -> Seen {
        let first = self.pages[page];
        let shown = match (first.mapped, first.range) {
            (Some(Mapped { object, offset, .. }), _) => Shown::Object { object, offset },
            (None, Some(_)) => Shown::Sparse,
            (None, None) => Shown::Nothing,
        };
        let alike = |other: &&Page| other.look() == first.look();
        let run = self.pages[page..].iter().take_while(alike);
        Seen {
            shown,
            bytes: run.count() as u64 * PAGE,
        }
    }

    /// The runs of pages of one owner: the first page, its address, and the bytes of all.
    fn runs(&self, owner: fn(&Page) -> Option<usize>) -> Vec<(Page, u64, u64)> {
        let mut runs = Vec::new();
        let mut address = self.start;
        for run in self.pages.chunk_by(|one, next| owner(one) == owner(next)) {
            let size = run.len() as u64 * PAGE;
            if owner(&run[0]).is_some() {
                runs.push((run[0], address, size));
            }
            address += size;
        }
        runs
    }

    /// One mapping for each run of pages of one owner.
    pub fn mappings(&self) -> Vec<Mapping> {
        let mapping = |(page, address, size): (Page, u64, u64)| {
            page.mapped.map(|mapped| Mapping {
                address,
                size,
                object: mapped.object,
                offset: mapped.offset,
            })
        };
        let runs = self.runs(Page::owner).into_iter();
        runs.filter_map(mapping).collect()
    }

    /// One range for each run of pages of one range.
    pub fn ranges(&self) -> Vec<SparseRange> {
        let range = |(_, start, size)| SparseRange { start, size };
        let runs = self.runs(|page| page.range).into_iter();
        runs.map(range).collect()
    }
}
