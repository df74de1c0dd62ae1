//! The page entries of a mapping.

use crate::{ffi, Mapping, Refusal, ENTRY_WORDS};
use core::iter::FusedIterator;
use core::slice::ChunksExact;

/// One page of a mapping: `[address, address + size)` shows the mapping's object from the offset on,
/// and address and offset are both multiples of the size.
///
/// ```
/// let entry = waylluqen::PageEntry::from([0x20_0000, 0x60_0000, 0x20_0000]);
/// assert_eq!((entry.address, entry.offset), (0x20_0000, 0x60_0000));
/// assert_eq!(entry.size, waylluqen::PAGE_SIZE_2M);
/// ```
#[derive(Clone, Copy, Debug, PartialEq, Eq, Hash)]
pub struct PageEntry {
    /// The first address.
    pub address: u64,
    /// The byte of the object that the first address shows.
    pub offset: u64,
    /// The size in bytes: [`PAGE_SIZE`](crate::PAGE_SIZE), [`PAGE_SIZE_2M`](crate::PAGE_SIZE_2M) or
    /// [`PAGE_SIZE_1G`](crate::PAGE_SIZE_1G).
    pub size: u64,
}

impl From<[u64; ENTRY_WORDS]> for PageEntry {
    fn from([address, offset, size]: [u64; ENTRY_WORDS]) -> PageEntry {
        PageEntry {
            address,
            offset,
            size,
        }
    }
}

/// Lists the page entries that cover a mapping in pages of 4 KiB, 2 MiB and 1 GiB, as few as can be.
///
/// They ascend, cover each byte of the mapping once and none outside, and each byte shows what the
/// mapping shows there. No such list is shorter. It goes by address, size and offset alone; the
/// object only has to keep its rule.
///
/// A driver calls it for the mapping of a map operation, or for a rest of a remap operation that
/// cuts a large page, and writes one page-table entry for each. It needs no table and no space. Where
/// address and offset differ by no multiple of 2 MiB, only pages of 4 KiB come out, and where they
/// differ by no multiple of 1 GiB, none of 1 GiB.
///
/// The entries are written to `words`, and the words behind them stay.
/// [`entry_list_words`](crate::entry_list_words) of the mapping's size are always enough. A driver
/// that has fewer cuts a mapping where the address is a multiple of 1 GiB: the lists of the parts,
/// one behind the other, are the list of the mapping.
///
/// # Errors
///
/// [`BadMapping`](Refusal::BadMapping) with place 0 for a mapping that breaks its rules in a space
/// from 0 to [`LIMIT`](crate::LIMIT) with nothing reserved; else
/// [`ShortOutput`](Refusal::ShortOutput) where the entries don't fit, which is found without making
/// them. No word has changed then.
///
/// ```
/// use waylluqen::{page_entries, Mapping, PageEntry, Refusal};
///
/// let mapping = Mapping { address: 0x1f_f000, size: 0x20_2000, object: 7, offset: 0x7f_f000 };
/// let mut words = [0; 9];
/// let entries = page_entries(mapping, &mut words)?;
/// assert!(entries.eq([
///     PageEntry { address: 0x1f_f000, offset: 0x7f_f000, size: 0x1000 },
///     PageEntry { address: 0x20_0000, offset: 0x80_0000, size: 0x20_0000 },
///     PageEntry { address: 0x40_0000, offset: 0xa0_0000, size: 0x1000 },
/// ]));
///
/// let refused = page_entries(mapping, &mut words[1..]).err();
/// assert_eq!(refused, Some(Refusal::ShortOutput));
/// let refused = page_entries(Mapping { size: 0, ..mapping }, &mut words).err();
/// assert_eq!(refused, Some(Refusal::BadMapping { place: 0 }));
/// # Ok::<(), Refusal>(())
/// ```
#[inline]
pub fn page_entries(mapping: Mapping, words: &mut [u64]) -> Result<PageEntries<'_>, Refusal> {
    let answer = ffi::page_entries(mapping, words);
    Refusal::check(answer.refusal, answer.place)?;
    Ok(PageEntries::new(words, answer.entries))
}

/// The page entries of a mapping in ascending order, one right behind the other; [`page_entries`]
/// gives them.
///
/// ```
/// use waylluqen::{page_entries, Mapping};
///
/// let mapping = Mapping { address: 0x1000, size: 0x2000, object: 7, offset: 0 };
/// let mut words = [0; 6];
/// let mut entries = page_entries(mapping, &mut words)?;
/// assert_eq!(entries.len(), 2);
/// assert_eq!(entries.next().map(|entry| entry.address), Some(0x1000));
/// assert_eq!(entries.next().map(|entry| entry.address), Some(0x2000));
/// assert_eq!(entries.next(), None);
/// # Ok::<(), waylluqen::Refusal>(())
/// ```
#[derive(Clone, Debug)]
#[must_use = "a driver has to write these"]
pub struct PageEntries<'a> {
    words: ChunksExact<'a, u64>,
}

impl<'a> PageEntries<'a> {
    /// The first `number` entries of a list that the library wrote.
    #[inline]
    fn new(list: &'a [u64], number: u64) -> PageEntries<'a> {
        let written = &list[..number as usize * ENTRY_WORDS];
        PageEntries {
            words: written.chunks_exact(ENTRY_WORDS),
        }
    }
}

impl Iterator for PageEntries<'_> {
    type Item = PageEntry;

    fn next(&mut self) -> Option<PageEntry> {
        let words: [u64; ENTRY_WORDS] = self.words.next()?.try_into().ok()?;
        Some(PageEntry::from(words))
    }

    fn size_hint(&self) -> (usize, Option<usize>) {
        self.words.size_hint()
    }
}

impl ExactSizeIterator for PageEntries<'_> {}

impl FusedIterator for PageEntries<'_> {}

#[cfg(test)]
mod tests;
