//! Page entries in plain safe Rust, without proofs: only a clock knows which way is best.

use super::Listed;
use crate::rules::{checked_end, Bounds};
use waylluqen::{Mapping, Refusal, ENTRY_WORDS, LIMIT};
use waylluqen::{PAGE_SIZE, PAGE_SIZE_1G, PAGE_SIZE_2M};

const SIZES: [u64; 3] = [PAGE_SIZE_1G, PAGE_SIZE_2M, PAGE_SIZE];

/// On both sides of the largest pages there are some of each smaller size.
const MOST_RUNS: usize = 2 * SIZES.len() - 1;

const WHOLE_SPACE: Bounds = Bounds {
    start: 0,
    end: LIMIT,
    reserved_start: 0,
    reserved_end: 0,
};

/// Address, offset and size.
type Entry = [u64; ENTRY_WORDS];

/// The end of a mapping that keeps its rules.
#[inline(always)]
fn check(mapping: &Mapping) -> Result<u64, Refusal> {
    let &Mapping {
        address,
        size,
        object,
        offset,
    } = mapping;
    let words = [address, size, object, offset];
    checked_end(&WHOLE_SPACE, WHOLE_SPACE.start, &words).ok_or(Refusal::BadMapping { place: 0 })
}

/// The largest page that starts at an address with so many bytes left; `aligned` has the bits of
/// address and offset.
#[inline(always)]
fn largest_page(aligned: u64, left: u64) -> u64 {
    let fits = |&size: &u64| aligned.is_multiple_of(size) && size <= left;
    SIZES.into_iter().find(fits).unwrap_or(PAGE_SIZE)
}

/// The entries from the lowest address on, always the largest.
#[inline(always)]
fn entries(mapping: Mapping, end: u64) -> impl Iterator<Item = Entry> {
    let Mapping {
        mut address,
        mut offset,
        ..
    } = mapping;
    std::iter::from_fn(move || {
        if address == end {
            return None;
        }
        let size = largest_page(address | offset, end - address);
        let entry = [address, offset, size];
        address += size;
        offset += size;
        Some(entry)
    })
}

/// Goes through the entries twice: counts them, no further than there is room, and writes them.
pub fn one_by_one(mapping: Mapping, words: &mut [u64]) -> Listed {
    let end = check(&mapping)?;
    let (room, _) = words.as_chunks_mut();
    let count = entries(mapping, end).take(room.len() + 1).count();
    let listed = room.get_mut(..count).ok_or(Refusal::ShortOutput)?;
    for (entry, new) in listed.iter_mut().zip(entries(mapping, end)) {
        *entry = new;
    }
    Ok(count)
}

/// Entries of one size in a row.
#[derive(Clone, Copy)]
struct Run {
    size: u64,
    count: u64,
}

const NONE: Run = Run {
    size: PAGE_SIZE,
    count: 0,
};

fn count(runs: &[Run]) -> usize {
    runs.iter().map(|run| run.count as usize).sum()
}

/// The runs of a mapping from `address` to `end`, in two steps: between the first boundary and the
/// last of 1 GiB, and of what is outside between those of 2 MiB.
#[inline(always)]
fn cut(mapping: &Mapping, end: u64) -> [Run; MOST_RUNS] {
    let run = |size: u64, from: u64, to: u64| Run {
        size,
        count: (to - from) / size,
    };
    let address = mapping.address;
    let apart = address ^ mapping.offset;
    if !apart.is_multiple_of(PAGE_SIZE_2M) {
        return [run(PAGE_SIZE, address, end), NONE, NONE, NONE, NONE];
    }
    let (first, last) = (
        address.next_multiple_of(PAGE_SIZE_2M),
        end / PAGE_SIZE_2M * PAGE_SIZE_2M,
    );
    if last <= first {
        return [run(PAGE_SIZE, address, end), NONE, NONE, NONE, NONE];
    }
    let (below, above) = (run(PAGE_SIZE, address, first), run(PAGE_SIZE, last, end));
    let (first_gib, last_gib) = (
        address.next_multiple_of(PAGE_SIZE_1G),
        end / PAGE_SIZE_1G * PAGE_SIZE_1G,
    );
    if !apart.is_multiple_of(PAGE_SIZE_1G) || last_gib <= first_gib {
        return [below, run(PAGE_SIZE_2M, first, last), above, NONE, NONE];
    }
    [
        below,
        run(PAGE_SIZE_2M, first, first_gib),
        run(PAGE_SIZE_1G, first_gib, last_gib),
        run(PAGE_SIZE_2M, last_gib, last),
        above,
    ]
}

/// Counts by cuts, and writes one by one.
pub fn counted(mapping: Mapping, words: &mut [u64]) -> Listed {
    let end = check(&mapping)?;
    let count = count(&cut(&mapping, end));
    let (room, _) = words.as_chunks_mut();
    let listed = room.get_mut(..count).ok_or(Refusal::ShortOutput)?;
    for (entry, new) in listed.iter_mut().zip(entries(mapping, end)) {
        *entry = new;
    }
    Ok(count)
}

/// Writes runs one behind the other, if there is room for all.
#[inline(always)]
fn write(mapping: Mapping, runs: &[Run], words: &mut [u64]) -> Listed {
    let count = count(runs);
    let (room, _) = words.as_chunks_mut::<ENTRY_WORDS>();
    let mut room = room.get_mut(..count).ok_or(Refusal::ShortOutput)?;
    let Mapping {
        mut address,
        mut offset,
        ..
    } = mapping;
    for run in runs {
        let (entries, behind) = room.split_at_mut(run.count as usize);
        for entry in entries {
            *entry = [address, offset, run.size];
            address += run.size;
            offset += run.size;
        }
        room = behind;
    }
    Ok(count)
}

/// As many pages of the size that is chosen at an address as there are up to where a larger one may
/// start, or to the end.
#[inline(always)]
fn run_from(address: u64, apart: u64, left: u64) -> Run {
    let mut bytes = left;
    for size in SIZES {
        if !apart.is_multiple_of(size) {
            continue;
        }
        let to_boundary = address.next_multiple_of(size) - address;
        if to_boundary == 0 && size <= left {
            return Run {
                size,
                count: bytes / size,
            };
        }
        if to_boundary + size <= left {
            bytes = bytes.min(to_boundary);
        }
    }
    NONE
}

/// From the lowest address on, a run of the largest pages at a time.
pub fn by_runs(mapping: Mapping, words: &mut [u64]) -> Listed {
    let end = check(&mapping)?;
    let apart = mapping.address ^ mapping.offset;
    let mut runs = [NONE; MOST_RUNS];
    let mut address = mapping.address;
    for run in &mut runs {
        if address == end {
            break;
        }
        *run = run_from(address, apart, end - address);
        address += run.size * run.count;
    }
    write(mapping, &runs, words)
}

/// All runs at once, by the boundaries of 1 GiB and of 2 MiB.
pub fn by_cuts(mapping: Mapping, words: &mut [u64]) -> Listed {
    let end = check(&mapping)?;
    write(mapping, &cut(&mapping, end), words)
}
