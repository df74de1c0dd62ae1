//! Requests for the comparisons, as records: good ones, and those at and beside the boundaries.

use crate::numbers::{edge, other64, pages_in, size_to_edge, LIMIT};
use waylluqen_model::random::Random;
use waylluqen_model::{Record, Space, PAGE, RECORD_BYTES};

pub const LONGEST_RECORD: usize = 80;

/// The ops as a record has them.
pub const MAP: u32 = waylluqen_model::MAP as u32;
pub const UNMAP: u32 = waylluqen_model::UNMAP as u32;

/// The one flag as a record has it.
pub const SPARSE: u32 = waylluqen_model::SPARSE as u32;

/// A part of the space that is not reserved; the whole space where there is none.
fn free_part(random: &mut Random, space: &Space) -> (u64, u64) {
    let end = space.start + space.size;
    let reserved_end = space.reserved_start + space.reserved_size;
    if space.reserved_size == 0 {
        return (space.start, end);
    }
    let below = (space.start, space.reserved_start);
    let above = (reserved_end, end);
    let parts = match random.below(2) {
        0 => [below, above],
        _ => [above, below],
    };
    let free = parts.into_iter().find(|(start, end)| start < end);
    free.unwrap_or((space.start, end))
}

/// The record of a request that keeps the rules in a good space, if the space has a free page. Some
/// have the flag.
pub fn good_record(random: &mut Random, space: &Space) -> Record {
    let (start, end) = free_part(random, space);
    let (addr, range) = pages_in(random, start, end);
    let op = random.pick(&[MAP, UNMAP]);
    if random.once_in(4) {
        return Record::sparse(op, addr, range);
    }
    let (handle, bo_offset) = if op == MAP {
        let offset = random.up_to((LIMIT - range) / PAGE) * PAGE;
        (1 + random.up_to(u64::from(u32::MAX) - 1) as u32, offset)
    } else {
        (0, 0)
    };
    Record::plain(op, handle, addr, bo_offset, range)
}

/// Another value for a 32-bit field.
fn other32(random: &mut Random) -> u32 {
    let bit = 1 << random.below(32);
    let any = random.next_u64() as u32;
    random.pick(&[0, 1, 2, u32::MAX, u32::MAX - 1, bit, any])
}

/// Other flags: none, the one that there is, that one and others, or any.
fn other_flags(random: &mut Random) -> u32 {
    let bit = 1 << random.below(32);
    let any = other32(random);
    random.pick(&[0, SPARSE, SPARSE, SPARSE | bit, SPARSE << 1, bit, any])
}

/// Changes one field of the record, or two so that their sum is at an edge.
pub fn disturb_record(random: &mut Random, record: &mut Record, space: &Space) {
    match random.below(10) {
        0 => record.op = other32(random),
        1 => record.flags = other_flags(random),
        2 => record.pad = other32(random),
        3 => record.handle = other32(random),
        4 => record.op = random.pick(&[MAP, UNMAP]),
        5 => record.addr = other64(random, space, record.addr),
        6 => record.bo_offset = other64(random, space, record.bo_offset),
        7 => record.range = other64(random, space, record.range),
        8 => {
            record.addr = edge(random, space);
            record.range = size_to_edge(random, space, record.addr);
        }
        _ => record.bo_offset = size_to_edge(random, space, record.range),
    }
}

/// Copies the record to a random place in `buffer`, with random bytes after it, and answers it
/// at a length that is mostly the right one.
pub fn place<'a>(
    random: &mut Random,
    record: &[u8; RECORD_BYTES],
    buffer: &'a mut [u8; 8 + LONGEST_RECORD],
) -> &'a [u8] {
    let start = random.below(8) as usize;
    let mut length = RECORD_BYTES;
    if random.once_in(50) {
        length = random.below(1 + LONGEST_RECORD as u64) as usize;
        random.fill(&mut buffer[start + RECORD_BYTES..]);
    }
    buffer[start..start + RECORD_BYTES].copy_from_slice(record);
    &buffer[start..start + length]
}
