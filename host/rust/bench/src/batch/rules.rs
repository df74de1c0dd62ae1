//! The rules of a batch in plain safe Rust: what it is refused for itself, and its records.

use crate::plain::{are_zero, check_behind, check_mappings, counted};
use crate::rules::{bounds, capacity, check_list, check_ranges, Bounds};
use waylluqen::{BatchRefusal, Refusal, Request, Space, MAX_BATCH, RECORD_BYTES};
use waylluqen_compare::tables::Table;

pub type Record = [u8; RECORD_BYTES];

/// What the space and the lengths of all that is lent tell.
pub struct Lengths<'a> {
    pub bounds: Bounds,
    pub capacity: usize,
    pub records: &'a [Record],
}

/// Checks the space and the lengths; the table's is in words.
pub fn check_lengths<'a>(
    space: Space,
    table: usize,
    bytes: &'a [u8],
    work: &[u64],
    list: &[u64],
) -> Result<Lengths<'a>, Refusal> {
    let (records, rest) = bytes.as_chunks();
    if !rest.is_empty() || records.len() > MAX_BATCH {
        return Err(Refusal::BadRecordLength);
    }
    let bounds = bounds(space)?;
    let capacity = capacity(table)?;
    check_list(list, capacity)?;
    if work.len() != table {
        return Err(Refusal::BadWorkLength);
    }
    Ok(Lengths {
        bounds,
        capacity,
        records,
    })
}

/// A batch whose requests can be looked at.
pub struct Checked<'a> {
    pub bounds: Bounds,
    pub count: usize,
    pub records: &'a [Record],
}

/// Checks all that a batch is refused for itself.
pub fn check<'a>(
    space: Space,
    lent: &Table,
    bytes: &'a [u8],
    work: &[u64],
    list: &[u64],
) -> Result<Checked<'a>, BatchRefusal> {
    let checked = || {
        let lengths = check_lengths(space, lent.words.len(), bytes, work, list)?;
        let Lengths {
            bounds,
            capacity,
            records,
        } = lengths;
        let count = counted(lent.count, capacity)?;
        let (mappings, behind) = lent.words.as_chunks().0.split_at(count);
        check_mappings(&bounds, mappings)?;
        check_behind(behind)?;
        check_ranges(&bounds, &lent.list)?;
        Ok(Checked {
            bounds,
            count,
            records,
        })
    };
    checked().map_err(whole)
}

/// The request in a record. A batch takes no flags.
pub fn decode(record: &Record) -> Result<Request, Refusal> {
    let &[op_flags, object_pad, address, offset, size] = record.as_chunks().0 else {
        unreachable!("a record is five times eight bytes")
    };
    let [op_flags, object_pad] = [op_flags, object_pad].map(u64::from_le_bytes);
    let op = op_flags & 0xffff_ffff;
    if op > Request::UNMAP {
        return Err(Refusal::BadOp);
    }
    // The upper halves.
    if (op_flags | object_pad) >> 32 != 0 {
        return Err(Refusal::BadFlags);
    }
    Ok(Request {
        op,
        flags: 0,
        address: u64::from_le_bytes(address),
        size: u64::from_le_bytes(size),
        object: object_pad,
        offset: u64::from_le_bytes(offset),
    })
}

/// The batch itself is refused.
#[cold]
pub fn whole(refusal: Refusal) -> BatchRefusal {
    BatchRefusal {
        request: None,
        refusal,
    }
}

/// Takes the requests one after the other, up to one that is refused.
#[inline(always)]
pub fn take_turns(
    records: &[Record],
    mut take: impl FnMut(&Record) -> Result<(), Refusal>,
) -> Result<(), BatchRefusal> {
    for (place, record) in records.iter().enumerate() {
        take(record).map_err(|refusal| BatchRefusal {
            request: Some(place),
            refusal,
        })?;
    }
    Ok(())
}

/// Clears words, unless they are zeros already: to read them is quicker than to write them.
pub fn clear(words: &mut [u64]) {
    if !are_zero(words.as_chunks().0) {
        words.fill(0);
    }
}
