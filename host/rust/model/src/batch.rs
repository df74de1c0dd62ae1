//! What a batch of records does: all of its requests, or none.

use crate::bind::carry_out;
use crate::table::{capacity, check_contents, check_lengths, Found};
use crate::{answer, decode, request_refusal, Grant, List, Refused, Space};
use crate::{OPERATION_WORDS, RECORD_BYTES};
use alloc::vec::Vec;

/// A batch has no request at least and this many at most.
pub const MOST_REQUESTS: usize = 64;

/// Why a batch is refused.
#[derive(Clone, Copy, Debug, PartialEq, Eq)]
pub enum BatchRefused {
    /// For what is lent, before any request is looked at: no lent word changes.
    Whole(Refused),
    /// For the request at this place in the array: the table is as before, and all words to work in
    /// and for operations are zeros.
    InTurn(Refused),
}

impl BatchRefused {
    /// The number and the place that are answered.
    pub fn refused(self) -> Refused {
        match self {
            BatchRefused::Whole(refused) | BatchRefused::InTurn(refused) => refused,
        }
    }
}

/// Whether so many bytes are records in a row, and no more than a batch has.
fn bytes_hold(bytes: usize) -> bool {
    bytes % RECORD_BYTES == 0 && bytes / RECORD_BYTES <= MOST_REQUESTS
}

/// One request on what those before it left, with so many words left for its operations.
fn take_turn(
    space: &Space,
    found: Found,
    room: usize,
    words_left: usize,
    record: &[u8],
) -> Result<Grant, u32> {
    let request = decode(record)?;
    // A batch has no sparse ranges.
    if request.flags != 0 {
        return Err(answer::BAD_FLAGS);
    }
    if let Some(number) = request_refusal(&request, space) {
        return Err(number);
    }
    let grant = carry_out(found, &request);
    if grant.mappings.len() > room {
        return Err(answer::NO_ROOM);
    }
    if grant.operations.len() * OPERATION_WORDS > words_left {
        return Err(answer::SHORT_OUTPUT);
    }
    Ok(grant)
}

/// All requests in their order; the operations of each come behind those of the one before.
fn take_turns(
    space: &Space,
    found: Found,
    room: usize,
    operation_words: usize,
    records: &[u8],
) -> Result<Grant, Refused> {
    let mut all = Grant {
        operations: Vec::new(),
        count: found.mappings.len() as u64,
        mappings: found.mappings,
        ranges: found.ranges,
    };
    for (place, record) in records.chunks(RECORD_BYTES).enumerate() {
        let found = Found {
            mappings: all.mappings,
            ranges: all.ranges,
        };
        let words_left = operation_words - all.operations.len() * OPERATION_WORDS;
        let turn = take_turn(space, found, room, words_left, record);
        let grant = turn.map_err(|number| Refused {
            number,
            place: place as u64,
        })?;
        all.operations.extend(grant.operations);
        (all.count, all.mappings, all.ranges) = (grant.count, grant.mappings, grant.ranges);
    }
    Ok(all)
}

/// What the batch itself is refused for, else what it finds.
fn check_whole(
    space: &Space,
    list: &List,
    table: &[u64],
    count: u64,
    [work_words, operation_words]: [usize; 2],
    records: &[u8],
) -> Result<Found, Refused> {
    if !bytes_hold(records.len()) {
        return Err(Refused::of(answer::BAD_RECORD_LENGTH));
    }
    check_lengths(space, table, Some(operation_words))?;
    if work_words != table.len() {
        return Err(Refused::of(answer::BAD_WORK_LENGTH));
    }
    check_contents(space, list, table, count)
}

/// The answer to a batch of records in a row, with so many words lent to work in and for
/// operations.
pub fn bind_batch(
    space: &Space,
    list: &List,
    table: &[u64],
    count: u64,
    [work_words, operation_words]: [usize; 2],
    records: &[u8],
) -> Result<Grant, BatchRefused> {
    let lent = [work_words, operation_words];
    let found =
        check_whole(space, list, table, count, lent, records).map_err(BatchRefused::Whole)?;
    let room = capacity(table);
    take_turns(space, found, room, operation_words, records).map_err(BatchRefused::InTurn)
}
