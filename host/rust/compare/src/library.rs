//! The model's spaces, requests and answers as the library has them.

use crate::tables::Table;
use waylluqen::{ffi, BatchRefusal, Refusal, Rests};
use waylluqen_model::answer;
use waylluqen_model::bind::KIND_MAP;
use waylluqen_model::{BatchRefused, Grant, Mapping, Operation, PageEntry, Refused, Request};
use waylluqen_model::{Seen, Shown, Space, SparseRange};

/// The model's answers to a request, to a batch, to a look-up and for the entries of a mapping.
pub type Bound = Result<Grant, Refused>;
pub type Batched = Result<Grant, BatchRefused>;
pub type Looked = Result<Seen, Refused>;
pub type Listed = Result<Vec<PageEntry>, Refused>;

/// The numbers of all refusals.
pub const NUMBERS: [u32; 20] = [
    1, 2, 3, 4, 5, 6, 7, 8, 9, 10, 11, 12, 13, 14, 15, 16, 17, 18, 19, 20,
];

/// Those of a single request.
pub const OF_REQUESTS: [u32; 18] = [
    1, 2, 3, 4, 5, 6, 7, 8, 9, 10, 11, 12, 13, 14, 17, 18, 19, 20,
];

/// Those of a batch itself, in the order in which they are tested; and those of its requests.
pub const OF_BATCHES: [u32; 9] = [12, 1, 2, 3, 15, 4, 5, 17, 18];
pub const IN_TURN: [u32; 9] = [13, 14, 6, 7, 8, 9, 10, 11, 16];

/// Room for a count of each number up to the highest, and of what is not refused.
pub type ByNumber = [u64; 21];

pub fn space(space: &Space) -> waylluqen::Space {
    waylluqen::Space {
        start: space.start,
        size: space.size,
        reserved_start: space.reserved_start,
        reserved_size: space.reserved_size,
    }
}

pub fn request(request: &Request) -> waylluqen::Request {
    waylluqen::Request {
        op: request.op,
        address: request.address,
        size: request.size,
        object: request.object,
        offset: request.offset,
        flags: request.flags,
    }
}

/// A request as C has it by numbers.
pub fn numbers(given: &Request) -> ffi::Numbers {
    assert_eq!(given.flags, 0, "by numbers there are no flags");
    request(given).into()
}

pub fn range(range: SparseRange) -> waylluqen::SparseRange {
    waylluqen::SparseRange::from(range.words())
}

pub fn mapping(mapping: Mapping) -> waylluqen::Mapping {
    waylluqen::Mapping::from(mapping.words())
}

pub fn entry(entry: &PageEntry) -> waylluqen::PageEntry {
    waylluqen::PageEntry {
        address: entry.address,
        offset: entry.offset,
        size: entry.size,
    }
}

pub fn refusal(refused: Refused) -> Refusal {
    match refused.number {
        answer::BAD_SPACE => Refusal::BadSpace,
        answer::BAD_TABLE_LENGTH => Refusal::BadTableLength,
        answer::SHORT_OPERATIONS => Refusal::ShortOperations,
        answer::BAD_COUNT => Refusal::BadCount,
        answer::BAD_MAPPING => Refusal::BadMapping {
            place: refused.place,
        },
        answer::UNALIGNED => Refusal::Unaligned,
        answer::OUTSIDE_SPACE => Refusal::OutsideSpace,
        answer::RESERVED => Refusal::Reserved,
        answer::BAD_OBJECT => Refusal::BadObject,
        answer::BAD_OFFSET => Refusal::BadOffset,
        answer::NO_ROOM => Refusal::NoRoom,
        answer::BAD_RECORD_LENGTH => Refusal::BadRecordLength,
        answer::BAD_OP => Refusal::BadOp,
        answer::BAD_FLAGS => Refusal::BadFlags,
        answer::BAD_WORK_LENGTH => Refusal::BadWorkLength,
        answer::SHORT_OUTPUT => Refusal::ShortOutput,
        answer::STALE_WORDS => Refusal::StaleWords,
        answer::BAD_RANGES => Refusal::BadRanges,
        answer::RANGE_OVERLAPS => Refusal::RangeOverlaps,
        answer::NO_SUCH_RANGE => Refusal::NoSuchRange,
        number => unreachable!("{number} is no refusal"),
    }
}

pub fn batch_refusal(refused: BatchRefused) -> BatchRefusal {
    let request = match refused {
        BatchRefused::Whole(_) => None,
        BatchRefused::InTurn(Refused { place, .. }) => Some(place as usize),
    };
    BatchRefusal {
        request,
        refusal: refusal(refused.refused()),
    }
}

pub fn operation(operation: &Operation) -> waylluqen::Operation {
    let (old, keep) = (mapping(operation.named), operation.keep);
    let rests = match (operation.lower.map(mapping), operation.upper.map(mapping)) {
        (Some(lower), Some(upper)) => Rests::Both { lower, upper },
        (Some(lower), None) => Rests::Lower(lower),
        (None, Some(upper)) => Rests::Upper(upper),
        (None, None) if operation.kind == KIND_MAP => return waylluqen::Operation::Map(old),
        (None, None) => return waylluqen::Operation::Unmap { old, keep },
    };
    waylluqen::Operation::Remap { old, rests, keep }
}

fn shown(shown: Shown) -> waylluqen::Shown {
    match shown {
        Shown::Nothing => waylluqen::Shown::Nothing,
        Shown::Sparse => waylluqen::Shown::Sparse,
        Shown::Object { object, offset } => waylluqen::Shown::Object { object, offset },
    }
}

pub fn seen(seen: Seen) -> waylluqen::Seen {
    waylluqen::Seen {
        shown: shown(seen.shown),
        bytes: seen.bytes,
    }
}

pub fn looked(answer: Looked) -> Result<waylluqen::Seen, Refusal> {
    answer.map(seen).map_err(refusal)
}

/// The answer to a request record by itself, of which the model tells the number.
pub fn checked(number: u32) -> Result<(), Refusal> {
    match number {
        answer::OK => Ok(()),
        number => Err(refusal(Refused::of(number))),
    }
}

/// The five words in which C has this answer; the table, with its list, is as it was before.
pub fn bound_words(bound: &Bound, table: &Table) -> ffi::Answer {
    answer_words(bound.as_ref().map_err(|refused| *refused), table)
}

/// The same of a batch.
pub fn batched_words(batched: &Batched, table: &Table) -> ffi::Answer {
    answer_words(batched.as_ref().map_err(|refused| refused.refused()), table)
}

fn answer_words(answer: Result<&Grant, Refused>, table: &Table) -> ffi::Answer {
    match answer {
        Ok(grant) => ffi::Answer {
            refusal: 0,
            place: 0,
            operations: grant.operations.len() as u64,
            count: grant.count,
            ranges: grant.ranges.len() as u64,
        },
        Err(refused) => ffi::Answer {
            refusal: u64::from(refused.number),
            place: refused.place,
            operations: 0,
            count: table.count,
            ranges: table.list.count,
        },
    }
}

/// The six words in which C has this answer; what does not apply is 0.
pub fn looked_words(answer: Looked) -> ffi::Translation {
    let mut words = ffi::Translation {
        refusal: 0,
        place: 0,
        shown: 0,
        object: 0,
        offset: 0,
        bytes: 0,
    };
    match answer {
        Ok(Seen { shown, bytes }) => {
            words.bytes = bytes;
            (words.shown, words.object, words.offset) = match shown {
                Shown::Nothing => (0, 0, 0),
                Shown::Object { object, offset } => (1, object, offset),
                Shown::Sparse => (2, 0, 0),
            };
        }
        Err(refused) => {
            (words.refusal, words.place) = (u64::from(refused.number), refused.place);
        }
    }
    words
}

/// The three words in which C has this answer.
pub fn listed_words(listed: &Listed) -> ffi::Pages {
    let (refused, entries) = match listed {
        Ok(entries) => (Refused::of(answer::OK), entries.len()),
        Err(refused) => (*refused, 0),
    };
    ffi::Pages {
        refusal: u64::from(refused.number),
        place: refused.place,
        entries: entries as u64,
    }
}

/// Puts these words in front, and leaves those behind them.
fn overwrite(words: &mut [u64], new: impl Iterator<Item = u64>) {
    for (word, new) in words.iter_mut().zip(new) {
        *word = new;
    }
}

/// Puts these words in front, and zeros behind them.
fn put(words: &mut [u64], new: impl Iterator<Item = u64>) {
    overwrite(words, new.chain(std::iter::repeat(0)));
}

/// What a grant makes of a table: its mappings, and zeros behind them.
pub fn change_table<E>(words: &mut [u64], bound: &Result<Grant, E>) {
    if let Ok(grant) = bound {
        put(words, grant.mappings.iter().flat_map(Mapping::words));
    }
}

/// What a grant makes of a list: its ranges, and zeros behind them.
pub fn change_list<E>(words: &mut [u64], bound: &Result<Grant, E>) {
    if let Ok(grant) = bound {
        put(words, grant.ranges.iter().flat_map(SparseRange::words));
    }
}

/// What a grant makes of all that is lent to the next call.
pub fn change_lent<E>(table: &mut Table, bound: &Result<Grant, E>) {
    change_table(&mut table.words, bound);
    change_list(&mut table.list.words, bound);
    if let Ok(grant) = bound {
        table.count = grant.count;
        table.list.count = grant.ranges.len() as u64;
    }
}

/// What a grant makes of the operation words: its operations, and behind them what was there.
pub fn write_operations<E>(words: &mut [u64], bound: &Result<Grant, E>) {
    if let Ok(grant) = bound {
        overwrite(words, grant.operations.iter().flat_map(Operation::words));
    }
}

/// What the words for entries become: those of the entries, and behind them what was there.
pub fn write_entries(words: &mut [u64], listed: &Listed) {
    if let Ok(entries) = listed {
        overwrite(words, entries.iter().flat_map(PageEntry::words));
    }
}

/// What a batch makes of the operation words: all are zeros where a request is refused.
pub fn write_batch(words: &mut [u64], batched: &Batched) {
    match batched {
        Err(BatchRefused::InTurn(_)) => words.fill(0),
        _ => write_operations(words, batched),
    }
}

/// What a batch makes of the words to work in: zeros, unless it is refused itself.
pub fn clear_work(words: &mut [u64], batched: &Batched) {
    if !matches!(batched, Err(BatchRefused::Whole(_))) {
        words.fill(0);
    }
}
