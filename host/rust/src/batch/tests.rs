//! Batches by the types: what is taken from an iterator, what is told of a refusal, and what either
//! kind of refusal leaves.

use super::*;
use crate::{batch_list_words, operation_list_words, table_words, Ranges, Request, Space, Table};
use crate::{LIMIT, MAX_BATCH, RECORD_BYTES};
use core::iter::repeat;
use std::string::ToString;
use Request as R;

extern crate std;

const SPACE: Space = Space::new(0x1_0000, 0x1_0000).reserving(0x1_8000, 0x2000);
const CAPACITY: usize = 2;
const TABLE: usize = table_words(CAPACITY);
const LIST: usize = batch_list_words(CAPACITY, MAX_BATCH);

/// All that is lent, and what the words for work and operations hold before.
#[derive(Clone, Debug, PartialEq)]
struct Lent {
    words: [u64; TABLE],
    count: u64,
    range_words: [u64; 2],
    work: [u64; TABLE],
    list: [u64; LIST],
}

const LENT: Lent = Lent {
    words: [0x1_1000, 0x3000, 7, 0x3000, 0, 0, 0, 0],
    count: 1,
    range_words: [0x1_2000, 0x4000],
    work: [9; TABLE],
    list: [9; LIST],
};

/// The number of operations, or why there are none.
type Answer = Result<usize, BatchRefusal>;

fn ask<R>(lent: &mut Lent, requests: impl IntoIterator<Item = R>) -> Answer
where
    R: Into<[u8; RECORD_BYTES]>,
{
    let ranges = Ranges::with_count(&mut lent.range_words, 1);
    let mut table = Table::with_count(&mut lent.words, lent.count).with_ranges(ranges);
    let answer = table.bind_batch(SPACE, requests, &mut lent.work, &mut lent.list);
    let answer = answer.map(|operations| operations.len());
    assert_eq!(table.ranges().count(), 1);
    lent.count = table.count();
    answer
}

/// A request that changes nothing but the operation words.
const AGAIN: Request = R::map(0x1_1000, 0x3000, 7, 0x3000);

#[test]
fn requests_and_records_are_the_same() {
    let requests = [R::unmap(0x1_2000, 0x1000), R::map(0x1_2000, 0x2000, 8, 0)];
    let (mut one, mut other) = (LENT, LENT);
    assert_eq!(ask(&mut one, requests), Ok(3));
    assert_eq!(ask(&mut other, requests.map(R::record)), Ok(3));
    assert_eq!(one, other);
    assert_eq!(
        one.words,
        [0x1_1000, 0x1000, 7, 0x3000, 0x1_2000, 0x2000, 8, 0]
    );
    assert_eq!((one.work, one.count), ([0; TABLE], 2));
    assert_eq!(one.list[3 * 14..], LENT.list[3 * 14..]);
    assert_eq!(one.range_words, LENT.range_words);
}

#[test]
fn no_request_is_granted() {
    let mut lent = LENT;
    let nothing: [Request; 0] = [];
    assert_eq!(ask(&mut lent, nothing), Ok(0));
    let work = [0; TABLE];
    assert_eq!(lent, Lent { work, ..LENT });
}

#[test]
fn an_iterator_is_taken_no_further_than_needed() {
    for requests in [0, 1, MAX_BATCH, MAX_BATCH + 1, MAX_BATCH + 2, 1000] {
        let (mut lent, mut taken) = (LENT, 0);
        let others = repeat(AGAIN).take(requests);
        let answer = ask(&mut lent, others.inspect(|_| taken += 1));
        assert_eq!(taken, requests.min(MAX_BATCH + 1));
        if requests <= MAX_BATCH {
            assert_eq!(answer, Ok(2 * requests));
            continue;
        }
        let refused = BatchRefusal {
            request: None,
            refusal: Refusal::BadRecordLength,
        };
        assert_eq!((answer, lent), (Err(refused), LENT));
    }
    // One without an end.
    let mut lent = LENT;
    assert!(ask(&mut lent, repeat(AGAIN)).is_err());
}

/// The batch with this request behind `before` others is refused for it.
fn refused_in_turn(bad: Request, before: usize, refusal: Refusal) {
    let mut lent = LENT;
    let others = repeat(AGAIN).take(before);
    let request = Some(before);
    let answer = ask(&mut lent, others.chain([bad, R::unmap(1, 1)]));
    assert_eq!(answer, Err(BatchRefusal { request, refusal }), "{bad:x?}");
    let zeros = Lent {
        work: [0; TABLE],
        list: [0; LIST],
        ..LENT
    };
    assert_eq!(lent, zeros);
}

/// A request, and its fields in their order.
const fn numbers([op, flags, address, size, object, offset]: [u64; 6]) -> Request {
    R {
        op,
        flags,
        address,
        size,
        object,
        offset,
    }
}

/// Requests that are refused by themselves too; some have numbers that a record has no room for.
const BAD: [(Request, Refusal); 12] = [
    (numbers([2, 0, 0x1_1000, 0x1000, 8, 0]), Refusal::BadOp),
    (
        numbers([1 << 32, 0, 0x1_1000, 0x1000, 8, 0]),
        Refusal::BadOp,
    ),
    (
        numbers([0, 1 << 32, 0x1_1000, 0x1000, 8, 0]),
        Refusal::BadFlags,
    ),
    (R::map(0x1_1000, 0, 8, 0), Refusal::Unaligned),
    (R::map(0, 0x1000, 8, 0), Refusal::OutsideSpace),
    (R::map(0x1_8000, 0x1000, 8, 0), Refusal::Reserved),
    (R::map(0x1_1000, 0x1000, 0, 0), Refusal::BadObject),
    (R::map(0x1_1000, 0x1000, 1 << 32, 0), Refusal::BadObject),
    (R::map(0x1_1000, 0x1000, u64::MAX, 0), Refusal::BadObject),
    (
        numbers([1, 0, 0x1_1000, 0x1000, 1 << 32, 0]),
        Refusal::BadObject,
    ),
    (R::map(0x1_1000, 0x1000, 8, LIMIT), Refusal::BadOffset),
    (R::map(0x1_2000, 0x1000, 8, 0), Refusal::NoRoom),
];

#[test]
fn a_request_is_refused_as_by_itself() {
    for (bad, refusal) in BAD {
        let mut single = LENT;
        let mut table = Table::with_count(&mut single.words, single.count);
        let answer = table.bind(SPACE, bad, &mut single.list);
        assert_eq!(answer.err(), Some(refusal), "{bad:x?}");
        for before in [0, 1, MAX_BATCH - 2] {
            refused_in_turn(bad, before, refusal);
        }
    }
}

#[test]
fn no_flag_is_taken() {
    for flagged in [
        R::map_sparse(0x1_6000, 0x1000),
        R::unmap_sparse(0x1_2000, 0x4000),
    ] {
        refused_in_turn(flagged, 3, Refusal::BadFlags);
    }
}

#[test]
fn texts() {
    let own = [
        Refusal::BadSpace,
        Refusal::BadTableLength,
        Refusal::ShortOperations,
        Refusal::BadWorkLength,
        Refusal::BadCount,
        Refusal::BadMapping { place: 5 },
        Refusal::StaleWords,
        Refusal::BadRanges,
    ];
    for refusal in own {
        let refused = BatchRefusal::of(refusal, 5);
        assert_eq!(refused.request, None);
        assert_eq!(refused.to_string(), refusal.to_string());
    }
    let text = BatchRefusal::of(Refusal::BadRecordLength, 0).to_string();
    let (most, bytes) = (MAX_BATCH, RECORD_BYTES);
    let expected = std::format!("the batch is not 0 to {most} records of {bytes} bytes");
    assert_eq!(text, expected);
    let refused = BatchRefusal::of(Refusal::ShortOutput, 63);
    let expected = std::format!("request 63: {}", Refusal::ShortOutput);
    assert_eq!((refused.request, refused.to_string()), (Some(63), expected));
}

#[test]
fn the_words_for_operations_are_enough_for_a_single_request_too() {
    for capacity in [1, 8, 4096] {
        assert_eq!(
            batch_list_words(capacity, 0),
            operation_list_words(capacity)
        );
    }
}
