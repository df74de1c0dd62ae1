//! Requests with the sparse flag, by numbers and by record: what they leave, word by word.

use super::*;
use crate::{operation_list_words, range_words, table_words, Refusal, Request, Space, Table};
use Request as R;

const SPACE: Space = Space::new(0x1_0000, 0x1_0000).reserving(0x1_8000, 0x2000);
const LIST: usize = operation_list_words(2);

/// All that is lent. The operation words are no operations.
#[derive(Clone, Debug, PartialEq)]
struct Lent {
    words: [u64; table_words(2)],
    count: u64,
    range_words: [u64; range_words(3)],
    range_count: u64,
    list: [u64; LIST],
}

/// A mapping in the first of two ranges that are a page apart.
const LENT: Lent = Lent {
    words: [0x1_1000, 0x1000, 7, 0x3000, 0, 0, 0, 0],
    count: 1,
    range_words: [0x1_0000, 0x4000, 0x1_5000, 0x1000, 0, 0],
    range_count: 2,
    list: [9; LIST],
};

/// Asks by numbers, or by the record of a request that has room in one.
fn ask(lent: &mut Lent, request: Request, by_record: bool) -> Result<(), Refusal> {
    let ranges = Ranges::with_count(&mut lent.range_words, lent.range_count);
    let mut table = Table::with_count(&mut lent.words, lent.count).with_ranges(ranges);
    let answer = if by_record {
        table.bind_record(SPACE, &request.record(), &mut lent.list)
    } else {
        table.bind(SPACE, request, &mut lent.list)
    };
    let answer = answer.map(|operations| assert_eq!(operations.len(), 0));
    lent.count = table.count();
    lent.range_count = table.ranges().count();
    answer
}

/// What a request leaves that makes no operation.
fn left(request: Request, range_words: [u64; 6], range_count: u64) {
    for by_record in [false, true] {
        let mut lent = LENT;
        assert_eq!(ask(&mut lent, request, by_record), Ok(()));
        let expected = Lent {
            range_words,
            range_count,
            ..LENT
        };
        assert_eq!(lent, expected);
    }
}

#[test]
fn a_flagged_map_adds_a_range_in_its_place() {
    // Between the two, with which it is not joined, and up to the reservation.
    let between = [0x1_0000, 0x4000, 0x1_4000, 0x1000, 0x1_5000, 0x1000];
    left(R::map_sparse(0x1_4000, 0x1000), between, 3);
    let behind = [0x1_0000, 0x4000, 0x1_5000, 0x1000, 0x1_6000, 0x2000];
    left(R::map_sparse(0x1_6000, 0x2000), behind, 3);
}

#[test]
fn a_flagged_unmap_removes_the_range_that_is_named() {
    left(
        R::unmap_sparse(0x1_5000, 0x1000),
        [0x1_0000, 0x4000, 0, 0, 0, 0],
        1,
    );
}

#[test]
fn a_request_without_the_flag_leaves_the_ranges() {
    left(R::unmap(0x1_5000, 0x1000), LENT.range_words, 2);
}

#[test]
fn a_refusal_leaves_all_as_it_was() {
    let map = R::map_sparse(0x1_6000, 0x1000);
    for (request, refusal) in [
        (R { op: 2, ..map }, Refusal::BadOp),
        (R { flags: 1, ..map }, Refusal::BadFlags),
        (R { flags: 257, ..map }, Refusal::BadFlags),
        (R { offset: 1, ..map }, Refusal::Unaligned),
        (R::map_sparse(0x1_f000, 0x2000), Refusal::OutsideSpace),
        (R::map_sparse(0x1_7000, 0x2000), Refusal::Reserved),
        (R { object: 7, ..map }, Refusal::BadObject),
        (
            R {
                offset: 0x1000,
                ..map
            },
            Refusal::BadObject,
        ),
        (R::map_sparse(0x1_4000, 0x2000), Refusal::RangeOverlaps),
        (R::unmap_sparse(0x1_0000, 0x5000), Refusal::NoSuchRange),
        (R::unmap_sparse(0x1_0000, 0x4000), Refusal::NoSuchRange), // the mapping is in it
    ] {
        for by_record in [false, true] {
            let mut lent = LENT;
            assert_eq!(ask(&mut lent, request, by_record), Err(refusal));
            assert_eq!(lent, LENT);
        }
    }
}

/// A record's fields are of 32 bits: what is beyond them does not get lost.
#[test]
fn numbers_that_a_record_has_no_room_for_are_refused() {
    let map = R::map_sparse(0x1_6000, 0x1000);
    for bit in 32..64 {
        let high = 1 << bit;
        for (request, refusal) in [
            (R { op: high, ..map }, Refusal::BadOp),
            (
                R {
                    op: high | R::UNMAP,
                    ..map
                },
                Refusal::BadOp,
            ),
            (R { flags: high, ..map }, Refusal::BadFlags),
            (
                R {
                    flags: high | R::SPARSE,
                    ..map
                },
                Refusal::BadFlags,
            ),
            (
                R {
                    object: high,
                    ..map
                },
                Refusal::BadObject,
            ),
        ] {
            let mut lent = LENT;
            assert_eq!(ask(&mut lent, request, false), Err(refusal));
            assert_eq!(lent, LENT);
        }
    }
}

#[test]
fn a_full_list_has_no_room() {
    for (range_words, count) in [(&mut [][..], 0), (&mut [0x1_0000, 0x1000], 1)] {
        let (mut words, mut list) = ([0; 4], [0; LIST]);
        let ranges = Ranges::with_count(range_words, count);
        let mut table = Table::empty(&mut words).with_ranges(ranges);
        let mut bind = |request| table.bind(SPACE, request, &mut list).err();
        assert_eq!(bind(R::map_sparse(0x1_5000, 0x1000)), Some(Refusal::NoRoom));
        assert_eq!(
            bind(R::unmap_sparse(0x1_5000, 0x1000)),
            Some(Refusal::NoSuchRange)
        );
        assert_eq!(table.ranges().count(), count);
    }
}

#[test]
fn a_record_has_its_fields_in_their_places() {
    let request = R {
        op: 0x0403_0201,
        flags: 0x0807_0605,
        object: 0x0c0b_0a09,
        address: 0x1817_1615_1413_1211,
        offset: 0x201f_1e1d_1c1b_1a19,
        size: 0x2827_2625_2423_2221,
    };
    let mut expected: [u8; 40] = core::array::from_fn(|at| at as u8 + 1);
    expected[12..16].fill(0); // pad
    assert_eq!(request.record(), expected);
}
