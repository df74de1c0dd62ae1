//! Compares the library's request check to the model's, input by input.

use waylluqen_compare::calls::{check, Way};
use waylluqen_compare::numbers::{
    disturb_space, edge_spaces, edges, good_space, space_of, HALF, LIMIT,
};
use waylluqen_compare::requests::{disturb_record, good_record, place, LONGEST_RECORD};
use waylluqen_compare::requests::{MAP, SPARSE, UNMAP};
use waylluqen_model::random::Random;
use waylluqen_model::{Record, Space, PAGE, RECORD_BYTES};

const ANSWERS: [u32; 10] = [0, 1, 6, 7, 8, 9, 10, 12, 13, 14];

/// How often each answer came.
#[derive(Default)]
struct Tally {
    seen: [u64; 16],
    comparisons: u64,
}

impl Tally {
    /// Checks the record in words and by the types.
    fn compare(&mut self, record: &[u8], space: &Space) {
        let model = check(Way::Words, space, record);
        check(Way::Types, space, record);
        self.seen[model as usize] += 1;
        self.comparisons += 1;
    }

    /// Each answer of `ANSWERS` came at least `least` times, and no other came.
    fn assert_answers(&self, least: u64) {
        for (answer, &times) in (0..).zip(&self.seen) {
            if ANSWERS.contains(&answer) {
                assert!(times >= least, "answer {answer} came only {times} times");
            } else {
                assert_eq!(times, 0, "answer {answer} came");
            }
        }
    }
}

#[test]
fn good_inputs_and_those_near_them() {
    const INPUTS: u64 = 4_000_000;
    let mut random = Random::new(1);
    let mut tally = Tally::default();
    let mut buffer = [0; 8 + LONGEST_RECORD];
    for _ in 0..INPUTS {
        let mut space = good_space(&mut random);
        let mut record = good_record(&mut random, &space);
        for _ in 0..random.below(3) {
            disturb_record(&mut random, &mut record, &space);
        }
        if random.once_in(4) {
            disturb_space(&mut random, &mut space);
        }
        let record = place(&mut random, &record.encode(), &mut buffer);
        tally.compare(record, &space);
    }
    tally.assert_answers(1000);
    assert_eq!(tally.comparisons, INPUTS);
}

#[test]
fn any_inputs() {
    const INPUTS: u64 = 200_000;
    let mut random = Random::new(2);
    let mut tally = Tally::default();
    for _ in 0..INPUTS {
        let mut record = [0; RECORD_BYTES];
        random.fill(&mut record);
        // Random bytes of op, flags and pad would almost never get further than these.
        for field in [0..4, 4..8, 12..16] {
            if !random.once_in(8) {
                record[field].fill(0);
            }
        }
        if random.once_in(4) {
            record[4..8].copy_from_slice(&SPARSE.to_le_bytes());
        }
        let space = match random.below(4) {
            0 => space_of([0; 4].map(|_| random.next_u64())),
            _ => good_space(&mut random),
        };
        tally.compare(&record, &space);
    }
    assert_eq!(tally.comparisons, INPUTS);
}

/// Every length from 0 to 80, of random bytes and of a good record followed by others.
#[test]
fn every_record_length() {
    const ROUNDS: u64 = 500;
    let mut random = Random::new(3);
    let mut tally = Tally::default();
    for _ in 0..ROUNDS {
        let space = good_space(&mut random);
        let mut bytes = [0; LONGEST_RECORD];
        random.fill(&mut bytes);
        let mut good = bytes;
        good[..RECORD_BYTES].copy_from_slice(&good_record(&mut random, &space).encode());
        for length in 0..=LONGEST_RECORD {
            tally.compare(&bytes[..length], &space);
            tally.compare(&good[..length], &space);
        }
    }
    let lengths = 1 + LONGEST_RECORD as u64;
    assert_eq!(tally.comparisons, ROUNDS * 2 * lengths);
    assert_eq!(tally.seen[12], ROUNDS * 2 * (lengths - 1));
}

/// This range and offset with both ops, with the lowest and highest objects, and with the flag.
fn compare_ops_and_objects(tally: &mut Tally, space: &Space, [addr, range, bo_offset]: [u64; 3]) {
    for op in [MAP, UNMAP] {
        for handle in [0, 1, u32::MAX] {
            let record = Record::plain(op, handle, addr, bo_offset, range);
            for flags in [0, SPARSE] {
                tally.compare(&Record { flags, ..record }.encode(), space);
            }
        }
    }
}

/// Each bit of the flags alone and beside the one that there is, with a pad and without.
#[test]
fn every_flag() {
    let mut tally = Tally::default();
    let space = space_of([0, 16 * PAGE, 0, 0]);
    for op in [MAP, UNMAP, 2] {
        for (handle, pad) in [(0, 0), (7, 0), (0, 1), (0, SPARSE)] {
            for bit in 0..32 {
                for flags in [1 << bit, SPARSE | 1 << bit] {
                    let record = Record {
                        flags,
                        pad,
                        ..Record::plain(op, handle, PAGE, 0, PAGE)
                    };
                    tally.compare(&record.encode(), &space);
                }
            }
        }
    }
    // The flag itself, twice for each op.
    assert_eq!((tally.seen[0], tally.seen[9]), (2 * 2, 2 * 2));
    assert_eq!(tally.seen[13], 4 * 32 * 2);
}

/// Every address, size and offset at an edge, together, in one space. Answers the number of
/// inputs.
fn compare_requests_at_edges(tally: &mut Tally, space: &Space) -> u64 {
    let end = space.start + space.size;
    let reserved_start = space.reserved_start;
    let reserved_end = reserved_start + space.reserved_size;
    let places = edges(&[
        0,
        space.start,
        end,
        reserved_start,
        reserved_end,
        LIMIT,
        HALF,
    ]);
    let sizes = edges(&[0, 2 * PAGE, space.size, space.reserved_size, LIMIT, HALF]);
    let offsets = edges(&[0, LIMIT - 2 * PAGE, LIMIT - space.size, HALF]);
    for &addr in &places {
        for &range in &sizes {
            for &bo_offset in &offsets {
                compare_ops_and_objects(tally, space, [addr, range, bo_offset]);
            }
        }
    }
    (places.len() * sizes.len() * offsets.len() * 12) as u64
}

#[test]
fn requests_at_edges() {
    let spaces = [
        [0, LIMIT, 0, 0],
        [0, LIMIT, LIMIT - 16 * PAGE, 16 * PAGE],
        [0, 16 * PAGE, 0, 4 * PAGE],
        [LIMIT - 16 * PAGE, 16 * PAGE, LIMIT - 8 * PAGE, 4 * PAGE],
        [16 * PAGE, 32 * PAGE, 24 * PAGE, 8 * PAGE],
        [16 * PAGE, 32 * PAGE, 16 * PAGE, 32 * PAGE],
        [16 * PAGE, PAGE, 0, 0],
    ];
    let mut tally = Tally::default();
    let mut expected = 0;
    for space in spaces.map(space_of) {
        expected += compare_requests_at_edges(&mut tally, &space);
    }
    assert_eq!(tally.comparisons, expected);
    for answer in [0, 6, 7, 8, 9, 10] {
        assert!(tally.seen[answer] > 0, "answer {answer} did not come");
    }
}

#[test]
fn spaces_at_edges() {
    let record = Record::plain(UNMAP, 0, 4 * PAGE, 0, PAGE);
    let mut tally = Tally::default();
    for space in edge_spaces() {
        tally.compare(&record.encode(), &space);
    }
    for answer in [0, 1, 7, 8] {
        assert!(tally.seen[answer] > 0, "answer {answer} did not come");
    }
}
