//! What a batch is refused for: each refusal at each place, beside others and in their order; every
//! length of what is lent.

use waylluqen_compare::batches::{bytes_of, Batch};
use waylluqen_compare::calls::Caller;
use waylluqen_compare::library::{Batched, IN_TURN, OF_BATCHES};
use waylluqen_compare::lists::List;
use waylluqen_compare::near::record_of;
use waylluqen_compare::numbers::{space_of, LIMIT};
use waylluqen_compare::requests::{MAP, SPARSE, UNMAP};
use waylluqen_compare::tables::{Good, Table};
use waylluqen_model::bind::least_operation_words;
use waylluqen_model::{BatchRefused, Mapping, Record, Refused, SparseRange};
use waylluqen_model::{MAPPING_WORDS, MOST_REQUESTS, OPERATION_WORDS, PAGE, RECORD_BYTES};

const MAPPING: Mapping = Mapping {
    address: PAGE,
    size: PAGE,
    object: 7,
    offset: 0,
};

/// A full table of one mapping, in a space with a reservation, and a list with one range.
fn full_table() -> Table {
    let range = SparseRange {
        start: 2 * PAGE,
        size: PAGE,
    };
    let good = Good {
        space: space_of([0, 16 * PAGE, 14 * PAGE, 2 * PAGE]),
        list: List::of(&[range], 2),
        mappings: vec![MAPPING],
    };
    good.table(0)
}

/// Two operations: the mapping goes and comes again.
fn again() -> Record {
    record_of(&MAPPING)
}

/// No operation.
fn nothing() -> Record {
    Record::plain(UNMAP, 0, 8 * PAGE, 0, PAGE)
}

/// A request of the full table that is refused with each of the numbers, if no word is left for its
/// operations: in the order of `IN_TURN`.
fn bad_records() -> [Record; 9] {
    let map = Record::plain(MAP, 7, 4 * PAGE, 0, PAGE);
    [
        Record { op: 2, ..map },
        Record { pad: 1, ..map },
        Record { range: 0, ..map },
        Record {
            addr: 16 * PAGE,
            ..map
        },
        Record {
            addr: 14 * PAGE,
            ..map
        },
        Record { handle: 0, ..map },
        Record {
            bo_offset: LIMIT,
            ..map
        },
        map,
        again(),
    ]
}

fn whole(number: u32) -> Batched {
    Err(BatchRefused::Whole(Refused::of(number)))
}

fn in_turn(number: u32, place: usize) -> Batched {
    let place = place as u64;
    Err(BatchRefused::InTurn(Refused { number, place }))
}

/// Compares a batch on what is lent to it as it should be, but for the operation words.
fn compare(caller: &mut Caller, table: &Table, operation_words: usize, bytes: &[u8]) -> Batched {
    caller.compare_batch(&Batch {
        table,
        work_words: table.words.len(),
        operation_words,
        records: bytes,
    })
}

/// The longest batch: nothing to do but at one place, where all operation words are taken, and from
/// `place` on, where one record is bad and the one behind it perhaps too.
fn longest(place: usize, bad: Record, behind: Option<Record>) -> Vec<Record> {
    let mut records = vec![nothing(); MOST_REQUESTS];
    // The words are taken anywhere before.
    if let Some(last) = place.checked_sub(1) {
        records[last / 2] = again();
    }
    records[place] = bad;
    if let (Some(behind), Some(record)) = (behind, records.get_mut(place + 1)) {
        *record = behind;
    }
    records
}

#[test]
fn each_in_turn_at_each_place_beside_each_other() {
    let mut caller = Caller::new(601);
    let table = full_table();
    let bad = bad_records();
    for place in 0..MOST_REQUESTS {
        for (number, record) in IN_TURN.into_iter().zip(bad) {
            let behind = bad.map(Some).into_iter().chain([None]);
            for behind in behind {
                let bytes = bytes_of(&longest(place, record, behind));
                let answer = compare(&mut caller, &table, 2 * OPERATION_WORDS, &bytes);
                // Row 3 leaves words enough for any first request.
                let expected = match (place, number) {
                    (0, 16) => behind.map(|behind| (behind, 1)),
                    _ => Some((record, place)),
                };
                let number = |record: Record| {
                    let at = bad.iter().position(|bad| *bad == record);
                    IN_TURN[at.expect("it is one of them")]
                };
                match expected {
                    Some((record, place)) => assert_eq!(answer, in_turn(number(record), place)),
                    None => assert_eq!(answer.expect("granted").operations.len(), 2),
                }
            }
        }
    }
}

/// A batch may end behind the record that is refused, and start with it.
#[test]
fn each_in_turn_first_and_last() {
    let mut caller = Caller::new(602);
    let table = full_table();
    for (number, bad) in IN_TURN.into_iter().zip(bad_records()) {
        for length in 2..=MOST_REQUESTS {
            let mut records = longest(length - 1, bad, None);
            records.truncate(length);
            let bytes = bytes_of(&records);
            let answer = compare(&mut caller, &table, 2 * OPERATION_WORDS, &bytes);
            assert_eq!(answer, in_turn(number, length - 1));
        }
        if number != 16 {
            let answer = compare(&mut caller, &table, 2 * OPERATION_WORDS, &bad.encode());
            assert_eq!(answer, in_turn(number, 0));
        }
    }
}

/// Any flag, and any pad, is 14; also the one flag with which single requests would be granted here.
#[test]
fn no_flag_is_taken() {
    let mut caller = Caller::new(603);
    let table = full_table();
    let add = Record::sparse(MAP, 4 * PAGE, PAGE);
    let remove = Record::sparse(UNMAP, 2 * PAGE, PAGE);
    for place in [0, 1, 17, MOST_REQUESTS - 1] {
        for bit in (0..32).map(|bit| 1 << bit) {
            for record in [again(), nothing(), add, remove] {
                let others = [bit, SPARSE, SPARSE | bit];
                let flagged = others.map(|flags| Record { flags, ..record });
                let padded = Record { pad: bit, ..record };
                for bad in flagged.into_iter().chain([padded]) {
                    let bytes = bytes_of(&longest(place, bad, None));
                    let answer = compare(&mut caller, &table, 10 * OPERATION_WORDS, &bytes);
                    assert_eq!(answer, in_turn(14, place));
                }
            }
        }
    }
}

/// Makes a good request break a rule, for some of the numbers.
type Break = fn(&mut Record);

const BREAKS: [(u32, Break); 6] = [
    (13, |record| record.op = 7),
    (14, |record| record.flags = SPARSE),
    (6, |record| record.bo_offset += 1),
    (7, |record| record.addr += 16 * PAGE),
    (9, |record| record.handle = 0),
    (10, |record| record.bo_offset += LIMIT),
];

/// One record breaks several rules, and has room neither in the table nor for its operations: the
/// first is answered.
#[test]
fn the_order_within_a_record() {
    let mut caller = Caller::new(604);
    let table = full_table();
    let map = Record::plain(MAP, 7, 4 * PAGE, 0, PAGE);
    for place in [1, 2, 40, MOST_REQUESTS - 1] {
        for chosen in 0..1u32 << BREAKS.len() {
            let mut record = map;
            let breaks = BREAKS.iter().enumerate();
            let breaks = breaks.filter(|(at, _)| chosen >> at & 1 == 1);
            breaks
                .clone()
                .for_each(|(_, (_, change))| change(&mut record));
            let first = breaks.map(|(_, (number, _))| *number).next();
            let bytes = bytes_of(&longest(place, record, None));
            // The one word more is for none.
            for words in [2 * OPERATION_WORDS, 2 * OPERATION_WORDS + 1] {
                let answer = compare(&mut caller, &table, words, &bytes);
                assert_eq!(answer, in_turn(first.unwrap_or(11), place));
            }
        }
    }
}

/// What is lent to a batch that can be granted.
#[derive(Clone)]
struct Case {
    table: Table,
    work_words: usize,
    operation_words: usize,
    records: Vec<u8>,
}

/// Two mappings and room for one more.
fn good_case(records: Vec<u8>) -> Case {
    let second = Mapping {
        address: 3 * PAGE,
        ..MAPPING
    };
    let mut table = full_table();
    table.words.extend(second.words());
    table.words.extend([0; MAPPING_WORDS]);
    table.count = 2;
    Case {
        work_words: table.words.len(),
        operation_words: least_operation_words(3),
        table,
        records,
    }
}

/// What makes it the case of each of the batch's own refusals, in their order. None undoes another.
const CHANGES: [fn(&mut Case); 9] = [
    |case| case.records.push(0),
    |case| case.table.space.size += 1,
    |case| case.table.words.truncate(11),
    |case| case.operation_words = 3 * OPERATION_WORDS - 1,
    |case| case.work_words += 1,
    |case| case.table.count = u64::MAX,
    |case| case.table.words[1] += 1,
    |case| case.table.words[10] = 1,
    |case| case.table.list.words[3] = 1,
];

fn compare_case(caller: &mut Caller, case: &Case) -> Batched {
    caller.compare_batch(&Batch {
        table: &case.table,
        work_words: case.work_words,
        operation_words: case.operation_words,
        records: &case.records,
    })
}

/// Every set of the batch's own refusals, with good and with bad requests and with none: the first
/// is answered, and only without any of them a request's.
#[test]
fn the_order_of_its_own() {
    let mut caller = Caller::new(605);
    let [bad_op, bad_pad, ..] = bad_records();
    for records in [
        vec![],
        vec![again(), nothing()],
        vec![bad_op],
        vec![bad_pad],
        vec![nothing(), again(), bad_op],
        vec![again(); MOST_REQUESTS],
    ] {
        for chosen in 0..1u32 << CHANGES.len() {
            let mut case = good_case(bytes_of(&records));
            let changes = (0..CHANGES.len()).filter(|at| chosen >> at & 1 == 1);
            changes.clone().for_each(|at| CHANGES[at](&mut case));
            let answer = compare_case(&mut caller, &case);
            match changes.map(|at| OF_BATCHES[at]).next() {
                Some(number) => assert_eq!(answer, whole(number)),
                None => assert!(!matches!(answer, Err(BatchRefused::Whole(_)))),
            }
        }
    }
}

/// The place of a bad mapping is the mapping's, whatever the requests are.
#[test]
fn a_bad_mapping_has_its_place() {
    let mut caller = Caller::new(606);
    for place in 0..2 {
        for records in [
            vec![],
            vec![nothing()],
            vec![bad_records()[0]; MOST_REQUESTS],
        ] {
            let mut case = good_case(bytes_of(&records));
            case.table.words[place * MAPPING_WORDS] += 1;
            let refused = Refused {
                number: 5,
                place: place as u64,
            };
            let answer = compare_case(&mut caller, &case);
            assert_eq!(answer, Err(BatchRefused::Whole(refused)));
        }
    }
}

/// Every number of bytes up to some more than the longest batch has, of good requests and with a bad
/// one at the front, on a good table and on bad ones.
#[test]
fn every_length_of_bytes() {
    const LONGEST: usize = (MOST_REQUESTS + 3) * RECORD_BYTES;
    let mut caller = Caller::new(607);
    let good = bytes_of(&vec![again(); MOST_REQUESTS + 3]);
    let mut bad = good.clone();
    bad[0] = 2;
    let enough = 2 * (MOST_REQUESTS + 3) * OPERATION_WORDS;
    for bytes in 0..=LONGEST {
        for repeat in 0..4 {
            let is_whole = bytes % RECORD_BYTES == 0 && bytes <= MOST_REQUESTS * RECORD_BYTES;
            let mut case = good_case(good[..bytes].to_vec());
            case.operation_words = enough;
            let answer = compare_case(&mut caller, &case);
            match is_whole {
                true => {
                    let operations = answer.expect("granted").operations.len();
                    assert_eq!(operations, 2 * bytes / RECORD_BYTES);
                }
                false => assert_eq!(answer, whole(12), "{bytes} bytes"),
            }
            case.records = bad[..bytes].to_vec();
            let answer = compare_case(&mut caller, &case);
            match (is_whole, bytes) {
                (true, 0) => assert!(answer.is_ok()),
                (true, _) => assert_eq!(answer, in_turn(13, 0)),
                _ => assert_eq!(answer, whole(12)),
            }
            CHANGES[1 + repeat](&mut case);
            let number = if is_whole { OF_BATCHES[1 + repeat] } else { 12 };
            assert_eq!(compare_case(&mut caller, &case), whole(number));
        }
    }
}

/// Every length of the work table beside the right one, with any words in it.
#[test]
fn every_length_of_the_work_table() {
    let mut caller = Caller::new(608);
    for room in 1..=6 {
        let mut case = good_case(again().encode().to_vec());
        case.table = full_table();
        case.table.words.resize(room * MAPPING_WORDS, 0);
        case.operation_words = least_operation_words(room);
        let right = case.table.words.len();
        for work_words in (0..3 * right + 9).chain([4 * right, 16_384, 16_388, 40_000]) {
            case.work_words = work_words;
            for _ in 0..4 {
                let answer = compare_case(&mut caller, &case);
                match work_words == right {
                    true => assert_eq!(answer.expect("granted").operations.len(), 2),
                    false => assert_eq!(answer, whole(15), "{work_words} words"),
                }
            }
        }
    }
}

/// Every length of the operation words: too short for the table, too short for a request, or enough;
/// what is behind the last operation stays.
#[test]
fn every_length_of_the_operation_words() {
    let mut caller = Caller::new(609);
    let case = good_case(Vec::new());
    let least = least_operation_words(3);
    for requests in [0, 1, 2, 3, 5, 17, MOST_REQUESTS] {
        let mut records = vec![again(); requests];
        // These have no operations, and never want for words.
        records.resize(MOST_REQUESTS.min(requests + 2), nothing());
        let needed = 2 * requests * OPERATION_WORDS;
        for operation_words in 0..needed.max(least) + 30 {
            let case = Case {
                operation_words,
                records: bytes_of(&records),
                ..case.clone()
            };
            let answer = compare_case(&mut caller, &case);
            if operation_words < least {
                assert_eq!(answer, whole(3));
            } else if operation_words < needed {
                let place = operation_words / (2 * OPERATION_WORDS);
                assert_eq!(answer, in_turn(16, place));
            } else {
                assert_eq!(answer.expect("granted").operations.len(), 2 * requests);
            }
        }
    }
}
