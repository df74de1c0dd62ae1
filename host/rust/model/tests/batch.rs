//! The model's answers to batches, worked out by hand, in pages.

use waylluqen_model::answer::{BAD_COUNT, BAD_FLAGS, BAD_MAPPING, BAD_OP, BAD_RANGES};
use waylluqen_model::answer::{BAD_RECORD_LENGTH, BAD_SPACE, BAD_TABLE_LENGTH, BAD_WORK_LENGTH};
use waylluqen_model::answer::{
    NO_ROOM, OUTSIDE_SPACE, SHORT_OPERATIONS, SHORT_OUTPUT, STALE_WORDS,
};
use waylluqen_model::{bind_batch, BatchRefused, Grant, List, Mapping, Record, Refused, Space};
use waylluqen_model::{MAPPING_WORDS, MOST_REQUESTS, OPERATION_WORDS, PAGE};

/// All that is lent, and the records' bytes.
#[derive(Clone)]
struct Lent {
    space: Space,
    list: Vec<u64>,
    table: Vec<u64>,
    count: u64,
    work_words: usize,
    operation_words: usize,
    records: Vec<u8>,
}

/// First page, page behind the last, object, page of the object.
type Drawn = [u64; 4];

fn mapping([first, end, object, offset]: Drawn) -> Mapping {
    Mapping {
        address: first * PAGE,
        size: (end - first) * PAGE,
        object,
        offset: offset * PAGE,
    }
}

fn map([first, end, object, offset]: Drawn) -> Record {
    let size = (end - first) * PAGE;
    Record::plain(0, object as u32, first * PAGE, offset * PAGE, size)
}

fn unmap(first: u64, end: u64) -> Record {
    Record::plain(1, 0, first * PAGE, 0, (end - first) * PAGE)
}

/// A space of 16 pages, so much room, as few operation words as there may be, and these mappings.
fn lent(old: &[Drawn], room: usize, records: &[Record]) -> Lent {
    let mut table: Vec<u64> = old
        .iter()
        .flat_map(|&drawn| mapping(drawn).words())
        .collect();
    table.resize(room * MAPPING_WORDS, 0);
    Lent {
        space: Space {
            start: 0,
            size: 16 * PAGE,
            reserved_start: 0,
            reserved_size: 0,
        },
        list: vec![2 * PAGE, PAGE, 0, 0],
        work_words: table.len(),
        table,
        count: old.len() as u64,
        operation_words: (room + 1) * OPERATION_WORDS,
        records: records.iter().flat_map(Record::encode).collect(),
    }
}

fn ask(lent: &Lent) -> Result<Grant, BatchRefused> {
    let list = List {
        words: &lent.list,
        count: 1,
    };
    let words = [lent.work_words, lent.operation_words];
    bind_batch(
        &lent.space,
        &list,
        &lent.table,
        lent.count,
        words,
        &lent.records,
    )
}

/// The kinds and the first pages of the operations, and the mappings.
fn left(lent: &Lent) -> (Vec<(u64, u64)>, Vec<Mapping>) {
    let grant = ask(lent).expect("granted");
    assert_eq!(grant.count, grant.mappings.len() as u64);
    assert_eq!(grant.ranges.len(), 1);
    let operations = grant.operations.iter();
    let operations = operations.map(|one| (one.kind, one.named.address / PAGE));
    (operations.collect(), grant.mappings)
}

fn drawn(mappings: &[Drawn]) -> Vec<Mapping> {
    mappings.iter().copied().map(mapping).collect()
}

fn whole(number: u32) -> Result<Grant, BatchRefused> {
    Err(BatchRefused::Whole(Refused::of(number)))
}

fn in_turn(number: u32, place: u64) -> Result<Grant, BatchRefused> {
    Err(BatchRefused::InTurn(Refused { number, place }))
}

#[test]
fn each_on_what_the_one_before_left() {
    let records = [
        map([0, 6, 7, 0]),
        unmap(2, 4),
        map([1, 5, 9, 0]),
        unmap(8, 9),
    ];
    let (operations, mappings) = left(&lent(&[], 8, &records));
    // A map; a remap; two remaps and a map; nothing.
    assert_eq!(operations, [(0, 0), (1, 0), (1, 0), (1, 4), (0, 1)]);
    assert_eq!(mappings, drawn(&[[0, 1, 7, 0], [1, 5, 9, 0], [5, 6, 7, 5]]));
}

#[test]
fn no_requests() {
    let old = [[0, 1, 7, 0]];
    assert_eq!(left(&lent(&old, 1, &[])), (vec![], drawn(&old)));
}

#[test]
fn room_may_be_freed_by_the_one_before() {
    let old = [[0, 1, 7, 0], [1, 2, 7, 1]];
    let new = map([4, 5, 9, 0]);
    assert_eq!(ask(&lent(&old, 2, &[new])), in_turn(NO_ROOM, 0));
    assert_eq!(
        ask(&lent(&old, 2, &[new, unmap(0, 1)])),
        in_turn(NO_ROOM, 0)
    );
    let (operations, mappings) = left(&lent(&old, 2, &[unmap(0, 1), new]));
    assert_eq!(operations, [(2, 0), (0, 4)]);
    assert_eq!(mappings, drawn(&[[1, 2, 7, 1], [4, 5, 9, 0]]));
}

/// Room for one mapping: two operations fit.
#[test]
fn only_real_operations_count() {
    let old = [[0, 1, 7, 0]];
    let again = map([0, 1, 7, 0]);
    assert!(ask(&lent(&old, 1, &[again])).is_ok());
    assert!(ask(&lent(&old, 1, &[again, unmap(8, 9), unmap(3, 4)])).is_ok());
    assert_eq!(
        ask(&lent(&old, 1, &[again, unmap(0, 1)])),
        in_turn(SHORT_OUTPUT, 1)
    );
    // A word too few for the second, and just enough.
    let mut two = lent(&old, 1, &[again, again]);
    two.operation_words = 4 * OPERATION_WORDS - 1;
    assert_eq!(ask(&two), in_turn(SHORT_OUTPUT, 1));
    two.operation_words += 1;
    assert_eq!(ask(&two).expect("granted").operations.len(), 4);
    // Want of room comes first.
    let both = [again, map([3, 4, 9, 0])];
    assert_eq!(ask(&lent(&old, 1, &both)), in_turn(NO_ROOM, 1));
}

#[test]
fn no_flag_is_taken() {
    let sparse = Record::sparse(0, 4 * PAGE, PAGE);
    let flagged = Record {
        flags: 1,
        ..unmap(0, 1)
    };
    let padded = Record {
        pad: 1,
        ..unmap(0, 1)
    };
    for bad in [sparse, flagged, padded] {
        assert_eq!(
            ask(&lent(&[], 1, &[unmap(0, 1), bad])),
            in_turn(BAD_FLAGS, 1)
        );
        // Behind the op, and before the rest.
        let worse = Record { op: 2, ..bad };
        assert_eq!(ask(&lent(&[], 1, &[worse])), in_turn(BAD_OP, 0));
        let worse = Record { addr: 1, ..bad };
        assert_eq!(ask(&lent(&[], 1, &[worse])), in_turn(BAD_FLAGS, 0));
    }
}

#[test]
fn so_many_records() {
    let most = lent(&[], 1, &[unmap(0, 1); MOST_REQUESTS]);
    assert!(ask(&most).is_ok());
    let one_more = lent(&[], 1, &[unmap(0, 1); MOST_REQUESTS + 1]);
    assert_eq!(ask(&one_more), whole(BAD_RECORD_LENGTH));
    for bytes in [1, 39, 41, 2559] {
        let mut cut = most.clone();
        cut.records.truncate(bytes);
        assert_eq!(ask(&cut), whole(BAD_RECORD_LENGTH));
    }
}

/// Makes what is lent break a rule.
type Fault = fn(&mut Lent);

/// Each of the batch's own refusals, the last first: one more fault, and its number is the answer.
#[test]
fn the_order_of_its_own() {
    let old = [[0, 1, 7, 0]];
    let mut lent = lent(&old, 2, &[map([16, 17, 9, 0])]);
    assert_eq!(ask(&lent), in_turn(OUTSIDE_SPACE, 0));
    let faults: [(u32, Fault); 9] = [
        (BAD_RANGES, |lent| lent.list[3] = 1),
        (STALE_WORDS, |lent| lent.table[6] = 1),
        (BAD_MAPPING, |lent| lent.table[1] = 1),
        (BAD_COUNT, |lent| lent.count = 3),
        (BAD_WORK_LENGTH, |lent| lent.work_words += 4),
        (SHORT_OPERATIONS, |lent| lent.operation_words -= 15),
        (BAD_TABLE_LENGTH, |lent| lent.table.truncate(7)),
        (BAD_SPACE, |lent| lent.space.size = 0),
        (BAD_RECORD_LENGTH, |lent| lent.records.truncate(39)),
    ];
    for (number, change) in faults {
        change(&mut lent);
        assert_eq!(ask(&lent), whole(number));
    }
}

#[test]
fn a_bad_mapping_has_its_place() {
    let lent = lent(&[[0, 1, 7, 0], [0, 1, 7, 0]], 2, &[]);
    let refused = Refused {
        number: BAD_MAPPING,
        place: 1,
    };
    assert_eq!(ask(&lent), Err(BatchRefused::Whole(refused)));
}
