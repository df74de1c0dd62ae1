//! Compares calls beside lists of sparse ranges that break a rule: damaged in each word and in each
//! way, with a stale word at each place, and beside other faults. And good ones are taken.

use waylluqen_compare::calls::{model_answer, model_look, Asking, Caller, Way};
use waylluqen_compare::lists::{some_ranges, Faults, List, DAMAGES};
use waylluqen_compare::numbers::{space_of, LIMIT};
use waylluqen_compare::requests::{MAP, UNMAP};
use waylluqen_compare::tables::{plain_spaces, small_spaces, Good, Table};
use waylluqen_model::bind::least_operation_words;
use waylluqen_model::random::Random;
use waylluqen_model::{Mapping, Record, Space, SparseRange};
use waylluqen_model::{MAPPING_WORDS, MOST_RANGES, PAGE, RANGE_WORDS};

const WAYS: [Way; 2] = [Way::Words, Way::Types];

fn room(table: &Table) -> usize {
    least_operation_words(table.words.len() / MAPPING_WORDS)
}

fn range(start: u64, size: u64) -> SparseRange {
    SparseRange { start, size }
}

/// What is asked beside each list: a map, an unmap, both with the flag; and addresses.
struct Questions {
    records: [Record; 4],
    addresses: [u64; 3],
}

/// In a space whose first page is free, and in which no range but that is removed.
fn questions(space: &Space, list: &List) -> Questions {
    let first = space.start;
    let ranges = list.ranges();
    let removed = ranges.last().copied().unwrap_or(range(first, PAGE));
    Questions {
        records: [
            Record::plain(MAP, 7, first, PAGE, PAGE),
            Record::plain(UNMAP, 0, first, 0, PAGE),
            Record::sparse(MAP, first, PAGE),
            Record::sparse(UNMAP, removed.start, removed.size),
        ],
        addresses: [first, removed.start, u64::MAX],
    }
}

/// Asks all of it in all ways, on what is lent anew, and answers the numbers, 0 where there is no
/// refusal: of the requests by record, then of the look-ups.
fn ask_all(caller: &mut Caller, table: &Table, questions: &Questions) -> Vec<u32> {
    let mut numbers = Vec::new();
    for way in WAYS {
        for record in &questions.records {
            let bytes = record.encode();
            let by_numbers = Asking::Numbers(record.request());
            for asking in [Asking::Bytes(&bytes), by_numbers] {
                // Flags come by numbers only to the types.
                if way == Way::Words && matches!(asking, Asking::Numbers(one) if one.flags != 0) {
                    continue;
                }
                let model = model_answer(table, room(table), asking);
                caller.lend(table);
                caller.lend_operations(&vec![9; room(table)]);
                caller.bind(way, table, asking, &model);
                numbers.push(model.map_or_else(|refused| refused.number, |_| 0));
            }
        }
        for &address in &questions.addresses {
            let model = model_look(table, address);
            caller.lend(table);
            caller.stir(address);
            caller.look_up(way, table, address, model);
            numbers.push(model.map_or_else(|refused| refused.number, |_| 0));
        }
    }
    numbers
}

/// An empty table of two places, with this list.
fn table_beside(space: Space, list: List) -> Table {
    let empty = Good {
        space,
        list,
        mappings: Vec::new(),
    };
    empty.table(2)
}

/// Up to so many ranges off the first page, in room for `spare` more.
fn some_list(random: &mut Random, space: &Space, most: usize, spare: usize) -> List {
    let first = Mapping {
        address: space.start,
        size: PAGE,
        object: 7,
        offset: 0,
    };
    let mut ranges = some_ranges(random, space, &[first], most);
    ranges.retain(|range| range.start != space.start);
    let room = (ranges.len() + spare).min(MOST_RANGES);
    List::of(&ranges, room)
}

/// Compares beside a list, and answers whether it is refused; if one call refuses it, all do.
fn is_refused(caller: &mut Caller, table: &Table, questions: &Questions) -> bool {
    let numbers = ask_all(caller, table, questions);
    let is_bad = numbers.contains(&18);
    assert!(!is_bad || numbers.iter().all(|&number| number == 18));
    is_bad
}

/// How often each damage was refused, and how often one was none.
#[derive(Debug, Default)]
struct Damaged {
    refused: [u64; DAMAGES.len()],
    taken: u64,
    faults: Faults,
}

#[test]
fn every_word_damaged_in_every_way() {
    let mut random = Random::new(601);
    let mut caller = Caller::new(602);
    let mut damaged = Damaged::default();
    let sizes = [
        (1, 0),
        (1, 1),
        (2, 0),
        (3, 2),
        (5, 1),
        (20, 3),
        (64, 2),
        (64, 0),
    ];
    for space in plain_spaces().into_iter().chain(small_spaces()) {
        for (most, spare) in sizes {
            let good = some_list(&mut random, &space, most, spare);
            let questions = questions(&space, &good);
            for at in 0..good.count as usize * RANGE_WORDS {
                for ((_, damage), refused) in DAMAGES.iter().zip(&mut damaged.refused) {
                    let mut table = table_beside(space, good.clone());
                    damage(&mut random, &space, &mut table.list, at);
                    if is_refused(&mut caller, &table, &questions) {
                        *refused += 1;
                        damaged.faults.count(&space, &table.list);
                    } else {
                        damaged.taken += 1;
                    }
                }
            }
        }
    }
    println!("every word damaged in every way: {damaged:?}");
    for ((name, _), times) in DAMAGES.iter().zip(damaged.refused) {
        assert!(times >= 100, "{name} was refused only {times} times");
    }
    damaged.faults.assert_each(100);
    assert!(damaged.taken >= 1000);
}

/// The first bit, the last, one above 32 bits, a multiple of a page, all, and a bit by the place.
fn values(place: usize) -> [u64; 6] {
    [1, 1 << 63, 1 << 32, PAGE, u64::MAX, 1 << (place % 64)]
}

/// So many ranges of one page, each behind a free one, in room for `capacity`.
fn even_list(space: &Space, count: usize, capacity: usize) -> List {
    let each = |place: u64| range(space.start + (2 + 2 * place) * PAGE, PAGE);
    let ranges: Vec<SparseRange> = (0..count as u64).map(each).collect();
    List::of(&ranges, capacity)
}

/// Puts each of the values at each place behind the ranges, and has every call refused.
fn refuse_stale(caller: &mut Caller, count: usize, capacity: usize, some: usize) -> u64 {
    let space = space_of([16 * PAGE, 200 * PAGE, 0, 0]);
    let good = even_list(&space, count, capacity);
    let questions = questions(&space, &good);
    let mut table = table_beside(space, good);
    let numbers = ask_all(caller, &table, &questions);
    assert!(!numbers.contains(&18));
    let mut places = 0;
    for place in count * RANGE_WORDS..capacity * RANGE_WORDS {
        let values = values(place);
        for value in values.into_iter().cycle().skip(place).take(some) {
            table.list.words[place] = value;
            let numbers = ask_all(caller, &table, &questions);
            assert!(numbers.iter().all(|&number| number == 18), "word {place}");
        }
        table.list.words[place] = 0;
        places += 1;
    }
    places
}

#[test]
fn every_word_behind_the_last_range() {
    let mut caller = Caller::new(612);
    let mut places = 0;
    for capacity in 1..=6 {
        for count in 0..=capacity {
            places += refuse_stale(&mut caller, count, capacity, 6);
        }
    }
    // In one place at most one is free, in two together three, in six together 21.
    assert_eq!(places, (1 + 3 + 6 + 10 + 15 + 21) * RANGE_WORDS as u64);
    for capacity in 7..=MOST_RANGES {
        for count in [0, 1, capacity / 2, capacity - 2, capacity - 1, capacity] {
            places += refuse_stale(&mut caller, count, capacity, 1);
        }
    }
    println!("every word behind the last range: {places} places");
    assert!(places >= 10_000);
}

/// Two that add up to 0, that are alike, that have no bit in common.
#[test]
fn two_words_behind_the_last_range() {
    let mut caller = Caller::new(615);
    let space = space_of([16 * PAGE, 200 * PAGE, 0, 0]);
    let good = even_list(&space, 2, 5);
    let questions = questions(&space, &good);
    for one in 4..10 {
        for other in one + 1..10 {
            for pair in [[1, u64::MAX], [1 << 63, 1 << 63], [7, 7], [1, 2]] {
                let mut table = table_beside(space, good.clone());
                [table.list.words[one], table.list.words[other]] = pair;
                let numbers = ask_all(&mut caller, &table, &questions);
                assert!(numbers.iter().all(|&number| number == 18));
            }
        }
    }
}

/// Every length up to more than there may be, with every count about it.
#[test]
fn lengths_and_counts() {
    let mut caller = Caller::new(621);
    let space = space_of([16 * PAGE, 600 * PAGE, 0, 0]);
    let questions = questions(&space, &List::default());
    let (mut good, mut bad) = (0, 0);
    for words in (0..=140).chain([200, 255, 256, 257, 512]) {
        let capacity = words as u64 / 2;
        for count in [
            0,
            1,
            capacity.wrapping_sub(1),
            capacity,
            capacity + 1,
            words as u64,
            1 << 32,
            1 << 63,
            (1 << 63) + 1,
            u64::MAX,
        ] {
            // As many ranges as are counted, as far as there is room.
            let ranges = count.min(capacity) as usize;
            let mut list = even_list(&space, ranges, ranges);
            list.words.resize(words, 0);
            list.count = count;
            let holds = words % 2 == 0 && words <= 128 && count <= capacity;
            let numbers = ask_all(&mut caller, &table_beside(space, list), &questions);
            if holds {
                assert!(!numbers.contains(&18), "{words} words, count {count}");
                good += 1;
            } else {
                assert!(
                    numbers.iter().all(|&number| number == 18),
                    "{words}, {count}"
                );
                bad += 1;
            }
        }
    }
    assert!(good >= 250 && bad >= 1000);
}

/// A request on two mappings in room for three, beside two ranges in room for three, and how it is
/// lent.
#[derive(Clone)]
struct Case {
    table: Table,
    operation_words: usize,
    record: Record,
    record_bytes: usize,
}

/// A granted one: a page behind the last mapping.
fn without_fault() -> Case {
    let mut words = vec![0, 3 * PAGE, 7, 0, 4 * PAGE, PAGE, 8, PAGE];
    words.resize(3 * MAPPING_WORDS, 0);
    let ranges = [range(2 * PAGE, 4 * PAGE), range(6 * PAGE, PAGE)];
    Case {
        table: Table {
            space: space_of([0, 64 * PAGE, 60 * PAGE, 4 * PAGE]),
            list: List::of(&ranges, 3),
            words,
            count: 2,
        },
        operation_words: least_operation_words(3),
        record: Record::plain(MAP, 9, 8 * PAGE, 0, PAGE),
        record_bytes: 40,
    }
}

/// The number of a fault, and what makes it.
type Fault = (u32, fn(&mut Case));

/// Each fault, of requests without the flag and with it, and none.
const FAULTS: [Fault; 33] = [
    (12, |case| case.record_bytes = 39),
    (13, |case| case.record.op = 2),
    (14, |case| case.record.flags = 1),
    (14, |case| case.record.flags = 257),
    (14, |case| case.record.pad = 1),
    (1, |case| case.table.space.start = 1),
    (2, |case| case.table.words.truncate(11)),
    (2, |case| case.table.words.resize(16_388, 0)),
    (3, |case| case.operation_words -= 1),
    (3, |case| {
        case.operation_words -= 1;
        case.record = Record::sparse(MAP, 8 * PAGE, PAGE);
    }),
    (4, |case| case.table.count = 4),
    (4, |case| case.table.count = u64::MAX),
    (5, |case| case.table.words[0] = 1),
    (5, |case| case.table.words[6] = 0),
    (17, |case| case.table.words[8] = 1),
    (17, |case| case.table.words[11] = 1),
    (6, |case| case.record.addr = 1),
    (6, |case| case.record.range = 0),
    (6, |case| {
        case.record = Record {
            bo_offset: 1,
            ..sparse_map()
        }
    }),
    (7, |case| case.record.addr = 64 * PAGE),
    (8, |case| case.record.addr = 60 * PAGE),
    (8, |case| {
        case.record = Record {
            addr: 59 * PAGE,
            range: 2 * PAGE,
            ..sparse_map()
        }
    }),
    (9, |case| case.record.handle = 0),
    (9, |case| {
        case.record = Record {
            handle: 1,
            ..sparse_map()
        }
    }),
    (9, |case| {
        case.record = Record {
            bo_offset: PAGE,
            ..sparse_map()
        }
    }),
    (10, |case| case.record.bo_offset = LIMIT),
    (19, |case| {
        case.record = Record {
            addr: 5 * PAGE,
            ..sparse_map()
        }
    }),
    (20, |case| {
        case.record = Record::sparse(UNMAP, 6 * PAGE, 2 * PAGE)
    }),
    (20, |case| {
        case.record = Record::sparse(UNMAP, 2 * PAGE, 4 * PAGE)
    }),
    // Into the middle of the first mapping: two more.
    (11, |case| case.record.addr = PAGE),
    (0, |_| {}),
    (0, |case| case.record = sparse_map()),
    (0, |case| {
        case.record = Record::sparse(UNMAP, 6 * PAGE, PAGE)
    }),
];

fn sparse_map() -> Record {
    Record::sparse(MAP, 8 * PAGE, PAGE)
}

/// What makes the list a bad one: each of its rules, by one word or number.
const BAD_LISTS: [fn(&mut List); 19] = [
    |list| list.words.truncate(5),
    |list| list.words.resize(7, 0),
    |list| list.words.resize(130, 0),
    |list| list.count = 4,
    |list| list.count = u64::MAX,
    // One too few, and one too many.
    |list| list.count = 1,
    |list| list.count = 3,
    |list| list.words[0] += 1,
    |list| list.words[1] -= 1,
    |list| list.words[3] += 2048,
    |list| list.words[3] = 0,
    |list| list.words[1] += PAGE,
    |list| list.words[2] -= PAGE,
    |list| list.words[2] = 0,
    |list| list.words[2] = 64 * PAGE,
    |list| list.words[3] = 0u64.wrapping_sub(6 * PAGE),
    |list| list.words[3] = 55 * PAGE,
    |list| list.words[4] = 1,
    |list| list.words[5] = 1 << 63,
];

/// What the model says to the case, which the library says too.
fn number(case: &Case, way: Way, by_record: bool) -> u32 {
    let bytes = &case.record.encode()[..case.record_bytes];
    let asking = match by_record {
        true => Asking::Bytes(bytes),
        false => Asking::Numbers(case.record.request()),
    };
    let model = model_answer(&case.table, case.operation_words, asking);
    let mut caller = Caller::new(631);
    caller.lend(&case.table);
    caller.lend_operations(&vec![9; case.operation_words]);
    caller.bind(way, &case.table, asking, &model);
    model.map_or_else(|refused| refused.number, |_| 0)
}

/// The same of a look-up.
fn number_looked_up(case: &Case, way: Way) -> u32 {
    let model = model_look(&case.table, PAGE);
    let mut caller = Caller::new(641);
    caller.lend(&case.table);
    caller.look_up(way, &case.table, PAGE, model);
    model.map_or_else(|refused| refused.number, |_| 0)
}

/// Asserts what a case is refused for, of which it has the fault of this number.
fn assert_numbers(case: &Case, fault: u32, request: u32, look_up: u32) {
    for way in WAYS {
        assert_eq!(number(case, way, true), request, "beside {fault}");
        // By numbers there is no length and no pad, and flags are for the types alone.
        let has_flags = case.record.flags != 0 && way == Way::Words;
        if fault != 12 && case.record.pad == 0 && !has_flags {
            assert_eq!(number(case, way, false), request, "beside {fault}");
        }
        assert_eq!(number_looked_up(case, way), look_up, "beside {fault}");
    }
}

/// What stands before 18 in the order is told, what stands behind it is not.
#[test]
fn beside_other_faults() {
    let mut cases = 0;
    for (fault, change) in FAULTS {
        let mut case = without_fault();
        change(&mut case);
        let of_table = if [1, 2, 4, 5, 17].contains(&fault) {
            fault
        } else {
            0
        };
        assert_numbers(&case, fault, fault, of_table);
        for bad in BAD_LISTS {
            let mut case = case.clone();
            bad(&mut case.table.list);
            let first = [12, 13, 14, 1, 2, 3, 4, 5, 17].contains(&fault);
            let request = if first { fault } else { 18 };
            let look_up = if of_table == 0 { 18 } else { of_table };
            assert_numbers(&case, fault, request, look_up);
            cases += 1;
        }
    }
    assert_eq!(cases, FAULTS.len() * BAD_LISTS.len());
}

/// The words around the list are not zero: none of them is behind it, also where it has none.
#[test]
fn no_word_behind_a_full_list() {
    let mut caller = Caller::new(651);
    let space = space_of([16 * PAGE, 200 * PAGE, 0, 0]);
    for count in 0..=MOST_RANGES {
        let list = even_list(&space, count, count);
        let questions = questions(&space, &list);
        let numbers = ask_all(&mut caller, &table_beside(space, list), &questions);
        let refused = |number: u32| numbers.iter().filter(|&&one| one == number).count();
        // There is no room for one more, and where there is none, none to remove.
        assert_eq!(refused(11), 3, "{count} ranges");
        assert_eq!(refused(20), if count == 0 { 3 } else { 0 });
        assert_eq!(refused(18), 0);
    }
}
