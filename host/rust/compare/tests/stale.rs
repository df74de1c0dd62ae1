//! Compares calls on tables with words behind the last mapping that are not zero: at each place
//! there, two of them, and beside other faults. And where there are none, none is found.

use waylluqen_compare::calls::{model_answer, model_look, Asking, Caller, Way};
use waylluqen_compare::library::{Bound, Looked};
use waylluqen_compare::lists::{good_list, List};
use waylluqen_compare::near::{narrow_record, near_record};
use waylluqen_compare::numbers::{space_of, LIMIT};
use waylluqen_compare::requests::{good_record, MAP, UNMAP};
use waylluqen_compare::tables::{fill_space, plain_spaces, small_spaces, Good, Table};
use waylluqen_model::answer::{BAD_RANGES, STALE_WORDS};
use waylluqen_model::bind::least_operation_words;
use waylluqen_model::random::Random;
use waylluqen_model::{Record, Refused, MAPPING_WORDS, MOST_MAPPINGS, PAGE};

const WAYS: [Way; 2] = [Way::Words, Way::Types];

/// The first bit, the last, one above 32 bits, a multiple of a page, all, and a bit by the place.
fn values(place: usize) -> [u64; 6] {
    [1, 1 << 63, 1 << 32, PAGE, u64::MAX, 1 << (place % 64)]
}

/// A table that is lent, what is asked on it, and how often it was refused for stale words.
struct Lent {
    caller: Caller,
    table: Table,
    records: [Record; 2],
    addresses: [u64; 3],
    binds: u64,
    looks: u64,
}

fn room(table: &Table) -> usize {
    least_operation_words(table.words.len() / MAPPING_WORDS)
}

/// A map and an unmap that are granted where the table has room for one mapping more, and addresses
/// in a mapping, behind all of them, and outside.
fn questions(good: &Good) -> ([Record; 2], [u64; 3]) {
    let first = good.mappings.first().map_or(PAGE, |first| first.address);
    let last = good.mappings.last();
    let end = last.map_or(PAGE, |last| last.address + last.size);
    let map = Record::plain(MAP, 7, first, PAGE, PAGE);
    let unmap = Record::plain(UNMAP, 0, first, 0, PAGE);
    ([map, unmap], [first, end, u64::MAX])
}

impl Lent {
    /// So many mappings, in room for some.
    fn new(seed: u64, capacity: usize, count: usize) -> Lent {
        let good = fill_space(&mut Random::new(seed), plain_spaces()[1], count as u64);
        assert_eq!(good.mappings.len(), count);
        let (records, addresses) = questions(&good);
        let table = good.table(capacity - count);
        let mut caller = Caller::new(seed);
        caller.lend(&table);
        caller.lend_operations(&vec![seed; room(&table)]);
        Lent {
            caller,
            table,
            records,
            addresses,
            binds: 0,
            looks: 0,
        }
    }

    /// The places behind the last mapping.
    fn behind(&self) -> std::ops::Range<usize> {
        self.table.count as usize * MAPPING_WORDS..self.table.words.len()
    }

    fn set(&mut self, place: usize, word: u64) {
        self.table.words[place] = word;
        self.caller.set_word(place, word);
    }

    /// Asks by numbers or by record; a refusal leaves every word as it is, so none is lent anew.
    fn refuse_bind(&mut self, way: Way, record: &Record, by_record: bool) {
        let bytes = record.encode();
        let asking = match by_record {
            true => Asking::Bytes(&bytes),
            false => Asking::Numbers(record.request()),
        };
        let model = model_answer(&self.table, room(&self.table), asking);
        assert_eq!(model, Bound::Err(Refused::of(STALE_WORDS)));
        self.caller.bind(way, &self.table, asking, &model);
        self.binds += 1;
    }

    fn refuse_look_up(&mut self, way: Way, address: u64) {
        let model = Looked::Err(Refused::of(STALE_WORDS));
        assert_eq!(model_look(&self.table, address), model);
        self.caller.look_up(way, &self.table, address, model);
        self.looks += 1;
    }

    /// All questions in both ways.
    fn refuse_all(&mut self) {
        for way in WAYS {
            for record in self.records {
                self.refuse_bind(way, &record, false);
                self.refuse_bind(way, &record, true);
            }
            for address in self.addresses {
                self.refuse_look_up(way, address);
            }
        }
    }

    /// A map, an unmap, one of them by record, and a look-up, with ways and all else by turns.
    fn refuse_some(&mut self, turn: usize) {
        let way = |more: usize| WAYS[(turn + more) % 2];
        let [map, unmap] = self.records;
        self.refuse_bind(way(0), &map, turn.is_multiple_of(4));
        self.refuse_bind(way(1), &unmap, turn % 4 == 1);
        self.refuse_look_up(way(turn / 2), self.addresses[turn % 3]);
    }
}

#[test]
fn every_word_of_small_tables() {
    let (mut places, mut binds, mut looks) = (0, 0, 0);
    for capacity in 1..=8 {
        for count in 0..=capacity {
            let mut lent = Lent::new(501, capacity, count);
            for place in lent.behind() {
                for value in values(place) {
                    lent.set(place, value);
                    lent.refuse_all();
                }
                lent.set(place, 0);
                places += 1;
            }
            binds += lent.binds;
            looks += lent.looks;
        }
    }
    // In one place at most one is free, in two together three, in eight together 36.
    assert_eq!(places, (1 + 3 + 6 + 10 + 15 + 21 + 28 + 36) * MAPPING_WORDS);
    assert_eq!(binds, places as u64 * 6 * 8);
    assert_eq!(looks, places as u64 * 6 * 6);
}

/// About the lengths at which blocks of 16, 64 and 128 words end.
#[test]
fn every_word_of_larger_tables() {
    let mut binds = 0;
    for capacity in [9, 15, 16, 17, 18, 31, 32, 33, 34, 47, 63, 64, 65, 96, 97] {
        for count in [0, 1, 2, 3, capacity / 2, capacity - 2, capacity - 1] {
            let mut lent = Lent::new(511, capacity, count);
            for place in lent.behind() {
                lent.set(place, 1 << (place % 64));
                lent.refuse_some(place);
                lent.set(place, 0);
            }
            binds += lent.binds;
        }
    }
    println!("every word of larger tables: {binds} requests");
    assert!(binds >= 20_000);
}

/// Places of a run of words: all at its ends and about each multiple of 64 from them, and some
/// between.
fn places(words: usize) -> Vec<usize> {
    let near = |place: usize| {
        let from_end = words - 1 - place;
        let at_end = place < 70 || from_end < 70;
        let at_block = |distance: usize| [0, 1, 63].contains(&(distance % 64));
        at_end || at_block(place) || at_block(from_end) || place.is_multiple_of(61)
    };
    (0..words).filter(|&place| near(place)).collect()
}

#[test]
fn words_of_long_tables() {
    let (mut binds, mut looks, mut last) = (0, 0, 0);
    for (capacity, count) in [
        (512, 0),
        (1023, 3),
        (1024, 0),
        (1027, 3),
        (1029, 3),
        (2048, 1024),
        (4095, 1),
        (MOST_MAPPINGS, 0),
        (MOST_MAPPINGS, 3),
        (MOST_MAPPINGS, 4095),
    ] {
        let mut lent = Lent::new(521, capacity, count);
        let behind = lent.behind();
        for (turn, place) in places(behind.len()).into_iter().enumerate() {
            let place = behind.start + place;
            lent.set(place, values(place)[turn % 6]);
            lent.refuse_some(turn);
            lent.set(place, 0);
            last += u64::from(place + 1 == MOST_MAPPINGS * MAPPING_WORDS);
        }
        binds += lent.binds;
        looks += lent.looks;
    }
    println!("words of long tables: {binds} requests, {looks} look-ups, {last} of the last word");
    assert!(binds >= 10_000 && looks >= 5_000 && last == 3);
}

/// By look-ups, which are lent no operation words and so are quickly compared.
#[test]
fn every_word_of_the_longest_table() {
    let mut lent = Lent::new(526, MOST_MAPPINGS, 1);
    for place in lent.behind() {
        lent.set(place, values(place)[place % 6]);
        lent.refuse_look_up(WAYS[place / 6 % 2], lent.addresses[place % 3]);
        lent.set(place, 0);
    }
    assert_eq!(lent.looks, 16_380);
}

/// Two that add up to 0, that are alike, that have no bit in common.
#[test]
fn two_words() {
    let mut pairs = 0;
    let mut lent = Lent::new(531, 5, 2);
    let behind = lent.behind();
    for one in behind.clone() {
        for other in one + 1..behind.end {
            for [first, second] in [[1, u64::MAX], [1 << 63, 1 << 63], [7, 7], [1, 2]] {
                lent.set(one, first);
                lent.set(other, second);
                lent.refuse_all();
                pairs += 1;
            }
            lent.set(other, 0);
        }
        lent.set(one, 0);
    }
    assert_eq!(pairs, 66 * 4);
}

/// A request on two mappings in room for three, and how it is lent.
#[derive(Clone)]
struct Case {
    table: Table,
    list: usize,
    record: Record,
    record_bytes: usize,
}

/// A granted one: a page behind the last mapping.
fn without_fault() -> Case {
    let mut words = vec![0, 3 * PAGE, 7, 0, 4 * PAGE, PAGE, 8, PAGE];
    words.resize(3 * MAPPING_WORDS, 0);
    Case {
        table: Table {
            space: space_of([0, 64 * PAGE, 60 * PAGE, 4 * PAGE]),
            list: List::default(),
            words,
            count: 2,
        },
        list: least_operation_words(3),
        record: Record::plain(MAP, 9, 8 * PAGE, 0, PAGE),
        record_bytes: 40,
    }
}

/// The number of a fault, and what makes it.
type Fault = (u32, fn(&mut Case));

/// Each fault, and none.
const FAULTS: [Fault; 21] = [
    (12, |case| case.record_bytes = 39),
    (13, |case| case.record.op = 2),
    (14, |case| case.record.flags = 1),
    (14, |case| case.record.pad = 1),
    (1, |case| case.table.space.start = 1),
    (2, |case| case.table.words.truncate(11)),
    (2, |case| case.table.words.resize(16_388, 0)),
    (3, |case| case.list -= 1),
    (3, |case| case.list = 0),
    (4, |case| case.table.count = 4),
    (4, |case| case.table.count = u64::MAX),
    (5, |case| case.table.words[0] = 1),
    (5, |case| case.table.words[6] = 0),
    (6, |case| case.record.addr = 1),
    (6, |case| case.record.range = 0),
    (7, |case| case.record.addr = 64 * PAGE),
    (8, |case| case.record.addr = 60 * PAGE),
    (9, |case| case.record.handle = 0),
    (10, |case| case.record.bo_offset = LIMIT),
    // Into the middle of the first mapping: two more.
    (11, |case| case.record.addr = PAGE),
    (0, |_| {}),
];

/// What the model says to the case, which the library says too.
fn number(case: &Case, way: Way, by_record: bool) -> u32 {
    let bytes = &case.record.encode()[..case.record_bytes];
    let asking = match by_record {
        true => Asking::Bytes(bytes),
        false => Asking::Numbers(case.record.request()),
    };
    let model = model_answer(&case.table, case.list, asking);
    let mut caller = Caller::new(541);
    caller.lend(&case.table);
    caller.lend_operations(&vec![9; case.list]);
    caller.bind(way, &case.table, asking, &model);
    model.map_or_else(|refused| refused.number, |_| 0)
}

/// The same of a look-up.
fn number_looked_up(case: &Case, way: Way) -> u32 {
    let model = model_look(&case.table, PAGE);
    let mut caller = Caller::new(551);
    caller.lend(&case.table);
    caller.look_up(way, &case.table, PAGE, model);
    model.map_or_else(|refused| refused.number, |_| 0)
}

/// Asserts what a case is refused for, of which it has the fault of this number.
fn assert_numbers(case: &Case, fault: u32, request: u32, look_up: u32) {
    for way in WAYS {
        assert_eq!(number(case, way, true), request);
        // By numbers there is no length and are no flags.
        if ![12, 14].contains(&fault) {
            assert_eq!(number(case, way, false), request);
        }
        assert_eq!(number_looked_up(case, way), look_up, "beside {fault}");
    }
}

/// What stands before 17 in the order is told, what stands behind it is not.
#[test]
fn beside_other_faults() {
    let mut stale_cases = 0;
    for (fault, change) in FAULTS {
        let mut case = without_fault();
        change(&mut case);
        let of_table = if [1, 2, 4, 5].contains(&fault) {
            fault
        } else {
            0
        };
        assert_numbers(&case, fault, fault, of_table);
        for place in 2 * MAPPING_WORDS..3 * MAPPING_WORDS {
            let mut stale = case.clone();
            let Some(word) = stale.table.words.get_mut(place) else {
                continue;
            };
            *word = 1 << place;
            let request = if [12, 13, 14, 1, 2, 3, 4, 5].contains(&fault) {
                fault
            } else {
                17
            };
            let look_up = if of_table == 0 { 17 } else { of_table };
            assert_numbers(&stale, fault, request, look_up);
            stale_cases += 1;
        }
    }
    // One of them has a word less.
    assert_eq!(stale_cases, FAULTS.len() * MAPPING_WORDS - 1);
}

/// Asks a table in each way, and answers how many of the questions are granted or answered.
fn ask_good(random: &mut Random, table: &Table, good: &Good) -> u64 {
    let (records, addresses) = questions(good);
    let mut caller = Caller::new(random.next_u64());
    let mut fine = 0;
    for way in WAYS {
        for record in records {
            let asking = Asking::Numbers(record.request());
            let model = model_answer(table, room(table), asking);
            caller.lend(table);
            caller.lend_operations(&vec![3; room(table)]);
            caller.bind(way, table, asking, &model);
            fine += u64::from(model.is_ok());
        }
        for address in addresses {
            let model = model_look(table, address);
            caller.lend(table);
            caller.stir(address);
            caller.look_up(way, table, address, model);
            fine += u64::from(model.is_ok());
        }
    }
    fine
}

/// The words around the table are not zero: none of them is behind it.
#[test]
fn no_word_behind_a_full_table() {
    let mut random = Random::new(561);
    let mut asked = 0;
    for count in (1..=40).chain([63, 64, 65, 255, 256, 512, 1024, 4095, MOST_MAPPINGS]) {
        // One page each, so that the map takes no room.
        let space = space_of([PAGE, count as u64 * PAGE, 0, 0]);
        let good = fill_space(&mut random, space, count as u64);
        let fine = ask_good(&mut random, &good.table(0), &good);
        assert_eq!(fine, 10, "{count} mappings");
        asked += fine;
    }
    println!("no word behind a full table: {asked} questions");
}

/// Nothing but zeros behind the mappings: before, and after what leaves more mappings, as many,
/// fewer or none.
#[test]
fn zeros_behind() {
    let mut random = Random::new(571);
    let mut caller = Caller::new(572);
    let mut granted = 0;
    for (capacity, count) in [(5, 3), (16, 3), (64, 40), (1024, 3), (1029, 4), (4096, 3)] {
        let good = fill_space(&mut random, plain_spaces()[0], count);
        let table = good.table(capacity - good.mappings.len());
        let [first, .., last] = good.mappings[..] else {
            panic!("{count} mappings");
        };
        let end = last.address + last.size;
        for to in [first.address + PAGE, first.address + first.size, end] {
            for (op, handle) in [(MAP, 7), (UNMAP, 0)] {
                let record = Record::plain(op, handle, first.address, 0, to - first.address);
                let asking = Asking::Numbers(record.request());
                caller.compare(&table, room(&table), asking).expect("room");
                granted += 1;
            }
        }
        granted += ask_good(&mut random, &table, &good);
    }
    assert_eq!(granted, 6 * (6 + 10));
}

/// A request near the mappings, or anywhere where there are none.
fn next_record(random: &mut Random, good: &Good) -> Record {
    match random.below(4) {
        _ if good.mappings.is_empty() => good_record(random, &good.space),
        0 => good_record(random, &good.space),
        1 => near_record(random, good),
        _ => narrow_record(random, good),
    }
}

/// A table and a list that only calls write are never refused for stale words, and are left with
/// zeros.
#[test]
fn tables_that_only_calls_write() {
    const STEPS: u64 = 300;
    let mut random = Random::new(581);
    let mut caller = Caller::new(582);
    let (mut granted, mut fewer, mut without_room) = (0, 0, 0);
    for space in plain_spaces().into_iter().chain(small_spaces()) {
        for capacity in [1, 2, 5, 17, 40] {
            let list = good_list(&mut random, &space, &[]);
            let mappings = Vec::new();
            let empty = Good {
                space,
                list,
                mappings,
            };
            let mut table = empty.table(capacity);
            for _ in 0..STEPS {
                let record = next_record(&mut random, &table.good());
                let asking = Asking::Numbers(record.request());
                match caller.compare(&table, room(&table), asking) {
                    Ok(grant) => {
                        granted += 1;
                        fewer += u64::from(grant.count < table.count);
                        table = caller.left(space, &grant);
                    }
                    Err(refused) => {
                        assert!(![STALE_WORDS, BAD_RANGES].contains(&refused.number));
                        without_room += u64::from(refused.number == 11);
                    }
                }
                assert!(table.behind().iter().all(|&word| word == 0));
                assert!(table.list.behind().iter().all(|&word| word == 0));
            }
        }
    }
    println!(
        "only calls write: {granted} granted, {fewer} with fewer, {without_room} without room"
    );
    assert!(granted >= 5_000 && fewer >= 500 && without_room >= 500);
}
