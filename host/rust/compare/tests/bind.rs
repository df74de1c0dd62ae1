//! Compares the library's map and unmap to the model's, call by call.

use waylluqen_compare::calls::{Asking, Caller};
use waylluqen_compare::library::{Bound, ByNumber, OF_REQUESTS};
use waylluqen_compare::lists::{every_list, good_list, mappings_at, Faults, List};
use waylluqen_compare::marks::Marks;
use waylluqen_compare::near::{disturb, near_record, widen};
use waylluqen_compare::numbers::{space_of, LIMIT};
use waylluqen_compare::paging::assert_pages;
use waylluqen_compare::requests::{good_record, place, LONGEST_RECORD};
use waylluqen_compare::tables::{
    any_table, fill_space, good_table, large_spaces, plain_spaces, small_spaces,
    some_operation_words, Good, Table, MANY_MAPPINGS,
};
use waylluqen_model::bind::{least_operation_words, KIND_MAP};
use waylluqen_model::random::Random;
use waylluqen_model::{space_holds, Grant, Operation, Record, Request, Space};
use waylluqen_model::{MAP, MAPPING_WORDS, MOST_MAPPINGS, PAGE, RANGE_WORDS, SPARSE, UNMAP};

/// Compares, and counts how often each answer and each kind of cut came.
struct Tally {
    caller: Caller,
    calls: u64,
    /// Grants of maps and of unmaps.
    granted: [u64; 2],
    refused: ByNumber,
    /// Of them those with the flag.
    refused_flagged: ByNumber,
    /// Grants that hit no mapping, one, two, more.
    hits: [u64; 4],
    /// Remaps with a lower rest alone, an upper rest alone, both.
    rests: [u64; 3],
    /// Requests that leave a lower rest of one mapping and an upper rest of another.
    both_ends: u64,
    marks: Marks,
    /// Grants that add a sparse range, and that remove one.
    flagged: [u64; 2],
    /// Granted requests beside lists of no word, of no range, of some, and full ones.
    lists: [u64; 4],
    /// Lists that were refused.
    faults: Faults,
    /// Maps that a full table has room for only because they free some.
    freed: u64,
    /// Grants on full tables of as many mappings as there may be.
    on_most: u64,
    /// Good spaces with nothing reserved, all, the lower end, the upper end, a part between.
    reserved: [u64; 5],
}

fn assert_each(kinds: &[(&str, &[u64])], least: u64) {
    for (kind, times) in kinds {
        let enough = times.iter().all(|&times| times >= least);
        assert!(enough, "{kind} came too rarely: {times:?}");
    }
}

/// Which part of a good space is reserved, as its place in `Tally::reserved`.
fn reserved_part(space: &Space) -> usize {
    let at_start = space.reserved_start == space.start;
    let reserved_end = space.reserved_start + space.reserved_size;
    let at_end = reserved_end == space.start + space.size;
    match (space.reserved_size, at_start, at_end) {
        (0, ..) => 0,
        (_, true, true) => 1,
        (_, true, false) => 2,
        (_, false, true) => 3,
        (_, false, false) => 4,
    }
}

/// Of no word, of no range, of some, or full: the place in `Tally::lists`.
fn list_kind(list: &List) -> usize {
    match (list.words.len(), list.count) {
        (0, _) => 0,
        (_, 0) => 1,
        (words, count) if words as u64 > count * RANGE_WORDS as u64 => 2,
        _ => 3,
    }
}

impl Tally {
    fn new(seed: u64) -> Tally {
        Tally {
            caller: Caller::new(seed),
            calls: 0,
            granted: [0; 2],
            refused: ByNumber::default(),
            refused_flagged: ByNumber::default(),
            hits: [0; 4],
            rests: [0; 3],
            both_ends: 0,
            marks: Marks::default(),
            flagged: [0; 2],
            lists: [0; 4],
            faults: Faults::default(),
            freed: 0,
            on_most: 0,
            reserved: [0; 5],
        }
    }

    fn compare(&mut self, table: &Table, operation_words: usize, asking: Asking) -> Bound {
        let answer = self.caller.compare(table, operation_words, asking);
        self.calls += 1;
        if space_holds(&table.space) {
            self.reserved[reserved_part(&table.space)] += 1;
        }
        match &answer {
            Ok(grant) => self.note_grant(table, grant),
            Err(refused) => self.note_refusal(table, asking, refused.number),
        }
        answer
    }

    fn note_refusal(&mut self, table: &Table, asking: Asking, number: u32) {
        self.refused[number as usize] += 1;
        self.refused_flagged[number as usize] += u64::from(asking.is_sparse());
        if number == 18 {
            self.faults.count(&table.space, &table.list);
        }
    }

    /// The same where there are operation words enough.
    fn compare_numbers(&mut self, table: &Table, request: &Request) -> Bound {
        let least = least_operation_words(table.words.len() / MAPPING_WORDS);
        self.compare(table, least, Asking::Numbers(*request))
    }

    fn note_grant(&mut self, table: &Table, grant: &Grant) {
        self.lists[list_kind(&table.list)] += 1;
        let ranges = grant.ranges.len() as u64;
        if ranges != table.list.count {
            self.flagged[usize::from(ranges < table.list.count)] += 1;
            return;
        }
        let is_map = |operation: &Operation| operation.kind == KIND_MAP;
        let maps = grant.operations.last().is_some_and(is_map);
        let cuts = &grant.operations[..grant.operations.len() - usize::from(maps)];
        self.granted[usize::from(!maps)] += 1;
        self.hits[cuts.len().min(3)] += 1;
        for cut in cuts {
            match (cut.lower, cut.upper) {
                (Some(_), None) => self.rests[0] += 1,
                (None, Some(_)) => self.rests[1] += 1,
                (Some(_), Some(_)) => self.rests[2] += 1,
                (None, None) => {}
            }
        }
        if let [first, .., last] = cuts {
            self.both_ends += u64::from(first.lower.is_some() && last.upper.is_some());
        }
        let full = table.count as usize * MAPPING_WORDS == table.words.len();
        self.freed += u64::from(maps && full);
        self.on_most += u64::from(table.count as usize == MOST_MAPPINGS);
        self.marks.count(grant);
    }

    /// Every refusal, every kind of grant and every kind of cut came at least `least` times; and with
    /// the flag too each refusal that there is of such a request.
    fn assert_all(&self, least: u64) {
        for number in OF_REQUESTS {
            let times = self.refused[number as usize];
            assert!(times >= least, "refusal {number} came only {times} times");
        }
        for number in [1, 2, 3, 4, 5, 6, 7, 8, 9, 11, 17, 18, 19, 20] {
            let times = self.refused_flagged[number];
            assert!(times >= least, "{number} with the flag: only {times} times");
        }
        assert_eq!(self.refused_flagged[10], 0);
        assert!(self.without_room().iter().all(|&times| times >= least));
        let kinds = [
            ("granted", &self.granted[..]),
            ("hits", &self.hits[..]),
            ("rests", &self.rests[..]),
            ("both ends", &[self.both_ends]),
            ("with the flag", &self.flagged[..]),
            ("lists", &self.lists[..]),
            ("freed", &[self.freed]),
            ("reserved", &self.reserved[..]),
        ];
        assert_each(&kinds, least);
        self.assert_marks(least);
        self.faults.assert_each(least);
    }

    /// Requests for which the table has no room, and for which the list has none.
    fn without_room(&self) -> [u64; 2] {
        let of_list = self.refused_flagged[11];
        [self.refused[11] - of_list, of_list]
    }

    /// Every form of the keep mark, and all that comes near it, came at least `least` times.
    fn assert_marks(&self, least: u64) {
        assert_each(&self.marks.forms(), least);
    }

    /// Every number of hits and every kind of rest came, and so did full tables.
    fn assert_edges(&self) {
        assert!(self.hits.iter().all(|&times| times >= 100));
        assert!(self.rests.iter().all(|&times| times >= 20));
        assert!(self.refused[11] >= 100 && self.freed >= 100);
    }

    /// Seen with `cargo test -- --nocapture`.
    fn print(&self, test: &str) {
        println!(
            "{test}: {} calls, granted {:?}, with the flag {:?}, refused {:?}, of them with the flag {:?}, \
             hits {:?}, rests {:?}, both ends {}, freed {}, on most {}, reserved {:?}, lists {:?}, \
             {:?}, {:?}",
            self.calls,
            self.granted,
            self.flagged,
            &self.refused[1..],
            &self.refused_flagged[1..],
            self.hits,
            self.rests,
            self.both_ends,
            self.freed,
            self.on_most,
            self.reserved,
            self.lists,
            self.faults,
            self.marks
        );
    }
}

/// The same request by numbers, and as a record.
fn ask_both(random: &mut Random, tally: &mut Tally, table: &Table, record: &Record) {
    let mut buffer = [0; 8 + LONGEST_RECORD];
    let bytes = place(random, &record.encode(), &mut buffer);
    let words = some_operation_words(random, table.words.len());
    tally.compare(table, words, Asking::Bytes(bytes)).ok();
    let mut request = record.request();
    if random.once_in(16) {
        widen(random, &mut request);
    }
    tally.compare(table, words, Asking::Numbers(request)).ok();
}

#[test]
fn good_tables_and_those_near_them() {
    const TABLES: u64 = 200_000;
    const ROUNDS: u64 = 10;
    let mut random = Random::new(101);
    let mut tally = Tally::new(102);
    for turn in 0..TABLES {
        // Small tables are quick; some are as large as they may be.
        let largest = match turn % 256 {
            0 => MOST_MAPPINGS,
            128 => MANY_MAPPINGS,
            _ => 12,
        };
        let good = good_table(&mut random, largest as u64);
        let spare = random
            .pick(&[0, 0, 1, 2, 3])
            .min(MOST_MAPPINGS - good.mappings.len());
        let whole = good.table(spare);
        for _ in 0..ROUNDS {
            let mut table = whole.clone();
            let mut record = near_record(&mut random, &good);
            disturb(&mut random, &good, &mut table, &mut record);
            ask_both(&mut random, &mut tally, &table, &record);
        }
    }
    tally.print("good tables and those near them");
    tally.assert_all(1000);
    assert!(tally.calls >= 2_000_000);
    let granted: u64 = tally.granted.iter().chain(&tally.flagged).sum();
    assert!(5 * granted > 2 * tally.calls, "only {granted} grants");
    assert!(tally.on_most >= 500, "only {} grants", tally.on_most);
}

#[test]
fn any_words() {
    const INPUTS: u64 = 100_000;
    let mut random = Random::new(111);
    let mut tally = Tally::new(112);
    for _ in 0..INPUTS {
        let mut table = any_table(&mut random);
        if random.once_in(4) {
            table.recount(&mut random, 0);
        }
        let space = match random.below(4) {
            0 => space_of([0, LIMIT, 0, 0]),
            _ if space_holds(&table.space) => table.space,
            _ => space_of([0, 16 * PAGE, 0, 0]),
        };
        let record = good_record(&mut random, &space);
        ask_both(&mut random, &mut tally, &table, &record);
    }
    tally.print("any words");
    for number in [1, 2, 3, 4, 5, 7, 8, 17, 18] {
        let times = tally.refused[number];
        assert!(times >= 1000, "refusal {number} came only {times} times");
    }
    assert!(tally.granted.iter().all(|&times| times >= 1000));
}

/// Each op with each range between two of the ends, in a table of so many mappings and room for
/// `spare` more.
fn ask_edges(random: &mut Random, tally: &mut Tally, space: Space, [mappings, spare]: [usize; 2]) {
    let good = fill_space(random, space, mappings as u64);
    assert_eq!(good.mappings.len(), mappings);
    let table = good.table(spare);
    let ends = page_ends(&good);
    for (at, &from) in ends.iter().enumerate() {
        for &to in &ends[at..] {
            ask_range(tally, &table, from, to);
        }
    }
}

/// Tables that are full or nearly so.
#[test]
fn every_edge_of_full_tables() {
    let mut random = Random::new(121);
    let mut tally = Tally::new(122);
    for space in plain_spaces() {
        for mappings in [1, 2, 17, 100, 511, 512] {
            for spare in [0, 1, 2] {
                ask_edges(&mut random, &mut tally, space, [mappings, spare]);
            }
        }
    }
    tally.print("every edge of full tables");
    tally.assert_edges();
}

#[test]
fn every_edge_of_large_tables() {
    let mut random = Random::new(125);
    let mut tally = Tally::new(126);
    for space in large_spaces() {
        for size in [
            [513, 0],
            [1024, 1],
            [4094, 2],
            [4095, 0],
            [4095, 1],
            [4096, 0],
        ] {
            ask_edges(&mut random, &mut tally, space, size);
        }
    }
    tally.print("every edge of large tables");
    tally.assert_edges();
    assert!(tally.on_most >= 500, "only {} grants", tally.on_most);
}

/// The ends of the first, a middle, the last and the widest mapping, and of the space, and a page
/// beside each.
fn page_ends(good: &Good) -> Vec<u64> {
    let mappings = &good.mappings;
    let chosen = [0, mappings.len() / 2, mappings.len() - 1].map(|place| mappings[place]);
    let widest = mappings.iter().copied().max_by_key(|mapping| mapping.size);
    let space_end = good.space.start + good.space.size;
    let mut ends = vec![good.space.start, space_end];
    for mapping in chosen.into_iter().chain(widest) {
        ends.extend([mapping.address, mapping.address + mapping.size]);
    }
    let beside = |end: u64| [end.wrapping_sub(PAGE), end, end.wrapping_add(PAGE)];
    let mut all: Vec<u64> = ends.into_iter().flat_map(beside).collect();
    all.sort_unstable();
    all.dedup();
    all
}

fn ask_range(tally: &mut Tally, table: &Table, from: u64, to: u64) {
    let size = to.wrapping_sub(from);
    for (op, object, offset, flags) in [
        (MAP, 7, PAGE, 0),
        (UNMAP, 0, 0, 0),
        (MAP, 0, 0, SPARSE),
        (UNMAP, 0, 0, SPARSE),
    ] {
        let request = Request {
            op,
            address: from,
            size,
            object,
            offset,
            flags,
        };
        tally.compare_numbers(table, &request).ok();
    }
}

#[test]
fn words_that_are_no_operation() {
    let mapping = [PAGE, PAGE, 7, 0];
    let none = [0; MAPPING_WORDS];
    let read = |kind: u64, keep: u64, lower: [u64; 4], upper: [u64; 4]| {
        let words = [&[kind, keep][..], &mapping, &lower, &upper].concat();
        let words = words.try_into().expect("fourteen words");
        waylluqen::Operation::read(&words)
    };
    assert!(read(0, 0, none, none).is_some());
    assert!(read(1, 1, mapping, none).is_some());
    assert!(read(2, 1, none, none).is_some());
    // A kind or a keep too high, a map with keep, rests where there are none, a remap without.
    assert_eq!(read(3, 0, none, none), None);
    assert_eq!(read(2, 2, none, none), None);
    assert_eq!(read(0, 1, none, none), None);
    assert_eq!(read(0, 0, none, mapping), None);
    assert_eq!(read(2, 0, mapping, none), None);
    assert_eq!(read(1, 0, none, none), None);
}

/// Follows a grant page by page, and answers whether it was one.
fn check_pages(tally: &mut Tally, table: &Table, request: &Request) -> bool {
    let Ok(grant) = tally.compare_numbers(table, request) else {
        return false;
    };
    let new = tally.caller.left(table.space, &grant);
    assert_pages(table, &new, request, &grant, tally.caller.operations());
    true
}

#[test]
fn page_by_page() {
    const TABLES: u64 = 30_000;
    const ROUNDS: u64 = 5;
    let mut random = Random::new(131);
    let mut tally = Tally::new(132);
    let mut checked = 0;
    for _ in 0..TABLES {
        let space = random.pick(&small_spaces());
        let most = 1 + random.below(6);
        let good = fill_space(&mut random, space, most);
        let spare = random.below(3) as usize;
        let table = good.table(spare);
        for _ in 0..ROUNDS {
            let request = near_record(&mut random, &good).request();
            checked += u64::from(check_pages(&mut tally, &table, &request));
        }
    }
    tally.print("page by page");
    println!("  {checked} grants were followed page by page");
    assert!(checked >= TABLES * ROUNDS / 2);
    assert!(tally.hits.iter().all(|&times| times >= 1000));
    assert!(tally.rests.iter().all(|&times| times >= 1000));
    assert!(tally.flagged.iter().all(|&times| times >= 1000));
    tally.assert_marks(50);
}

/// Every range of so many pages with each kind of request, followed page by page. One of the maps
/// goes on as the mappings of its object do.
fn check_ranges(tally: &mut Tally, table: &Table, pages: u64) {
    for from in 0..pages {
        for to in from + 1..=pages {
            for (op, object, offset, flags) in [
                (MAP, 7, from + 1, 0),
                (MAP, 9, 4, 0),
                (UNMAP, 0, 0, 0),
                (MAP, 0, 0, SPARSE),
                (UNMAP, 0, 0, SPARSE),
            ] {
                let request = Request {
                    op,
                    address: from * PAGE,
                    size: (to - from) * PAGE,
                    object,
                    offset: offset * PAGE,
                    flags,
                };
                check_pages(tally, table, &request);
            }
        }
    }
}

/// One of the maps goes on as the mappings of its object do, before it and behind it: nothing is
/// joined.
#[test]
fn every_table_of_six_pages() {
    const PAGES: u64 = 6;
    let mut random = Random::new(140);
    let mut tally = Tally::new(141);
    let space = space_of([0, PAGES * PAGE, 0, 0]);
    let of_one = every_list(PAGES as u32).map(|ranges| mappings_at(&ranges, [7, 7]));
    let of_two = every_list(PAGES as u32).map(|ranges| mappings_at(&ranges, [7, 8]));
    for mappings in of_one.chain(of_two) {
        for spare in 0..=2 {
            let good = Good {
                space,
                list: good_list(&mut random, &space, &mappings),
                mappings: mappings.clone(),
            };
            check_ranges(&mut tally, &good.table(spare), PAGES);
        }
    }
    tally.print("every table of six pages");
    assert!(tally.refused[2] > 0);
    assert!(tally.without_room().iter().all(|&times| times >= 100));
    assert!(tally.flagged.iter().all(|&times| times >= 100));
    assert!(tally.refused[19] >= 100 && tally.refused[20] >= 100);
    assert!(tally.marks.kept.iter().all(|&times| times >= 100));
    assert!(tally.marks.around >= 100);
}
