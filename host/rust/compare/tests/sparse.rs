//! Compares requests with the flag to the model, and what is sparse afterwards: mixed with others in
//! long histories, page by page; every list of a few pages; long lists at every place.

use waylluqen::Ranges;
use waylluqen_compare::calls::{model_answer, model_look, Asking, Caller, Way};
use waylluqen_compare::library::{self, Bound, ByNumber};
use waylluqen_compare::lists::{every_list, mappings_at, List};
use waylluqen_compare::near::{narrow_record, near_record, near_sparse_record};
use waylluqen_compare::numbers::{space_of, LIMIT};
use waylluqen_compare::paging::{assert_pages, assert_painted};
use waylluqen_compare::requests::{disturb_record, good_record, MAP, UNMAP};
use waylluqen_compare::sights::Sights;
use waylluqen_compare::tables::{boundaries, plain_spaces, small_spaces, Good, Table};
use waylluqen_model::bind::least_operation_words;
use waylluqen_model::random::Random;
use waylluqen_model::{self as model, Mapping, Pages, Record, Request, Space, SparseRange};
use waylluqen_model::{MAPPING_WORDS, MOST_RANGES, PAGE, SPARSE};

const WAYS: [Way; 2] = [Way::Words, Way::Types];

fn room(table: &Table) -> usize {
    least_operation_words(table.words.len() / MAPPING_WORDS)
}

fn range(start: u64, size: u64) -> SparseRange {
    SparseRange { start, size }
}

/// A space with nothing in it, in room for so many ranges and mappings.
fn empty(space: Space, ranges: usize, mappings: usize) -> Table {
    let empty = Good {
        space,
        list: List::of(&[], ranges),
        mappings: Vec::new(),
    };
    empty.table(mappings)
}

/// How often each answer came, of requests without the flag and with it.
#[derive(Debug, Default)]
struct Answers {
    plain: ByNumber,
    flagged: ByNumber,
    /// Grants that leave a range with something mapped in it.
    over_mappings: u64,
    /// The most ranges that a grant left.
    most: u64,
}

impl Answers {
    fn count(&mut self, asking: Asking, bound: &Bound) {
        let number = bound.as_ref().map_or_else(|refused| refused.number, |_| 0);
        let answers = match asking.is_sparse() {
            true => &mut self.flagged,
            false => &mut self.plain,
        };
        answers[number as usize] += 1;
        if let Ok(grant) = bound {
            let mapped = |range: &SparseRange| {
                let extent = range.extent();
                let shares = |one: &Mapping| one.extent().shares_byte_with(&extent);
                grant.mappings.iter().any(shares)
            };
            self.over_mappings += u64::from(grant.ranges.iter().any(mapped));
            self.most = self.most.max(grant.ranges.len() as u64);
        }
    }

    /// Granted, and refused with each number that there is, at least `least` times; those that
    /// requests near what is there seldom have, 7 and 8, a tenth of it.
    fn assert_each(&self, least: u64) {
        for number in [0, 6, 7, 8, 9, 11, 19, 20] {
            let times = self.flagged[number];
            let least = if [7, 8].contains(&number) {
                least / 10
            } else {
                least
            };
            assert!(times >= least, "{number} with the flag: only {times} times");
        }
        for number in [0, 6, 7, 8, 9, 11, 13, 14] {
            let times = self.plain[number];
            assert!(times >= least, "{number} came only {times} times");
        }
        assert!(self.over_mappings >= least);
    }
}

/// What is asked next: near what is there, with the flag or without, or anywhere; some are bad.
fn next_record(random: &mut Random, good: &Good) -> Record {
    let mut record = match random.below(8) {
        0 => good_record(random, &good.space),
        1..=3 => near_sparse_record(random, good),
        _ if good.mappings.is_empty() => good_record(random, &good.space),
        4..=5 => narrow_record(random, good),
        _ => near_record(random, good),
    };
    if random.once_in(6) {
        disturb_record(random, &mut record, &good.space);
    }
    record
}

/// Asserts that what is answered is what the pages say. They know of no rule but 19 and 20: a
/// request that they let pass is refused for itself or for want of room.
fn assert_told(pages: &Pages, asking: Asking, space: &Space, bound: &Bound) {
    let Some(request) = asking.request() else {
        return;
    };
    if !request.is_sparse() || model::request_refusal(&request, space).is_some() {
        return;
    }
    let told = pages.refusal(&request);
    match bound {
        Ok(_) => assert_eq!(told, None, "{request:x?}"),
        Err(refused) => assert_eq!(refused.number, told.unwrap_or(11), "{request:x?}"),
    }
}

/// A history of so many requests, each on what the one before left, followed page by page from the
/// start on.
fn follow(
    random: &mut Random,
    caller: &mut Caller,
    answers: &mut Answers,
    start: &Table,
    steps: u64,
) {
    let mut table = start.clone();
    let Good { mappings, list, .. } = table.good();
    let mut pages = Pages::new(&table.space, &mappings, &list.ranges());
    caller.lend(&table);
    for _ in 0..steps {
        let record = next_record(random, &table.good());
        let bytes = record.encode();
        let way = random.pick(&WAYS);
        let by_numbers = random.once_in(2) && (way == Way::Types || record.flags == 0);
        let asking = match by_numbers {
            true => Asking::Numbers(record.request()),
            false => Asking::Bytes(&bytes),
        };
        let bound = model_answer(&table, room(&table), asking);
        caller.lend_operations(&vec![random.next_u64(); room(&table)]);
        caller.bind(way, &table, asking, &bound);
        assert_told(&pages, asking, &table.space, &bound);
        answers.count(asking, &bound);
        if let Ok(grant) = &bound {
            let request = asking.request().expect("it is granted");
            let left = caller.left(table.space, grant);
            assert_pages(&table, &left, &request, grant, caller.operations());
            pages.ask(&request);
            assert_painted(&left, &pages);
            table = left;
        }
    }
}

#[test]
fn histories_page_by_page() {
    const STEPS: u64 = 400;
    let mut random = Random::new(701);
    let mut caller = Caller::new(702);
    let mut answers = Answers::default();
    let longer = [
        [0, 24 * PAGE, 10 * PAGE, 2 * PAGE],
        [16 * PAGE, 40 * PAGE, 0, 0],
        [LIMIT - 32 * PAGE, 32 * PAGE, LIMIT - 32 * PAGE, PAGE],
    ];
    let longer = longer.map(space_of);
    for space in small_spaces().into_iter().chain(longer) {
        for ranges in [0, 1, 2, 3, 5, 8, MOST_RANGES] {
            for mappings in [1, 3, 10] {
                let start = empty(space, ranges, mappings);
                follow(&mut random, &mut caller, &mut answers, &start, STEPS);
            }
        }
    }
    println!("histories page by page: {answers:?}");
    answers.assert_each(300);
}

/// From lists that are full or nearly so, in a space of many pages.
#[test]
fn histories_with_long_lists() {
    const STEPS: u64 = 1000;
    let mut random = Random::new(711);
    let mut caller = Caller::new(712);
    let mut answers = Answers::default();
    let space = space_of([16 * PAGE, 160 * PAGE, 150 * PAGE, 3 * PAGE]);
    for (ranges, room) in [(20, 21), (31, 33), (62, 63), (60, 64), (64, 64)] {
        let mut start = empty(space, room, 12);
        start.list = List::of(&even(&space, ranges), room);
        follow(&mut random, &mut caller, &mut answers, &start, STEPS);
    }
    println!("histories with long lists: {answers:?}");
    assert_eq!(answers.most, MOST_RANGES as u64);
    assert!([0, 11, 19, 20]
        .iter()
        .all(|&number| answers.flagged[number] >= 20));
}

/// Each request with the flag for some of the pages, each way by turns, followed page by page.
fn ask_flagged(caller: &mut Caller, answers: &mut Answers, table: &Table, pages: u64) {
    let mut turn = 0;
    for from in 0..pages {
        for to in from + 1..=pages {
            for op in [MAP, UNMAP] {
                let record = Record::sparse(op, from * PAGE, (to - from) * PAGE);
                let bytes = record.encode();
                let (way, asking) = match turn % 3 {
                    0 => (Way::Words, Asking::Bytes(&bytes)),
                    1 => (Way::Types, Asking::Bytes(&bytes)),
                    _ => (Way::Types, Asking::Numbers(record.request())),
                };
                turn += 1;
                let bound = model_answer(table, room(table), asking);
                caller.lend(table);
                caller.lend_operations(&vec![turn; room(table)]);
                caller.bind(way, table, asking, &bound);
                answers.count(asking, &bound);
                if let Ok(grant) = &bound {
                    let left = caller.left(table.space, grant);
                    let request = record.request();
                    assert_pages(table, &left, &request, grant, caller.operations());
                }
            }
        }
    }
}

/// Each list beside each table, in a space of so many pages: every request with the flag, and what
/// each page shows.
#[test]
fn every_list_and_table_of_four_pages() {
    const PAGES: u32 = 4;
    let mut caller = Caller::new(721);
    let (mut answers, mut sights) = (Answers::default(), Sights::default());
    let all: Vec<_> = every_list(PAGES).collect();
    for ranges in &all {
        for mapped in &all {
            for spare in [0, 1] {
                let mut good = Good {
                    space: space_of([0, u64::from(PAGES) * PAGE, 0, 0]),
                    list: List::of(ranges, ranges.len() + spare),
                    mappings: mappings_at(mapped, [7, 7]),
                };
                let table = good.table(1);
                ask_flagged(&mut caller, &mut answers, &table, PAGES.into());
                look_at_all(&mut caller, &mut sights, &mut good);
            }
        }
    }
    println!("every list and table of four pages: {answers:?}, {sights:?}");
    assert!([0, 11, 19, 20]
        .iter()
        .all(|&number| answers.flagged[number] >= 1000));
    assert!(sights.kinds().iter().all(|&(_, times)| times >= 100));
}

/// Looks at every boundary in both ways.
fn look_at_all(caller: &mut Caller, sights: &mut Sights, good: &mut Good) {
    let table = good.table(1);
    caller.lend(&table);
    for address in boundaries(good) {
        let model = model_look(&table, address);
        for way in WAYS {
            caller.look_up(way, &table, address, model);
        }
        sights.count(&table, address, model.expect("a good table"));
    }
}

/// So many ranges of one page each, with a free one before each.
fn even(space: &Space, count: usize) -> Vec<SparseRange> {
    let each = |place: u64| range(space.start + (1 + 2 * place) * PAGE, PAGE);
    (0..count as u64).map(each).collect()
}

/// A range more at each place of a list, and each of its ranges less, and both refused by a page
/// more: at every length there is.
#[test]
fn every_place_of_every_list() {
    let mut caller = Caller::new(731);
    let mut answers = Answers::default();
    let space = space_of([16 * PAGE, 200 * PAGE, 0, 0]);
    for count in 0..=MOST_RANGES {
        for spare in [0, 1, 5] {
            let ranges = even(&space, count);
            let room = (count + spare).min(MOST_RANGES);
            let mut table = empty(space, room, 1);
            table.list = List::of(&ranges, room);
            for place in 0..=count as u64 {
                let free = space.start + 2 * place * PAGE;
                for (op, addr, pages) in [
                    (MAP, free, 1),
                    (MAP, free, 2),
                    (UNMAP, free + PAGE, 1),
                    (UNMAP, free + PAGE, 2),
                ] {
                    let record = Record::sparse(op, addr, pages * PAGE).encode();
                    let asking = Asking::Bytes(&record);
                    let bound = caller.compare(&table, self::room(&table), asking);
                    answers.count(asking, &bound);
                }
            }
        }
    }
    println!("every place of every list: {answers:?}");
    assert!([0, 11, 19, 20]
        .iter()
        .all(|&number| answers.flagged[number] >= 1000));
    assert_eq!(answers.most, MOST_RANGES as u64);
}

/// By the types flags come with numbers of 64 bits, which a record can't hold.
#[test]
fn numbers_with_flags() {
    let mut caller = Caller::new(741);
    let mut answers = Answers::default();
    let mut table = empty(space_of([0, 16 * PAGE, 12 * PAGE, PAGE]), 2, 2);
    table.list = List::of(&[range(0, 2 * PAGE)], 2);
    let wide = 1 << 32;
    for op in [0, 1, 2, wide, wide + 1, u64::MAX] {
        for flags in [0, SPARSE, 1, 257, wide, wide + SPARSE, u64::MAX] {
            for object in [0, 1, wide, wide + 1, u64::MAX] {
                for offset in [0, 1, PAGE, LIMIT, u64::MAX - PAGE + 1] {
                    for (address, size) in [(0, 2 * PAGE), (2 * PAGE, PAGE), (12 * PAGE, PAGE)] {
                        let asking = Asking::Numbers(Request {
                            op,
                            address,
                            size,
                            object,
                            offset,
                            flags,
                        });
                        let bound = model_answer(&table, room(&table), asking);
                        caller.lend(&table);
                        caller.lend_operations(&vec![7; room(&table)]);
                        caller.bind(Way::Types, &table, asking, &bound);
                        answers.count(asking, &bound);
                    }
                }
            }
        }
    }
    println!("numbers with flags: {answers:?}");
    assert!([0, 6, 8, 9, 19, 20]
        .iter()
        .all(|&number| answers.flagged[number] > 0));
    assert!([0, 6, 9, 13, 14]
        .iter()
        .all(|&number| answers.plain[number] > 0));
}

/// A list of no word is the one that a table has by itself; with a count it is a bad one.
#[test]
fn without_a_list() {
    let space = library::space(&space_of([0, 16 * PAGE, 0, 0]));
    let mut words = [0, PAGE, 7, 0, 0, 0, 0, 0];
    let mut list = [0; 42];
    let add = waylluqen::Request::map_sparse(4 * PAGE, PAGE);
    let remove = waylluqen::Request::unmap_sparse(4 * PAGE, PAGE);
    let mut answers = |ranges: Option<Ranges>| {
        let table = waylluqen::Table::with_count(&mut words, 1);
        let mut table = match ranges {
            Some(ranges) => table.with_ranges(ranges),
            None => table,
        };
        let looked = table.lookup(space, PAGE);
        let added = table.bind(space, add, &mut list).err();
        let removed = table.bind(space, remove, &mut list).err();
        let unmap = waylluqen::Request::unmap(8 * PAGE, PAGE);
        (
            looked,
            added,
            removed,
            table.bind(space, unmap, &mut list).err(),
        )
    };
    let by_itself = answers(None);
    assert_eq!(by_itself, answers(Some(Ranges::default())));
    assert_eq!(by_itself, answers(Some(Ranges::with_count(&mut [], 0))));
    assert_eq!(by_itself, answers(Some(Ranges::empty(&mut []))));
    use waylluqen::Refusal::{BadRanges, NoRoom, NoSuchRange};
    assert_eq!(by_itself.1, Some(NoRoom));
    assert_eq!((by_itself.2, by_itself.3), (Some(NoSuchRange), None));
    let counted = answers(Some(Ranges::with_count(&mut [], 1)));
    let bad = Some(BadRanges);
    assert_eq!(counted, (Err(BadRanges), bad, bad, bad));
}

/// Both ends of all that there is, and all of it, in one range.
#[test]
fn ranges_at_the_ends() {
    let mut caller = Caller::new(751);
    let mut sights = Sights::default();
    for space in plain_spaces() {
        let end = space.start + space.size;
        let parts = [
            (space.start, end),
            (end - PAGE, end),
            (space.start, space.start + PAGE),
        ];
        for (start, end) in parts {
            let mut table = empty(space, 2, 1);
            let record = Record::sparse(MAP, start, end - start).encode();
            let bound = caller.compare(&table, room(&table), Asking::Bytes(&record));
            let Ok(grant) = bound else {
                continue;
            };
            table = caller.left(space, &grant);
            look_at_all(&mut caller, &mut sights, &mut table.good());
            let record = Record::sparse(UNMAP, start, end - start).encode();
            let bound = caller.compare(&table, room(&table), Asking::Bytes(&record));
            assert!(bound.is_ok_and(|grant| grant.ranges.is_empty()));
        }
    }
    println!("ranges at the ends: {sights:?}");
    assert!(sights.sparse >= 20 && sights.outside >= 20);
}
