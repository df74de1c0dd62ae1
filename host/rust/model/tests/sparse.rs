//! Lists of sparse ranges, what requests with the flag do to them, and what look-ups tell of them:
//! worked out by hand, in pages.

use waylluqen_model::bind::least_operation_words;
use waylluqen_model::{bind, bind_record, lookup, Grant, List, Mapping, Pages, Record, Refused};
use waylluqen_model::{Request, Seen, Shown, Space, SparseRange};
use waylluqen_model::{MAP, MAPPING_WORDS, MOST_RANGES, PAGE, RANGE_WORDS, SPARSE, UNMAP};

/// Pages 8 to 40, of which 24 to 26 are reserved.
const SPACE: Space = Space {
    start: 8 * PAGE,
    size: 32 * PAGE,
    reserved_start: 24 * PAGE,
    reserved_size: 2 * PAGE,
};

const LAST_PAGE: u64 = u64::MAX - PAGE + 1;

/// First page and page behind the last.
type Drawn = [u64; 2];

fn range([first, end]: Drawn) -> SparseRange {
    SparseRange {
        start: first * PAGE,
        size: (end - first) * PAGE,
    }
}

/// What is lent: the words of the table and of the list, and what they hold.
#[derive(Clone)]
struct Lent {
    space: Space,
    list: Vec<u64>,
    ranges: u64,
    table: Vec<u64>,
    count: u64,
}

const TABLE_ROOM: usize = 4;

/// These ranges, in room for `room`, and these mappings of object 7, which show its pages from the
/// one of their own number on.
fn lent(ranges: &[Drawn], room: usize, mappings: &[Drawn]) -> Lent {
    let words = |&drawn: &Drawn| range(drawn).words();
    let mut list: Vec<u64> = ranges.iter().flat_map(words).collect();
    list.resize(room * RANGE_WORDS, 0);
    let mapping = |&[first, end]: &Drawn| [first * PAGE, (end - first) * PAGE, 7, first * PAGE];
    let mut table: Vec<u64> = mappings.iter().flat_map(mapping).collect();
    table.resize(TABLE_ROOM * MAPPING_WORDS, 0);
    Lent {
        space: SPACE,
        list,
        ranges: ranges.len() as u64,
        table,
        count: mappings.len() as u64,
    }
}

fn sparse(op: u64, [first, end]: Drawn) -> Request {
    Request {
        op,
        address: first * PAGE,
        size: end.wrapping_sub(first).wrapping_mul(PAGE),
        object: 0,
        offset: 0,
        flags: SPARSE,
    }
}

/// A request without the flag: to map object 9, or to unmap.
fn plain(op: u64, drawn: Drawn) -> Request {
    let object = if op == MAP { 9 } else { 0 };
    let request = sparse(op, drawn).without_flags();
    Request { object, ..request }
}

impl Lent {
    fn list(&self) -> List<'_> {
        List {
            words: &self.list,
            count: self.ranges,
        }
    }

    fn room(&self) -> usize {
        least_operation_words(self.table.len() / MAPPING_WORDS)
    }

    fn bind(&self, request: &Request) -> Result<Grant, (u32, u64)> {
        let (list, room) = (self.list(), self.room());
        let answer = bind(&self.space, &list, &self.table, self.count, room, request);
        answer.map_err(|refused| (refused.number, refused.place))
    }

    /// The ranges afterwards, in pages, or the number of the refusal. A grant has no operations, and
    /// the mappings stay.
    fn ask(&self, request: &Request) -> Result<Vec<Drawn>, u32> {
        let grant = self.bind(request).map_err(|(number, _)| number)?;
        assert!(request.is_sparse());
        assert_eq!((grant.operations.len(), grant.count), (0, self.count));
        let words: Vec<u64> = grant.mappings.iter().flat_map(Mapping::words).collect();
        assert_eq!(words, self.table[..words.len()]);
        assert_eq!(grant.mappings.len() as u64, self.count);
        let drawn = |range: &SparseRange| [range.start / PAGE, (range.start + range.size) / PAGE];
        Ok(grant.ranges.iter().map(drawn).collect())
    }

    fn look(&self, address: u64) -> Result<Seen, (u32, u64)> {
        let seen = lookup(&self.space, &self.list(), &self.table, self.count, address);
        seen.map_err(|refused| (refused.number, refused.place))
    }

    /// What a page shows, and for how many pages.
    fn page(&self, page: u64) -> (Shown, u64) {
        let seen = self.look(page * PAGE).expect("is answered");
        (seen.shown, seen.bytes / PAGE)
    }
}

/// The numbers and places of a map, an unmap, both with the flag, a map in a record, and look-ups.
fn refusals(lent: &Lent) -> [(u32, u64); 8] {
    let asked = |request: Request| lent.bind(&request).err().unwrap_or_default();
    let looked = |address: u64| lent.look(address).err().unwrap_or_default();
    let record = Record::plain(MAP as u32, 9, 39 * PAGE, 0, PAGE).encode();
    let (list, room) = (lent.list(), lent.room());
    let answer = bind_record(&lent.space, &list, &lent.table, lent.count, room, &record);
    let by_record = answer
        .err()
        .map(|Refused { number, place }| (number, place));
    [
        asked(plain(MAP, [39, 40])),
        asked(plain(UNMAP, [39, 40])),
        asked(sparse(MAP, [39, 40])),
        asked(sparse(UNMAP, [8, 9])),
        by_record.unwrap_or_default(),
        looked(8 * PAGE),
        looked(39 * PAGE),
        looked(u64::MAX),
    ]
}

const GOOD: [(u32, u64); 8] = [(0, 0); 8];
const BAD: [(u32, u64); 8] = [(18, 0); 8];

/// The range that is removed, two that touch, one up to the reservation and one from there on.
const FIVE: [Drawn; 5] = [[8, 9], [10, 12], [12, 13], [23, 24], [26, 28]];

fn five() -> Lent {
    lent(&FIVE, 7, &[[9, 11], [30, 31]])
}

#[test]
fn good_lists() {
    assert_eq!(refusals(&five()), GOOD);
    // Each list has the first range, which one of the requests removes.
    for ranges in [
        &[[8, 9]][..],
        &[[8, 9], [9, 10], [10, 11], [11, 24]],
        &[[8, 9], [9, 24], [26, 39]],
        &[[8, 9], [38, 39]],
    ] {
        for spare in [1, 2, 60] {
            let lent = lent(ranges, ranges.len() + spare, &[]);
            assert_eq!(refusals(&lent), GOOD, "{ranges:?}");
        }
    }
}

/// An odd number of words, and more than 128.
#[test]
fn lengths() {
    for words in (0..=128).step_by(2) {
        let mut lent = lent(&[], 0, &[]);
        lent.list.resize(words, 0);
        // Without a range there is none to remove, and without a place none can be added.
        let mut expected = GOOD;
        expected[3] = (20, 0);
        expected[2] = if words == 0 { (11, 0) } else { (0, 0) };
        assert_eq!(refusals(&lent), expected, "{words} words");
        lent.list.push(0);
        assert_eq!(refusals(&lent), BAD, "{words} words and one");
    }
    for words in [129, 130, 131, 256, 4096] {
        let mut lent = lent(&[[8, 9]], 64, &[]);
        assert_eq!(refusals(&lent), GOOD);
        lent.list.resize(words, 0);
        assert_eq!(refusals(&lent), BAD, "{words} words");
    }
    let mut odd = five();
    odd.list.pop();
    assert_eq!(refusals(&odd), BAD);
}

#[test]
fn counts() {
    let mut lent = five();
    // Eight, as many as there are words, and what 32 bits or two words each would make 5 of.
    for count in [8, 14, (1 << 32) + 5, (1 << 63) + 5, u64::MAX] {
        lent.ranges = count;
        assert_eq!(refusals(&lent), BAD, "{count}");
    }
    // One too high: the range of zeros is empty. Too low: what is not counted is stale.
    for count in [0, 1, 2, 3, 4, 6, 7] {
        lent.ranges = count;
        assert_eq!(refusals(&lent), BAD, "{count}");
    }
    let mut none = self::lent(&[], 0, &[]);
    for count in [1, u64::MAX] {
        none.ranges = count;
        assert_eq!(refusals(&none), BAD, "{count}");
    }
}

/// Each of the five ranges with one word changed.
#[test]
fn words_within_a_page() {
    for place in 0..10 {
        for change in [1, 2048, 4095, 1 << 11] {
            let mut lent = five();
            lent.list[place] += change;
            assert_eq!(refusals(&lent), BAD, "word {place}");
        }
    }
}

#[test]
fn empty_ranges() {
    for place in 0..5 {
        let mut lent = five();
        lent.list[place * RANGE_WORDS + 1] = 0;
        assert_eq!(refusals(&lent), BAD, "range {place}");
    }
    // Also one that would stand in order: where nothing else is.
    let mut alone = lent(&[[8, 9], [10, 11]], 3, &[]);
    alone.list[3] = 0;
    assert_eq!(refusals(&alone), BAD);
}

#[test]
fn order() {
    // Apart, touching; then sharing a page, equal, one in the other.
    for (pair, holds) in [
        ([[10, 12], [13, 14]], true),
        ([[10, 12], [12, 14]], true),
        ([[10, 12], [11, 14]], false),
        ([[10, 12], [10, 12]], false),
        ([[10, 14], [11, 12]], false),
        ([[11, 12], [10, 14]], false),
        ([[10, 14], [10, 11]], false),
        ([[10, 11], [10, 14]], false),
        // The later one first: touching, and apart.
        ([[11, 12], [10, 11]], false),
        ([[13, 14], [10, 11]], false),
    ] {
        let lent = lent(&[[8, 9], pair[0], pair[1]], 5, &[]);
        let expected = if holds { GOOD } else { BAD };
        assert_eq!(refusals(&lent), expected, "{pair:?}");
    }
    // The last one before the first.
    let last_first = lent(&[[8, 9], [20, 21], [22, 23], [10, 11]], 5, &[]);
    assert_eq!(refusals(&last_first), BAD);
}

#[test]
fn inside_the_space() {
    // Its whole first page, and what starts below it.
    let below = |start: u64, size: u64| {
        let mut lent = lent(&[[8, 9]], 4, &[]);
        lent.list[..2].copy_from_slice(&[start, size]);
        refusals(&lent)[0]
    };
    assert_eq!(below(8 * PAGE, PAGE), (0, 0));
    assert_eq!(below(7 * PAGE, PAGE), (18, 0));
    assert_eq!(below(7 * PAGE, 2 * PAGE), (18, 0));
    assert_eq!(below(0, PAGE), (18, 0));
    // Up to its end, and over it; 40 is the first page behind it.
    assert_eq!(below(38 * PAGE, 2 * PAGE), (0, 0));
    assert_eq!(below(39 * PAGE, 2 * PAGE), (18, 0));
    assert_eq!(below(40 * PAGE, PAGE), (18, 0));
    // The ends are 2^64 and above, to where they are small again.
    assert_eq!(below(LAST_PAGE, PAGE), (18, 0));
    assert_eq!(below(LAST_PAGE, 2 * PAGE), (18, 0));
    assert_eq!(below(10 * PAGE, LAST_PAGE), (18, 0));
    assert_eq!(below(10 * PAGE, 0u64.wrapping_sub(PAGE)), (18, 0));
}

#[test]
fn off_the_reservation() {
    for (drawn, holds) in [
        ([22, 24], true),
        ([22, 25], false),
        ([24, 25], false),
        ([24, 26], false),
        ([25, 26], false),
        ([25, 27], false),
        ([22, 28], false),
        ([26, 28], true),
    ] {
        let lent = lent(&[[8, 9], drawn], 4, &[]);
        let expected = if holds { GOOD } else { BAD };
        assert_eq!(refusals(&lent), expected, "{drawn:?}");
    }
    // Where all is reserved only a list without a range is good.
    let all = Space {
        reserved_start: SPACE.start,
        reserved_size: SPACE.size,
        ..SPACE
    };
    let mut lent = lent(&[], 2, &[]);
    lent.space = all;
    assert_eq!(lent.look(8 * PAGE).map(|seen| seen.bytes), Ok(32 * PAGE));
    lent.list[..2].copy_from_slice(&range([8, 9]).words());
    lent.ranges = 1;
    assert_eq!(lent.look(8 * PAGE), Err((18, 0)));
}

/// A word behind the last range, at each place.
#[test]
fn stale_words() {
    for count in 0..=5 {
        for room in [count + 1, count + 2, 64] {
            let good = lent(&FIVE[..count], room, &[]);
            for place in count * RANGE_WORDS..room * RANGE_WORDS {
                for word in [1, PAGE, 1 << 32, 1 << 63, u64::MAX] {
                    let mut stale = good.clone();
                    stale.list[place] = word;
                    assert_eq!(refusals(&stale), BAD, "word {place} of {count} in {room}");
                }
            }
        }
    }
    // Two that add up to 0.
    let mut two = five();
    two.list[10..12].copy_from_slice(&[1, u64::MAX]);
    assert_eq!(refusals(&two), BAD);
}

/// The five with a stale word behind them.
fn stale() -> Lent {
    let mut lent = five();
    lent.list[13] = 1;
    lent
}

/// What stands before 18 in the order is told.
#[test]
fn the_space_and_the_table_come_first() {
    assert_eq!(refusals(&stale()), BAD);
    let with = |fault: fn(&mut Lent)| {
        let mut lent = stale();
        fault(&mut lent);
        refusals(&lent)
    };
    assert_eq!(with(|lent| lent.space.start += 1), [(1, 0); 8]);
    assert_eq!(with(|lent| lent.table.truncate(15)), [(2, 0); 8]);
    assert_eq!(with(|lent| lent.count = 5), [(4, 0); 8]);
    assert_eq!(with(|lent| lent.table[4] = 10 * PAGE), [(5, 1); 8]);
    assert_eq!(with(|lent| lent.table[15] = 1), [(17, 0); 8]);
    let (lent, request) = (stale(), sparse(MAP, [39, 40]));
    let (list, room) = (lent.list(), lent.room() - 1);
    let short = bind(&SPACE, &list, &lent.table, 2, room, &request);
    assert_eq!(short.map_err(|refused| refused.number), Err(3));
}

/// Of a request its op and flags come first, and all else behind.
#[test]
fn requests_come_behind() {
    let map = plain(MAP, [39, 40]);
    for (request, number) in [
        (plain(2, [39, 40]), 13),
        (sparse(2, [39, 40]), 13),
        (sparse(2, [10, 11]), 13),
        (Request { flags: 1, ..map }, 14),
        (plain(MAP, [39, 41]), 18),
        (plain(MAP, [24, 25]), 18),
        (sparse(MAP, [39, 39]), 18),
        (sparse(MAP, [10, 11]), 18),
        (sparse(UNMAP, [10, 11]), 18),
        (Request { object: 0, ..map }, 18),
        (
            Request {
                offset: 1 << 48,
                ..map
            },
            18,
        ),
    ] {
        let given = stale().bind(&request).err();
        assert_eq!(given, Some((number, 0)), "{request:?}");
    }
}

#[test]
fn ranges_are_added_in_their_place() {
    let start = lent(&[[10, 12], [20, 21]], 3, &[]);
    for (new, after) in [
        ([8, 9], [[8, 9], [10, 12], [20, 21]]),
        // Touching, which joins nothing.
        ([8, 10], [[8, 10], [10, 12], [20, 21]]),
        ([12, 13], [[10, 12], [12, 13], [20, 21]]),
        ([12, 20], [[10, 12], [12, 20], [20, 21]]),
        ([15, 16], [[10, 12], [15, 16], [20, 21]]),
        ([21, 24], [[10, 12], [20, 21], [21, 24]]),
        ([26, 40], [[10, 12], [20, 21], [26, 40]]),
    ] {
        assert_eq!(start.ask(&sparse(MAP, new)), Ok(after.to_vec()));
    }
    let none = lent(&[], 1, &[]);
    assert_eq!(none.ask(&sparse(MAP, [8, 24])), Ok(vec![[8, 24]]));
    let all = lent(&[[8, 9], [20, 24]], 4, &[]);
    let after = vec![[8, 9], [9, 20], [20, 24]];
    assert_eq!(all.ask(&sparse(MAP, [9, 20])), Ok(after));
}

#[test]
fn ranges_may_lie_over_mappings() {
    let lent = lent(&[], 2, &[[10, 12], [14, 16]]);
    for new in [[10, 12], [11, 15], [8, 24], [10, 11], [14, 20]] {
        assert_eq!(lent.ask(&sparse(MAP, new)), Ok(vec![new]));
    }
}

#[test]
fn ranges_that_overlap() {
    let start = lent(&[[10, 12], [20, 22]], 3, &[]);
    for new in [
        [10, 12],
        [10, 11],
        [11, 12],
        [9, 11],
        [11, 13],
        [9, 13],
        [11, 21],
        [21, 23],
        [8, 24],
        [19, 21],
    ] {
        assert_eq!(start.ask(&sparse(MAP, new)), Err(19), "{new:?}");
    }
}

/// 19 comes first; and a list of no word has no room.
#[test]
fn a_full_list() {
    let full = lent(&[[10, 12], [20, 22]], 2, &[]);
    assert_eq!(full.ask(&sparse(MAP, [12, 13])), Err(11));
    assert_eq!(full.ask(&sparse(MAP, [11, 13])), Err(19));
    assert_eq!(full.ask(&sparse(UNMAP, [10, 12])), Ok(vec![[20, 22]]));
    let none = lent(&[], 0, &[]);
    assert_eq!(none.ask(&sparse(MAP, [12, 13])), Err(11));
    assert_eq!(none.ask(&sparse(UNMAP, [12, 13])), Err(20));
    // As many as there may be, in a space that has room for more.
    let each = |place: u64| [8 + place, 9 + place];
    let ranges: Vec<Drawn> = (0..MOST_RANGES as u64).map(each).collect();
    let mut most = lent(&ranges, MOST_RANGES, &[]);
    most.space = Space {
        size: 100 * PAGE,
        reserved_start: 0,
        reserved_size: 0,
        ..SPACE
    };
    assert_eq!(most.ask(&sparse(MAP, [72, 73])), Err(11));
    assert_eq!(most.ask(&sparse(MAP, [71, 73])), Err(19));
    assert_eq!(
        most.ask(&sparse(UNMAP, [71, 72])),
        Ok(ranges[..63].to_vec())
    );
    // The table's room has no say, nor has it in a list's.
    let mut table = lent(&[], 1, &[[8, 9], [10, 11], [12, 13], [14, 15]]);
    assert_eq!(table.ask(&sparse(MAP, [16, 17])), Ok(vec![[16, 17]]));
    table.list.clear();
    assert_eq!(table.bind(&plain(MAP, [16, 17])).err(), Some((11, 0)));
    assert!(full.bind(&plain(MAP, [10, 12])).is_ok());
}

#[test]
fn ranges_are_removed() {
    let start = lent(&[[10, 12], [12, 13], [20, 22]], 3, &[]);
    for (old, after) in [
        ([10, 12], [[12, 13], [20, 22]]),
        ([12, 13], [[10, 12], [20, 22]]),
        ([20, 22], [[10, 12], [12, 13]]),
    ] {
        assert_eq!(start.ask(&sparse(UNMAP, old)), Ok(after.to_vec()));
    }
    let last = lent(&[[10, 12]], 3, &[]);
    assert_eq!(last.ask(&sparse(UNMAP, [10, 12])), Ok(vec![]));
}

/// The start alone, the end alone, a part, two that touch, none at all.
#[test]
fn ranges_that_are_not_there() {
    let start = lent(&[[10, 12], [12, 13], [20, 22]], 4, &[]);
    for old in [
        [10, 11],
        [10, 13],
        [11, 12],
        [9, 12],
        [12, 14],
        [20, 21],
        [19, 22],
        [21, 22],
        [14, 15],
        [8, 24],
    ] {
        assert_eq!(start.ask(&sparse(UNMAP, old)), Err(20), "{old:?}");
    }
}

/// Not while a mapping shares a byte with it; one that touches does not.
#[test]
fn ranges_with_something_mapped() {
    for (mapping, answer) in [
        ([10, 11], Err(20)),
        ([11, 12], Err(20)),
        ([10, 12], Err(20)),
        ([9, 11], Err(20)),
        ([11, 13], Err(20)),
        ([8, 14], Err(20)),
        ([9, 10], Ok(vec![])),
        ([12, 13], Ok(vec![])),
    ] {
        let lent = lent(&[[10, 12]], 1, &[mapping]);
        assert_eq!(lent.ask(&sparse(UNMAP, [10, 12])), answer, "{mapping:?}");
    }
    let both = lent(&[[10, 12]], 1, &[[8, 10], [12, 13]]);
    assert_eq!(both.ask(&sparse(UNMAP, [10, 12])), Ok(vec![]));
    let second = lent(&[[10, 14]], 1, &[[8, 10], [13, 15]]);
    assert_eq!(second.ask(&sparse(UNMAP, [10, 14])), Err(20));
}

/// What keeps the request's own rules from being asked further.
#[test]
fn rules_of_a_request_come_first() {
    let lent = lent(&[[10, 12]], 1, &[[10, 11]]);
    for op in [MAP, UNMAP] {
        let good = sparse(op, [10, 12]);
        let number = lent.ask(&good).unwrap_err();
        assert_eq!(number, if op == MAP { 19 } else { 20 });
        let with = |change: fn(&mut Request)| {
            let mut request = good;
            change(&mut request);
            lent.ask(&request).unwrap_err()
        };
        assert_eq!(with(|request| request.offset = 1), 6);
        assert_eq!(with(|request| request.offset = PAGE), 9);
        assert_eq!(with(|request| request.offset = 1 << 48), 9);
        assert_eq!(with(|request| request.object = 1), 9);
        assert_eq!(with(|request| request.object = 1 << 32), 9);
        assert_eq!(with(|request| request.address += 1), 6);
        assert_eq!(with(|request| request.size = 0), 6);
        assert_eq!(with(|request| request.size = 31 * PAGE), 7);
        assert_eq!(with(|request| request.size = 15 * PAGE), 8);
        assert_eq!(with(|request| request.flags = 257), 14);
        assert_eq!(with(|request| request.flags = 1 << 32 | 256), 14);
    }
}

/// Without the flag the list stays, and has no say.
#[test]
fn plain_requests() {
    let none = lent(&[], 0, &[[10, 14], [16, 17]]);
    let some = lent(&[[10, 12], [12, 13], [16, 20]], 3, &[[10, 14], [16, 17]]);
    for drawn in [[8, 9], [11, 13], [10, 17], [8, 24], [16, 20]] {
        for op in [MAP, UNMAP] {
            let request = plain(op, drawn);
            let [without, with] = [&none, &some].map(|lent| lent.bind(&request).unwrap());
            assert_eq!(without.ranges, []);
            let ranges: Vec<SparseRange> = [[10, 12], [12, 13], [16, 20]].map(range).to_vec();
            assert_eq!(with, Grant { ranges, ..without });
        }
    }
}

const NOTHING: Shown = Shown::Nothing;
const SHOWN_SPARSE: Shown = Shown::Sparse;

fn object(page: u64) -> Shown {
    Shown::Object {
        object: 7,
        offset: page * PAGE,
    }
}

/// Without a mapping: up to each edge, also where two touch.
#[test]
fn looks_at_ranges_alone() {
    let lent = lent(&[[10, 12], [12, 15], [20, 24], [26, 27]], 5, &[]);
    for (page, shown, pages) in [
        (8, NOTHING, 2),
        (9, NOTHING, 1),
        (10, SHOWN_SPARSE, 2),
        (11, SHOWN_SPARSE, 1),
        (12, SHOWN_SPARSE, 3),
        (14, SHOWN_SPARSE, 1),
        (15, NOTHING, 5),
        (20, SHOWN_SPARSE, 4),
        // The reservation has no edge of its own.
        (24, NOTHING, 2),
        (26, SHOWN_SPARSE, 1),
        (27, NOTHING, 13),
        (39, NOTHING, 1),
        (40, NOTHING, 0),
        (7, NOTHING, 0),
    ] {
        assert_eq!(lent.page(page), (shown, pages), "page {page}");
    }
    let at = |address: u64| lent.look(address).map(|seen| (seen.shown, seen.bytes));
    assert_eq!(at(10 * PAGE - 1), Ok((NOTHING, 1)));
    assert_eq!(at(12 * PAGE - 1), Ok((SHOWN_SPARSE, 1)));
    assert_eq!(at(15 * PAGE - 1), Ok((SHOWN_SPARSE, 1)));
    assert_eq!(at(12 * PAGE + 8), Ok((SHOWN_SPARSE, 3 * PAGE - 8)));
    assert_eq!(at(u64::MAX), Ok((NOTHING, 0)));
}

/// A mapping hides the range, and is not cut at its edges; off it they count.
#[test]
fn looks_at_ranges_under_mappings() {
    let lent = lent(
        &[[10, 16], [16, 18], [30, 32]],
        3,
        &[[9, 11], [13, 14], [15, 20]],
    );
    for (page, shown, pages) in [
        (8, NOTHING, 1),
        (9, object(9), 2),
        (10, object(10), 1),
        (11, SHOWN_SPARSE, 2),
        (12, SHOWN_SPARSE, 1),
        (13, object(13), 1),
        (14, SHOWN_SPARSE, 1),
        (15, object(15), 5),
        (16, object(16), 4),
        (19, object(19), 1),
        (20, NOTHING, 10),
        (30, SHOWN_SPARSE, 2),
        (32, NOTHING, 8),
    ] {
        assert_eq!(lent.page(page), (shown, pages), "page {page}");
    }
    // The whole range is mapped.
    let hidden = self::lent(&[[10, 12]], 1, &[[10, 12]]);
    assert_eq!(hidden.page(10), (object(10), 2));
    assert_eq!(hidden.page(9), (NOTHING, 1));
    assert_eq!(hidden.page(12), (NOTHING, 28));
    // A range's edge inside of a mapping behind does not count for what is before it.
    let behind = self::lent(&[[13, 14]], 1, &[[12, 16]]);
    assert_eq!(behind.page(8), (NOTHING, 4));
}

#[test]
fn the_whole_space() {
    let limit = 1 << 48;
    let mut lent = lent(&[], 1, &[]);
    lent.space = Space {
        start: 0,
        size: limit,
        reserved_start: 0,
        reserved_size: 0,
    };
    lent.list.copy_from_slice(&[0, limit]);
    lent.ranges = 1;
    let at = |address: u64| lent.look(address).map(|seen| (seen.shown, seen.bytes));
    assert_eq!(at(0), Ok((SHOWN_SPARSE, limit)));
    assert_eq!(at(limit - 1), Ok((SHOWN_SPARSE, 1)));
    assert_eq!(at(limit), Ok((NOTHING, 0)));
    assert_eq!(at(u64::MAX), Ok((NOTHING, 0)));
}

/// A table and a list as a grant leaves them.
fn left(lent: &Lent, grant: &Grant) -> Lent {
    let mut after = lent.clone();
    after.table.fill(0);
    after.list.fill(0);
    let mappings = grant.mappings.iter().flat_map(Mapping::words);
    let ranges = grant.ranges.iter().flat_map(SparseRange::words);
    after
        .table
        .iter_mut()
        .zip(mappings)
        .for_each(|(word, new)| *word = new);
    after
        .list
        .iter_mut()
        .zip(ranges)
        .for_each(|(word, new)| *word = new);
    (after.count, after.ranges) = (grant.count, grant.ranges.len() as u64);
    after
}

/// What a request is answered: 0 or the number of its refusal. The pages tell what is refused, but
/// for want of room, and after a grant the mappings and the ranges.
fn follow(lent: &mut Lent, pages: &mut Pages, request: &Request) -> u32 {
    let is_sparse = request.is_sparse();
    let refused = is_sparse.then(|| pages.refusal(request)).flatten();
    match lent.bind(request) {
        Ok(grant) => {
            assert_eq!(refused, None, "{request:?}");
            pages.ask(request);
            *lent = left(lent, &grant);
            assert_eq!(pages.mappings(), grant.mappings);
            assert_eq!(pages.ranges(), grant.ranges);
            0
        }
        Err((number, _)) => {
            assert_eq!(refused.unwrap_or(11), number, "{request:?}");
            number
        }
    }
}

/// A history in which each page is followed by itself.
#[test]
fn page_by_page() {
    let mut lent = lent(&[], 3, &[]);
    let mut pages = Pages::new(&SPACE, &[], &[]);
    for (request, number) in [
        (sparse(MAP, [10, 14]), 0),
        (plain(MAP, [11, 12]), 0),
        (sparse(MAP, [14, 16]), 0),
        (sparse(MAP, [13, 15]), 19),
        (plain(MAP, [13, 17]), 0),
        (sparse(UNMAP, [14, 16]), 20),
        (plain(UNMAP, [14, 16]), 0),
        (sparse(UNMAP, [14, 15]), 20),
        (sparse(UNMAP, [14, 16]), 0),
        (sparse(UNMAP, [10, 14]), 20),
        (sparse(MAP, [14, 20]), 0),
        (sparse(MAP, [20, 24]), 0),
        (sparse(MAP, [26, 27]), 11),
        (plain(UNMAP, [8, 24]), 0),
        (sparse(UNMAP, [10, 14]), 0),
        (plain(MAP, [8, 24]), 0),
    ] {
        assert_eq!(follow(&mut lent, &mut pages, &request), number);
        for page in 0..32 {
            let address = (8 + page as u64) * PAGE;
            assert_eq!(lent.look(address), Ok(pages.seen(page)), "{address:#x}");
        }
    }
}
