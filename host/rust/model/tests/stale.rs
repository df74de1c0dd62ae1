//! Words behind the last mapping that are not zero, in tables that were worked out by hand.

use waylluqen_model::bind::least_operation_words;
use waylluqen_model::{lookup, Grant, List, Record, Refused, Request, Space};
use waylluqen_model::{MAP, MAPPING_WORDS, PAGE, UNMAP};

/// 16,384 pages, of which the last is reserved.
const SPACE: Space = Space {
    start: 0,
    size: 16_384 * PAGE,
    reserved_start: 16_383 * PAGE,
    reserved_size: PAGE,
};

const VALUES: [u64; 5] = [1, 1 << 32, 1 << 63, PAGE, u64::MAX];

/// A page at every other page, with an object and an offset, and zeros behind them.
fn table(capacity: usize, count: usize) -> Vec<u64> {
    let mapping = |place: usize| [2 * place as u64 * PAGE, PAGE, 7, PAGE];
    let mut words: Vec<u64> = (0..count).flat_map(mapping).collect();
    words.resize(capacity * MAPPING_WORDS, 0);
    words
}

/// The words for the list of a table of so many words.
fn room(words: usize) -> usize {
    least_operation_words(words / MAPPING_WORDS)
}

/// Of one page at the space's start, which a table that has mappings has in its first one.
fn page(op: u64) -> Request {
    Request {
        op,
        address: 0,
        size: PAGE,
        object: if op == MAP { 8 } else { 0 },
        offset: 0,
        flags: 0,
    }
}

/// The calls without sparse ranges.
fn bind(
    space: &Space,
    table: &[u64],
    count: u64,
    room: usize,
    request: &Request,
) -> Result<Grant, Refused> {
    waylluqen_model::bind(space, &List::NONE, table, count, room, request)
}

fn bind_record(
    space: &Space,
    table: &[u64],
    count: u64,
    room: usize,
    record: &[u8],
) -> Result<Grant, Refused> {
    waylluqen_model::bind_record(space, &List::NONE, table, count, room, record)
}

/// The number and the place of an answer; 0 and 0 if it is no refusal.
fn refusal<T>(answer: Result<T, Refused>) -> (u32, u64) {
    answer.map_or_else(|refused| (refused.number, refused.place), |_| (0, 0))
}

/// What a map, an unmap, a map in a record and look-ups are refused for.
fn refusals(space: &Space, table: &[u64], count: u64) -> [(u32, u64); 6] {
    let room = room(table.len());
    let record = Record::plain(MAP as u32, 8, 0, 0, PAGE).encode();
    let look = |address: u64| refusal(lookup(space, &List::NONE, table, count, address));
    [
        refusal(bind(space, table, count, room, &page(MAP))),
        refusal(bind(space, table, count, room, &page(UNMAP))),
        refusal(bind_record(space, table, count, room, &record)),
        look(0),
        look(PAGE),
        look(u64::MAX),
    ]
}

const GRANTED: [(u32, u64); 6] = [(0, 0); 6];
const STALE: [(u32, u64); 6] = [(17, 0); 6];

#[test]
fn each_word_behind_the_last_mapping() {
    let mut tried = 0;
    for capacity in 1..=6 {
        for count in 0..=capacity {
            let mut words = table(capacity, count);
            assert_eq!(refusals(&SPACE, &words, count as u64), GRANTED);
            for place in count * MAPPING_WORDS..words.len() {
                for value in VALUES {
                    words[place] = value;
                    let given = refusals(&SPACE, &words, count as u64);
                    assert_eq!(given, STALE, "word {place} of {count} in {capacity}");
                    tried += 1;
                }
                words[place] = 0;
            }
        }
    }
    // In one place at most one is free, in two together three, in six together 21.
    assert_eq!(
        tried,
        (1 + 3 + 6 + 10 + 15 + 21) * MAPPING_WORDS * VALUES.len()
    );
}

/// Where there is no word behind the last mapping none is stale.
#[test]
fn full_tables() {
    for capacity in [1, 2, 6, 256, 4096] {
        let words = table(capacity, capacity);
        assert_eq!(refusals(&SPACE, &words, capacity as u64), GRANTED);
    }
}

#[test]
fn long_tables() {
    for count in [0, 1, 2048, 4094, 4095] {
        let mut words = table(4096, count);
        assert_eq!(refusals(&SPACE, &words, count as u64), GRANTED);
        for place in [count * 4, count * 4 + 1, count * 4 + 3, 16_380, 16_383] {
            words[place] = 1;
            assert_eq!(refusals(&SPACE, &words, count as u64), STALE, "{place}");
            words[place] = 0;
        }
        words[count * 4..].fill(u64::MAX);
        assert_eq!(refusals(&SPACE, &words, count as u64), STALE);
    }
}

/// Two that add up to 0, that are alike, or of which no bit is in both.
#[test]
fn two_words() {
    for pair in [[1, u64::MAX], [1 << 63, 1 << 63], [7, 7], [1, 2]] {
        for places in [[8, 9], [8, 23], [11, 12], [22, 23]] {
            let mut words = table(6, 2);
            for (place, word) in places.into_iter().zip(pair) {
                words[place] = word;
            }
            assert_eq!(refusals(&SPACE, &words, 2), STALE, "{places:?} {pair:?}");
        }
    }
}

/// Also one that is a mapping in order, as a wrong count leaves it.
#[test]
fn counts_that_are_too_low() {
    let words = table(6, 6);
    for count in 0..6 {
        assert_eq!(refusals(&SPACE, &words, count), STALE, "{count}");
    }
    // Zeros directly behind those that are counted, and a word further on.
    let mut with_gap = table(6, 4);
    with_gap[3 * MAPPING_WORDS..4 * MAPPING_WORDS].fill(0);
    with_gap[5 * MAPPING_WORDS] = PAGE;
    assert_eq!(refusals(&SPACE, &with_gap, 3), STALE);
}

/// A table of two mappings in room for four with a word behind them, the first or the last.
fn stale_tables() -> [Vec<u64>; 2] {
    [8, 15].map(|place| {
        let mut words = table(4, 2);
        words[place] = 1;
        words
    })
}

#[test]
fn the_space_the_length_and_the_count_come_first() {
    for words in stale_tables() {
        let bad_space = Space { start: 1, ..SPACE };
        assert_eq!(refusals(&bad_space, &words, 2), [(1, 0); 6]);
        for length in [1, 7, 9, 15] {
            assert_eq!(refusals(&SPACE, &words[..length], 1), [(2, 0); 6]);
        }
        for count in [5, 16, u64::MAX] {
            assert_eq!(refusals(&SPACE, &words, count), [(4, 0); 6]);
        }
        // The list, of which a look-up has none.
        for op in [MAP, UNMAP] {
            let short = bind(&SPACE, &words, 2, room(16) - 1, &page(op));
            assert_eq!(refusal(short), (3, 0));
        }
    }
}

#[test]
fn mappings_come_first() {
    for stale in stale_tables() {
        for (place, word) in [(0, 1), (1, 5), (1, 7)] {
            let mut words = stale.clone();
            words[word] = 1;
            assert_eq!(refusals(&SPACE, &words, 2), [(5, place); 6]);
        }
        let mut words = stale;
        words[4] = 0;
        assert_eq!(refusals(&SPACE, &words, 2), [(5, 1); 6]);
    }
    // What breaks a mapping's rules only with the count one higher.
    let mut words = table(4, 2);
    words[11] = 1;
    assert_eq!(refusals(&SPACE, &words, 2), STALE);
    assert_eq!(refusals(&SPACE, &words, 3), [(5, 2); 6]);
}

#[test]
fn records_and_ops_come_first() {
    for words in stale_tables() {
        let ask = |bytes: &[u8]| refusal(bind_record(&SPACE, &words, 2, room(16), bytes));
        let good = Record::plain(MAP as u32, 8, 0, 0, PAGE);
        assert_eq!(ask(&good.encode()), (17, 0));
        assert_eq!(ask(&good.encode()[..39]), (12, 0));
        assert_eq!(ask(&Record { op: 2, ..good }.encode()), (13, 0));
        assert_eq!(ask(&Record { flags: 1, ..good }.encode()), (14, 0));
        assert_eq!(ask(&Record { pad: 1, ..good }.encode()), (14, 0));
        let by_numbers = bind(&SPACE, &words, 2, room(16), &page(2));
        assert_eq!(refusal(by_numbers), (13, 0));
    }
}

/// What else is wrong with a request comes behind, and the want of room.
#[test]
fn requests_come_behind() {
    let map = page(MAP);
    let into = |address: u64, size: u64| Request {
        address,
        size,
        ..map
    };
    let object = |object: u64| Request { object, ..map };
    let offset = |offset: u64| Request { offset, ..map };
    for (number, request) in [
        (6, into(1, PAGE)),
        (6, into(0, 0)),
        (7, into(SPACE.size, PAGE)),
        (8, into(SPACE.reserved_start, PAGE)),
        (9, object(0)),
        (9, object(1 << 32)),
        (10, offset(1 << 48)),
    ] {
        let ask = |words: &[u64]| refusal(bind(&SPACE, words, 2, room(16), &request));
        assert_eq!(ask(&table(4, 2)), (number, 0));
        for words in stale_tables() {
            assert_eq!(ask(&words), (17, 0), "{number}");
        }
    }
}

/// Into the middle of a mapping of three pages: two mappings more than before.
#[test]
fn the_want_of_room_comes_behind() {
    let middle = Request {
        address: PAGE,
        ..page(MAP)
    };
    let ask = |words: &[u64]| refusal(bind(&SPACE, words, 1, room(words.len()), &middle));
    let mut words = vec![0, 3 * PAGE, 7, 0, 0, 0, 0, 0];
    assert_eq!(ask(&words), (11, 0));
    for place in 4..8 {
        words[place] = 1;
        assert_eq!(ask(&words), (17, 0));
        words[place] = 0;
    }
}
