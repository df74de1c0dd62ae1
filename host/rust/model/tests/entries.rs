//! The model's page entries: beside a search of all lists in a few pages of small sizes, and worked
//! out by hand.

use waylluqen_model::answer::{BAD_MAPPING, SHORT_OUTPUT};
use waylluqen_model::entries::{entry_count, least_entries, runs, Run};
use waylluqen_model::{page_entries, Mapping, PageEntry, Refused};
use waylluqen_model::{ENTRY_WORDS, HIGHEST_OBJECT, PAGE_SIZES};

const K4: u64 = 1 << 12;
const M2: u64 = 1 << 21;
const G1: u64 = 1 << 30;
const LIMIT: u64 = 1 << 48;

fn mapping(address: u64, size: u64, offset: u64) -> Mapping {
    Mapping {
        address,
        size,
        object: 7,
        offset,
    }
}

fn entries(sizes: &[u64], mapping: &Mapping) -> Vec<PageEntry> {
    runs(sizes, mapping).flat_map(Run::entries).collect()
}

/// An entry at a time: the largest page that starts there and fits.
fn one_by_one(sizes: &[u64], mapping: &Mapping) -> Vec<PageEntry> {
    let mut list = Vec::new();
    let mut done = 0;
    while done < mapping.size {
        let (address, offset) = (mapping.address + done, mapping.offset + done);
        let may_start =
            |size: u64| address % size == 0 && offset % size == 0 && size <= mapping.size - done;
        let largest = sizes.iter().copied().find(|&size| may_start(size));
        let size = largest.expect("in pages of the least size");
        list.push(PageEntry {
            address,
            offset,
            size,
        });
        done += size;
    }
    list
}

/// Runs are as the entries one by one, as few as any list has, and so few themselves that they are
/// soon counted: each size on both sides of the largest.
fn check(sizes: &[u64], mapping: &Mapping) {
    let list = entries(sizes, mapping);
    assert_eq!(list, one_by_one(sizes, mapping), "{sizes:?} {mapping:x?}");
    let count = list.len() as u64;
    assert_eq!(count, entry_count(sizes, mapping), "{sizes:?} {mapping:x?}");
    let least = least_entries(sizes, mapping);
    assert_eq!(Some(count), least, "{sizes:?} {mapping:x?}");
    assert!(runs(sizes, mapping).count() < 2 * sizes.len());
}

/// Every address, size and offset in the first pages.
fn check_all(sizes: &[u64]) {
    let (largest, page) = (sizes[0], sizes[sizes.len() - 1]);
    let up_to = |end: u64| (0..=end / page).map(move |pages| pages * page);
    for address in up_to(2 * largest) {
        for size in up_to(4 * largest + page) {
            for offset in up_to(largest + page) {
                check(sizes, &mapping(address, size, offset));
            }
        }
    }
}

#[test]
fn as_few_as_any_list() {
    check_all(&[1]);
    check_all(&[3]);
    check_all(&[4, 1]);
    check_all(&[16, 4, 1]);
    check_all(&[8, 2, 1]);
    check_all(&[6, 3, 1]);
    check_all(&[8, 4, 2, 1]);
    check_all(&[12, 4, 2]);
    check_all(&[24, 12, 3, 1]);
}

/// The same in the real sizes, near their boundaries.
#[test]
fn as_few_as_any_list_in_the_real_sizes() {
    let starts = [0, K4, M2 - K4, M2, G1 - M2 - K4, G1 - K4, G1];
    let ends = [G1 + M2, 2 * G1 - K4, 2 * G1, 2 * G1 + M2 + K4];
    for address in starts {
        for end in ends {
            for apart in [0, K4, M2, G1, G1 + M2, G1 + K4] {
                let size = end - address;
                check(&PAGE_SIZES, &mapping(address, size, address + apart));
                check(&PAGE_SIZES, &mapping(address + apart, size, address));
            }
        }
    }
}

/// The search itself: 1 where a page fits, else its two halves; and nothing where no page has such
/// an offset.
#[test]
fn the_search_by_hand() {
    let least = |address, size, offset| least_entries(&[8, 4, 2], &mapping(address, size, offset));
    assert_eq!(least(8, 8, 0), Some(1));
    assert_eq!(least(8, 8, 4), Some(2));
    assert_eq!(least(8, 8, 2), Some(4));
    assert_eq!(least(8, 8, 1), None);
    assert_eq!(least(9, 8, 9), None);
    assert_eq!(least(6, 4, 6), Some(2));
    assert_eq!(least(6, 0, 6), Some(0));
    // From 6 to 26: 2, 8, 8, 2; the offset 4 off: 2, 4, 4, 4, 4, 2.
    assert_eq!(least(6, 20, 14), Some(4));
    assert_eq!(least(6, 20, 2), Some(6));
    assert_eq!(least_entries(&[], &mapping(0, 8, 0)), None);
}

/// Size and number of each run, and its first address and offset.
fn drawn(mapping: &Mapping) -> Vec<[u64; 4]> {
    let words = |run: Run| {
        let [address, offset, size] = run.first.words();
        [size, run.entries, address, offset]
    };
    runs(&PAGE_SIZES, mapping).map(words).collect()
}

#[test]
fn all_sizes_on_both_sides() {
    let (address, end) = (G1 - 3 * M2 - 5 * K4, 4 * G1 + 2 * M2 + 7 * K4);
    let lines = |offset: u64| {
        let at = |place: u64| offset + (place - address);
        vec![
            [K4, 5, address, offset],
            [M2, 3, G1 - 3 * M2, at(G1 - 3 * M2)],
            [G1, 3, G1, at(G1)],
            [M2, 2, 4 * G1, at(4 * G1)],
            [K4, 7, 4 * G1 + 2 * M2, at(4 * G1 + 2 * M2)],
        ]
    };
    let size = end - address;
    assert_eq!(drawn(&mapping(address, size, address)), lines(address));
    // Off by whole GiB, either way.
    let above = address + 5 * G1;
    assert_eq!(drawn(&mapping(address, size, above)), lines(above));
    let far = mapping(address + 9 * G1, size, address);
    let moved =
        |[size, entries, address, offset]: [u64; 4]| [size, entries, address + 9 * G1, offset];
    let lines: Vec<[u64; 4]> = lines(address).into_iter().map(moved).collect();
    assert_eq!(drawn(&far), lines);
}

#[test]
fn an_offset_that_is_off() {
    // By a page: small ones alone, whatever the address.
    for address in [0, K4, M2, G1] {
        let off = mapping(address, 3 * G1, address + K4);
        assert_eq!(drawn(&off), [[K4, 3 << 18, address, address + K4]]);
    }
    // By 2 MiB: none of 1 GiB.
    let (address, size) = (G1 - K4, 2 * G1 + 2 * K4);
    let lines = [
        [K4, 1, address, address + M2],
        [M2, 1024, G1, G1 + M2],
        [K4, 1, 3 * G1, 3 * G1 + M2],
    ];
    assert_eq!(drawn(&mapping(address, size, address + M2)), lines);
    // By half a GiB, which is 256 times 2 MiB.
    let half = mapping(G1, G1, G1 / 2);
    assert_eq!(drawn(&half), [[M2, 512, G1, G1 / 2]]);
}

#[test]
fn boundaries_that_help_nothing() {
    // A boundary inside, and no whole page at either side of it.
    let across = mapping(M2 - 8 * K4, 16 * K4, M2 - 8 * K4);
    assert_eq!(drawn(&across), [[K4, 16, M2 - 8 * K4, M2 - 8 * K4]]);
    // No boundary at all; then one, and a page too few behind it.
    let inside = mapping(M2 + K4, M2 - K4, K4);
    assert_eq!(drawn(&inside), [[K4, 511, M2 + K4, K4]]);
    let below = mapping(M2, M2 - K4, 0);
    assert_eq!(drawn(&below), [[K4, 511, M2, 0]]);
    // One of 1 GiB inside; of the others there are just enough.
    let across = mapping(G1 - M2, 2 * M2, G1 - M2);
    assert_eq!(drawn(&across), [[M2, 2, G1 - M2, G1 - M2]]);
}

#[test]
fn up_to_the_end_of_the_space() {
    let address = LIMIT - G1 - M2 - K4;
    let size = LIMIT - address;
    let offset = G1 - M2 - K4;
    let lines = [
        [K4, 1, address, offset],
        [M2, 1, LIMIT - G1 - M2, G1 - M2],
        [G1, 1, LIMIT - G1, G1],
    ];
    assert_eq!(drawn(&mapping(address, size, offset)), lines);
    // The offset too goes up to there.
    let lines = lines.map(|[size, entries, address, _]| [size, entries, address, address]);
    assert_eq!(drawn(&mapping(address, size, address)), lines);
    assert_eq!(drawn(&mapping(0, LIMIT, 0)), [[G1, 1 << 18, 0, 0]]);
}

#[test]
fn words_of_entries() {
    let listed = page_entries(&mapping(M2 - K4, M2 + 2 * K4, M2 - K4), 9);
    let words: Vec<[u64; ENTRY_WORDS]> = listed
        .expect("nine words are enough")
        .iter()
        .map(PageEntry::words)
        .collect();
    let expected = [[M2 - K4, M2 - K4, K4], [M2, M2, M2], [2 * M2, 2 * M2, K4]];
    assert_eq!(words, expected);
    let other_offset = page_entries(&mapping(K4, K4, 2 * K4), 3);
    let entry = other_offset.expect("three words are enough")[0];
    assert_eq!(entry.words(), [K4, 2 * K4, K4]);
}

#[test]
fn words_that_are_too_few() {
    let short = Err(Refused::of(SHORT_OUTPUT));
    let three = mapping(M2 - K4, M2 + 2 * K4, M2 - K4);
    for words in 0..9 {
        assert_eq!(page_entries(&three, words), short);
    }
    for words in [9, 10, 1000] {
        assert_eq!(page_entries(&three, words).expect("listed").len(), 3);
    }
    // Nearly 2^36 entries, which nobody makes.
    let most = mapping(0, LIMIT - K4, K4);
    assert_eq!(entry_count(&PAGE_SIZES, &most), (1 << 36) - 1);
    for words in [0, 3, 3 * ((1 << 36) - 1) - 1] {
        assert_eq!(page_entries(&most, words), short);
    }
    let by_two = mapping(0, LIMIT - M2, M2);
    assert_eq!(entry_count(&PAGE_SIZES, &by_two), (1 << 27) - 1);
}

#[test]
fn mappings_that_break_their_rules() {
    let good = mapping(M2, M2, 0);
    assert!(page_entries(&good, 3).is_ok());
    let high = Mapping {
        object: HIGHEST_OBJECT,
        ..good
    };
    assert!(page_entries(&high, 3).is_ok());
    let object = |object| Mapping { object, ..good };
    let bad = [
        mapping(M2 + 1, M2, 0),
        mapping(M2, M2 + 1, 0),
        mapping(M2, M2, 1),
        mapping(M2, 0, 0),
        object(0),
        object(HIGHEST_OBJECT + 1),
        object(u64::MAX),
        mapping(0, M2, LIMIT - M2 + K4),
        mapping(LIMIT - M2 + K4, M2, 0),
        // The sums don't wrap.
        mapping(0, M2, 0u64.wrapping_sub(M2)),
        mapping(0u64.wrapping_sub(M2), M2, 0),
        mapping(0, 0u64.wrapping_sub(K4), K4),
        mapping(K4, 0u64.wrapping_sub(K4), 0),
    ];
    for mapping in bad {
        // Before the words are looked at, and whatever they are.
        for words in [0, 3, 3000] {
            let refused = page_entries(&mapping, words);
            assert_eq!(refused, Err(Refused::of(BAD_MAPPING)), "{mapping:x?}");
        }
    }
    // At the limit and not above it.
    assert!(page_entries(&mapping(0, M2, LIMIT - M2), 3).is_ok());
    assert!(page_entries(&mapping(LIMIT - M2, M2, 0), 3).is_ok());
}
