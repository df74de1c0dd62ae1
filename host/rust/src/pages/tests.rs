//! Page entries by the types: where pages of each size begin and end, what the iterator gives, and
//! what a refusal leaves.

extern crate std;

use super::*;
use crate::{entry_list_words, LIMIT, MAX_OBJECT, PAGE_SIZE, PAGE_SIZE_1G, PAGE_SIZE_2M};
use core::mem::{offset_of, size_of};
use std::vec;
use std::vec::Vec;

/// What lent words hold before.
const STALE: u64 = 0xa5a5_a5a5_a5a5_a5a5;

const fn mapping(address: u64, size: u64, offset: u64) -> Mapping {
    Mapping {
        address,
        size,
        object: 7,
        offset,
    }
}

/// From the address on: so many pages of a size, and so on with the next.
type Pieces<'a> = &'a [(u64, u64)];

/// The entries that these are; the mapping has exactly their bytes.
fn entries_of(mapping: Mapping, pieces: Pieces<'_>) -> Vec<PageEntry> {
    let mut entries = Vec::new();
    let mut done = 0;
    for &(many, size) in pieces {
        for _ in 0..many {
            entries.push(PageEntry {
                address: mapping.address + done,
                offset: mapping.offset + done,
                size,
            });
            done += size;
        }
    }
    assert_eq!(done, mapping.size, "{mapping:x?}");
    entries
}

const S: u64 = PAGE_SIZE;
const M: u64 = PAGE_SIZE_2M;
const G: u64 = PAGE_SIZE_1G;

#[test]
fn each_size_begins_and_ends_at_its_boundaries() {
    let cases: &[(Mapping, Pieces<'_>)] = &[
        (mapping(0, S, 0), &[(1, S)]),
        (mapping(M - S, S, M - S), &[(1, S)]),
        (mapping(0, M - S, 0), &[(511, S)]),
        (mapping(0, M, 0), &[(1, M)]),
        (mapping(0, M + S, M), &[(1, M), (1, S)]),
        (mapping(S, M, S), &[(512, S)]),
        (
            mapping(M - S, M + 2 * S, 5 * M - S),
            &[(1, S), (1, M), (1, S)],
        ),
        (mapping(S, 2 * M - 2 * S, S), &[(1022, S)]),
        (mapping(0, M, S), &[(512, S)]),
        (mapping(3 * M, G - M, M), &[(511, M)]),
        (mapping(0, G, 0), &[(1, G)]),
        (mapping(G, G, M), &[(512, M)]),
        (mapping(0, 3 * G, 2 * G), &[(3, G)]),
        (
            mapping(G - M - S, G + 2 * M + 2 * S, 3 * G - M - S),
            &[(1, S), (1, M), (1, G), (1, M), (1, S)],
        ),
        (mapping(LIMIT - G, G, LIMIT - G), &[(1, G)]),
        (mapping(LIMIT - M, M, 0), &[(1, M)]),
        (mapping(0, M, LIMIT - M), &[(1, M)]),
        (mapping(LIMIT - M - S, M + S, 0), &[(513, S)]),
    ];
    for &(mapping, pieces) in cases {
        let expected = entries_of(mapping, pieces);
        let mut words = vec![STALE; entry_list_words(mapping.size)];
        let entries = page_entries(mapping, &mut words).expect("it keeps its rules");
        assert_eq!(entries.len(), expected.len(), "{mapping:x?}");
        assert!(entries.eq(expected.iter().copied()), "{mapping:x?}");

        // As many words as there are will do; with one fewer nothing is written.
        let mut words = vec![STALE; expected.len() * ENTRY_WORDS];
        assert!(page_entries(mapping, &mut words).is_ok(), "{mapping:x?}");
        words.pop();
        words.fill(STALE);
        let refused = page_entries(mapping, &mut words).err();
        assert_eq!(refused, Some(Refusal::ShortOutput), "{mapping:x?}");
        assert!(words.iter().all(|&word| word == STALE), "{mapping:x?}");
    }
}

#[test]
fn a_mapping_that_breaks_its_rules_is_refused_before_its_words() {
    let good = mapping(G, 2 * S, 3 * S);
    let bad = [
        Mapping { address: 1, ..good },
        Mapping { size: 1, ..good },
        Mapping { offset: 1, ..good },
        Mapping { size: 0, ..good },
        Mapping { object: 0, ..good },
        Mapping {
            object: MAX_OBJECT + 1,
            ..good
        },
        Mapping {
            address: LIMIT - S,
            ..good
        },
        Mapping {
            offset: LIMIT - S,
            ..good
        },
        Mapping {
            address: 0u64.wrapping_sub(S),
            ..good
        },
        Mapping {
            offset: 0u64.wrapping_sub(S),
            ..good
        },
        Mapping {
            size: 0u64.wrapping_sub(S),
            ..good
        },
    ];
    for bad in bad {
        for many in [0, 5, 6, 100] {
            let mut words = [STALE; 100];
            let refused = page_entries(bad, &mut words[..many]).err();
            assert_eq!(refused, Some(Refusal::BadMapping { place: 0 }), "{bad:x?}");
            assert_eq!(words, [STALE; 100], "{bad:x?}");
        }
    }
    let highest = Mapping {
        address: LIMIT - 2 * S,
        object: MAX_OBJECT,
        offset: LIMIT - 2 * S,
        ..good
    };
    assert!(page_entries(highest, &mut [0; 6]).is_ok());
}

#[test]
fn the_longest_lists_are_refused_at_once() {
    // Nearly 2^36 entries, and 2^18 of the largest size.
    for longest in [mapping(0, LIMIT - S, S), mapping(0, LIMIT, 0)] {
        let mut words = [STALE; 100];
        let refused = page_entries(longest, &mut words).err();
        assert_eq!(refused, Some(Refusal::ShortOutput));
        assert_eq!(words, [STALE; 100]);
    }
}

#[test]
fn the_iterator_gives_what_is_written_and_no_more() {
    let mut words = [STALE; 4 * ENTRY_WORDS];
    let mut entries = page_entries(mapping(M - S, M + S, M - S), &mut words).expect("two fit");
    let (first, second) = (
        PageEntry::from([M - S, M - S, S]),
        PageEntry::from([M, M, M]),
    );
    assert_eq!((entries.len(), entries.size_hint()), (2, (2, Some(2))));
    assert_eq!(entries.next(), Some(first));
    assert_eq!((entries.len(), entries.size_hint()), (1, (1, Some(1))));
    let mut again = entries.clone();
    assert_eq!((entries.next(), entries.len()), (Some(second), 0));
    assert_eq!((entries.next(), entries.next()), (None, None));
    assert_eq!((again.next(), again.next()), (Some(second), None));
    assert_eq!(words[..6], [M - S, M - S, S, M, M, M]);
    assert_eq!(words[6..], [STALE; 6]);
}

/// All entries, in a list of their own.
fn listed(mapping: Mapping) -> Vec<PageEntry> {
    let mut words = vec![0; entry_list_words(mapping.size)];
    let entries = page_entries(mapping, &mut words);
    entries.expect("it keeps its rules").collect()
}

/// What a mapping has from `from` bytes on, `size` bytes.
fn part(mapping: Mapping, from: u64, size: u64) -> Mapping {
    Mapping {
        address: mapping.address + from,
        size,
        offset: mapping.offset + from,
        ..mapping
    }
}

#[test]
fn the_lists_of_parts_are_the_list_of_the_mapping() {
    // A mapping, and the size at whose multiples it may be cut.
    let cases = [
        (mapping(G - M - S, G + 2 * M + 2 * S, G - M - S), G),
        (mapping(2 * G - 3 * S, 5 * M, M - 3 * S), M),
        (mapping(M - 2 * S, M, 7 * S), S),
    ];
    for (whole, at) in cases {
        let mut parts = Vec::new();
        let mut done = 0;
        while done < whole.size {
            let to_boundary = at - (whole.address + done) % at;
            let size = to_boundary.min(whole.size - done);
            parts.extend(listed(part(whole, done, size)));
            done += size;
        }
        assert_eq!(parts, listed(whole), "{whole:x?}");
    }
    // Elsewhere a cut can make two pages of one.
    let (whole, half) = (mapping(0, M, 0), M / 2);
    assert_eq!(listed(part(whole, 0, half)).len(), 256);
    assert_eq!(listed(whole).len(), 1);
}

/// Whether a list has all entries of another one that a mapping has wholly.
fn has_all(list: &[PageEntry], of: &[PageEntry], inside: Mapping) -> bool {
    let end = inside.address + inside.size;
    of.iter()
        .filter(|entry| inside.address <= entry.address && entry.address + entry.size <= end)
        .all(|entry| list.contains(entry))
}

#[test]
fn the_entries_that_a_cut_does_not_hit_are_in_the_rests() {
    let old = mapping(G - M - S, 2 * G + 2 * M + 2 * S, 3 * G - M - S);
    let before = listed(old);
    assert_eq!(before.len(), 6);
    for cut in [
        S,
        2 * S,
        M,
        M + S,
        M + 2 * S,
        M + S + G,
        M + S + G + 5 * M + S,
    ] {
        let (lower, upper) = (part(old, 0, cut), part(old, cut, old.size - cut));
        assert!(has_all(&listed(lower), &before, lower), "{cut:x}");
        assert!(has_all(&listed(upper), &before, upper), "{cut:x}");
    }
    // It is not so for any two mappings.
    let lower = part(old, 0, M);
    assert!(!has_all(&before, &listed(lower), lower));
}

#[test]
fn words_for_any_number_of_bytes() {
    let expected = [
        (0, 0),
        (S - 1, 0),
        (S, 3),
        (2 * S - 1, 3),
        (M, 1536),
        (G, 786_432),
        (LIMIT, 3 << 36),
        (u64::MAX, 3 * ((1 << 52) - 1)),
    ];
    for (bytes, words) in expected {
        assert_eq!(entry_list_words(bytes), words, "{bytes:x}");
    }
}

#[test]
fn the_layouts_are_those_of_the_header() {
    assert_eq!(size_of::<Mapping>(), 32);
    assert_eq!(offset_of!(Mapping, address), 0);
    assert_eq!(offset_of!(Mapping, size), 8);
    assert_eq!(offset_of!(Mapping, object), 16);
    assert_eq!(offset_of!(Mapping, offset), 24);
    assert_eq!(size_of::<ffi::Pages>(), 24);
    assert_eq!(offset_of!(ffi::Pages, refusal), 0);
    assert_eq!(offset_of!(ffi::Pages, place), 8);
    assert_eq!(offset_of!(ffi::Pages, entries), 16);
}
