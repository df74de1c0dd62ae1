//! What a table of the Rust interface tells of its words and of its list's without a call: any
//! words, any count.

use waylluqen::Ranges;
use waylluqen_compare::library;
use waylluqen_compare::lists::List;
use waylluqen_compare::tables::{any_table, good_table, Table};
use waylluqen_model::random::Random;
use waylluqen_model::table::mapping_at;
use waylluqen_model::{MAPPING_WORDS, MOST_MAPPINGS, RANGE_WORDS};

/// Compares all that is told of a list to its words.
fn compare_list(list: &List) {
    let capacity = list.words.len() / RANGE_WORDS;
    let mut words = list.words.clone();
    let lent = Ranges::with_count(&mut words, list.count);
    assert_eq!((lent.count(), lent.capacity()), (list.count, capacity));
    assert_eq!(lent.words(), list.words);
    assert!(lent
        .iter()
        .eq(list.ranges().into_iter().map(library::range)));
}

/// Compares all that is told to the words, and answers the number of mappings.
fn compare(table: &Table) -> usize {
    compare_list(&table.list);
    let Table {
        words, count, list, ..
    } = table;
    let capacity = words.len() / MAPPING_WORDS;
    let places = 0..capacity.min(usize::try_from(*count).expect("64 bits"));
    let number = places.len();
    let mut lent_words = words.clone();
    let lent = waylluqen::Table::with_count(&mut lent_words, *count);
    assert_eq!((lent.ranges().count(), lent.ranges().capacity()), (0, 0));
    let mut list_words = list.words.clone();
    let lent = lent.with_ranges(Ranges::with_count(&mut list_words, list.count));
    assert_eq!((lent.count(), lent.capacity()), (*count, capacity));
    assert_eq!(lent.words(), words);
    assert_eq!(lent.ranges().words(), list.words);
    assert_eq!(lent.ranges().count(), list.count);
    let mappings = places.map(|place| library::mapping(mapping_at(words, place)));
    assert!(lent.mappings().eq(mappings.clone()));
    let view = waylluqen::View::new(words, *count);
    assert_eq!(view.ranges().count(), 0);
    for view in [lent.view(), view.with_ranges(&list.words, list.count)] {
        assert_eq!((view.count(), view.capacity()), (*count, capacity));
        assert_eq!(view.words(), words);
        assert!(view.mappings().eq(mappings.clone()));
        assert!(view.ranges().eq(lent.ranges().iter()));
    }
    number
}

#[test]
fn any_words() {
    let mut random = Random::new(401);
    let mut cut = 0;
    for _ in 0..10_000 {
        let table = any_table(&mut random);
        cut += u64::from((compare(&table) as u64) < table.count);
    }
    assert!(cut >= 1000, "only {cut} counts were above the capacity");
}

#[test]
fn good_tables() {
    let mut random = Random::new(411);
    for _ in 0..1000 {
        let good = good_table(&mut random, MOST_MAPPINGS as u64);
        assert_eq!(compare(&good.table(1)), good.mappings.len());
    }
}

#[test]
fn empty_tables() {
    let mut random = Random::new(421);
    for length in 0..40 {
        let mut words: Vec<u64> = (0..length).map(|_| random.next_u64()).collect();
        let table = waylluqen::Table::empty(&mut words);
        assert_eq!((table.count(), table.mappings().count()), (0, 0));
        assert_eq!(table.words(), vec![0; length]);
        let mut words: Vec<u64> = (0..length).map(|_| random.next_u64()).collect();
        let ranges = Ranges::empty(&mut words);
        assert_eq!((ranges.count(), ranges.iter().count()), (0, 0));
        assert_eq!(ranges.words(), vec![0; length]);
    }
}
