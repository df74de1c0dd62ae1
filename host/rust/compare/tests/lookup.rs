//! Compares the library's look-up to the model's, input by input.

use std::ops::Range;
use std::thread;
use waylluqen::View;
use waylluqen_compare::calls::{model_look, Caller, Way};
use waylluqen_compare::library::{self, ByNumber, Looked};
use waylluqen_compare::lists::{self, good_list, long_list, some_ranges, Faults, List};
use waylluqen_compare::numbers::{
    disturb_space, edge_spaces, edges, other64, space_of, HALF, LIMIT,
};
use waylluqen_compare::sights::Sights;
use waylluqen_compare::tables::{
    any_address, any_table, boundaries, cut_up, damage, fill_space, filled, good_table,
    large_spaces, make_stale, other_count, other_length, plain_spaces, range_boundaries,
    small_spaces, some_most, Good, Table, DAMAGES, LONGEST_TABLE, MANY_MAPPINGS, MOST_WORDS,
};
use waylluqen_model::random::Random;
use waylluqen_model::{lookup, Refused, SparseRange, MAPPING_WORDS, MOST_MAPPINGS, PAGE};

/// The refusals that a look-up has.
const NUMBERS: [usize; 6] = [1, 2, 4, 5, 17, 18];

/// Compares, and counts how often each answer came.
struct Tally {
    caller: Caller,
    comparisons: u64,
    sights: Sights,
    refused: ByNumber,
    /// Lists that were refused.
    faults: Faults,
    /// Bad mappings that were the first, the last, or between.
    first: u64,
    last: u64,
    between: u64,
    /// Answers from full tables of as many mappings as there may be.
    on_most: u64,
}

impl Tally {
    fn new(seed: u64) -> Tally {
        Tally {
            caller: Caller::new(seed),
            comparisons: 0,
            sights: Sights::default(),
            refused: ByNumber::default(),
            faults: Faults::default(),
            first: 0,
            last: 0,
            between: 0,
            on_most: 0,
        }
    }

    /// Looks up in words and by the types, with other words around.
    fn compare(&mut self, table: &Table, address: u64) -> Looked {
        let model = model_look(table, address);
        self.caller.lend(table);
        for way in [Way::Words, Way::Types] {
            self.caller.stir(address);
            self.caller.look_up(way, table, address, model);
        }
        self.comparisons += 1;
        match model {
            Ok(seen) => {
                self.on_most += u64::from(table.count == MOST_MAPPINGS as u64);
                self.sights.count(table, address, seen);
            }
            Err(refused) => self.note_refusal(refused, table),
        }
        model
    }

    fn note_refusal(&mut self, refused: Refused, table: &Table) {
        self.refused[refused.number as usize] += 1;
        match refused {
            Refused { number: 5, place } => match place {
                0 => self.first += 1,
                place if place + 1 == table.count => self.last += 1,
                _ => self.between += 1,
            },
            Refused { number: 18, .. } => self.faults.count(&table.space, &table.list),
            _ => {}
        }
    }

    /// Looks all these addresses up in a full table, or in an empty one that has room for one.
    fn look_at(&mut self, good: &Good, addresses: &[u64]) {
        let table = good.table(usize::from(good.mappings.is_empty()));
        for &address in addresses {
            self.compare(&table, address).expect("a good table");
        }
    }

    /// Damages each word at these places in each way, and counts what is refused.
    fn damage_places(
        &mut self,
        random: &mut Random,
        good: &Good,
        spare: usize,
        places: Range<usize>,
        refused: &mut [u64; DAMAGES.len()],
    ) {
        let whole = good.table(spare);
        let used = good.mappings.len() * MAPPING_WORDS;
        for at in places.start * MAPPING_WORDS..places.end * MAPPING_WORDS {
            for ((_, damage), refused) in DAMAGES.iter().zip(&mut *refused) {
                let mut table = whole.clone();
                damage(random, &good.space, &mut table.words[..used], at);
                let address = any_address(random, good);
                let answer = self.compare(&table, address);
                *refused += u64::from(answer.is_err());
            }
        }
    }

    /// Every answer came at least `least` times.
    fn assert_answers(&self, least: u64) {
        for number in NUMBERS {
            let times = self.refused[number];
            assert!(times >= least, "refusal {number} came only {times} times");
        }
        self.assert_sights(least);
        for times in [self.first, self.between, self.last] {
            assert!(times >= least, "a kind of place came only {times} times");
        }
        self.faults.assert_each(least);
    }

    /// Every kind of answer from a good table came at least `least` times.
    fn assert_sights(&self, least: u64) {
        for (kind, times) in self.sights.kinds() {
            assert!(times >= least, "{kind} came only {times} times");
        }
    }

    /// Seen with `cargo test -- --nocapture`.
    fn print(&self, test: &str) {
        let refused = NUMBERS.map(|number| format!("{number}: {}", self.refused[number]));
        println!(
            "{test}: {} comparisons, {:?}, refused {} (first {}, between {}, last {}), {:?}, \
             on most {}",
            self.comparisons,
            self.sights,
            refused.join(", "),
            self.first,
            self.between,
            self.last,
            self.faults,
            self.on_most
        );
    }
}

/// A table with up to two damages, and now and then with something else changed about it.
fn disturbed(random: &mut Random, good: &Good, whole: &Table) -> Table {
    let mut table = whole.clone();
    for _ in 0..random.below(3) {
        damage(random, good, &mut table.words);
    }
    if random.once_in(16) {
        disturb_space(random, &mut table.space);
    }
    if random.once_in(16) {
        let length = other_length(random, table.words.len());
        table.words.resize(length, 0);
    }
    if random.once_in(16) {
        let count = other_count(random, whole.count, table.words.len() as u64);
        table.recount(random, count);
    }
    if random.once_in(16) {
        make_stale(random, &mut table);
    }
    if random.once_in(4) {
        lists::damage(random, &good.space, &mut table.list);
    }
    table
}

#[test]
fn good_tables_and_those_near_them() {
    const TABLES: u64 = 25_000;
    const CALLS_EACH: u64 = 40;
    let mut random = Random::new(11);
    let mut tally = Tally::new(12);
    for _ in 0..TABLES {
        let most = some_most(&mut random, 8);
        let good = good_table(&mut random, most as u64);
        let spare = random.up_to((most - good.mappings.len()) as u64) as usize;
        let whole = good.table(spare);
        for _ in 0..CALLS_EACH {
            let table = disturbed(&mut random, &good, &whole);
            let address = any_address(&mut random, &good);
            tally.compare(&table, address).ok();
        }
    }
    tally.print("good tables and those near them");
    tally.assert_answers(1000);
    assert!(tally.comparisons >= 1_000_000);
    assert!(tally.on_most >= 1000, "only {} answers", tally.on_most);
}

#[test]
fn every_boundary_of_good_tables() {
    let mut random = Random::new(21);
    let mut tally = Tally::new(22);
    for space in plain_spaces().into_iter().chain(small_spaces()) {
        for mappings in [0, 1, 2, 3, 17, 100, 511, 512, 512] {
            let good = fill_space(&mut random, space, mappings);
            tally.look_at(&good, &boundaries(&good));
        }
    }
    tally.print("every boundary of good tables");
    tally.assert_sights(100);
}

#[test]
fn boundaries_of_large_tables() {
    const EACH: usize = 500;
    let mut random = Random::new(25);
    let mut tally = Tally::new(26);
    for space in large_spaces() {
        for mappings in [513, 1024, 4094, 4095] {
            let mut good = filled(&mut random, space, mappings);
            good.list = long_list(&mut random, &space, &good.mappings);
            let all = boundaries(&good);
            // The first and the last ones, and some of those between; and those of the ranges.
            let between = all.iter().step_by(all.len() / EACH);
            let ends = all[..20].iter().chain(&all[all.len() - 20..]);
            let mut some: Vec<u64> = between.chain(ends).copied().collect();
            some.extend(range_boundaries(&good.list));
            tally.look_at(&good, &some);
        }
    }
    tally.print("boundaries of large tables");
    tally.assert_sights(10);
}

#[test]
fn every_boundary_of_the_largest_tables() {
    let mut random = Random::new(29);
    let mut tally = Tally::new(30);
    for space in large_spaces() {
        let mut good = filled(&mut random, space, MOST_MAPPINGS);
        good.list = long_list(&mut random, &space, &good.mappings);
        tally.look_at(&good, &boundaries(&good));
    }
    tally.print("every boundary of the largest tables");
    tally.assert_sights(3);
    assert_eq!(tally.on_most, tally.comparisons);
}

#[test]
fn neighbours_that_go_on() {
    let mut random = Random::new(27);
    let mut tally = Tally::new(28);
    for (mappings, pages_each) in [(2, 1), (3, 5), (100, 2), (512, 1), (4096, 3)] {
        let mut good = cut_up(mappings, pages_each);
        good.list = good_list(&mut random, &good.space, &good.mappings);
        let before = tally.sights.continued;
        tally.look_at(&good, &boundaries(&good));
        // From the first byte, the last byte and the middle of each but the last.
        assert!(tally.sights.continued - before >= 3 * (mappings - 1));
    }
    tally.print("neighbours that go on");
}

#[test]
fn every_word_damaged_in_every_way() {
    let mut random = Random::new(31);
    let mut tally = Tally::new(32);
    let mut refused = [0; DAMAGES.len()];
    for space in plain_spaces() {
        for mappings in [1, 2, 3, 17, 100, 512] {
            let good = filled(&mut random, space, mappings);
            let spare = (MANY_MAPPINGS - mappings).min(3);
            tally.damage_places(&mut random, &good, spare, 0..mappings, &mut refused);
        }
    }
    tally.print("every word damaged in every way");
    for ((name, _), times) in DAMAGES.iter().zip(refused) {
        println!("  {name}: refused {times}");
        assert!(times >= 1000, "{name} was refused only {times} times");
    }
}

/// At the ends of a large table, in its middle, and about what is many.
#[test]
fn words_of_large_tables_damaged_in_every_way() {
    let mut random = Random::new(35);
    let mut tally = Tally::new(36);
    let mut refused = [0; DAMAGES.len()];
    for space in large_spaces() {
        for mappings in [513, 1024, 4095, 4096] {
            let good = filled(&mut random, space, mappings);
            let spare = (MOST_MAPPINGS - mappings).min(3);
            for places in [0..2, 511..513, mappings / 2..mappings / 2 + 1] {
                tally.damage_places(&mut random, &good, spare, places, &mut refused);
            }
            let last = mappings - 2..mappings;
            tally.damage_places(&mut random, &good, spare, last, &mut refused);
        }
    }
    tally.print("words of large tables damaged in every way");
    for ((name, _), times) in DAMAGES.iter().zip(refused) {
        assert!(times >= 50, "{name} was refused only {times} times");
    }
    assert!(tally.first >= 50 && tally.between >= 50 && tally.last >= 50);
}

#[test]
fn lengths_and_counts() {
    let mut random = Random::new(41);
    let mut tally = Tally::new(42);
    let many = MANY_MAPPINGS * MAPPING_WORDS;
    for space in large_spaces() {
        let good = filled(&mut random, space, MOST_MAPPINGS);
        let mut words = good.words(0);
        words.resize_with(LONGEST_TABLE, || random.next_u64());
        let lengths = (0..=many + 20).chain(MOST_WORDS - 20..=MOST_WORDS + 20);
        for length in lengths.chain([3000, 3001, 8192, LONGEST_TABLE]) {
            let capacity = (length / MAPPING_WORDS) as u64;
            for count in edges(&[0, capacity, length as u64, 1 << 32, 1 << 62, HALF]) {
                let address = any_address(&mut random, &good);
                let mut table = Table {
                    space,
                    list: good.list.clone(),
                    words: words[..length].to_vec(),
                    count,
                };
                tally.compare(&table, address).ok();
                table.behind().fill(0);
                tally.compare(&table, address).ok();
            }
        }
    }
    tally.print("lengths and counts");
    assert!(tally.refused[2] >= 1000 && tally.refused[4] >= 1000);
    // With a lower count all mappings behind it are stale.
    assert!(tally.refused[17] >= 1000);
    assert!(tally.sights.objects >= 1000 && tally.sights.nothing() >= 1000);
    // All the words that an accepted length leaves are good mappings.
    assert_eq!(tally.refused[1] + tally.refused[5], 0);
    // The pointer of a slice that never had memory.
    let [space, ..] = plain_spaces();
    let refused = waylluqen::Table::empty(&mut []).lookup(library::space(&space), 0);
    let model = lookup(&space, &List::default().lent(), &[], 0, 0);
    assert_eq!(refused, library::looked(model));
}

/// Look-ups in one view from several threads, beside each other.
#[test]
fn views_of_several_threads() {
    const THREADS: u64 = 4;
    let mut random = Random::new(91);
    for space in plain_spaces() {
        let mut good = fill_space(&mut random, space, 100);
        let ranges = some_ranges(&mut random, &space, &good.mappings, 10);
        good.list = List::of(&ranges, 12);
        let table = good.table(3);
        let view =
            View::new(&table.words, table.count).with_ranges(&table.list.words, table.list.count);
        let look_up = |view: View<'_>, seed: u64| {
            let mut random = Random::new(seed);
            for _ in 0..10_000 {
                let address = any_address(&mut random, &good);
                let model = model_look(&table, address);
                let answer = view.lookup(library::space(&space), address);
                assert_eq!(answer, library::looked(model), "at {address:#x}");
            }
        };
        thread::scope(|scope| {
            for seed in 92..92 + THREADS {
                scope.spawn(move || look_up(view, seed));
            }
        });
    }
}

#[test]
fn spaces_at_edges() {
    let mut random = Random::new(51);
    let mut tally = Tally::new(52);
    let space = space_of([4 * PAGE, 4 * PAGE, 6 * PAGE, PAGE]);
    let good = fill_space(&mut random, space, 2);
    // Mappings, and ranges where there are none: in some spaces they are no good.
    let range = |page: u64| SparseRange {
        start: page * PAGE,
        size: PAGE,
    };
    let ranges = Good {
        space,
        list: List::of(&[range(4), range(5), range(7)], 3),
        mappings: Vec::new(),
    };
    let mut tables = [good.table(1), ranges.table(1)];
    for space in edge_spaces() {
        for table in &mut tables {
            table.space = space;
            let address = any_address(&mut random, &good);
            tally.compare(table, address).ok();
        }
    }
    tally.print("spaces at edges");
    assert!(tally.refused[1] >= 1000 && tally.refused[5] >= 100);
    assert!(tally.refused[18] >= 100, "only {} lists", tally.refused[18]);
    assert!(tally.sights.objects > 0 && tally.sights.nothing() > 0);
}

#[test]
fn any_words() {
    const INPUTS: u64 = 100_000;
    let mut random = Random::new(61);
    let mut tally = Tally::new(62);
    for _ in 0..INPUTS {
        let table = any_table(&mut random);
        let address = other64(&mut random, &table.space, table.space.start);
        tally.compare(&table, address).ok();
    }
    tally.print("any words");
    for (number, least) in [
        (1, 1000),
        (2, 1000),
        (4, 1000),
        (5, 1000),
        (17, 500),
        (18, 500),
    ] {
        assert!(tally.refused[number] >= least, "{number} came too rarely");
    }
    assert!(tally.sights.nothing() >= 1000);
}

/// Looks at one mapping of each of these sizes, objects and offsets at an address.
fn look_at_edges(tally: &mut Tally, table: &mut Table, address: u64) {
    let space = table.space;
    let sizes = edges(&[0, 2 * PAGE, space.size, LIMIT, HALF]);
    let high = 1 << 32;
    let objects = [0, 1, 7, high - 1, high, high + 1, HALF, u64::MAX];
    let offsets = edges(&[0, LIMIT - 2 * PAGE, LIMIT - space.size, LIMIT]);
    for &size in &sizes {
        for object in objects {
            for &offset in &offsets {
                table.words = vec![address, size, object, offset];
                tally.compare(table, address).ok();
            }
        }
    }
}

/// Every address, size, object and offset at an edge, together.
#[test]
fn one_mapping_at_edges() {
    let mut random = Random::new(70);
    let mut tally = Tally::new(71);
    for space in small_spaces() {
        let end = space.start + space.size;
        let reserved = space.reserved_start;
        let reserved_end = reserved + space.reserved_size;
        let mut table = Table {
            space,
            list: good_list(&mut random, &space, &[]),
            words: Vec::new(),
            count: 1,
        };
        for address in edges(&[0, space.start, end, reserved, reserved_end, HALF]) {
            look_at_edges(&mut tally, &mut table, address);
        }
    }
    tally.print("one mapping at edges");
    assert!(tally.sights.objects >= 100 && tally.refused[5] >= 1000);
}

/// Two ranges in a space of a few pages, every one beside every other one.
#[test]
fn two_mappings_in_a_few_pages() {
    const PAGES: u64 = 14;
    let mut random = Random::new(80);
    let mut tally = Tally::new(81);
    for space in small_spaces() {
        let from = space.start.saturating_sub(PAGE);
        let ranges: Vec<[u64; 2]> = (0..PAGES)
            .flat_map(|first| (0..=PAGES - first).map(move |pages| [first, pages]))
            .map(|[first, pages]| [from + first * PAGE, pages * PAGE])
            .collect();
        for one in &ranges {
            for other in &ranges {
                let table = Table {
                    space,
                    list: good_list(&mut random, &space, &[]),
                    words: vec![one[0], one[1], 7, 0, other[0], other[1], 8, PAGE],
                    count: 2,
                };
                for address in [other[0], other[0] + other[1]] {
                    tally.compare(&table, address).ok();
                }
            }
        }
    }
    tally.print("two mappings in a few pages");
    assert!(tally.sights.objects >= 100 && tally.sights.nothing() >= 100);
    assert!(tally.first >= 1000 && tally.last >= 1000);
}
