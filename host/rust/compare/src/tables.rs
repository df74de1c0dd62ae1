//! Tables for the comparisons: good ones, ways to damage them, and the addresses in them. Each has
//! a list of sparse ranges beside it.

use crate::lists::{self, good_list, List};
use crate::numbers::{
    disturb_space, edge, good_space, other64, size_to_edge, space_of, DELTAS, LIMIT,
};
use waylluqen_model::bind::least_operation_words;
use waylluqen_model::random::Random;
use waylluqen_model::table::mapping_at;
use waylluqen_model::{space_holds, Mapping, Space, SparseRange};
use waylluqen_model::{HIGHEST_OBJECT, MAPPING_WORDS, MOST_MAPPINGS, OPERATION_WORDS, PAGE};

/// Many, but quick to compare: only some of the tables are larger.
pub const MANY_MAPPINGS: usize = 512;

pub const MOST_WORDS: usize = MOST_MAPPINGS * MAPPING_WORDS;
pub const LONGEST_TABLE: usize = MOST_WORDS + MOST_WORDS / 4;

/// How many mappings a table is to have at most: once in `times` as many as it may, else many.
pub fn some_most(random: &mut Random, times: u64) -> usize {
    if random.once_in(times) {
        MOST_MAPPINGS
    } else {
        MANY_MAPPINGS
    }
}

/// A space, and a list and a table for it: any numbers and any words.
#[derive(Clone)]
pub struct Table {
    pub space: Space,
    pub list: List,
    pub words: Vec<u64>,
    pub count: u64,
}

impl Table {
    /// The words behind as many mappings as are counted: none where the count is too high.
    pub fn behind(&mut self) -> &mut [u64] {
        let used = self.count.saturating_mul(MAPPING_WORDS as u64);
        let used = used.min(self.words.len() as u64);
        &mut self.words[used as usize..]
    }

    /// The space, the list and the mappings of a table that keeps its rules.
    pub fn good(&self) -> Good {
        let places = 0..self.count as usize;
        Good {
            space: self.space,
            list: self.list.clone(),
            mappings: places.map(|place| mapping_at(&self.words, place)).collect(),
        }
    }

    /// Another count, mostly with zeros behind so many mappings; else what was there is stale.
    pub fn recount(&mut self, random: &mut Random, count: u64) {
        self.count = count;
        if !random.once_in(8) {
            self.behind().fill(0);
        }
    }
}

/// A space that keeps its rules, and a list of sparse ranges and mappings in it that keep theirs.
#[derive(Clone)]
pub struct Good {
    pub space: Space,
    pub list: List,
    pub mappings: Vec<Mapping>,
}

impl Good {
    /// The words of the mappings and, behind them, zeros for `spare` more.
    pub fn words(&self, spare: usize) -> Vec<u64> {
        let mut words: Vec<u64> = self.mappings.iter().flat_map(Mapping::words).collect();
        words.resize(words.len() + spare * MAPPING_WORDS, 0);
        words
    }

    /// The table of these words.
    pub fn table(&self, spare: usize) -> Table {
        Table {
            space: self.space,
            list: self.list.clone(),
            words: self.words(spare),
            count: self.mappings.len() as u64,
        }
    }
}

/// What is below the reservation and what is above it, as (start, end).
pub fn free_parts(space: &Space) -> [(u64, u64); 2] {
    let end = space.start + space.size;
    if space.reserved_size == 0 {
        return [(space.start, end), (end, end)];
    }
    let reserved_end = space.reserved_start + space.reserved_size;
    [(space.start, space.reserved_start), (reserved_end, end)]
}

fn good_mapping(random: &mut Random, address: u64, size: u64) -> Mapping {
    let any = random.up_to((LIMIT - size) / PAGE) * PAGE;
    Mapping {
        address,
        size,
        object: 1 + random.up_to(HIGHEST_OBJECT - 1),
        // Displacements of zero would be rare.
        offset: if random.once_in(8) { address } else { any },
    }
}

/// One that goes on as an earlier one, lower in the space, as far as its object goes.
fn going_on(earlier: &Mapping, address: u64, size: u64) -> Option<Mapping> {
    let offset = earlier.offset + (address - earlier.address);
    (offset + size <= LIMIT).then_some(Mapping {
        address,
        size,
        object: earlier.object,
        offset,
    })
}

/// Any mapping there, or one that goes on as one of the earlier ones.
fn next_mapping(random: &mut Random, earlier: &[Mapping], address: u64, size: u64) -> Mapping {
    let any = good_mapping(random, address, size);
    if earlier.is_empty() || !random.once_in(4) {
        return any;
    }
    going_on(&random.pick(earlier), address, size).unwrap_or(any)
}

/// Mappings in `[start, end)`: `number` of them, or one for each page if there are fewer pages.
/// Many touch their forerunner, and the last one often touches the end. Some go on as an earlier
/// one does, perhaps with others between them.
fn fill(random: &mut Random, (start, end): (u64, u64), number: u64, into: &mut Vec<Mapping>) {
    let number = number.min((end - start) / PAGE);
    let mut address = start;
    for left in (1..=number).rev() {
        // A page for each of those that are left; what is spare is shared out.
        let spare = (end - address) / PAGE - left;
        let gap = random.up_to(spare / left);
        let size = 1 + random.up_to((spare - gap) / left);
        address += gap * PAGE;
        into.push(next_mapping(random, into, address, size * PAGE));
        address += size * PAGE;
    }
}

/// `most` mappings on both sides of the reservation, or one for each page if there are fewer.
pub fn fill_space(random: &mut Random, space: Space, most: u64) -> Good {
    let [below, above] = free_parts(&space);
    let above_pages = (above.1 - above.0) / PAGE;
    let wished = match random.below(4) {
        0 => random.up_to(most),
        _ => most / 2,
    };
    let lower = wished.max(most.saturating_sub(above_pages));
    let mut mappings = Vec::new();
    fill(random, below, lower, &mut mappings);
    let upper = most - mappings.len() as u64;
    fill(random, above, upper, &mut mappings);
    let list = good_list(random, &space, &mappings);
    Good {
        space,
        list,
        mappings,
    }
}

/// A space that is filled up to so many mappings.
pub fn filled(random: &mut Random, space: Space, mappings: usize) -> Good {
    let good = fill_space(random, space, mappings as u64);
    assert_eq!(good.mappings.len(), mappings);
    good
}

/// A good space with 1 to `largest` mappings.
pub fn good_table(random: &mut Random, largest: u64) -> Good {
    loop {
        let space = good_space(random);
        let most = 1 + random.up_to(largest - 1);
        let good = fill_space(random, space, most);
        if !good.mappings.is_empty() {
            return good;
        }
    }
}

/// So many mappings that touch and go on with the same bytes, as if they were one; with gaps in
/// front of the first and behind the last, and without a sparse range.
pub fn cut_up(mappings: u64, pages_each: u64) -> Good {
    let (start, size) = (64 * PAGE, pages_each * PAGE);
    let mapping = |place: u64| Mapping {
        address: start + place * size,
        size,
        object: 7,
        offset: 3 * PAGE + place * size,
    };
    Good {
        space: space_of([PAGE, 2 * start + mappings * size, 2 * PAGE, PAGE]),
        list: List::default(),
        mappings: (0..mappings).map(mapping).collect(),
    }
}

/// Changes the word at a place in the words of a table's mappings.
pub type Damage = fn(&mut Random, &Space, &mut [u64], usize);

/// Every way to damage a table, with its name.
pub const DAMAGES: [(&str, Damage); 18] = [
    ("a bit flipped", |random, _, words, at| {
        words[at] ^= 1 << random.below(64);
    }),
    ("a page more", |_, _, words, at| {
        words[at] = words[at].wrapping_add(PAGE);
    }),
    ("a page less", |_, _, words, at| {
        words[at] = words[at].wrapping_sub(PAGE);
    }),
    ("a byte more", |_, _, words, at| {
        words[at] = words[at].wrapping_add(1);
    }),
    ("a byte less", |_, _, words, at| {
        words[at] = words[at].wrapping_sub(1);
    }),
    ("0", |_, _, words, at| words[at] = 0),
    ("the highest", |_, _, words, at| words[at] = u64::MAX),
    ("at an edge of the space", |random, space, words, at| {
        words[at] = edge(random, space);
    }),
    ("any", |random, _, words, at| words[at] = random.next_u64()),
    ("swapped with another", |random, _, words, at| {
        let other = random.below(words.len() as u64) as usize;
        words.swap(at, other);
    }),
    ("at its limit", at_its_limit),
    ("a sum wrapped", wrap_one_sum),
    ("both sums wrapped", wrap_both_sums),
    ("to the neighbour's edge", move_to_neighbour),
    ("mapping swapped with another", |random, _, words, at| {
        let other = mapping_words(random.below(words.len() as u64) as usize);
        let this = mapping_words(at);
        for (one, other) in this.zip(other) {
            words.swap(one, other);
        }
    }),
    ("mapping twice", |_, _, words, at| {
        let forerunner = mapping_words(at.saturating_sub(MAPPING_WORDS));
        words.copy_within(forerunner, mapping_words(at).start);
    }),
    ("mapping of zeros", |_, _, words, at| {
        words[mapping_words(at)].fill(0);
    }),
    ("mapping of any words", |random, _, words, at| {
        words[mapping_words(at)].fill_with(|| random.next_u64());
    }),
];

/// The words of the mapping to which the word at this place belongs.
fn mapping_words(at: usize) -> std::ops::Range<usize> {
    let start = at / MAPPING_WORDS * MAPPING_WORDS;
    start..start + MAPPING_WORDS
}

/// The highest that the rules allow, or a step beside it.
fn at_its_limit(random: &mut Random, space: &Space, words: &mut [u64], at: usize) {
    let [address, size, object, offset] = &mut words[mapping_words(at)] else {
        unreachable!("a mapping is four words")
    };
    let end = space.start.wrapping_add(space.size);
    let to_end = end.wrapping_sub(*address);
    let to_limit = LIMIT.wrapping_sub(*offset);
    let (word, highest) = match at % MAPPING_WORDS {
        0 => (&mut *address, end.wrapping_sub(*size)),
        1 => (&mut *size, random.pick(&[to_end, to_limit])),
        2 => (&mut *object, random.pick(&[1, HIGHEST_OBJECT])),
        _ => (&mut *offset, LIMIT.wrapping_sub(*size)),
    };
    *word = highest.wrapping_add(random.pick(&DELTAS));
}

/// A value with which a sum passes 2^64 and seems small; an object that 32 bits make a good one.
fn wrap_one_sum(random: &mut Random, space: &Space, words: &mut [u64], at: usize) {
    let [address, size, object, offset] = &mut words[mapping_words(at)] else {
        unreachable!("a mapping is four words")
    };
    let beside = random.pick(&[*address, *offset]);
    let pages = 1 + random.up_to(*size / PAGE);
    let below_0 = 0u64.wrapping_sub(pages.wrapping_mul(PAGE));
    match at % MAPPING_WORDS {
        0 => *address = below_0,
        1 => *size = size_to_edge(random, space, beside),
        2 => *object |= 1 << (32 + random.below(32)),
        _ => *offset = below_0,
    }
}

/// A size with which address + size and offset + size both pass 2^64 and seem small.
fn wrap_both_sums(random: &mut Random, _: &Space, words: &mut [u64], at: usize) {
    let [address, size, _, offset] = &mut words[mapping_words(at)] else {
        unreachable!("a mapping is four words")
    };
    *offset = *address;
    *size = 0u64.wrapping_sub(random.up_to(*address / PAGE) * PAGE);
}

/// An address where the forerunner ends or a size up to the next one, or a step beside it.
fn move_to_neighbour(random: &mut Random, _: &Space, words: &mut [u64], at: usize) {
    let this = mapping_words(at).start;
    let delta = random.pick(&DELTAS);
    let next = this + MAPPING_WORDS;
    if at.is_multiple_of(2) && this >= MAPPING_WORDS {
        let forerunner = this - MAPPING_WORDS;
        let end = words[forerunner].wrapping_add(words[forerunner + 1]);
        words[this] = end.wrapping_add(delta);
    } else if next < words.len() {
        let room = words[next].wrapping_sub(words[this]);
        words[this + 1] = room.wrapping_add(delta);
    }
}

/// Another count: about the number of mappings, the capacity and the words, or any.
pub fn other_count(random: &mut Random, mappings: u64, words: u64) -> u64 {
    let capacity = words / MAPPING_WORDS as u64;
    let near = random.pick(&[0, mappings, capacity, words, 1 << 32, 1 << 62]);
    match random.below(8) {
        0 => random.next_u64(),
        1 => random.below(capacity + 1),
        // What multiplied by four is right again in 64 bits.
        2 => mappings + (1 << 62) * random.below(4),
        3 => u64::MAX,
        4 => near.wrapping_sub(1),
        5 => near + 1,
        _ => near,
    }
}

/// Another length: short, beside the present one, about that of a large table, or any.
pub fn other_length(random: &mut Random, present: usize) -> usize {
    let large = some_most(random, 8) * MAPPING_WORDS;
    match random.below(6) {
        0 => random.below(9) as usize,
        1 => present + 1 + random.below(8) as usize,
        2 => present.saturating_sub(1 + random.below(8) as usize),
        3 => large - 8 + random.below(17) as usize,
        4 => large + MAPPING_WORDS,
        _ => any_length(random, large),
    }
}

/// Any length, up to somewhat more than a large table has.
fn any_length(random: &mut Random, large: usize) -> usize {
    random.below((large + large / 4) as u64) as usize
}

/// Damages one word or mapping, anywhere in the table.
pub fn damage(random: &mut Random, good: &Good, words: &mut [u64]) {
    let mappings = good.mappings.len();
    let place = match random.below(4) {
        0 => 0,
        1 => mappings - 1,
        _ => random.below(mappings as u64) as usize,
    };
    let at = place * MAPPING_WORDS + random.below(MAPPING_WORDS as u64) as usize;
    let (_, damage) = random.pick(&DAMAGES);
    damage(
        random,
        &good.space,
        &mut words[..mappings * MAPPING_WORDS],
        at,
    );
}

/// A word that is not zero: often with one bit, or what a mapping has.
pub fn stale_word(random: &mut Random) -> u64 {
    match random.below(6) {
        0 => 1,
        1 => 1 << 63,
        2 => 1 << random.below(64),
        3 => (1 + random.below(64)) * PAGE,
        _ => 1 + random.up_to(u64::MAX - 1),
    }
}

/// Puts words that are not zero behind the table's mappings, if there is room: one, often the first
/// or the last, or two, or a mapping, or any everywhere.
pub fn make_stale(random: &mut Random, table: &mut Table) {
    let behind = table.behind();
    let Some(last) = behind.len().checked_sub(1) else {
        return;
    };
    let any = random.below(behind.len() as u64) as usize;
    match random.below(8) {
        0..=1 => behind[0] = stale_word(random),
        2..=3 => behind[last] = stale_word(random),
        4 => behind[any] = stale_word(random),
        5 => {
            behind[any] = stale_word(random);
            behind[last - any] = 0u64.wrapping_sub(behind[any]);
        }
        6 => {
            let mapping = [any as u64 * PAGE, PAGE, 7, 0];
            behind
                .iter_mut()
                .zip(mapping)
                .for_each(|(word, new)| *word = new);
        }
        _ => behind.fill_with(|| random.next_u64()),
    }
}

/// A number of operation words: mostly the least that will do, else beside it or any.
pub fn some_operation_words(random: &mut Random, table_words: usize) -> usize {
    let least = least_operation_words(table_words / MAPPING_WORDS);
    match random.below(64) {
        0 => least - 1,
        1 => least - OPERATION_WORDS,
        2 => random.below(least as u64) as usize,
        3..=12 => least + 1 + random.below(30) as usize,
        _ => least,
    }
}

/// Changes something about the table: one of its words or mappings, the words behind them, the
/// space, the length, the count; or about the list beside it.
pub fn disturb_table(random: &mut Random, good: &Good, table: &mut Table) {
    let mappings = good.mappings.len();
    match random.below(12) {
        0..=2 if table.words.len() >= mappings * MAPPING_WORDS => {
            damage(random, good, &mut table.words);
        }
        3 => disturb_space(random, &mut table.space),
        4 => {
            // All is reserved; the mappings, if there are any, are at fault.
            table.space.reserved_start = table.space.start;
            table.space.reserved_size = table.space.size;
            let count = table.count * random.below(2);
            table.recount(random, count);
        }
        5 => {
            let length = other_length(random, table.words.len());
            table.words.resize(length, 0);
        }
        6 => make_stale(random, table),
        7..=9 => lists::damage(random, &good.space, &mut table.list),
        _ => {
            let count = other_count(random, mappings as u64, table.words.len() as u64);
            table.recount(random, count);
        }
    }
}

/// Any space, and words of which many are multiples of a page or at an edge; mostly with zeros
/// behind as many mappings as are counted. Mostly with a good list, if the space is good.
pub fn any_table(random: &mut Random) -> Table {
    let space = match random.below(8) {
        0 => space_of([0; 4].map(|_| random.next_u64())),
        _ => good_space(random),
    };
    let length = match random.below(8) {
        0 => random.below(40) as usize,
        1 => {
            let large = some_most(random, 8) * MAPPING_WORDS;
            any_length(random, large)
        }
        _ => MAPPING_WORDS * (1 + random.below(8) as usize),
    };
    // Random numbers alone would almost never be multiples of a page.
    let word = |_| match random.below(4) {
        0 => random.next_u64() >> random.below(64),
        1 => random.below(64) * PAGE,
        2 => space.start.wrapping_add(random.below(64) * PAGE),
        _ => other64(random, &space, 0),
    };
    let words = (0..length).map(word).collect();
    let count = other_count(random, 1, length as u64);
    let mut table = Table {
        space,
        list: any_list(random, &space),
        words,
        count,
    };
    table.recount(random, count);
    table
}

/// None or a good one, and now and then one that is damaged or of any words.
fn any_list(random: &mut Random, space: &Space) -> List {
    let mut list = match space_holds(space) {
        true => good_list(random, space, &[]),
        false => List::default(),
    };
    match random.below(8) {
        0 => lists::damage(random, space, &mut list),
        1 => {
            let length = random.below(9) as usize;
            list.words.resize_with(length, || random.below(64) * PAGE);
            list.count = random.below(4);
        }
        _ => {}
    }
    list
}

/// The bytes at both ends of `[start, start + size)`, and those beside them; any numbers.
fn ends(start: u64, size: u64) -> [u64; 6] {
    let end = start.wrapping_add(size);
    let beside = |address: u64| [address.wrapping_sub(1), address, address.wrapping_add(1)];
    let ([a, b, c], [d, e, f]) = (beside(start), beside(end));
    [a, b, c, d, e, f]
}

/// Every boundary: of the numbers, the space, the reservation, each range, and each mapping.
pub fn boundaries(good: &Good) -> Vec<u64> {
    let space = &good.space;
    let mut all = vec![0, 1, LIMIT - 1, LIMIT, u64::MAX - 1, u64::MAX];
    all.extend(ends(space.start, space.size));
    all.extend(ends(space.reserved_start, space.reserved_size));
    for mapping in &good.mappings {
        all.extend(ends(mapping.address, mapping.size));
        all.push(mapping.address + mapping.size / 2);
    }
    all.extend(range_boundaries(&good.list));
    all.sort_unstable();
    all.dedup();
    all
}

/// Every boundary of each range of a good list, and its middle.
pub fn range_boundaries(list: &List) -> Vec<u64> {
    let mut all = Vec::new();
    for SparseRange { start, size } in list.ranges() {
        all.extend(ends(start, size));
        all.push(start + size / 2);
    }
    all
}

/// An address at or near a boundary, in a mapping, in a range, in a gap, or any.
pub fn any_address(random: &mut Random, good: &Good) -> u64 {
    let ranges = good.list.ranges();
    if !ranges.is_empty() && random.once_in(3) {
        let SparseRange { start, size } = random.pick(&ranges);
        return match random.below(4) {
            0 => start + random.below(size),
            _ => random.pick(&ends(start, size)),
        };
    }
    let mapping = match random.below(4) {
        0 => good.mappings[0],
        1 => good.mappings[good.mappings.len() - 1],
        _ => random.pick(&good.mappings),
    };
    match random.below(8) {
        0..=3 => random.pick(&ends(mapping.address, mapping.size)),
        4 => mapping.address + random.below(mapping.size),
        5 => mapping
            .address
            .wrapping_add(mapping.size + random.up_to(4 * PAGE)),
        6 => edge(random, &good.space),
        _ => random.next_u64() >> random.below(64),
    }
}

/// Spaces with and without a reservation, at both ends of all that there is.
pub fn plain_spaces() -> [Space; 6] {
    [
        [0, LIMIT, 0, 0],
        [0, LIMIT, 1 << 32, 1 << 32],
        [0, 4096 * PAGE, 0, PAGE],
        [LIMIT - 2048 * PAGE, 2048 * PAGE, LIMIT - PAGE, PAGE],
        [16 * PAGE, 600 * PAGE, 300 * PAGE, PAGE],
        [16 * PAGE, 512 * PAGE, 0, 0],
    ]
    .map(space_of)
}

/// Spaces that have room for every table, one of them for no mapping more; and some with a
/// reservation at an end or between.
pub fn large_spaces() -> [Space; 4] {
    const MOST: u64 = MOST_MAPPINGS as u64;
    [
        [0, LIMIT, 1 << 32, 1 << 32],
        [16 * PAGE, MOST * PAGE, 0, 0],
        [0, (MOST + 600) * PAGE, 0, 300 * PAGE],
        [LIMIT - 2 * MOST * PAGE, 2 * MOST * PAGE, LIMIT - PAGE, PAGE],
    ]
    .map(space_of)
}

/// Spaces of a few pages, so that every sum is near every boundary.
pub fn small_spaces() -> [Space; 4] {
    [
        [4 * PAGE, 8 * PAGE, 8 * PAGE, 2 * PAGE],
        [4 * PAGE, 8 * PAGE, 0, 0],
        [0, 8 * PAGE, 0, 2 * PAGE],
        [LIMIT - 8 * PAGE, 8 * PAGE, LIMIT - 2 * PAGE, 2 * PAGE],
    ]
    .map(space_of)
}
