//! The lines of the table: which calls are timed, on which mappings.

use crate::manager::{Manager, PLAIN};
use crate::timed::Timed;
use std::hint::black_box;
use waylluqen::{operation_list_words, Request, MAPPING_WORDS};
use waylluqen_compare::library;
use waylluqen_compare::lists::List;
use waylluqen_compare::tables::Table;
use waylluqen_model::random::Random;
use waylluqen_model::{Space, SparseRange, MOST_RANGES, PAGE};

/// The room of the tables that are timed.
pub const SIZES: [usize; 6] = [16, 64, 256, 512, 1024, 4096];

/// The mappings of a small table, which has room for as many or for more.
const SMALL: usize = 16;

/// How many look-ups a line has: fewer in a large table, where one goes through so many mappings
/// that 64 of them would take longer than a batch should.
fn look_ups(count: usize) -> usize {
    (65_536 / count).min(64)
}

#[derive(Clone, Copy, Debug, PartialEq)]
pub enum Call {
    Bind(Request),
    Lookup(u64),
}

/// Calls that leave a table as it was, so that they can be made again.
pub struct Line {
    pub what: &'static str,
    /// How many mappings there is room for.
    pub room: usize,
    pub table: Table,
    /// The table's space, as the library has it.
    pub space: waylluqen::Space,
    pub calls: Vec<Call>,
}

impl Line {
    fn new(what: &'static str, room: usize, table: Table, calls: Vec<Call>) -> Line {
        Line {
            what,
            room,
            space: library::space(&table.space),
            table,
            calls,
        }
    }
}

impl Timed for Line {
    type Manager = dyn Manager;
    type Start = Table;
    const KIND: &'static str = "calls";
    const PLAIN: usize = PLAIN.len();
    const ROUNDS: usize = 1000;
    const SIZE: &'static str = "mappings";

    fn what(&self) -> &'static str {
        self.what
    }

    fn size(&self) -> usize {
        self.room
    }

    fn start(&self) -> &Table {
        &self.table
    }

    /// Words for the operations of a request.
    fn lent(&self) -> Vec<u64> {
        vec![0; operation_list_words(self.room)]
    }

    fn calls(&self) -> usize {
        self.calls.len()
    }

    #[inline(never)]
    fn make_calls(&self, manager: &mut Self::Manager, list: &mut [u64]) {
        for call in &self.calls {
            match *black_box(call) {
                Call::Bind(request) => {
                    let _ = black_box(manager.bind(self.space, request, list));
                }
                Call::Lookup(address) => {
                    black_box(manager.look_up(self.space, address));
                }
            }
        }
    }
}

/// A space with a page reserved behind the first half of the mappings, and the mappings: one to
/// three pages each, every third one with a gap in front of it.
pub fn space_and_mappings(count: usize) -> (Space, Vec<[u64; MAPPING_WORDS]>) {
    let start = 1 << 32;
    let mut address = start;
    let mut reserved_start = 0;
    let mut mappings = Vec::new();
    for place in 0..count as u64 {
        if place == count as u64 / 2 {
            reserved_start = address;
            address += PAGE;
        }
        if place % 3 == 2 {
            address += 2 * PAGE;
        }
        let size = (1 + place % 3) * PAGE;
        mappings.push([address, size, 1 + place % 7, place * 16 * PAGE]);
        address += size;
    }
    let space = Space {
        start,
        size: address + 16 * PAGE - start,
        reserved_start,
        reserved_size: PAGE,
    };
    (space, mappings)
}

/// These mappings, and zeros up to the room.
pub fn table(space: Space, mappings: &[[u64; MAPPING_WORDS]], room: usize) -> Table {
    let mut words = mappings.concat();
    words.resize(room * MAPPING_WORDS, 0);
    Table {
        space,
        list: List::default(),
        words,
        count: mappings.len() as u64,
    }
}

/// What is asked for at a mapping of three pages; [`back`] puts it back.
pub type Change = fn([u64; MAPPING_WORDS]) -> Request;

const OTHER_OBJECT: u64 = 99;

pub fn replace([address, size, ..]: [u64; MAPPING_WORDS]) -> Request {
    Request::map(address, size, OTHER_OBJECT, 0)
}

pub fn split([address, ..]: [u64; MAPPING_WORDS]) -> Request {
    Request::map(address + PAGE, PAGE, OTHER_OBJECT, 0)
}

pub fn unmap([address, size, ..]: [u64; MAPPING_WORDS]) -> Request {
    Request::unmap(address, size)
}

pub fn back([address, size, object, offset]: [u64; MAPPING_WORDS]) -> Request {
    Request::map(address, size, object, offset)
}

fn line(what: &'static str, room: usize, count: usize, place: usize, change: Change) -> Line {
    let (space, mappings) = space_and_mappings(count);
    let old = mappings[place];
    let calls = vec![Call::Bind(change(old)), Call::Bind(back(old))];
    Line::new(what, room, table(space, &mappings, room), calls)
}

/// Addresses in mappings all over the table, of which it has so many.
fn look_up(what: &'static str, room: usize, count: usize) -> Line {
    let (space, mappings) = space_and_mappings(count);
    let mut random = Random::new(count as u64);
    let mut address = || {
        let [address, size, ..] = mappings[random.below(count as u64) as usize];
        address + random.below(size)
    };
    let calls = (0..look_ups(count))
        .map(|_| Call::Lookup(address()))
        .collect();
    Line::new(what, room, table(space, &mappings, room), calls)
}

/// A page mapped into an empty table and unmapped again: nearly all that such a call does is to look
/// at the zeros behind the last mapping.
fn empty(room: usize) -> Line {
    let (space, _) = space_and_mappings(room);
    let calls = vec![
        Call::Bind(Request::map(space.start, PAGE, OTHER_OBJECT, 0)),
        Call::Bind(Request::unmap(space.start, PAGE)),
    ];
    let table = table(space, &[], room);
    Line::new("map into an empty table", room, table, calls)
}

/// The place of a mapping of three pages, which is at every third one, in the middle of so many.
fn middle_of(count: usize) -> usize {
    count / 6 * 3 + 2
}

/// The lines of a table with so much room.
fn lines_of(room: usize) -> [Line; 8] {
    let middle = middle_of(room);
    [
        line("map over one mapping", room, room, middle, replace),
        line("map into one and undo", room, room - 2, middle, split),
        line("the same at the front", room, room - 2, 2, split),
        line("unmap and map", room, room, middle, unmap),
        empty(room),
        line("map over one of 16", room, SMALL, middle_of(SMALL), replace),
        look_up("look-up", room, room),
        look_up("look-up among 16", room, SMALL),
    ]
}

/// Two lines with a full list of ranges beside as many mappings: a map over one, and look-ups by
/// turns in mappings and in ranges. The ranges are behind the mappings, at every other page.
fn beside_ranges() -> [Line; 2] {
    let room = MOST_RANGES;
    let [mut over, ..] = lines_of(room);
    let mut looks = look_up("look-up, 64 ranges", room, room);
    over.what = "map over one, 64 ranges";
    let end = over.table.space.start + over.table.space.size;
    let start = |place: usize| end + 2 * place as u64 * PAGE;
    let range = |place: usize| SparseRange {
        start: start(place),
        size: PAGE,
    };
    let ranges: Vec<SparseRange> = (0..room).map(range).collect();
    for (place, call) in looks.calls.iter_mut().enumerate().step_by(2) {
        *call = Call::Lookup(start(place) + 8);
    }
    [over, looks].map(|mut line| {
        line.table.space.size += 2 * room as u64 * PAGE;
        line.table.list = List::of(&ranges, room);
        Line::new(line.what, room, line.table, line.calls)
    })
}

/// Those of one size alone stand last.
pub fn lines() -> Vec<Line> {
    let of_size = SIZES.map(lines_of);
    let mut lines: Vec<Line> = of_size.into_iter().flatten().collect();
    // Those of the same calls beside one another; the sort keeps the order of the sizes.
    let order = lines_of(SIZES[0]).map(|line| line.what);
    lines.sort_by_key(|line| order.iter().position(|&what| what == line.what));
    lines.extend(beside_ranges());
    lines
}

#[test]
fn a_small_table_is_the_same_in_any_room() {
    let [over, .., look_up, _] = lines_of(SMALL);
    for room in SIZES {
        let [.., over_small, _, look_up_small] = lines_of(room);
        for (small, full) in [(over_small, &over), (look_up_small, &look_up)] {
            let words = small.table.words;
            assert_eq!((words.len(), small.table.count), (room * MAPPING_WORDS, 16));
            let (mappings, behind) = words.split_at(full.table.words.len());
            assert!(mappings == full.table.words && behind.iter().all(|&word| word == 0));
            assert_eq!(small.table.space, full.table.space);
            assert_eq!(small.calls, full.calls);
        }
    }
}
