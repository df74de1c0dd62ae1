//! Scripts for the comparisons: their records, and what the requests among them leave.

use crate::calls::{model_answer, Asking};
use crate::library;
use crate::lists::{some_ranges, List};
use crate::near::{narrow_record, near_record, near_sparse_record, record_of};
use crate::numbers::{disturb_space, edge, good_space, space_of, LIMIT};
use crate::requests::{disturb_record, good_record, MAP, UNMAP};
use crate::tables::{
    any_address, boundaries, fill_space, free_parts, plain_spaces, small_spaces, Good,
};
use waylluqen_model::bind::least_operation_words;
use waylluqen_model::random::Random;
use waylluqen_model::{space_holds, write};
use waylluqen_model::{Record, Space, SparseRange, PAGE, SCRIPT_MAPPINGS, SCRIPT_RANGES};

/// The most mappings that the program's table has room for, and the most ranges that its list has.
pub const ROOM: u64 = SCRIPT_MAPPINGS as u64;
pub const RANGE_ROOM: usize = SCRIPT_RANGES;

/// A script, the places of its marks, and the space, the ranges and the mappings that it leaves, so
/// that the next request can be put beside them.
#[derive(Clone)]
pub struct Script {
    pub bytes: Vec<u8>,
    pub marks: Vec<usize>,
    good: Good,
}

impl Script {
    /// Without a record. Until a space is granted, requests are made as if there were one of 16 pages.
    pub fn empty() -> Script {
        Script {
            bytes: Vec::new(),
            marks: Vec::new(),
            good: empty(space_of([0, 16 * PAGE, 0, 0])),
        }
    }

    /// With `number` mappings in this space, each mapped by a request of its own, in any order.
    pub fn filled(random: &mut Random, space: Space, number: u64) -> Script {
        let good = fill_space(random, space, number);
        assert_eq!(good.mappings.len() as u64, number);
        let mut script = Script::empty();
        script.space(&space);
        let mut left = good.mappings.clone();
        while !left.is_empty() {
            let next = left.swap_remove(random.below(left.len() as u64) as usize);
            script.put(&write::request(&record_of(&next)));
        }
        script.good.mappings = good.mappings;
        script
    }

    /// Adds up to so many ranges near what is mapped, each by a request of its own, in any order.
    pub fn fill_list(&mut self, random: &mut Random, most: usize) {
        let Good {
            space, mappings, ..
        } = &self.good;
        let mut left = some_ranges(random, space, mappings, most);
        while !left.is_empty() {
            let next = left.swap_remove(random.below(left.len() as u64) as usize);
            let SparseRange { start, size } = next;
            self.request(&Record::sparse(MAP, start, size));
        }
    }

    fn put(&mut self, record: &[u8]) {
        self.marks.push(self.bytes.len());
        self.bytes.extend_from_slice(record);
    }

    pub fn space(&mut self, space: &Space) {
        self.put(&write::space(space));
        if space_holds(space) {
            self.good = empty(*space);
        }
    }

    pub fn request(&mut self, record: &Record) {
        self.put(&write::request(record));
        let mut table = self.good.table(SCRIPT_MAPPINGS - self.good.mappings.len());
        let room = least_operation_words(SCRIPT_MAPPINGS);
        let bound = model_answer(&table, room, Asking::Bytes(&record.encode()));
        library::change_lent(&mut table, &bound);
        if let Ok(grant) = bound {
            self.good.list = table.list;
            self.good.mappings = grant.mappings;
        }
    }

    pub fn look_up(&mut self, address: u64) {
        self.put(&write::lookup(address));
    }

    /// Looks up at every boundary of the space, of what is sparse and of what is mapped.
    pub fn look_up_boundaries(&mut self) {
        for address in boundaries(&self.good) {
            self.look_up(address);
        }
    }

    /// A request that keeps its rules: near what is mapped, or anywhere.
    fn good_request(&self, random: &mut Random) -> Record {
        if self.good.mappings.is_empty() || random.once_in(8) {
            good_record(random, &self.good.space)
        } else {
            near_record(random, &self.good)
        }
    }

    fn some_address(&self, random: &mut Random) -> u64 {
        if self.good.mappings.is_empty() {
            edge(random, &self.good.space)
        } else {
            any_address(random, &self.good)
        }
    }

    /// Adds a record that keeps its rules.
    pub fn good_step(&mut self, random: &mut Random) {
        match random.below(64) {
            0 => self.space(&some_space(random)),
            1..=20 => self.look_up(self.some_address(random)),
            _ => self.request(&self.good_request(random)),
        }
    }

    /// Adds a record that is likely to break a rule.
    pub fn bad_step(&mut self, random: &mut Random) {
        match random.below(8) {
            0 => {
                let mut space = self.good.space;
                disturb_space(random, &mut space);
                self.space(&space);
            }
            1 => self.look_up(random.next_u64() >> random.below(64)),
            2 => self.request(&any_record(random)),
            _ => {
                let mut record = self.good_request(random);
                for _ in 0..=random.below(2) {
                    disturb_record(random, &mut record, &self.good.space);
                }
                self.request(&record);
            }
        }
    }

    /// Adds a request with the flag.
    pub fn sparse_step(&mut self, random: &mut Random) {
        self.request(&near_sparse_record(random, &self.good));
    }

    /// Adds a request that hits one mapping or touches one.
    pub fn narrow_step(&mut self, random: &mut Random) {
        self.request(&narrow_record(random, &self.good));
    }

    /// Maps or unmaps all that is not reserved, in one request for each part of the space.
    pub fn sweep(&mut self, random: &mut Random) {
        for (start, end) in free_parts(&self.good.space) {
            if start < end {
                let size = end - start;
                let offset = random.up_to((LIMIT - size) / PAGE) * PAGE;
                let map = Record::plain(MAP, 7, start, offset, size);
                let unmap = Record::plain(UNMAP, 0, start, 0, size);
                self.request(&random.pick(&[map, map, unmap]));
            }
        }
    }
}

/// A space with nothing in it, and the program's list beside it.
fn empty(space: Space) -> Good {
    Good {
        space,
        list: List::of(&[], SCRIPT_RANGES),
        mappings: Vec::new(),
    }
}

/// Any fields at all; 0 often in those that stop a record before the others are looked at.
fn any_record(random: &mut Random) -> Record {
    let mut mostly_0 = || match random.below(4) {
        0 => random.next_u64() as u32,
        _ => 0,
    };
    let [op, flags, pad] = [mostly_0(), mostly_0(), mostly_0()];
    Record {
        op,
        flags,
        handle: random.next_u64() as u32,
        pad,
        addr: random.next_u64() >> random.below(64),
        bo_offset: random.next_u64() >> random.below(64),
        range: random.next_u64() >> random.below(64),
    }
}

/// A good space: of a few pages, so that requests meet, or of any size.
fn some_space(random: &mut Random) -> Space {
    match random.below(4) {
        0 => random.pick(&small_spaces()),
        1 => random.pick(&plain_spaces()),
        _ => good_space(random),
    }
}

/// A good script of so many records behind its space.
pub fn good_script(random: &mut Random, records: u64) -> Script {
    let mut script = Script::empty();
    script.space(&some_space(random));
    for _ in 0..records {
        script.good_step(random);
    }
    script
}

/// A script of good and bad records, of which some may stand before any space.
pub fn bad_script(random: &mut Random, records: u64) -> Script {
    let mut script = Script::empty();
    let spaceless = random.pick(&[0, 0, 0, 1, 8]).min(records);
    for record in 0..records {
        if record == spaceless {
            script.space(&some_space(random));
        }
        if random.once_in(2) {
            script.bad_step(random);
        } else {
            script.good_step(random);
        }
    }
    script
}
