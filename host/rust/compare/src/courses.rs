//! Batches for the comparisons: requests near what the ones before them leave, and tables and
//! slices that are just too short for one of them.

use crate::batches::{bytes_of, Batch};
use crate::near::{narrow_record, near_plain_record, near_record, record_of};
use crate::requests::{disturb_record, good_record};
use crate::tables::{disturb_table, Good, Table};
use waylluqen::batch_list_words;
use waylluqen_model::bind::least_operation_words;
use waylluqen_model::random::Random;
use waylluqen_model::{bind_record, List, Record};
use waylluqen_model::{MOST_MAPPINGS, MOST_REQUESTS, OPERATION_WORDS, RECORD_BYTES};

/// Requests that are granted one after the other where there is room for all that they make.
pub struct Course {
    pub records: Vec<Record>,
    /// The mappings before the first request, and after each.
    pub mappings: Vec<usize>,
    /// The operations before the first request, none, and up to each: those of all before it too.
    pub operations: Vec<usize>,
    /// What is left in the end.
    pub end: Good,
}

/// Which requests a course prefers.
#[derive(Clone, Copy, Debug, PartialEq, Eq)]
pub enum Liking {
    /// Any near a mapping.
    Near,
    /// Those that hit one mapping, so that the count grows.
    Narrow,
    /// Those that ask for what is there, so that the count stays.
    Again,
}

const FEW_MAPPINGS: usize = 100;

/// One without a flag.
fn plain_record(random: &mut Random, good: &Good) -> Record {
    loop {
        let record = good_record(random, &good.space);
        if record.flags == 0 {
            return record;
        }
    }
}

/// The request that makes a mapping that there is.
fn again(random: &mut Random, good: &Good) -> Record {
    record_of(&random.pick(&good.mappings))
}

fn next_record(random: &mut Random, good: &Good, liking: Liking) -> Record {
    match random.below(8) {
        _ if good.mappings.is_empty() => plain_record(random, good),
        // Of a large table one of these would leave little.
        0 if good.mappings.len() < FEW_MAPPINGS => plain_record(random, good),
        1 if good.mappings.len() < FEW_MAPPINGS => near_plain_record(random, good),
        2 => again(random, good),
        _ => match liking {
            Liking::Near => near_plain_record(random, good),
            Liking::Narrow => narrow_record(random, good),
            Liking::Again => again(random, good),
        },
    }
}

impl Course {
    /// No request yet.
    pub fn empty(start: &Good) -> Course {
        Course {
            records: Vec::new(),
            mappings: vec![start.mappings.len()],
            operations: vec![0],
            end: start.clone(),
        }
    }

    /// Up to so many requests from these mappings on. One that is refused for itself is left out, and
    /// so is one that makes more mappings than a table may have.
    pub fn new(random: &mut Random, start: &Good, number: usize) -> Course {
        let likings = [Liking::Near, Liking::Near, Liking::Narrow, Liking::Again];
        let liking = random.pick(&likings);
        Course::liking(random, start, number, liking)
    }

    /// The same with mostly requests of one kind.
    pub fn liking(random: &mut Random, start: &Good, number: usize, liking: Liking) -> Course {
        let mut course = Course::empty(start);
        for _ in 0..number {
            let record = next_record(random, &course.end, liking);
            course.take(record);
        }
        course
    }

    /// Adds a request, if it is granted.
    pub fn take(&mut self, record: Record) {
        let spare = 2.min(MOST_MAPPINGS - self.end.mappings.len());
        let table = self.end.table(spare);
        let words = least_operation_words(self.end.mappings.len() + spare);
        let none = List::NONE;
        let bytes = record.encode();
        let bound = bind_record(
            &table.space,
            &none,
            &table.words,
            table.count,
            words,
            &bytes,
        );
        let Ok(grant) = bound else {
            return;
        };
        self.records.push(record);
        self.mappings.push(grant.mappings.len());
        self.operations
            .push(self.operations[self.operations.len() - 1] + grant.operations.len());
        self.end.mappings = grant.mappings;
    }

    /// The bytes of the records, in a row.
    pub fn bytes(&self) -> Vec<u8> {
        bytes_of(&self.records)
    }

    /// The most mappings that there are at any time.
    pub fn most_mappings(&self) -> usize {
        self.mappings.iter().copied().max().unwrap_or(0)
    }

    /// All operations.
    pub fn all_operations(&self) -> usize {
        self.operations[self.records.len()]
    }

    /// A room with which the request at a place is the first that has none, if there is such a one
    /// for some place; a later place more often than an earlier one.
    pub fn room_for_some(&self, random: &mut Random) -> Option<usize> {
        let mut most = self.mappings[0];
        let mut rooms = Vec::new();
        for &mappings in &self.mappings[1..] {
            if mappings > most && mappings > 1 {
                rooms.push(mappings - 1);
            }
            most = most.max(mappings);
        }
        if rooms.is_empty() {
            return None;
        }
        match random.below(2) {
            0 => rooms.pop(),
            _ => Some(random.pick(&rooms)),
        }
    }

    /// A number of operation words, for a table with this room, that is too short for the request at
    /// some place and for none before it, if there can be.
    pub fn words_for_some(&self, random: &mut Random, room: usize) -> Option<usize> {
        let least = least_operation_words(room);
        let places: Vec<usize> = (0..self.records.len())
            .filter(|&place| self.operations[place + 1] * OPERATION_WORDS > least)
            .filter(|&place| self.operations[place + 1] > self.operations[place])
            .collect();
        if places.is_empty() {
            return None;
        }
        let place = random.pick(&places);
        let shortest = least.max(self.operations[place] * OPERATION_WORDS);
        let longest = self.operations[place + 1] * OPERATION_WORDS - 1;
        let between = shortest + random.below((longest - shortest + 1) as u64) as usize;
        Some(random.pick(&[shortest, longest, longest, between]))
    }
}

/// The table of these mappings with this room, which is not below their number.
pub fn table_with_room(good: &Good, room: usize) -> Table {
    good.table(room - good.mappings.len())
}

/// Room for a course: for all of it, too little for one of its requests, or little more than the
/// first of them finds.
pub fn some_room(random: &mut Random, good: &Good, course: &Course) -> usize {
    let enough = course.most_mappings().max(1);
    let room = match random.below(8) {
        0..=2 => course.room_for_some(random).unwrap_or(enough),
        3 => enough + random.below(4) as usize,
        4 => good.mappings.len() + random.below(4) as usize,
        _ => enough,
    };
    room.clamp(good.mappings.len().max(1), MOST_MAPPINGS)
}

/// Operation words for a course: enough for any, just enough, too few for one of its requests, or as
/// few as there may be.
pub fn some_words(random: &mut Random, course: &Course, room: usize) -> usize {
    let least = least_operation_words(room);
    let needed = course.all_operations() * OPERATION_WORDS;
    match random.below(8) {
        0..=2 => course.words_for_some(random, room).unwrap_or(least),
        3 => least,
        4 => needed.saturating_sub(1).max(least),
        5 => batch_list_words(room, course.records.len()),
        _ => needed.max(least),
    }
}

/// How many requests: any number, often the most.
pub fn some_number(random: &mut Random) -> usize {
    match random.below(4) {
        0 => MOST_REQUESTS,
        1 => random.below(8) as usize,
        _ => random.below(MOST_REQUESTS as u64 + 1) as usize,
    }
}

/// A batch with all that is lent to it.
#[derive(Clone)]
pub struct Case {
    pub table: Table,
    pub work_words: usize,
    pub operation_words: usize,
    pub bytes: Vec<u8>,
}

impl Case {
    /// A course on its mappings, of which the table or the operation words may have too little room.
    pub fn of(random: &mut Random, good: &Good, course: &Course) -> Case {
        let room = some_room(random, good, course);
        let table = table_with_room(good, room);
        Case {
            work_words: table.words.len(),
            operation_words: some_words(random, course, room),
            bytes: course.bytes(),
            table,
        }
    }

    pub fn batch(&self) -> Batch<'_> {
        Batch {
            table: &self.table,
            work_words: self.work_words,
            operation_words: self.operation_words,
            records: &self.bytes,
        }
    }

    /// Changes what is asked for or what is lent, once or twice.
    pub fn disturb(&mut self, random: &mut Random, good: &Good) {
        for _ in 0..1 + random.below(2) {
            match random.below(10) {
                0..=2 => disturb_table(random, good, &mut self.table),
                3 => {
                    let length = random.below(self.bytes.len() as u64 + 50) as usize;
                    self.bytes.resize(length, 0);
                }
                4 => {
                    let other = random.pick(&[-4, -1, 1, 4]);
                    self.work_words = self.work_words.saturating_add_signed(other);
                }
                5 => {
                    let fewer = 1 + random.below(30) as usize;
                    self.operation_words = self.operation_words.saturating_sub(fewer);
                }
                _ => disturb_one(random, good, &mut self.bytes),
            }
        }
    }
}

/// Changes one of the records.
pub fn disturb_one(random: &mut Random, good: &Good, bytes: &mut [u8]) {
    let (records, _) = bytes.as_chunks_mut::<RECORD_BYTES>();
    if records.is_empty() {
        return;
    }
    let place = random.below(records.len() as u64) as usize;
    let mut record = match good.mappings.is_empty() {
        true => good_record(random, &good.space),
        false => near_record(random, good),
    };
    disturb_record(random, &mut record, &good.space);
    records[place] = record.encode();
}
