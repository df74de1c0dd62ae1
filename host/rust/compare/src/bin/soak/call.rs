//! A call, what is lent to it, and the model's answer.

use waylluqen::ffi;
use waylluqen_compare::batches::Batch;
use waylluqen_compare::calls::{check, Asking, Caller, Way};
use waylluqen_compare::entries::{assert_covers, assert_fewest, entries_in};
use waylluqen_compare::library::{self, Batched, Bound, Listed, Looked};
use waylluqen_compare::paging::{assert_batch, assert_pages};
use waylluqen_compare::tables::Table;
use waylluqen_compare::walk::Walk;
use waylluqen_model::{Grant, Mapping, Request, ENTRY_WORDS, PAGE};

/// The largest space that is followed page by page.
const SMALL_SPACE: u64 = 16 * PAGE;

/// The most mappings that a table has over which a walk goes.
const WALKED: u64 = 40;

/// What is asked, and what the model answers.
pub enum Asked {
    Numbers(Request, Bound),
    Record(Vec<u8>, Bound),
    Batch(Vec<u8>, Batched),
    Lookup(u64, Looked),
    Check(Vec<u8>, u32),
    Entries(Mapping, Listed),
}

pub struct Call {
    pub table: Table,
    /// The words that are lent to work in, and for operations or entries.
    pub work: Vec<u64>,
    pub operations: Vec<u64>,
    pub asked: Asked,
    /// Whether list and table are what the last call left, and are not lent anew.
    pub goes_on: bool,
    /// Whether table, operations, record, list and work table are lent at the back of their memory: a
    /// bit for each.
    pub at_back: u64,
}

/// So many places can be at the front or at the back.
pub const AT_BACK: u64 = 1 << 5;

impl Call {
    /// Makes the call in one of the ways.
    pub fn compare(&self, way: Way, caller: &mut Caller) {
        match &self.asked {
            Asked::Numbers(request, model) => {
                self.compare_bind(way, caller, Asking::Numbers(*request), model);
            }
            Asked::Record(record, model) => {
                self.compare_bind(way, caller, self.asking(way, record), model);
            }
            Asked::Batch(records, model) => self.compare_batch(way, caller, records, model),
            Asked::Lookup(address, model) => {
                if !self.goes_on {
                    caller.lend(&self.table);
                    caller.stir(*address);
                }
                caller.look_up(way, &self.table, *address, *model);
            }
            Asked::Check(record, _) => {
                check(way, &self.table.space, record);
            }
            Asked::Entries(mapping, model) => self.compare_entries(way, caller, mapping, model),
        }
    }

    /// The record; or where it has the flag, by the types every other time, its numbers with that.
    fn asking<'a>(&self, way: Way, record: &'a [u8]) -> Asking<'a> {
        let bytes = Asking::Bytes(record);
        let by_numbers = way == Way::Types && self.at_back.is_multiple_of(2);
        let request = bytes.request().filter(|one| one.is_sparse() && by_numbers);
        request.map_or(bytes, Asking::Numbers)
    }

    fn compare_bind(&self, way: Way, caller: &mut Caller, asking: Asking, model: &Bound) {
        if !self.goes_on {
            caller.lend(&self.table);
        }
        caller.lend_operations(&self.operations);
        caller.bind(way, &self.table, asking, model);
        if let (Ok(grant), Way::Types) = (model, way) {
            let new = caller.left(self.table.space, grant);
            walk_over(&new);
            self.follow_pages(caller, asking, grant, &new);
        }
    }

    fn compare_batch(&self, way: Way, caller: &mut Caller, records: &[u8], model: &Batched) {
        if !self.goes_on {
            caller.lend(&self.table);
        }
        caller.lend_work(&self.work);
        caller.lend_operations(&self.operations);
        let batch = Batch {
            table: &self.table,
            work_words: self.work.len(),
            operation_words: self.operations.len(),
            records,
        };
        caller.bind_batch(way, &batch, model);
        if let (Ok(grant), Way::Types) = (model, way) {
            walk_over(&caller.left(self.table.space, grant));
            if self.table.space.size <= SMALL_SPACE {
                assert_batch(caller, &batch, grant);
            }
        }
    }

    /// A list that is as the model's also has to be a good one by itself.
    fn compare_entries(&self, way: Way, caller: &mut Caller, mapping: &Mapping, model: &Listed) {
        caller.lend_entries(&self.operations);
        caller.list_entries(way, mapping, model);
        if let (Ok(listed), Way::Types) = (model, way) {
            let entries = entries_in(&caller.entries()[..listed.len() * ENTRY_WORDS]);
            assert_covers(mapping, &entries);
            assert_fewest(mapping, &entries);
        }
    }

    fn follow_pages(&self, caller: &Caller, asking: Asking, grant: &Grant, new: &Table) {
        if self.table.space.size > SMALL_SPACE {
            return;
        }
        let request = asking.request().expect("it was granted");
        assert_pages(&self.table, new, &request, grant, caller.operations());
    }

    /// What the call has to leave.
    pub fn outcome(&self) -> Outcome {
        let mut outcome = Outcome {
            answer: [0; ANSWER_WORDS],
            list: self.table.list.words.clone(),
            table: self.table.words.clone(),
            work: self.work.clone(),
            operations: self.operations.clone(),
        };
        match &self.asked {
            Asked::Numbers(_, model) | Asked::Record(_, model) => {
                outcome.answer = first_words(library::bound_words(model, &self.table));
                library::change_list(&mut outcome.list, model);
                library::change_table(&mut outcome.table, model);
                library::write_operations(&mut outcome.operations, model);
            }
            Asked::Batch(_, model) => {
                outcome.answer = first_words(library::batched_words(model, &self.table));
                library::change_table(&mut outcome.table, model);
                library::clear_work(&mut outcome.work, model);
                library::write_batch(&mut outcome.operations, model);
            }
            Asked::Lookup(_, model) => {
                outcome.answer = looked_words(library::looked_words(*model));
            }
            Asked::Check(_, model) => outcome.answer[0] = u64::from(*model),
            Asked::Entries(_, model) => {
                let words = library::listed_words(model);
                outcome.answer = [words.refusal, words.place, words.entries, 0, 0, 0];
                library::write_entries(&mut outcome.operations, model);
            }
        }
        outcome
    }
}

/// The five words of an answer, and a zero.
fn first_words(words: ffi::Answer) -> [u64; ANSWER_WORDS] {
    [
        words.refusal,
        words.place,
        words.operations,
        words.count,
        words.ranges,
        0,
    ]
}

/// The six words of an answer to a look-up.
fn looked_words(words: ffi::Translation) -> [u64; ANSWER_WORDS] {
    [
        words.refusal,
        words.place,
        words.shown,
        words.object,
        words.offset,
        words.bytes,
    ]
}

/// Walks over what a grant left, run by run, and finds its mappings.
fn walk_over(table: &Table) {
    if table.count > WALKED {
        return;
    }
    let walk = Walk::new(table);
    let runs = walk.runs();
    walk.assert_mappings(&runs);
    for run in &runs {
        walk.assert_inside(run, run.bytes - 1);
        walk.assert_end(run);
    }
}

/// The longest answer is this many words; a shorter one has zeros behind it.
pub const ANSWER_WORDS: usize = 6;

/// What a call leaves: its answer and all words that were lent to it.
#[derive(PartialEq, Eq)]
pub struct Outcome {
    pub answer: [u64; ANSWER_WORDS],
    pub list: Vec<u64>,
    pub table: Vec<u64>,
    pub work: Vec<u64>,
    pub operations: Vec<u64>,
}
