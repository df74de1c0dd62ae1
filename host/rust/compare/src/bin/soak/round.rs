//! The calls of a round: tables and requests of all kinds, and a history on one table.

use crate::call::{Asked, Call, AT_BACK};
use waylluqen_compare::calls::{model_answer, model_look, Asking};
use waylluqen_compare::courses::{disturb_one, some_number, some_words, Case, Course};
use waylluqen_compare::entries::some_entry_words;
use waylluqen_compare::library::{self, Batched, Bound};
use waylluqen_compare::lists::List;
use waylluqen_compare::mappings::{disturb_mapping, huge_mapping, near_mapping};
use waylluqen_compare::near::{disturb, narrow_record, near_record, near_sparse_record, widen};
use waylluqen_compare::numbers::{disturb_space, good_space, other64};
use waylluqen_compare::requests::{disturb_record, good_record, place, LONGEST_RECORD};
use waylluqen_compare::tables::{
    any_address, any_table, disturb_table, fill_space, good_table, large_spaces, make_stale,
    plain_spaces, small_spaces, some_operation_words, Good, Table, MANY_MAPPINGS,
};
use waylluqen_model::random::Random;
use waylluqen_model::{check_request, page_entries, space_holds};
use waylluqen_model::{Mapping, Record, Space};
use waylluqen_model::{MAPPING_WORDS, MOST_MAPPINGS, MOST_RANGES, PAGE, RECORD_BYTES};

/// Of some kinds more than one in a round, so that a history does not outweigh them.
const TABLES: u64 = 4;
const ANY_TABLES: u64 = 2;
const CHECKS: u64 = 24;
const BATCHES: u64 = 4;
const ENTRIES: u64 = 12;

/// A large table, and a history of one, once in so many rounds: a call takes as long as hundreds on
/// a small one, and a round's calls are all in memory.
const LARGE_TABLE: u64 = 16;
const LARGE_HISTORY: u64 = 32;

/// The calls that this randomness gives.
pub fn calls(random: &mut Random) -> Vec<Call> {
    let mut round = Round {
        random,
        calls: Vec::new(),
    };
    for _ in 0..TABLES {
        round.near_table();
    }
    for _ in 0..ANY_TABLES {
        round.any_words();
    }
    for _ in 0..CHECKS {
        round.check();
    }
    for _ in 0..BATCHES {
        round.batches();
    }
    for _ in 0..ENTRIES {
        round.entries();
    }
    if round.random.once_in(LARGE_TABLE) {
        round.large_table();
        round.long_table();
    }
    round.history();
    round.calls
}

struct Round<'a> {
    random: &'a mut Random,
    calls: Vec<Call>,
}

/// What is to be asked, without the answer.
enum Question {
    Record(Record),
    Numbers(Record),
    Lookup(u64),
}

impl Round<'_> {
    /// Adds a call. Answers what the model does to a request.
    fn add(&mut self, table: &Table, goes_on: bool, question: Question) -> Option<Bound> {
        let mut operations = Vec::new();
        if !matches!(question, Question::Lookup(_)) {
            let words = some_operation_words(self.random, table.words.len());
            operations.resize_with(words, || self.random.next_u64());
        }
        let asked = self.asked(table, operations.len(), &question);
        let bound = match &asked {
            Asked::Numbers(_, bound) | Asked::Record(_, bound) => Some(bound.clone()),
            Asked::Batch(..) | Asked::Lookup(..) | Asked::Check(..) | Asked::Entries(..) => None,
        };
        self.calls.push(Call {
            table: table.clone(),
            work: Vec::new(),
            operations,
            asked,
            goes_on,
            at_back: self.random.below(AT_BACK),
        });
        bound
    }

    /// Adds a batch. Answers what the model does.
    fn add_batch(&mut self, case: Case, goes_on: bool) -> Batched {
        let batched = case.batch().answer();
        let Case {
            table,
            work_words,
            operation_words,
            bytes,
        } = case;
        let mut any = |words: usize| (0..words).map(|_| self.random.next_u64()).collect();
        let (work, operations) = (any(work_words), any(operation_words));
        self.calls.push(Call {
            table,
            work,
            operations,
            asked: Asked::Batch(bytes, batched.clone()),
            goes_on,
            at_back: self.random.below(AT_BACK),
        });
        batched
    }

    fn asked(&mut self, table: &Table, operation_words: usize, question: &Question) -> Asked {
        match question {
            Question::Record(record) => {
                let mut buffer = [0; 8 + LONGEST_RECORD];
                let bytes = place(self.random, &record.encode(), &mut buffer).to_vec();
                let bound = model_answer(table, operation_words, Asking::Bytes(&bytes));
                Asked::Record(bytes, bound)
            }
            Question::Numbers(record) => {
                // From C numbers have no flags.
                let mut request = record.request().without_flags();
                if self.random.once_in(32) {
                    widen(self.random, &mut request);
                }
                let bound = model_answer(table, operation_words, Asking::Numbers(request));
                Asked::Numbers(request, bound)
            }
            Question::Lookup(address) => Asked::Lookup(*address, model_look(table, *address)),
        }
    }

    fn near_table(&mut self) {
        let largest = match self.random.below(32) {
            0 => MANY_MAPPINGS as u64,
            1..=4 => 64,
            _ => 12,
        };
        let good = good_table(self.random, largest);
        let table = self.some_table(&good);
        self.near(&good, &table);
    }

    /// Batches on one table and on those near it: granted, or refused for themselves or in turn.
    fn batches(&mut self) {
        let largest = self.random.pick(&[3, 12, 12, 40]);
        let good = good_table(self.random, largest);
        let number = some_number(self.random);
        let course = Course::new(self.random, &good, number);
        for _ in 0..3 {
            let mut case = Case::of(self.random, &good, &course);
            if self.random.once_in(3) {
                case.disturb(self.random, &good);
            }
            self.add_batch(case, false).ok();
        }
    }

    /// A batch on the table of a history, with its room.
    fn batch_on(&mut self, table: &Table, goes_on: bool) -> Batched {
        let good = table.good();
        let number = self.random.below(9) as usize;
        let course = Course::new(self.random, &good, number);
        let mut bytes = course.bytes();
        if self.random.once_in(8) {
            disturb_one(self.random, &good, &mut bytes);
        }
        let case = Case {
            table: table.clone(),
            work_words: table.words.len(),
            operation_words: some_words(self.random, &course, table.words.len() / MAPPING_WORDS),
            bytes,
        };
        self.add_batch(case, goes_on)
    }

    fn large_table(&mut self) {
        let (space, mappings) = large(self.random);
        let good = fill_space(self.random, space, mappings as u64);
        let table = self.some_table(&good);
        self.near(&good, &table);
    }

    /// Few mappings in a long table, often with a stale word.
    fn long_table(&mut self) {
        let good = good_table(self.random, 12);
        let shorter = self.random.below(2_000) as usize;
        let mut table = good.table(MOST_MAPPINGS - good.mappings.len() - shorter);
        if self.random.once_in(4) {
            make_stale(self.random, &mut table);
        }
        self.near(&good, &table);
    }

    /// The table of the mappings, with room for few more.
    fn some_table(&mut self, good: &Good) -> Table {
        let spare = self.random.pick(&[0, 0, 1, 2, 3]);
        good.table(spare.min(MOST_MAPPINGS - good.mappings.len()))
    }

    /// A table or one near it, by numbers, by record, and looked at.
    fn near(&mut self, good: &Good, whole: &Table) {
        for _ in 0..3 {
            let mut table = whole.clone();
            let mut record = near_record(self.random, good);
            disturb(self.random, good, &mut table, &mut record);
            self.add(&table, false, Question::Record(record));
            self.add(&table, false, Question::Numbers(record));
            let address = any_address(self.random, good);
            self.add(&table, false, Question::Lookup(address));
            disturb_table(self.random, good, &mut table);
            self.add(&table, false, Question::Lookup(address));
        }
    }

    fn any_words(&mut self) {
        let mut table = any_table(self.random);
        if self.random.once_in(4) {
            table.recount(self.random, 0);
        }
        let space = match space_holds(&table.space) {
            true => table.space,
            false => good_space(self.random),
        };
        let record = good_record(self.random, &space);
        self.add(&table, false, Question::Record(record));
        self.add(&table, false, Question::Numbers(record));
        let address = other64(self.random, &table.space, table.space.start);
        self.add(&table, false, Question::Lookup(address));
    }

    /// A record by itself: a good one, one near it, or any bytes.
    fn check(&mut self) {
        let mut space = good_space(self.random);
        let mut record = good_record(self.random, &space);
        for _ in 0..self.random.below(3) {
            disturb_record(self.random, &mut record, &space);
        }
        if self.random.once_in(4) {
            disturb_space(self.random, &mut space);
        }
        let mut bytes = record.encode();
        if self.random.once_in(16) {
            let from = self.random.below(RECORD_BYTES as u64) as usize;
            self.random.fill(&mut bytes[from..]);
        }
        let mut buffer = [0; 8 + LONGEST_RECORD];
        let bytes = place(self.random, &bytes, &mut buffer).to_vec();
        let number = check_request(&bytes, &space);
        self.calls.push(Call {
            table: no_table(space),
            work: Vec::new(),
            operations: Vec::new(),
            asked: Asked::Check(bytes, number),
            goes_on: false,
            at_back: self.random.below(AT_BACK),
        });
    }

    /// Page entries, for which no table is needed, of a mapping: near boundaries, huge, or broken.
    fn entries(&mut self) {
        let mut mapping = match self.random.once_in(8) {
            true => huge_mapping(self.random),
            false => near_mapping(self.random),
        };
        if self.random.once_in(4) {
            disturb_mapping(self.random, &mut mapping);
        }
        let space = good_space(self.random);
        self.add_entries(&no_table(space), false, mapping);
    }

    /// Adds the page entries of a mapping.
    fn add_entries(&mut self, table: &Table, goes_on: bool, mapping: Mapping) {
        let most = self.random.pick(&[300, 3000, 9000, 20_000]);
        let words = some_entry_words(self.random, &mapping, most);
        self.calls.push(Call {
            table: table.clone(),
            work: Vec::new(),
            operations: (0..words).map(|_| self.random.next_u64()).collect(),
            asked: Asked::Entries(mapping, page_entries(&mapping, words)),
            goes_on,
            at_back: self.random.below(AT_BACK),
        });
    }

    /// Requests and batches on one table, each on what the last one left, and look-ups between.
    fn history(&mut self) {
        let Plan {
            mut table,
            steps,
            narrow,
        } = match self.random.once_in(LARGE_HISTORY) {
            true => large_plan(self.random),
            false => plan(self.random),
        };
        for step in 0..steps {
            if self.random.once_in(12) {
                let batched = self.batch_on(&table, step > 0);
                library::change_lent(&mut table, &batched);
                continue;
            }
            let record = next_record(self.random, &table.good(), narrow);
            let question = match self.random.below(2) {
                0 if record.flags == 0 => Question::Numbers(record),
                _ => Question::Record(record),
            };
            if let Some(bound) = self.add(&table, step > 0, question) {
                library::change_lent(&mut table, &bound);
            }
            self.look_ups(&table);
        }
    }

    /// Looks at a page of the table now and then, and in a small space at all pages; and lists a
    /// mapping's entries.
    fn look_ups(&mut self, table: &Table) {
        let good = table.good();
        if !good.mappings.is_empty() && self.random.once_in(2) {
            let address = any_address(self.random, &good);
            self.add(table, true, Question::Lookup(address));
        }
        if !good.mappings.is_empty() && self.random.once_in(8) {
            let mapping = self.random.pick(&good.mappings);
            self.add_entries(table, true, mapping);
        }
        if table.space.size <= 8 * PAGE && self.random.once_in(8) {
            for page in 0..table.space.size / PAGE {
                let first = table.space.start + page * PAGE;
                self.add(table, true, Question::Lookup(first));
                self.add(table, true, Question::Lookup(first + PAGE - 1));
            }
        }
    }
}

/// No list and no table beside a space.
fn no_table(space: Space) -> Table {
    Table {
        space,
        list: List::default(),
        words: Vec::new(),
        count: 0,
    }
}

/// The course of a history.
struct Plan {
    table: Table,
    steps: u64,
    /// Whether requests stay near one mapping, so that the table fills up.
    narrow: bool,
}

/// A space, and how many mappings there are to be: more than many, and often as many as may be.
fn large(random: &mut Random) -> (Space, usize) {
    let fewer = random.up_to((MOST_MAPPINGS - MANY_MAPPINGS - 1) as u64);
    (random.pick(&large_spaces()), MOST_MAPPINGS - fewer as usize)
}

/// From a table that is full or nearly so: to fill a large one takes too many steps.
fn large_plan(random: &mut Random) -> Plan {
    let (space, capacity) = large(random);
    let spare = random.below(4) as usize;
    let good = fill_space(random, space, (capacity - spare) as u64);
    Plan {
        table: good.table(spare),
        steps: 10 + random.below(30),
        narrow: !random.once_in(4),
    }
}

/// From an empty table and an empty list.
fn plan(random: &mut Random) -> Plan {
    let (space, capacity) = match random.below(64) {
        0 => {
            let many = MANY_MAPPINGS as u64;
            (random.pick(&plain_spaces()), many - random.up_to(many / 2))
        }
        1..=15 => (random.pick(&plain_spaces()), 1 + random.below(40)),
        16..=31 => (good_space(random), 1 + random.below(20)),
        _ => (random.pick(&small_spaces()), 1 + random.below(10)),
    };
    let narrow = capacity > 40 || random.once_in(2);
    let steps = match narrow {
        true => capacity / 2 + random.below(2 * capacity),
        false => random.below(60),
    };
    // Room for no range, for few, or for as many as there may be.
    let ranges = random.pick(&[0, 1, 2, 3, 4, 8, MOST_RANGES]);
    let empty = Good {
        space,
        list: List::of(&[], ranges),
        mappings: Vec::new(),
    };
    Plan {
        table: empty.table(capacity as usize),
        steps,
        narrow,
    }
}

/// A request near what is mapped or sparse or anywhere, mostly a good one.
fn next_record(random: &mut Random, good: &Good, narrow: bool) -> Record {
    let mut record = match random.below(16) {
        0 => good_record(random, &good.space),
        1..=3 => near_sparse_record(random, good),
        _ if good.mappings.is_empty() => good_record(random, &good.space),
        _ if narrow => narrow_record(random, good),
        _ => near_record(random, good),
    };
    if random.once_in(16) {
        disturb_record(random, &mut record, &good.space);
    }
    record
}
