//! How often each kind of call and each answer came.

use crate::call::{Asked, Call};
use waylluqen_compare::library::{Batched, Bound, ByNumber, Listed, Looked};
use waylluqen_compare::library::{IN_TURN, NUMBERS, OF_BATCHES};
use waylluqen_compare::lists::{Faults, RULES};
use waylluqen_compare::marks::Marks;
use waylluqen_compare::sights::Sights;
use waylluqen_compare::tables::{Table, MANY_MAPPINGS};
use waylluqen_model::answer::{BAD_MAPPING, SHORT_OUTPUT, STALE_WORDS, UNALIGNED};
use waylluqen_model::answer::{BAD_RANGES, NO_ROOM, NO_SUCH_RANGE, OK, RANGE_OVERLAPS};
use waylluqen_model::entries::entry_count;
use waylluqen_model::{BatchRefused, Mapping, PageEntry};
use waylluqen_model::{MAPPING_WORDS, MOST_MAPPINGS, PAGE_SIZES, RECORD_BYTES};

/// More words than these behind the last mapping are many.
const MANY_WORDS: usize = 4096;

#[derive(Default)]
pub struct Tally {
    rounds: u64,
    by_numbers: u64,
    by_record: u64,
    lookups: u64,
    checks: u64,
    batches: Batches,
    entries: Entries,
    granted: u64,
    /// The most mappings that a grant left.
    largest: u64,
    /// Calls on good tables of more than many mappings; those on full ones of as many as may be.
    on_large: u64,
    on_full: u64,
    /// Calls that were granted or answered with many words behind the last mapping.
    long: u64,
    /// Calls that were refused for stale words; those for a single one, and for one of many words.
    stale: u64,
    one_stale: u64,
    long_stale: u64,
    /// Grants that add a sparse range, and that remove one; the most ranges that one left.
    flagged: [u64; 2],
    most_ranges: usize,
    /// Calls that were refused for their list.
    faults: Faults,
    marks: Marks,
    sights: Sights,
    /// Those that a check does not refuse are at 0.
    refused: ByNumber,
}

/// How often batches had each kind of answer.
#[derive(Default)]
struct Batches {
    all: u64,
    granted: u64,
    /// The requests of granted ones, and their operations.
    requests: u64,
    operations: u64,
    /// Refused for themselves, and for a request: those for the first, and the highest place.
    whole: ByNumber,
    in_turn: ByNumber,
    at_first: u64,
    highest: u64,
}

impl Batches {
    fn count(&mut self, records: &[u8], batched: &Batched) {
        self.all += 1;
        match batched {
            Ok(grant) => {
                self.granted += 1;
                self.requests += (records.len() / RECORD_BYTES) as u64;
                self.operations += grant.operations.len() as u64;
            }
            Err(BatchRefused::Whole(refused)) => self.whole[refused.number as usize] += 1,
            Err(BatchRefused::InTurn(refused)) => {
                self.in_turn[refused.number as usize] += 1;
                self.at_first += u64::from(refused.place == 0);
                self.highest = self.highest.max(refused.place);
            }
        }
    }

    fn summary(&self) -> String {
        let Batches {
            all,
            granted,
            requests,
            operations,
            at_first,
            highest,
            ..
        } = self;
        let whole = OF_BATCHES.map(|number| format!("{number}: {}", self.whole[number as usize]));
        let in_turn = IN_TURN.map(|number| format!("{number}: {}", self.in_turn[number as usize]));
        let refused: u64 = self.in_turn.iter().sum();
        format!(
            "{granted} of {all} batches granted, with {requests} requests and {operations} \
             operations\n\
             batches refused themselves {}\n\
             {refused} batches refused for a request, {at_first} of them for the first, up to place \
             {highest}: {}",
            whole.join(", "),
            in_turn.join(", ")
        )
    }
}

/// How often mappings had each kind of answer for their entries.
#[derive(Default)]
struct Entries {
    all: u64,
    listed: u64,
    /// The entries of those that were listed, by their size, and the most of one.
    by_size: [u64; PAGE_SIZES.len()],
    most: usize,
    refused: ByNumber,
    /// The most entries of a mapping for which there were too few words.
    most_refused: u64,
}

impl Entries {
    fn count(&mut self, mapping: &Mapping, listed: &Listed) {
        self.all += 1;
        match listed {
            Ok(entries) => self.count_list(entries),
            Err(refused) => {
                self.refused[refused.number as usize] += 1;
                if refused.number == SHORT_OUTPUT {
                    let entries = entry_count(&PAGE_SIZES, mapping);
                    self.most_refused = self.most_refused.max(entries);
                }
            }
        }
    }

    fn count_list(&mut self, entries: &[PageEntry]) {
        self.listed += 1;
        self.most = self.most.max(entries.len());
        for (times, size) in self.by_size.iter_mut().zip(PAGE_SIZES) {
            let of_size = entries.iter().filter(|entry| entry.size == size);
            *times += of_size.count() as u64;
        }
    }

    fn summary(&self) -> String {
        let Entries {
            all,
            listed,
            by_size: [giant, large, small],
            most,
            most_refused,
            ..
        } = self;
        let [broken, short] =
            [BAD_MAPPING, SHORT_OUTPUT].map(|number| self.refused[number as usize]);
        format!(
            "{listed} of {all} mappings listed, with {giant} entries of 1 GiB, {large} of 2 MiB and \
             {small} of 4 KiB, up to {most} each; {broken} were broken, and {short} had too few \
             words, for up to {most_refused} entries"
        )
    }
}

/// The number that a call on a table is answered with; 0 where it is not refused. A batch that is
/// refused for a request has a good table too.
fn number_of(asked: &Asked) -> Option<u32> {
    let refused = match asked {
        Asked::Numbers(_, bound) | Asked::Record(_, bound) => bound.as_ref().err().copied(),
        Asked::Batch(_, Err(BatchRefused::InTurn(_))) => return Some(NO_ROOM),
        Asked::Batch(_, batched) => batched.as_ref().err().map(|refused| refused.refused()),
        Asked::Lookup(_, looked) => looked.as_ref().err().copied(),
        Asked::Check(..) | Asked::Entries(..) => return None,
    };
    Some(refused.map_or(OK, |refused| refused.number))
}

/// The words behind the mappings of a table whose count it has room for.
fn behind(table: &Table) -> &[u64] {
    &table.words[table.count as usize * MAPPING_WORDS..]
}

impl Tally {
    pub fn count(&mut self, calls: &[Call]) {
        self.rounds += 1;
        for call in calls {
            self.count_table(call);
            match &call.asked {
                Asked::Numbers(_, bound) => {
                    self.by_numbers += 1;
                    self.count_bound(&call.table, bound);
                }
                Asked::Record(_, bound) => {
                    self.by_record += 1;
                    self.count_bound(&call.table, bound);
                }
                Asked::Batch(records, batched) => self.count_batch(records, batched),
                Asked::Lookup(address, looked) => {
                    self.lookups += 1;
                    self.count_looked(&call.table, *address, looked);
                }
                Asked::Check(_, number) => {
                    self.checks += 1;
                    self.refused[*number as usize] += 1;
                }
                Asked::Entries(mapping, listed) => self.count_entries(mapping, listed),
            }
        }
    }

    fn count_table(&mut self, call: &Call) {
        match number_of(&call.asked) {
            Some(OK) => {
                self.count_good(&call.table);
                self.long += u64::from(behind(&call.table).len() > MANY_WORDS);
            }
            Some(UNALIGNED..=NO_ROOM) => self.count_good(&call.table),
            Some(STALE_WORDS) => self.count_stale(&call.table),
            Some(BAD_RANGES) => self.faults.count(&call.table.space, &call.table.list),
            Some(RANGE_OVERLAPS | NO_SUCH_RANGE) => self.count_good(&call.table),
            _ => {}
        }
    }

    fn count_good(&mut self, table: &Table) {
        if table.count > MANY_MAPPINGS as u64 {
            self.on_large += 1;
            self.on_full += u64::from(table.count == MOST_MAPPINGS as u64);
        }
    }

    fn count_stale(&mut self, table: &Table) {
        let behind = behind(table);
        let is_one = behind.iter().filter(|&&word| word != 0).count() == 1;
        self.stale += 1;
        self.one_stale += u64::from(is_one);
        self.long_stale += u64::from(is_one && behind.len() > MANY_WORDS);
    }

    fn count_bound(&mut self, table: &Table, bound: &Bound) {
        match bound {
            Ok(grant) => {
                self.granted += 1;
                self.largest = self.largest.max(grant.count);
                self.marks.count(grant);
                let (before, after) = (table.list.count as usize, grant.ranges.len());
                self.flagged[0] += u64::from(before < after);
                self.flagged[1] += u64::from(after < before);
                self.most_ranges = self.most_ranges.max(after);
            }
            Err(refused) => self.refused[refused.number as usize] += 1,
        }
    }

    fn count_batch(&mut self, records: &[u8], batched: &Batched) {
        self.batches.count(records, batched);
        match batched {
            Ok(grant) => self.largest = self.largest.max(grant.count),
            Err(refused) => self.refused[refused.refused().number as usize] += 1,
        }
    }

    fn count_entries(&mut self, mapping: &Mapping, listed: &Listed) {
        self.entries.count(mapping, listed);
        if let Err(refused) = listed {
            self.refused[refused.number as usize] += 1;
        }
    }

    fn count_looked(&mut self, table: &Table, address: u64, looked: &Looked) {
        match looked {
            Ok(seen) => self.sights.count(table, address, *seen),
            Err(refused) => self.refused[refused.number as usize] += 1,
        }
    }

    /// What a run that passed prints at its end.
    pub fn summary(&self, seed: u64) -> String {
        let Tally {
            rounds,
            by_numbers,
            by_record,
            lookups,
            checks,
            granted,
            largest,
            refused: [passed, ..],
            ..
        } = self;
        let (batches, entries) = (self.batches.all, self.entries.all);
        let calls = by_numbers + by_record + batches + lookups + checks + entries;
        let times = |number: u32| self.refused[number as usize];
        let refused = NUMBERS.map(|number| format!("{number}: {}", times(number)));
        format!(
            "host/soak: passed, seed {seed}, {rounds} rounds\n\
             {calls} calls, each made three ways: {by_numbers} requests by numbers, {by_record} by \
             record, {batches} batches, {lookups} look-ups, {checks} checks, {entries} times page \
             entries\n\
             {granted} requests granted, on tables of up to {largest} mappings; {passed} checks \
             passed\n\
             {}\n{}\n{}\n{}\n{}\n{}\n\
             refused {}",
            self.batches.summary(),
            self.entries.summary(),
            self.of_tables(),
            self.of_lists(),
            self.of_marks(),
            self.of_sights(),
            refused.join(", ")
        )
    }

    fn of_tables(&self) -> String {
        let Tally {
            on_large,
            on_full,
            long,
            stale,
            one_stale,
            long_stale,
            ..
        } = self;
        format!(
            "{on_large} calls on good tables of more than {MANY_MAPPINGS} mappings, {on_full} of them \
             on full ones of {MOST_MAPPINGS}\n\
             {long} calls granted or answered with more than {MANY_WORDS} words behind the last \
             mapping\n\
             {stale} calls refused for stale words, {one_stale} of them for a single one, \
             {long_stale} for a single one of more than {MANY_WORDS} words"
        )
    }

    fn of_lists(&self) -> String {
        let ([added, removed], most) = (self.flagged, self.most_ranges);
        let rules = RULES.iter().zip(self.faults.alone);
        let alone = rules.map(|(rule, times)| format!("{rule} {times}"));
        let alone: Vec<String> = alone.collect();
        format!(
            "{added} requests added a sparse range, up to {most} of them, and {removed} removed \
             one\nlists refused for one rule alone: {}",
            alone.join(", ")
        )
    }

    fn of_sights(&self) -> String {
        let kinds = self.sights.kinds();
        let kinds = kinds.map(|(kind, times)| format!("{kind} {times}"));
        format!("addresses by what they show: {}", kinds.join(", "))
    }

    fn of_marks(&self) -> String {
        let kept: u64 = self.marks.kept.iter().sum();
        let (elsewhere, around) = (self.marks.elsewhere, self.marks.around);
        format!(
            "{kept} old mappings kept, {elsewhere} of them at another address than the new one; \
             {around} maps had one that was not kept between two that were"
        )
    }
}
