//! Calls of the library, each compared to the model: its answer and every word lent to it.

use crate::library::{self, Bound, Looked};
use crate::lists::List;
use crate::memory::Lent;
use crate::tables::Table;
use std::fmt::Debug;
use waylluqen::{check_request, ffi, Operations, Ranges};
use waylluqen_model::random::Random;
use waylluqen_model::request::form_refusal;
use waylluqen_model::{bind, bind_record, decode, lookup, Grant, Operation, Request, Space};
use waylluqen_model::{MAPPING_WORDS, OPERATION_WORDS, RANGE_WORDS};

/// The two ways to call the library from Rust: in words as from C, and by the types for drivers.
#[derive(Clone, Copy, Debug, PartialEq, Eq)]
pub enum Way {
    Words,
    Types,
}

/// The two forms in which a request comes. Numbers with flags only the types take.
#[derive(Clone, Copy, Debug)]
pub enum Asking<'a> {
    Numbers(Request),
    Bytes(&'a [u8]),
}

/// The memory that is lent, and the randomness of what lies in it.
pub struct Caller {
    pub(crate) random: Random,
    pub(crate) list: Lent,
    pub(crate) table: Lent,
    pub(crate) work: Lent,
    pub(crate) operations: Lent,
    pub(crate) entries: Lent,
}

impl Caller {
    pub fn new(seed: u64) -> Caller {
        Caller {
            random: Random::new(seed),
            list: Lent::default(),
            table: Lent::default(),
            work: Lent::default(),
            operations: Lent::default(),
            entries: Lent::default(),
        }
    }

    /// Lends a table's words and its list's to the calls that follow.
    pub fn lend(&mut self, table: &Table) {
        self.list.put(&mut self.random, &table.list.words);
        self.table.put(&mut self.random, &table.words);
    }

    /// Changes a word of the table that is lent.
    pub fn set_word(&mut self, place: usize, word: u64) {
        self.table.words_mut()[place] = word;
    }

    /// Changes a word of the list that is lent.
    pub fn set_list_word(&mut self, place: usize, word: u64) {
        self.list.words_mut()[place] = word;
    }

    /// Lends these words for the operations of the next call.
    pub fn lend_operations(&mut self, words: &[u64]) {
        self.operations.put(&mut self.random, words);
    }

    /// Puts other words around the table and the list; see [`Lent::stir`].
    pub fn stir(&mut self, address: u64) {
        self.table.stir(&mut self.random, address, MAPPING_WORDS);
        self.list.stir(&mut self.random, address, RANGE_WORDS);
    }

    /// The table as the last call left it.
    pub fn table(&self) -> &[u64] {
        self.table.words()
    }

    /// The list as the last call left it.
    pub fn list(&self) -> &[u64] {
        self.list.words()
    }

    /// What is lent as the last call left it, which was this grant.
    pub fn left(&self, space: Space, grant: &Grant) -> Table {
        Table {
            space,
            list: List {
                words: self.list().to_vec(),
                count: grant.ranges.len() as u64,
            },
            words: self.table().to_vec(),
            count: grant.count,
        }
    }

    /// The operation words as the last call left them.
    pub fn operations(&self) -> &[u64] {
        self.operations.words()
    }

    /// Lends a table and any operation words, and asks in one of the ways. Answers what the model
    /// does.
    pub fn compare(&mut self, table: &Table, operation_words: usize, asking: Asking) -> Bound {
        let model = model_answer(table, operation_words, asking);
        self.lend(table);
        self.operations.put_any(&mut self.random, operation_words);
        let way = match self.random.below(8) {
            0 => Way::Types,
            _ if asking.has_flags() => Way::Types,
            _ => Way::Words,
        };
        self.bind(way, table, asking, &model);
        model
    }

    /// Asks on the table and with the operation words that are lent. The table has the words of
    /// `table`, and the model's answer is `model`.
    pub fn bind(&mut self, way: Way, table: &Table, asking: Asking, model: &Bound) {
        self.list.expect(|words| library::change_list(words, model));
        self.table
            .expect(|words| library::change_table(words, model));
        self.operations
            .expect(|words| library::write_operations(words, model));
        let answered = match way {
            Way::Words => self.bind_words(table, asking, model),
            Way::Types => self.bind_types(table, asking, model),
        };
        let lent = [&mut self.list, &mut self.table, &mut self.operations];
        let as_expected = lent.into_iter().all(Lent::is_as_expected);
        if answered.is_err() || !as_expected {
            self.report(table, asking, &answer_line(way, answered), model);
        }
    }

    fn bind_words(&mut self, table: &Table, asking: Asking, model: &Bound) -> Result<(), String> {
        let space = library::space(&table.space);
        let (ranges, range_count) = (self.list.words_mut(), table.list.count);
        let (words, count) = (self.table.words_mut(), table.count);
        let list = self.operations.words_mut();
        let answer = match asking {
            Asking::Numbers(request) => {
                let request = library::numbers(&request);
                ffi::bind(space, ranges, range_count, words, count, list, request)
            }
            Asking::Bytes(record) => {
                ffi::bind_record(space, ranges, range_count, words, count, list, record)
            }
        };
        same(answer, library::bound_words(model, table))
    }

    fn bind_types(&mut self, table: &Table, asking: Asking, model: &Bound) -> Result<(), String> {
        let space = library::space(&table.space);
        let list = self.operations.words_mut();
        let mut lent = lent_types(table, self.table.words_mut(), self.list.words_mut());
        let answer = match asking {
            Asking::Numbers(request) => lent.bind(space, library::request(&request), list),
            Asking::Bytes(record) => lent.bind_record(space, record, list),
        };
        match (answer, model) {
            (Ok(operations), Ok(grant)) => {
                same_lent(&lent, grant)?;
                same_operations(operations, &grant.operations)
            }
            (Err(refusal), Err(refused)) => {
                same(lent.count(), table.count)?;
                same(lent.ranges().count(), table.list.count)?;
                same(refusal.number(), refused.number)?;
                same(refusal, library::refusal(*refused))
            }
            (answer, _) => Err(format!("{answer:x?}")),
        }
    }

    /// Looks an address up in the table that is lent, to which the model's answer is `model`. It has
    /// the words of `table`.
    pub fn look_up(&mut self, way: Way, table: &Table, address: u64, model: Looked) {
        self.list.expect(|_| {});
        self.table.expect(|_| {});
        let space = library::space(&table.space);
        let (words, count) = (self.table.words_mut(), table.count);
        let ranges = self.list.words_mut();
        let answered = match way {
            Way::Words => {
                let answer = ffi::lookup(space, ranges, table.list.count, words, count, address);
                same(answer, library::looked_words(model))
            }
            Way::Types => {
                let lent = lent_types(table, words, ranges);
                same(lent.lookup(space, address), library::looked(model))
            }
        };
        let lent = [&mut self.list, &mut self.table];
        if answered.is_err() || !lent.into_iter().all(Lent::is_as_expected) {
            let answer = answer_line(way, answered);
            panic!(
                "{}look up {address:#x}\n{answer}\nmodel {model:x?}",
                describe(table)
            );
        }
    }

    #[cold]
    fn report(&self, table: &Table, asking: Asking, answer: &str, model: &Bound) -> ! {
        panic!(
            "{}{asking:x?}\n{answer}\nthe list afterwards:\n{}\nthe table afterwards:\n{}\n\
             operations, {} words:\n{}\nmodel {model:x?}",
            describe(table),
            lines(self.list.words(), RANGE_WORDS),
            lines(self.table.words(), MAPPING_WORDS),
            self.operations.words().len(),
            lines(self.operations.words(), OPERATION_WORDS),
        );
    }
}

impl Asking<'_> {
    /// Whether it is one that only the types take.
    fn has_flags(&self) -> bool {
        matches!(self, Asking::Numbers(request) if request.flags != 0)
    }

    /// The request, if it is one whose op and flags are good.
    pub fn request(&self) -> Option<Request> {
        match self {
            Asking::Numbers(request) => form_refusal(request).is_none().then_some(*request),
            Asking::Bytes(record) => decode(record).ok(),
        }
    }

    /// Whether it asks for a sparse range.
    pub fn is_sparse(&self) -> bool {
        self.request().is_some_and(|request| request.is_sparse())
    }
}

/// The table in these words, with the list in those. A list of no word is the one that a table has
/// by itself.
pub(crate) fn lent_types<'a>(
    table: &Table,
    words: &'a mut [u64],
    ranges: &'a mut [u64],
) -> waylluqen::Table<'a> {
    let lent = waylluqen::Table::with_count(words, table.count);
    match table.list.is_none() {
        true => lent,
        false => lent.with_ranges(Ranges::with_count(ranges, table.list.count)),
    }
}

/// Checks a record by itself in one of the ways. Answers what the model does.
pub fn check(way: Way, space: &Space, record: &[u8]) -> u32 {
    let model = waylluqen_model::check_request(record, space);
    let given = library::space(space);
    let answered = match way {
        Way::Words => same(ffi::check_request(given, record), model),
        Way::Types => same(check_request(given, record), library::checked(model)),
    };
    if answered.is_err() {
        let bytes = record.len();
        let answer = answer_line(way, answered);
        panic!("{space:x?}\nrecord, {bytes} bytes: {record:02x?}\n{answer}\nmodel {model}");
    }
    model
}

/// The space, the list and the table of a call, in lines.
pub fn describe(table: &Table) -> String {
    format!(
        "{:x?}\nlist, {} words, count {}:\n{}\ntable, {} words, count {}:\n{}\n",
        table.space,
        table.list.words.len(),
        table.list.count,
        lines(&table.list.words, RANGE_WORDS),
        table.words.len(),
        table.count,
        lines(&table.words, MAPPING_WORDS)
    )
}

/// The first of the words, so many in a line.
pub fn lines(words: &[u64], each: usize) -> String {
    let first = words.chunks(each).take(20);
    let lines: Vec<String> = first.map(|words| format!("  {words:x?}")).collect();
    lines.join("\n")
}

#[cold]
pub(crate) fn answer_line(way: Way, answered: Result<(), String>) -> String {
    match answered {
        Ok(()) => format!("library, by {way:?}: the answer is right, a word in memory is not"),
        Err(answer) => format!("library, by {way:?}: {answer}"),
    }
}

pub fn model_answer(table: &Table, operation_words: usize, asking: Asking) -> Bound {
    let (space, list, words) = (&table.space, &table.list.lent(), &table.words);
    match asking {
        Asking::Numbers(request) => {
            bind(space, list, words, table.count, operation_words, &request)
        }
        Asking::Bytes(record) => {
            bind_record(space, list, words, table.count, operation_words, record)
        }
    }
}

pub fn model_look(table: &Table, address: u64) -> Looked {
    let (space, list, words) = (&table.space, &table.list.lent(), &table.words);
    lookup(space, list, words, table.count, address)
}

/// What was answered, if it is not what was expected.
pub(crate) fn same<T: PartialEq + Debug>(answer: T, expected: T) -> Result<(), String> {
    if answer == expected {
        return Ok(());
    }
    Err(format!("{answer:x?}"))
}

fn same_items<T: PartialEq + Debug>(
    mut items: impl Iterator<Item = T>,
    expected: impl Iterator<Item = T>,
) -> Result<(), String> {
    for expected in expected {
        same(items.next(), Some(expected))?;
    }
    same(items.next(), None)
}

/// The counts that a grant leaves, its mappings and its ranges.
pub(crate) fn same_lent(lent: &waylluqen::Table, grant: &Grant) -> Result<(), String> {
    same(lent.count(), grant.count)?;
    same(lent.ranges().count(), grant.ranges.len() as u64)?;
    let mappings = grant.mappings.iter().copied().map(library::mapping);
    same_items(lent.mappings(), mappings)?;
    let ranges = grant.ranges.iter().copied().map(library::range);
    same_items(lent.ranges().iter(), ranges)
}

/// The operations one by one, their number at each step, and nothing behind the last.
pub(crate) fn same_operations(
    mut operations: Operations,
    expected: &[Operation],
) -> Result<(), String> {
    for (at, operation) in expected.iter().enumerate() {
        let left = expected.len() - at;
        same(operations.len(), left)?;
        same(operations.size_hint(), (left, Some(left)))?;
        same(operations.next(), Some(library::operation(operation)))?;
    }
    same(operations.len(), 0)?;
    same([operations.next(), operations.next()], [None, None])
}
