//! Batches of records, each compared to the model: its answer and every word lent to it.

use crate::calls::{answer_line, describe, lent_types, lines, same, same_lent, same_operations};
use crate::calls::{Caller, Way};
use crate::library::{self, Batched};
use crate::memory::Lent;
use crate::tables::Table;
use waylluqen::ffi;
use waylluqen_model::random::Random;
use waylluqen_model::{bind_batch, Record};
use waylluqen_model::{MAPPING_WORDS, OPERATION_WORDS, RANGE_WORDS, RECORD_BYTES};

/// A batch that is asked for, and how many words are lent for it.
#[derive(Clone, Copy)]
pub struct Batch<'a> {
    pub table: &'a Table,
    pub work_words: usize,
    pub operation_words: usize,
    pub records: &'a [u8],
}

impl Batch<'_> {
    /// The model's answer.
    pub fn answer(&self) -> Batched {
        let Table {
            space,
            list,
            words,
            count,
        } = self.table;
        let lent = [self.work_words, self.operation_words];
        bind_batch(space, &list.lent(), words, *count, lent, self.records)
    }
}

/// The bytes of these records, in a row.
pub fn bytes_of(records: &[Record]) -> Vec<u8> {
    records.iter().flat_map(Record::encode).collect()
}

/// What the types can take a batch as.
#[derive(Clone, Copy, Debug)]
enum Form {
    Bytes,
    Records,
    Requests,
}

/// The fields of a record's bytes, whatever they hold.
fn fields(bytes: &[u8; RECORD_BYTES]) -> Record {
    let short = |at: usize| u32::from_le_bytes(std::array::from_fn(|byte| bytes[at + byte]));
    let long = |at: usize| u64::from_le_bytes(std::array::from_fn(|byte| bytes[at + byte]));
    Record {
        op: short(0),
        flags: short(4),
        handle: short(8),
        pad: short(12),
        addr: long(16),
        bo_offset: long(24),
        range: long(32),
    }
}

impl Form {
    /// One that can have these bytes: requests have no pad, and neither they nor records are cut.
    fn some(random: &mut Random, bytes: &[u8]) -> Form {
        let (records, rest) = bytes.as_chunks();
        if !rest.is_empty() {
            return Form::Bytes;
        }
        let padded = records.iter().any(|bytes| fields(bytes).pad != 0);
        match random.below(3) {
            0 => Form::Bytes,
            1 if !padded => Form::Requests,
            _ => Form::Records,
        }
    }
}

impl Caller {
    /// Lends these words to work in to the next batch.
    pub fn lend_work(&mut self, words: &[u64]) {
        self.work.put(&mut self.random, words);
    }

    /// Lends so many to work in: any, zeros, or the table's as far as they go.
    fn lend_some_work(&mut self, batch: &Batch) {
        self.work.put_any(&mut self.random, batch.work_words);
        let words = self.work.words_mut();
        match self.random.below(4) {
            0 => words.fill(0),
            1 => {
                let copied = words.iter_mut().zip(&batch.table.words);
                copied.for_each(|(word, copied)| *word = *copied);
            }
            _ => {}
        }
    }

    /// Lends a table, and any words to work in and for operations, and asks for a batch in one of the
    /// ways. Answers what the model does.
    pub fn compare_batch(&mut self, batch: &Batch) -> Batched {
        let model = batch.answer();
        self.lend(batch.table);
        self.lend_some_work(batch);
        self.operations
            .put_any(&mut self.random, batch.operation_words);
        let way = self.random.pick(&[Way::Words, Way::Words, Way::Types]);
        // A record may stand at any byte.
        let start = self.random.below(8) as usize;
        let records = [&[0; 8][..start], batch.records].concat();
        let records = &records[start..];
        self.bind_batch(way, &Batch { records, ..*batch }, &model);
        model
    }

    /// Asks for a batch on the table and with the words that are lent, to which the model's answer is
    /// `model`. The table has the words of the batch's.
    pub fn bind_batch(&mut self, way: Way, batch: &Batch, model: &Batched) {
        self.list.expect(|_| {});
        self.table
            .expect(|words| library::change_table(words, model));
        self.work.expect(|words| library::clear_work(words, model));
        self.operations
            .expect(|words| library::write_batch(words, model));
        let answered = match way {
            Way::Words => self.batch_words(batch, model),
            Way::Types => self.batch_types(batch, model),
        };
        let (list, table) = (&mut self.list, &mut self.table);
        let lent = [list, table, &mut self.work, &mut self.operations];
        let as_expected = lent.into_iter().all(Lent::is_as_expected);
        if answered.is_err() || !as_expected {
            self.report_batch(batch, &answer_line(way, answered), model);
        }
    }

    fn batch_words(&mut self, batch: &Batch, model: &Batched) -> Result<(), String> {
        let table = batch.table;
        let answer = ffi::bind_batch(
            library::space(&table.space),
            self.list.words_mut(),
            table.list.count,
            self.table.words_mut(),
            table.count,
            self.work.words_mut(),
            self.operations.words_mut(),
            batch.records,
        );
        same(answer, library::batched_words(model, table))
    }

    fn batch_types(&mut self, batch: &Batch, model: &Batched) -> Result<(), String> {
        let form = Form::some(&mut self.random, batch.records);
        let space = library::space(&batch.table.space);
        let (work, list) = (self.work.words_mut(), self.operations.words_mut());
        let mut lent = lent_types(batch.table, self.table.words_mut(), self.list.words_mut());
        let (records, _) = batch.records.as_chunks::<RECORD_BYTES>();
        let requests = records.iter().map(|bytes| fields(bytes).request());
        let answer = match form {
            Form::Bytes => lent.bind_batch_records(space, batch.records, work, list),
            Form::Records => lent.bind_batch(space, records.iter().copied(), work, list),
            Form::Requests => {
                let requests = requests.map(|request| library::request(&request));
                lent.bind_batch(space, requests, work, list)
            }
        };
        match (answer, model) {
            (Ok(operations), Ok(grant)) => {
                same_lent(&lent, grant)?;
                same_operations(operations, &grant.operations)
            }
            (Err(refusal), Err(refused)) => {
                same(lent.count(), batch.table.count)?;
                same(lent.ranges().count(), batch.table.list.count)?;
                same(refusal, library::batch_refusal(*refused))
            }
            (answer, _) => Err(format!("{answer:x?} by {form:?}")),
        }
    }

    #[cold]
    fn report_batch(&self, batch: &Batch, answer: &str, model: &Batched) -> ! {
        let records: Vec<String> = batch
            .records
            .chunks(RECORD_BYTES)
            .map(|bytes| match bytes.try_into() {
                Ok(bytes) => format!("  {:x?}", fields(bytes)),
                Err(_) => format!("  {bytes:02x?}"),
            })
            .collect();
        panic!(
            "{}{} records:\n{}\n{answer}\nthe table afterwards:\n{}\nthe list afterwards:\n{}\n\
             to work in, {} words:\n{}\noperations, {} words:\n{}\nmodel {model:x?}",
            describe(batch.table),
            records.len(),
            records.join("\n"),
            lines(self.table.words(), MAPPING_WORDS),
            lines(self.list.words(), RANGE_WORDS),
            self.work.words().len(),
            lines(self.work.words(), MAPPING_WORDS),
            self.operations.words().len(),
            lines(self.operations.words(), OPERATION_WORDS),
        );
    }
}
