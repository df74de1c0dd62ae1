//! All that carry out batches must give the model's answers and leave the model's words, also where
//! a batch or one of its requests is refused.

use super::{contenders, lent, lines, Batched, Contender, Line, Manager, SINGLE, TREE};
use crate::agree::has_tree;
use crate::manager::Grant;
use waylluqen::{MAX_BATCH, RECORD_BYTES};
use waylluqen_compare::batches::Batch;
use waylluqen_compare::courses::{some_number, Case, Course};
use waylluqen_compare::library::{self, ByNumber, IN_TURN, OF_BATCHES};
use waylluqen_compare::tables::{fill_space, good_table, small_spaces, Good};
use waylluqen_model::random::Random;
use waylluqen_model::{BatchRefused, Refused, MOST_MAPPINGS};

const RANDOM_BATCHES: u64 = 4000;
const SEED: u64 = 9;

/// What a batch is to answer, and all words as they are to be afterwards.
struct Expected {
    answer: Batched,
    table: (Vec<u64>, u64),
    work: Vec<u64>,
    list: Vec<u64>,
}

/// Any words to work in and for operations.
fn lent_words(batch: &Batch) -> (Vec<u64>, Vec<u64>) {
    let work = vec![SEED; batch.work_words];
    (work, vec![SEED; batch.operation_words])
}

impl Expected {
    fn of(batch: &Batch, model: &library::Batched) -> Expected {
        let (mut work, mut list) = lent_words(batch);
        let mut words = batch.table.words.clone();
        library::change_table(&mut words, model);
        library::clear_work(&mut work, model);
        library::write_batch(&mut list, model);
        let answer = match model {
            Ok(grant) => Ok(Grant {
                operations: grant.operations.len() as u64,
                count: grant.count,
            }),
            Err(refused) => Err(library::batch_refusal(*refused)),
        };
        let count = answer.map_or(batch.table.count, |grant| grant.count);
        Expected {
            answer,
            table: (words, count),
            work,
            list,
        }
    }
}

/// Holds a contender to what is expected, and gives what it left.
fn hold(contender: &Contender, batch: &Batch, expected: &Expected) -> Box<dyn Manager> {
    let name = contender.name;
    let mut manager = (contender.begin)(batch.table);
    let (mut work, mut list) = lent_words(batch);
    let space = library::space(&batch.table.space);
    let answer = manager.bind_batch(space, batch.records, &mut work, &mut list);
    assert_eq!(answer, expected.answer, "{name}");
    assert!(manager.table() == expected.table, "{name}'s table");
    assert!(work == expected.work, "{name}'s words to work in");
    assert!(list == expected.list, "{name}'s operations");
    manager
}

/// A batch to each contender that can have the table, but single calls, which take nothing back.
fn compare(batch: &Batch) -> library::Batched {
    let model = batch.answer();
    let expected = Expected::of(batch, &model);
    let tree = has_tree(batch.table).then_some(&TREE);
    for contender in lent().chain(tree) {
        hold(contender, batch, &expected);
    }
    model
}

/// A batch that is timed: it is granted, by single calls too, and the table is as it was afterwards.
fn compare_timed(line: &Line, records: &[u8]) {
    let batch = line.batch(records);
    let mut expected = Expected::of(&batch, &batch.answer());
    assert!(expected.answer.is_ok(), "{} is granted", line.what);
    for contender in contenders() {
        let name = contender.name;
        // Single calls work in no words, and leave any.
        let left = if name == SINGLE.name { SEED } else { 0 };
        expected.work.fill(left);
        let mut manager = hold(contender, &batch, &expected);
        if line.starts_empty {
            manager.empty(MAX_BATCH);
        }
        let start = (line.table.words.clone(), line.table.count);
        assert!(manager.table() == start, "{name}, {}", line.what);
    }
}

/// A few mappings in a small space or in any, and now and then many.
fn some_good(random: &mut Random) -> Good {
    let largest = match random.below(64) {
        0 => MOST_MAPPINGS as u64,
        1..=3 => 512,
        4..=24 => {
            let space = random.pick(&small_spaces());
            let most = 1 + random.below(4);
            return fill_space(random, space, most);
        }
        _ => 12,
    };
    good_table(random, largest)
}

fn compare_random(random: &mut Random) -> library::Batched {
    let good = some_good(random);
    let number = some_number(random);
    let course = Course::new(random, &good, number);
    let mut case = Case::of(random, &good, &course);
    if random.once_in(2) {
        case.disturb(random, &good);
    } else if random.once_in(16) {
        // One more than a batch may have.
        case.bytes.resize((MAX_BATCH + 1) * RECORD_BYTES, 0);
    }
    compare(&case.batch())
}

/// Panics where an answer or a word is another than the model's.
pub fn assert_equal() {
    for line in lines() {
        for records in &line.batches {
            compare_timed(&line, records);
        }
    }
    let mut random = Random::new(SEED);
    let (mut granted, mut whole, mut in_turn) = (0, ByNumber::default(), ByNumber::default());
    for _ in 0..RANDOM_BATCHES {
        match compare_random(&mut random) {
            Ok(_) => granted += 1,
            Err(BatchRefused::Whole(Refused { number, .. })) => whole[number as usize] += 1,
            Err(BatchRefused::InTurn(Refused { number, .. })) => in_turn[number as usize] += 1,
        }
    }
    assert!(granted >= RANDOM_BATCHES / 6, "only {granted} granted");
    for (numbers, times) in [(OF_BATCHES, whole), (IN_TURN, in_turn)] {
        for number in numbers {
            let times = times[number as usize];
            assert!(times >= 5, "{number} only {times} times");
        }
    }
}

#[test]
fn equal_answers_and_words() {
    assert_equal();
}
