//! Every refusal as a value: its number, its text, and its use as an error.

use std::collections::BTreeSet;
use std::error::Error;
use waylluqen::{Ranges, Refusal};
use waylluqen_compare::batches::{bytes_of, Batch};
use waylluqen_compare::calls::{model_answer, Asking, Caller, Way};
use waylluqen_compare::library::{self, NUMBERS};
use waylluqen_compare::lists::List;
use waylluqen_compare::numbers::{space_of, LIMIT};
use waylluqen_compare::requests::{MAP, UNMAP};
use waylluqen_compare::tables::Table;
use waylluqen_model::{Record, SparseRange, PAGE};

const HEADER: &str = include_str!("../../../include/waylluqen.h");

fn range(start: u64, size: u64) -> SparseRange {
    SparseRange { start, size }
}

/// A request on a table with one mapping and no more room, and a list with one range.
struct Case {
    table: Table,
    operation_words: usize,
    record: Record,
    record_bytes: usize,
}

fn without_room() -> Case {
    Case {
        table: Table {
            space: space_of([0, 16 * PAGE, 14 * PAGE, 2 * PAGE]),
            list: List::of(&[range(2 * PAGE, PAGE)], 1),
            words: vec![PAGE, PAGE, 7, 0],
            count: 1,
        },
        operation_words: 28,
        record: Record::plain(MAP, 8, 4 * PAGE, 0, PAGE),
        record_bytes: 40,
    }
}

/// What makes it the case of each refusal of a request, in the order of their numbers.
const CHANGES: [fn(&mut Case); 18] = [
    |case| case.table.space.size = 1,
    |case| case.table.words.truncate(3),
    |case| case.operation_words = 27,
    |case| case.table.count = 2,
    |case| case.table.words[1] = 1,
    |case| case.record.addr = 1,
    |case| case.record.addr = 16 * PAGE,
    |case| case.record.addr = 14 * PAGE,
    |case| case.record.handle = 0,
    |case| case.record.bo_offset = LIMIT,
    |_| {},
    |case| case.record_bytes = 39,
    |case| case.record.op = 2,
    |case| case.record.flags = 1,
    |case| {
        case.table.words.extend([0, 0, 0, 1]);
        case.operation_words = 42;
    },
    |case| case.table.list.words[0] = 1,
    |case| case.record = Record::sparse(MAP, 2 * PAGE, PAGE),
    |case| case.record = Record::sparse(UNMAP, 2 * PAGE, 2 * PAGE),
];

/// The refusal that the library gives, which is the model's.
fn refusal_of(mut case: Case) -> Refusal {
    let bytes = &case.record.encode()[..case.record_bytes];
    let asking = Asking::Bytes(bytes);
    let model = model_answer(&case.table, case.operation_words, asking);
    let mut list = vec![0; case.operation_words];
    let mut caller = Caller::new(1);
    for way in [Way::Words, Way::Types] {
        caller.lend(&case.table);
        caller.lend_operations(&list);
        caller.bind(way, &case.table, asking, &model);
    }
    let space = library::space(&case.table.space);
    let ranges = Ranges::with_count(&mut case.table.list.words, case.table.list.count);
    let table = waylluqen::Table::with_count(&mut case.table.words, case.table.count);
    let mut table = table.with_ranges(ranges);
    let answer = table.bind_record(space, bytes, &mut list);
    let refusal = answer.map(|_| ()).expect_err("each case is refused");
    assert_eq!(refusal.number(), model.expect_err("the same").number);
    refusal
}

/// The refusal of a batch that asks twice for the mapping that is there, with words for the
/// operations of one, and so many to work in.
fn batch_refusal_of(work_words: usize) -> Refusal {
    let mut table = without_room().table;
    let records = bytes_of(&[Record::plain(MAP, 7, PAGE, 0, PAGE); 2]);
    let batch = Batch {
        table: &table,
        work_words,
        operation_words: 28,
        records: &records,
    };
    let model = Caller::new(1).compare_batch(&batch);
    let refused = model.expect_err("each case is refused");
    let (space, count) = (library::space(&table.space), table.count);
    let (mut work, mut list) = (vec![0; work_words], vec![0; 28]);
    let mut lent = waylluqen::Table::with_count(&mut table.words, count);
    let answer = lent.bind_batch_records(space, &records, &mut work, &mut list);
    let refusal = answer.map(|_| ()).expect_err("the same");
    assert_eq!(refusal, library::batch_refusal(refused));
    assert_eq!(refusal.refusal.number(), refused.refused().number);
    refusal.refusal
}

fn all_refusals() -> Vec<Refusal> {
    let refusal = |change: &fn(&mut Case)| {
        let mut case = without_room();
        change(&mut case);
        refusal_of(case)
    };
    let mut refusals: Vec<Refusal> = CHANGES.iter().map(refusal).collect();
    // 15 and 16, which only a batch has.
    refusals.splice(14..14, [batch_refusal_of(3), batch_refusal_of(4)]);
    refusals
}

#[test]
fn numbers() {
    let numbers = all_refusals().into_iter().map(Refusal::number);
    assert!(numbers.eq(NUMBERS));
}

#[test]
fn texts() {
    let mut refusals = all_refusals();
    refusals.push(Refusal::BadMapping { place: 511 });
    let texts: BTreeSet<String> = refusals.iter().map(Refusal::to_string).collect();
    assert_eq!(texts.len(), refusals.len(), "some are the same: {texts:?}");
    assert!(texts.iter().all(|text| !text.trim().is_empty()));
    assert!(texts.iter().any(|text| text.contains("511")));
}

#[test]
fn errors() {
    for refusal in all_refusals() {
        let error: &dyn Error = &refusal;
        assert_eq!(error.to_string(), refusal.to_string());
        assert!(error.source().is_none());
        let boxed: Box<dyn Error + Send + Sync> = Box::from(refusal);
        assert_eq!(boxed.downcast_ref(), Some(&refusal));
    }
}

/// The header's list of refusals: behind `WAYLLUQEN_REFUSED_` the name, then the text.
fn listed() -> Vec<(&'static str, &'static str)> {
    let start = "#define WAYLLUQEN_REFUSALS(X) \\\n";
    let (_, list) = HEADER.split_once(start).expect("the header has the list");
    let (list, _) = list.split_once("\n\n").expect("a blank line ends it");
    let entry = |line: &'static str| {
        let line = line.trim_end_matches(" \\");
        let entry = line.strip_prefix("    X(WAYLLUQEN_REFUSED_")?;
        entry.strip_suffix("\")")?.split_once(", \"")
    };
    let entries: Option<_> = list.lines().map(entry).collect();
    entries.expect("each line is a name and a text")
}

/// The name of a refusal in C: `BadSpace` is `BAD_SPACE`.
fn name_in_c(refusal: Refusal) -> String {
    let value = format!("{refusal:?}");
    let letters = value.chars().take_while(|&letter| letter != ' ');
    let mut name = String::new();
    for letter in letters {
        if letter.is_uppercase() && !name.is_empty() {
            name.push('_');
        }
        name.push(letter.to_ascii_uppercase());
    }
    name
}

#[test]
fn in_the_header() {
    let (refusals, listed) = (all_refusals(), listed());
    assert_eq!(listed.len(), refusals.len());
    for (refusal, (name, text)) in refusals.into_iter().zip(listed) {
        assert_eq!(name, name_in_c(refusal));
        let number = format!("    WAYLLUQEN_REFUSED_{name} = {}", refusal.number());
        let is_number = |line: &str| line.trim_end_matches(',') == number;
        assert!(HEADER.lines().any(is_number), "there is no{number}");
        let place = match refusal {
            Refusal::BadMapping { place } => format!(" (place {place})"),
            _ => String::new(),
        };
        assert_eq!(refusal.to_string(), format!("{text}{place}"));
    }
}
