//! All that are timed must give the model's answers and leave the model's words, also on damaged
//! tables; else there is nothing to compare.

use crate::line::{lines, Call, Line};
use crate::manager::{contenders, lent, Bound, Contender, Grant, Looked, TREE};
use crate::timed::Timed;
use waylluqen::{Refusal, Shown};
use waylluqen_compare::calls::{model_answer, model_look, Asking};
use waylluqen_compare::library::{self, change_lent, change_table, write_operations};
use waylluqen_compare::near::{disturb, near_plain_record, widen};
use waylluqen_compare::tables::{
    any_address, good_table, make_stale, some_operation_words, Good, Table,
};
use waylluqen_model::random::Random;
use waylluqen_model::{self as model, MAPPING_WORDS, MOST_MAPPINGS};

/// Random tables with a request and some look-ups.
const RANDOM_TABLES: u64 = 3000;
const SEED: u64 = 8;

fn answer(bound: &library::Bound) -> Bound {
    let grant = bound.as_ref().map_err(|refused| library::refusal(*refused));
    grant.map(|grant| Grant {
        operations: grant.operations.len() as u64,
        count: grant.count,
    })
}

/// Whether a map can hold the table: its addresses ascend, and behind its mappings are zeros.
pub fn has_tree(table: &Table) -> bool {
    let Some(words) = usize::try_from(table.count)
        .ok()
        .and_then(|count| count.checked_mul(MAPPING_WORDS))
    else {
        return false;
    };
    let Some((mappings, behind)) = table.words.split_at_checked(words) else {
        return false;
    };
    let addresses = mappings.iter().step_by(MAPPING_WORDS);
    addresses.is_sorted_by(|one, next| one < next) && behind.iter().all(|&word| word == 0)
}

fn contenders_for(table: &Table) -> impl Iterator<Item = &'static Contender> {
    lent().chain(has_tree(table).then_some(&TREE))
}

/// A request to each contender that can have the table, with words behind the list's operations.
fn compare_bind(table: &Table, request: &model::Request, list_words: usize) -> Bound {
    let expected = model_answer(table, list_words, Asking::Numbers(*request));
    let mut expected_words = table.words.clone();
    change_table(&mut expected_words, &expected);
    let mut expected_list = vec![SEED; list_words];
    write_operations(&mut expected_list, &expected);
    let expected = answer(&expected);
    let expected_count = expected.map_or(table.count, |grant| grant.count);
    for contender in contenders_for(table) {
        let name = contender.name;
        let mut manager = (contender.begin)(table);
        let mut list = vec![SEED; list_words];
        let given = library::request(request);
        let answer = manager.bind(library::space(&table.space), given, &mut list);
        assert_eq!(answer, expected, "{name}, {request:x?}");
        let (words, count) = manager.table();
        assert!(words == expected_words, "{name}'s table, {request:x?}");
        assert_eq!(count, expected_count, "{name}, {request:x?}");
        assert!(list == expected_list, "{name}'s operations, {request:x?}");
    }
    expected
}

fn compare_lookup(table: &Table, address: u64) -> Looked {
    let expected = library::looked(model_look(table, address));
    for contender in contenders_for(table) {
        let mut manager = (contender.begin)(table);
        let answer = manager.lookup(library::space(&table.space), address);
        assert_eq!(answer, expected, "{}, address {address:#x}", contender.name);
    }
    expected
}

/// The table of the mappings, with room for more: mostly for few, and now and then with stale words.
fn some_table(random: &mut Random, good: &Good) -> Table {
    let room = MOST_MAPPINGS - good.mappings.len();
    let spare = match random.below(8) {
        0 => random.up_to(room as u64),
        _ => random.below(3),
    };
    let mut table = good.table(room.min(spare as usize));
    if random.once_in(8) {
        make_stale(random, &mut table);
    }
    table
}

/// A random table, most of them good, with a request near its mappings and addresses in it. Answers
/// what the request is answered.
fn compare_random(random: &mut Random) -> Bound {
    // Few are large: small ones have as many edges, and are quickly compared.
    let largest = random.pick(&[8, 40, 40, 512, MOST_MAPPINGS as u64]);
    let good = good_table(random, largest);
    let mut table = some_table(random, &good);
    let mut record = near_plain_record(random, &good);
    disturb(random, &good, &mut table, &mut record);
    let mut request = record.request().without_flags();
    if random.once_in(20) {
        widen(random, &mut request);
    }
    let list_words = some_operation_words(random, table.words.len());
    for _ in 0..4 {
        let _ = compare_lookup(&table, any_address(random, &good));
    }
    compare_bind(&table, &request, list_words)
}

/// What is timed itself: every call is granted or finds a mapping, and the last leaves the table as
/// it was.
fn compare_line(line: &Line) {
    let start = &line.table;
    let mut table = start.clone();
    for call in &line.calls {
        match *call {
            Call::Lookup(address) => {
                let seen = compare_lookup(&table, address).expect("is answered");
                assert_ne!(seen.shown, Shown::Nothing, "{}", line.name());
            }
            Call::Bind(given) => {
                let request = model::Request {
                    op: given.op,
                    address: given.address,
                    size: given.size,
                    object: given.object,
                    offset: given.offset,
                    flags: given.flags,
                };
                let list_words = line.lent().len();
                let answer = compare_bind(&table, &request, list_words);
                assert!(answer.is_ok(), "{}", line.name());
                let bound = model_answer(&table, list_words, Asking::Numbers(request));
                change_lent(&mut table, &bound);
            }
        }
    }
    assert!(table.words == start.words && table.count == start.count);
    assert_eq!(contenders_for(start).count(), contenders().len());
}

/// Panics where an answer or a word is another than the model's.
pub fn assert_equal() {
    for line in lines() {
        compare_line(&line);
    }
    let mut random = Random::new(SEED);
    let (mut granted, mut stale, mut bad_ranges) = (0, 0, 0);
    for _ in 0..RANDOM_TABLES {
        match compare_random(&mut random) {
            Ok(_) => granted += 1,
            Err(Refusal::StaleWords) => stale += 1,
            Err(Refusal::BadRanges) => bad_ranges += 1,
            Err(_) => {}
        }
    }
    assert!(granted >= RANDOM_TABLES / 3, "only {granted} granted");
    assert!(stale >= RANDOM_TABLES / 20, "only {stale} stale");
    assert!(bad_ranges >= RANDOM_TABLES / 50, "only {bad_ranges} lists");
}

#[test]
fn equal_answers_and_words() {
    assert_equal();
}
