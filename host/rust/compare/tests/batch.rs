//! Batches beside the model: random ones on tables and operation words that are often just too
//! short, beside the same requests one by one and in shorter batches, and page by page.

use waylluqen::{batch_list_words, Refusal};
use waylluqen_compare::batches::{bytes_of, Batch};
use waylluqen_compare::calls::{model_answer, Asking, Caller, Way};
use waylluqen_compare::courses::{some_number, some_room, table_with_room};
use waylluqen_compare::courses::{Case, Course, Liking};
use waylluqen_compare::library::{self, Batched, ByNumber, IN_TURN, NUMBERS, OF_BATCHES};
use waylluqen_compare::lists::{every_list, good_list, mappings_at, List};
use waylluqen_compare::near::{near_plain_record, widen};
use waylluqen_compare::numbers::space_of;
use waylluqen_compare::paging::assert_batch;
use waylluqen_compare::requests::{disturb_record, MAP, UNMAP};
use waylluqen_compare::tables::{
    any_table, fill_space, filled, good_table, large_spaces, small_spaces, Good, Table,
    MANY_MAPPINGS,
};
use waylluqen_model::bind::least_operation_words;
use waylluqen_model::random::Random;
use waylluqen_model::{BatchRefused, Grant, Mapping, Record, Refused};
use waylluqen_model::{MAPPING_WORDS, MOST_MAPPINGS, MOST_REQUESTS, OPERATION_WORDS};
use waylluqen_model::{PAGE, RECORD_BYTES};

/// Compares, and counts how often each answer came, by the place of the request that has it.
struct Tally {
    caller: Caller,
    calls: u64,
    /// Grants by the number of requests.
    granted: [u64; MOST_REQUESTS + 1],
    whole: ByNumber,
    in_turn: [[u64; MOST_REQUESTS]; NUMBERS.len() + 1],
    /// Grants that fill the operation words to the last, and that leave some.
    filled: [u64; 2],
    /// Grants that leave a full table.
    full: u64,
    most_operations: usize,
}

impl Tally {
    fn new(seed: u64) -> Tally {
        Tally {
            caller: Caller::new(seed),
            calls: 0,
            granted: [0; MOST_REQUESTS + 1],
            whole: ByNumber::default(),
            in_turn: [[0; MOST_REQUESTS]; NUMBERS.len() + 1],
            filled: [0; 2],
            full: 0,
            most_operations: 0,
        }
    }

    fn compare(&mut self, batch: &Batch) -> Batched {
        let answer = self.caller.compare_batch(batch);
        self.calls += 1;
        match &answer {
            Ok(grant) => self.note_grant(batch, grant),
            Err(BatchRefused::Whole(Refused { number, .. })) => {
                self.whole[*number as usize] += 1;
            }
            Err(BatchRefused::InTurn(Refused { number, place })) => {
                self.in_turn[*number as usize][*place as usize] += 1;
            }
        }
        answer
    }

    /// The same where all that is lent is long enough.
    fn compare_records(&mut self, table: &Table, records: &[u8]) -> Batched {
        let room = table.words.len() / MAPPING_WORDS;
        self.compare(&Batch {
            table,
            work_words: table.words.len(),
            operation_words: batch_list_words(room, records.len() / RECORD_BYTES),
            records,
        })
    }

    fn note_grant(&mut self, batch: &Batch, grant: &Grant) {
        let operations = grant.operations.len();
        self.granted[batch.records.len() / RECORD_BYTES] += 1;
        let left = batch.operation_words - operations * OPERATION_WORDS;
        self.filled[usize::from(left > 0)] += 1;
        self.full += u64::from(grant.mappings.len() * MAPPING_WORDS == batch.table.words.len());
        self.most_operations = self.most_operations.max(operations);
    }

    fn times_in_turn(&self, number: usize) -> u64 {
        self.in_turn[number].iter().sum()
    }

    /// Every refusal came often, and those for want of room and of words at every place, but at the
    /// first there are always words enough.
    fn assert_all(&self, least: u64) {
        for number in OF_BATCHES {
            let times = self.whole[number as usize];
            assert!(times >= least, "{number} of a batch: only {times} times");
        }
        for number in IN_TURN {
            let times = self.times_in_turn(number as usize);
            assert!(times >= least, "{number} in turn: only {times} times");
        }
        assert!(self.in_turn[11].iter().all(|&times| times >= 20));
        assert!(self.in_turn[16][1..].iter().all(|&times| times >= 20));
        assert_eq!(self.in_turn[16][0], 0);
        assert!(self.granted.iter().all(|&times| times >= 20));
        assert!(self.filled.iter().all(|&times| times >= least));
        assert!(self.full >= least);
    }

    /// Seen with `cargo test -- --nocapture`.
    fn print(&self, test: &str) {
        let in_turn = IN_TURN.map(|number| (number, self.times_in_turn(number as usize)));
        println!(
            "{test}: {} batches, {} granted, by requests {:?}, filled {:?}, full {}, most operations \
             {}, refused {:?}, in turn {in_turn:?}, 11 by place {:?}, 16 by place {:?}",
            self.calls,
            self.granted.iter().sum::<u64>(),
            self.granted,
            self.filled,
            self.full,
            self.most_operations,
            &self.whole[1..],
            self.in_turn[11],
            self.in_turn[16],
        );
    }
}

/// A few mappings in a small space or in any.
fn some_good(random: &mut Random) -> Good {
    match random.below(3) {
        0 => {
            let space = random.pick(&small_spaces());
            let most = 1 + random.below(4);
            fill_space(random, space, most)
        }
        1 => good_table(random, 3),
        _ => good_table(random, 12),
    }
}

#[test]
fn random_batches() {
    const TABLES: u64 = 50_000;
    const ROUNDS: u64 = 4;
    let mut random = Random::new(501);
    let mut tally = Tally::new(502);
    for _ in 0..TABLES {
        let good = some_good(&mut random);
        let number = some_number(&mut random);
        let course = Course::new(&mut random, &good, number);
        for _ in 0..ROUNDS {
            let mut case = Case::of(&mut random, &good, &course);
            if random.once_in(3) {
                case.disturb(&mut random, &good);
            }
            tally.compare(&case.batch()).ok();
        }
    }
    tally.print("random batches");
    tally.assert_all(300);
}

/// Tables of any words, and records of any bytes.
#[test]
fn any_words() {
    const INPUTS: u64 = 50_000;
    let mut random = Random::new(511);
    let mut tally = Tally::new(512);
    for _ in 0..INPUTS {
        let mut table = any_table(&mut random);
        if random.once_in(4) {
            table.recount(&mut random, 0);
        }
        let good = good_table(&mut random, 4);
        let number = random.below(9) as usize;
        let mut bytes = Course::new(&mut random, &good, number).bytes();
        match random.below(4) {
            0 => random.fill(&mut bytes),
            1 => table.space = good.space,
            _ => {}
        }
        tally.compare_records(&table, &bytes).ok();
    }
    tally.print("any words");
    for number in [1, 2, 4, 5, 17, 18] {
        let times = tally.whole[number];
        assert!(times >= 500, "{number} came only {times} times");
    }
    assert!(tally.granted[0] >= 100 && tally.times_in_turn(13) >= 100);
}

/// Large tables, full or nearly so.
#[test]
fn large_tables() {
    let mut random = Random::new(521);
    let mut tally = Tally::new(522);
    for mappings in [MANY_MAPPINGS, 1000, MOST_MAPPINGS - 1, MOST_MAPPINGS] {
        for space in large_spaces() {
            let good = filled(&mut random, space, mappings);
            for liking in [Liking::Near, Liking::Narrow, Liking::Again] {
                let course = Course::liking(&mut random, &good, MOST_REQUESTS, liking);
                for _ in 0..4 {
                    let case = Case::of(&mut random, &good, &course);
                    tally.compare(&case.batch()).ok();
                }
            }
        }
    }
    tally.print("large tables");
    assert!(tally.granted.iter().sum::<u64>() >= 50 && tally.full >= 10);
    assert!(tally.times_in_turn(11) >= 20 && tally.times_in_turn(16) >= 5);
}

/// The operations that a series of single requests leaves, one behind the other, and the table; or
/// the place of the first that is refused, and its number.
fn one_by_one(
    caller: &mut Caller,
    start: &Table,
    bytes: &[u8],
) -> Result<(Vec<u64>, Table), Refused> {
    let mut table = start.clone();
    let mut written = Vec::new();
    let least = least_operation_words(start.words.len() / MAPPING_WORDS);
    for (place, record) in bytes.chunks(RECORD_BYTES).enumerate() {
        let place = place as u64;
        let asking = Asking::Bytes(record);
        let model = model_answer(&table, least, asking);
        caller.lend(&table);
        caller.lend_operations(&vec![9; least]);
        caller.bind(Way::Words, &table, asking, &model);
        let grant = model.map_err(|refused| Refused { place, ..refused })?;
        written.extend(&caller.operations()[..grant.operations.len() * OPERATION_WORDS]);
        table = caller.left(start.space, &grant);
    }
    Ok((written, table))
}

/// A batch, and the same requests one by one: the same table and the same operations, or the same
/// refusal of the same request. One by one there is no 16, and with the sparse flag no 14.
fn beside_single(tally: &mut Tally, case: &Case) -> Batched {
    let batched = tally.compare(&case.batch());
    let operations = tally.caller.operations().to_vec();
    let words = tally.caller.table().to_vec();
    let single = one_by_one(&mut tally.caller, &case.table, &case.bytes);
    match (&batched, single) {
        (Ok(grant), Ok((written, table))) => {
            assert_eq!(operations[..written.len()], written);
            assert_eq!(grant.operations.len() * OPERATION_WORDS, written.len());
            assert_eq!((grant.count, words), (table.count, table.words));
        }
        (Err(BatchRefused::InTurn(refused)), Err(single)) if refused.number != 16 => {
            assert_eq!(*refused, single);
        }
        (Err(BatchRefused::InTurn(Refused { number: 16, place })), single) => {
            assert!(single.is_ok() || single.is_err_and(|refused| *place < refused.place));
        }
        (batched, single) => panic!("{batched:x?}, {:x?}", single.err()),
    }
    batched
}

/// Good tables, and requests without the flag: a bad one now and then.
#[test]
fn beside_the_same_one_by_one() {
    const TABLES: u64 = 10_000;
    let mut random = Random::new(531);
    let mut tally = Tally::new(532);
    for _ in 0..TABLES {
        let good = some_good(&mut random);
        let number = some_number(&mut random);
        let course = Course::new(&mut random, &good, number);
        let mut case = Case::of(&mut random, &good, &course);
        let (records, _) = case.bytes.as_chunks_mut::<RECORD_BYTES>();
        if random.once_in(3) && !records.is_empty() {
            let place = random.below(records.len() as u64) as usize;
            let mut record = course.records[place];
            disturb_record(&mut random, &mut record, &good.space);
            record.flags = 0;
            records[place] = record.encode();
        }
        beside_single(&mut tally, &case).ok();
    }
    tally.print("beside the same one by one");
    assert!(tally.granted.iter().sum::<u64>() >= TABLES / 4);
    for number in IN_TURN {
        // The flag and the op are changed more rarely than the rest.
        assert!(
            tally.times_in_turn(number as usize) >= 10,
            "{number} came rarely"
        );
    }
}

/// The places at which a batch is cut into shorter ones: none, every one, or some; some twice, which
/// leaves an empty batch between.
fn some_cuts(random: &mut Random, requests: usize) -> Vec<usize> {
    let mut cuts: Vec<usize> = match random.below(3) {
        0 => (0..=requests).collect(),
        _ => {
            let number = random.below(6);
            let cut = |_| random.below(requests as u64 + 1) as usize;
            (0..number).map(cut).collect()
        }
    };
    cuts.extend([0, requests]);
    cuts.sort_unstable();
    cuts
}

/// What shorter batches leave one after the other: the operations of all and the table, if all are
/// granted.
fn in_shorter(tally: &mut Tally, case: &Case, cuts: &[usize]) -> Option<(Vec<u64>, Table)> {
    let mut table = case.table.clone();
    let mut written = Vec::new();
    for cut in cuts.windows(2) {
        let batch = Batch {
            table: &table,
            records: &case.bytes[cut[0] * RECORD_BYTES..cut[1] * RECORD_BYTES],
            ..case.batch()
        };
        let grant = tally.compare(&batch).ok()?;
        let words = grant.operations.len() * OPERATION_WORDS;
        written.extend(&tally.caller.operations()[..words]);
        table = tally.caller.left(table.space, &grant);
    }
    Some((written, table))
}

/// Wherever all are granted, a batch and the shorter ones that it is cut into leave the same table
/// and the same operations. The shorter ones may fit where the whole has too few words.
#[test]
fn beside_shorter_batches() {
    const TABLES: u64 = 20_000;
    let mut random = Random::new(541);
    let mut tally = Tally::new(542);
    let (mut both, mut shorter_alone) = (0, 0);
    for _ in 0..TABLES {
        let good = some_good(&mut random);
        let number = some_number(&mut random);
        let course = Course::new(&mut random, &good, number);
        let case = Case::of(&mut random, &good, &course);
        let whole = tally.compare(&case.batch());
        let (operations, words) = (
            tally.caller.operations().to_vec(),
            tally.caller.table().to_vec(),
        );
        let cuts = some_cuts(&mut random, course.records.len());
        let shorter = in_shorter(&mut tally, &case, &cuts);
        match (whole, shorter) {
            (Ok(grant), Some((written, table))) => {
                assert_eq!(operations[..written.len()], written);
                assert_eq!((grant.count, words), (table.count, table.words));
                both += 1;
            }
            (Ok(_), None) => panic!("granted whole, and not in shorter ones"),
            (Err(refused), shorter) => {
                shorter_alone += u64::from(shorter.is_some());
                assert!(shorter.is_none() || refused.refused().number == 16);
            }
        }
    }
    println!("{both} granted both ways, {shorter_alone} in shorter batches alone");
    assert!(both >= TABLES / 4 && shorter_alone >= 500);
}

#[test]
fn page_by_page() {
    const TABLES: u64 = 10_000;
    let mut random = Random::new(551);
    let mut tally = Tally::new(552);
    for _ in 0..TABLES {
        let space = random.pick(&small_spaces());
        let most = 1 + random.below(4);
        let good = fill_space(&mut random, space, most);
        let number = some_number(&mut random);
        let course = Course::new(&mut random, &good, number);
        let case = Case::of(&mut random, &good, &course);
        if let Ok(grant) = tally.compare(&case.batch()) {
            assert_batch(&tally.caller, &case.batch(), &grant);
        }
    }
    tally.print("page by page");
    assert!(tally.granted.iter().sum::<u64>() >= TABLES / 4);
}

/// Every range of so many pages, to map and to unmap.
fn every_record(pages: u64) -> Vec<Record> {
    let mut records = Vec::new();
    for from in 0..pages {
        for to in from + 1..=pages {
            let (addr, range) = (from * PAGE, (to - from) * PAGE);
            records.push(Record::plain(MAP, 7, addr, addr + PAGE, range));
            records.push(Record::plain(MAP, 9, addr, 4 * PAGE, range));
            records.push(Record::plain(UNMAP, 0, addr, 0, range));
        }
    }
    records
}

/// Two requests on a table with little room, with as few operation words as there may be and with
/// one operation more.
fn check_pair(tally: &mut Tally, table: &Table, pair: [Record; 2]) {
    let least = least_operation_words(table.words.len() / MAPPING_WORDS);
    for operation_words in [least, least + OPERATION_WORDS] {
        let case = Case {
            table: table.clone(),
            work_words: table.words.len(),
            operation_words,
            bytes: bytes_of(&pair),
        };
        if let Ok(grant) = tally.compare(&case.batch()) {
            assert_batch(&tally.caller, &case.batch(), &grant);
        }
        beside_single(tally, &case).ok();
    }
}

#[test]
fn every_two_requests_on_every_table_of_three_pages() {
    const PAGES: u64 = 3;
    let mut random = Random::new(560);
    let mut tally = Tally::new(561);
    let space = space_of([0, PAGES * PAGE, 0, 0]);
    let records = every_record(PAGES);
    for mappings in every_list(PAGES as u32).map(|ranges| mappings_at(&ranges, [7, 8])) {
        let list = good_list(&mut random, &space, &mappings);
        let good = Good {
            space,
            list,
            mappings,
        };
        for spare in 0..=2 {
            let room = (good.mappings.len() + spare).max(1);
            let table = table_with_room(&good, room);
            for first in &records {
                for second in &records {
                    check_pair(&mut tally, &table, [*first, *second]);
                }
            }
        }
    }
    tally.print("every two requests on every table of three pages");
    assert!(tally.in_turn[11][..2].iter().all(|&times| times >= 100));
    assert!(tally.in_turn[16][1] >= 100 && tally.granted[2] >= 1000);
}

/// Three that touch, the outer ones wide.
fn wide_neighbours() -> Good {
    let mapping = |(first, end): (u64, u64)| Mapping {
        address: first * PAGE,
        size: (end - first) * PAGE,
        object: 7,
        offset: 0,
    };
    Good {
        space: space_of([0, 256 * PAGE, 0, 0]),
        list: List::default(),
        mappings: [(0, 127), (127, 129), (129, 256)].map(mapping).to_vec(),
    }
}

/// Each request hits all three, leaves rests of two and adds one: four operations, and three mappings
/// again. The last takes all that there is.
fn four_each(good: &Good, requests: u64) -> Course {
    let mut course = Course::empty(good);
    let Mapping { address, size, .. } = good.mappings[1];
    for wider in 1..requests {
        let addr = address - wider * PAGE;
        course.take(Record::plain(MAP, 9, addr, 0, size + 2 * wider * PAGE));
    }
    let space = good.space;
    course.take(Record::plain(MAP, 9, space.start, 0, space.size));
    course
}

/// The bound is the best but for four operations: so many are needed by some batch, and with one word
/// less its last request is refused.
#[test]
fn words_that_are_always_enough() {
    let mut tally = Tally::new(571);
    let good = wide_neighbours();
    let (table, room) = (good.table(0), good.mappings.len());
    for requests in 2..=MOST_REQUESTS {
        let course = four_each(&good, requests as u64);
        assert_eq!(course.records.len(), requests);
        let bytes = course.bytes();
        let enough = batch_list_words(room, requests);
        let needed = course.all_operations() * OPERATION_WORDS;
        assert_eq!(enough - needed, 4 * OPERATION_WORDS);
        for (operation_words, granted) in [(enough, true), (needed, true), (needed - 1, false)] {
            let batch = Batch {
                table: &table,
                work_words: table.words.len(),
                operation_words,
                records: &bytes,
            };
            match (tally.compare(&batch), granted) {
                (Ok(_), true) => {}
                (Err(BatchRefused::InTurn(refused)), false) => {
                    let place = requests as u64 - 1;
                    assert_eq!(refused, Refused { number: 16, place });
                }
                (answer, _) => panic!("{answer:x?} with {operation_words} words"),
            }
        }
    }
}

#[test]
fn no_batch_wants_for_more_words() {
    const TABLES: u64 = 20_000;
    let mut random = Random::new(581);
    let mut tally = Tally::new(582);
    for _ in 0..TABLES {
        let good = some_good(&mut random);
        let number = some_number(&mut random);
        let course = Course::new(&mut random, &good, number);
        let room = some_room(&mut random, &good, &course);
        let table = table_with_room(&good, room);
        tally.compare_records(&table, &course.bytes()).ok();
    }
    tally.print("no batch wants for more words");
    assert_eq!(tally.times_in_turn(16), 0);
    assert_eq!(tally.whole.iter().sum::<u64>(), 0);
    assert!(tally.granted.iter().sum::<u64>() >= TABLES / 4);
}

/// By the types a request may have numbers that a record has no room for: a batch refuses it for what
/// it is refused for by itself.
#[test]
fn numbers_that_no_record_has_room_for() {
    const INPUTS: u64 = 50_000;
    let mut random = Random::new(591);
    let mut refused = ByNumber::default();
    for _ in 0..INPUTS {
        let mut table = some_good(&mut random).table(2);
        let mut request = near_plain_record(&mut random, &table.good()).request();
        widen(&mut random, &mut request);
        let words = batch_list_words(table.words.len() / MAPPING_WORDS, 1);
        let model = model_answer(&table, words, Asking::Numbers(request));
        let expected = model.as_ref().map(|grant| grant.operations.len());
        let expected = expected.map_err(|refused| library::refusal(*refused));
        let (mut work, mut list) = (vec![0; table.words.len()], vec![0; words]);
        let space = library::space(&table.space);
        let mut lent = waylluqen::Table::with_count(&mut table.words, table.count);
        let answer = lent.bind_batch(space, [library::request(&request)], &mut work, &mut list);
        let answer = answer.map(|operations| operations.len());
        assert_eq!(answer.map_err(Refusal::from), expected, "{request:x?}");
        refused[model.map_or_else(|refused| refused.number as usize, |_| 0)] += 1;
    }
    assert!(
        [0, 9, 13].iter().all(|&number| refused[number] >= 1000),
        "{refused:?}"
    );
}
