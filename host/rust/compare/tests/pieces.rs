//! A request in pieces: asked one by one or in batches, in any order and as often as one likes, they
//! end where the uncut request ends, if each was granted at least once. The list of sparse ranges is
//! lent the same throughout, and stays so.

use waylluqen::{BatchRefusal, Ranges, Refusal};
use waylluqen_compare::batches::{bytes_of, Batch};
use waylluqen_compare::calls::{model_answer, Asking};
use waylluqen_compare::library;
use waylluqen_compare::lists;
use waylluqen_compare::near::{near_plain_record, widen};
use waylluqen_compare::numbers::{disturb_space, other64};
use waylluqen_compare::pieces::{cuts, order, pieces, steps, with_pieces, Asked, Step};
use waylluqen_compare::requests::disturb_record;
use waylluqen_compare::tables::{
    any_table, damage, fill_space, good_table, make_stale, small_spaces, Good, Table,
};
use waylluqen_model::bind::least_operation_words;
use waylluqen_model::random::Random;
use waylluqen_model::{Record, SparseRange, MAP, MAPPING_WORDS, PAGE};

/// How many operations a request left, or why it was refused.
type Answer = Result<usize, Refusal>;

/// The same of a batch.
type BatchAnswer = Result<usize, BatchRefusal>;

/// The words and the count that calls are made on, one after the other.
struct Series {
    table: Table,
    operations: Vec<u64>,
    by_record: u64,
    by_numbers: u64,
    batches: u64,
}

impl Series {
    fn start(table: &Table, operation_words: usize) -> Series {
        Series {
            table: table.clone(),
            operations: vec![0; operation_words],
            by_record: 0,
            by_numbers: 0,
            batches: 0,
        }
    }

    /// Asks by numbers or by record, whichever can hold it; a refusal must leave all as it was.
    fn ask(&mut self, random: &mut Random, asked: &Asked) -> Answer {
        self.operations.fill_with(|| random.next_u64());
        let before = (self.table.words.clone(), self.operations.clone());
        let plain = asked.request.flags == 0 && asked.pad == 0;
        let record = asked.record().filter(|_| !plain || random.once_in(2));
        let bytes = record.map(|record| record.encode());
        let asking = match &bytes {
            Some(bytes) => Asking::Bytes(bytes),
            None => Asking::Numbers(asked.request),
        };
        let answer = self.ask_as(asking);
        if answer.is_err() {
            assert!(before == (self.table.words.clone(), self.operations.clone()));
        }
        answer
    }

    /// Goes on with the count that the library gives, and compares the answer to the model's. The
    /// list stays as it is.
    fn ask_as(&mut self, asking: Asking) -> Answer {
        let model = model_answer(&self.table, self.operations.len(), asking);
        let Table {
            space,
            list: lent,
            words,
            count,
        } = &mut self.table;
        let before = lent.clone();
        let space = library::space(space);
        let ranges = Ranges::with_count(&mut lent.words, lent.count);
        let mut table = waylluqen::Table::with_count(words, *count).with_ranges(ranges);
        let list = &mut self.operations;
        let operations = match asking {
            Asking::Numbers(request) => {
                self.by_numbers += 1;
                table.bind(space, library::request(&request), list)
            }
            Asking::Bytes(record) => {
                self.by_record += 1;
                table.bind_record(space, record, list)
            }
        };
        *count = table.count();
        assert_eq!(table.ranges().count(), before.count);
        assert_eq!(table.ranges().words(), before.words);
        let answer = operations.map(|operations| operations.len());
        let expected = model.map(|grant| grant.operations.len());
        assert_eq!(answer, expected.map_err(library::refusal), "{asking:x?}");
        answer
    }

    /// Asks for pieces in a batch, now and then with a byte too many or too few, or with a work table
    /// of another length. A refusal must leave the table as it was; that of the batch itself all, that
    /// of a piece zeros.
    fn ask_batch(&mut self, random: &mut Random, records: &[Record]) -> BatchAnswer {
        let mut bytes = bytes_of(records);
        match random.below(32) {
            0 => bytes.push(0),
            1 => bytes.truncate(bytes.len().saturating_sub(1)),
            _ => {}
        }
        let other = random.pick(&[0, 0, 0, 0, 0, 0, 0, 0, 0, 0, 0, 0, 0, 0, -1, 1]);
        let length = self.table.words.len().saturating_add_signed(other);
        let mut work: Vec<u64> = (0..length).map(|_| random.next_u64()).collect();
        self.operations.fill_with(|| random.next_u64());
        let before = (
            self.table.words.clone(),
            work.clone(),
            self.operations.clone(),
        );
        let answer = self.batch_as(&bytes, &mut work);
        self.batches += 1;
        match answer {
            Ok(_) => assert!(work.iter().all(|&word| word == 0)),
            Err(BatchRefusal { request: None, .. }) => {
                assert!(before == (self.table.words.clone(), work, self.operations.clone()));
            }
            Err(_) => {
                assert_eq!(before.0, self.table.words);
                assert!(work.iter().chain(&self.operations).all(|&word| word == 0));
            }
        }
        answer
    }

    /// Goes on with the count that the library gives, and compares the answer to the model's.
    fn batch_as(&mut self, bytes: &[u8], work: &mut [u64]) -> BatchAnswer {
        let batch = Batch {
            table: &self.table,
            work_words: work.len(),
            operation_words: self.operations.len(),
            records: bytes,
        };
        let model = batch.answer();
        let Table {
            space,
            list,
            words,
            count,
        } = &mut self.table;
        let (space, mut ranges) = (library::space(space), list.words.clone());
        let ranges = Ranges::with_count(&mut ranges, list.count);
        let mut table = waylluqen::Table::with_count(words, *count).with_ranges(ranges);
        let operations = table.bind_batch_records(space, bytes, work, &mut self.operations);
        let answer = operations.map(|operations| operations.len());
        *count = table.count();
        assert_eq!(table.ranges().count(), list.count);
        assert_eq!(table.ranges().words(), list.words);
        let expected = model.map(|grant| grant.operations.len());
        assert_eq!(answer, expected.map_err(library::batch_refusal));
        answer
    }
}

/// How often each situation came.
#[derive(Debug, Default)]
struct Tally {
    series: u64,
    calls: u64,
    /// Every one of several pieces was granted: of maps, of unmaps.
    all_granted: [u64; 2],
    /// The same, and the uncut map cut old mappings or freed some.
    all_granted_over_old: u64,
    /// Granted uncut; some piece had no room.
    without_room: u64,
    /// A piece had no room and was granted later, and all were granted in the end.
    room_later: u64,
    /// Granted uncut; not every piece was.
    uncut_alone: u64,
    /// Refused uncut; some piece was granted: for want of room, or at an unaligned end.
    pieces_alone: u64,
    unaligned: u64,
    unaligned_granted: u64,
    /// Every one of several pieces was granted, of a range that shares a byte with a sparse one.
    in_sparse: u64,
    /// Refused uncut and in pieces; those of them for stale words, and for a bad list.
    refused: u64,
    stale: u64,
    bad_ranges: u64,
    repeated: u64,
    left_out: u64,
    mixed: u64,
    /// 64 bits can't hold a number of some piece.
    unaskable: u64,
    /// Every one of several pieces was granted: some of them in a batch, in batches alone, and after
    /// a batch that was refused.
    all_with_batch: u64,
    all_in_batches: u64,
    all_after_refused: u64,
    /// A batch was refused with 11, 16, 12, 15.
    batch_refused: [u64; 4],
}

/// What became of a series.
#[derive(Default)]
struct Outcome {
    granted: Vec<bool>,
    /// A piece was refused with 11, by itself or in a batch; one such was granted later.
    without_room: bool,
    room_later: bool,
    /// A batch was granted that has several pieces; one was refused with 11, 16, 12, 15.
    batch_granted: bool,
    batch_without_room: bool,
    short: bool,
    batch_refused: [bool; 2],
    other_refusal: Option<Refusal>,
}

/// The pieces, and what became of them.
struct Asker<'a> {
    pieces: &'a [Option<Asked>],
    had_no_room: Vec<bool>,
    outcome: Outcome,
}

impl Asker<'_> {
    fn new(pieces: &[Option<Asked>]) -> Asker<'_> {
        Asker {
            pieces,
            had_no_room: vec![false; pieces.len()],
            outcome: Outcome {
                granted: vec![false; pieces.len()],
                ..Outcome::default()
            },
        }
    }

    fn grant(&mut self, place: usize) {
        self.outcome.granted[place] = true;
        self.outcome.room_later |= self.had_no_room[place];
    }

    fn ask(&mut self, random: &mut Random, series: &mut Series, place: usize) {
        let Some(piece) = &self.pieces[place] else {
            return;
        };
        match series.ask(random, piece) {
            Ok(_) => self.grant(place),
            Err(Refusal::NoRoom) => {
                self.had_no_room[place] = true;
                self.outcome.without_room = true;
            }
            Err(refusal) => self.outcome.other_refusal = Some(refusal),
        }
    }

    /// None of the pieces in a batch that is refused counts as granted.
    fn ask_batch(&mut self, random: &mut Random, series: &mut Series, places: &[usize]) {
        let record = |&place: &usize| Some((place, self.pieces[place]?.record()?));
        let asked: Vec<(usize, Record)> = places.iter().filter_map(record).collect();
        let records: Vec<Record> = asked.iter().map(|(_, record)| *record).collect();
        let refused = match series.ask_batch(random, &records) {
            Ok(_) => {
                asked.iter().for_each(|&(place, _)| self.grant(place));
                self.outcome.batch_granted |= asked.len() > 1;
                return;
            }
            Err(refused) => refused,
        };
        match (refused.refusal, refused.request) {
            (Refusal::NoRoom, Some(at)) => {
                self.had_no_room[asked[at].0] = true;
                self.outcome.without_room = true;
                self.outcome.batch_without_room = true;
            }
            (Refusal::ShortOutput, Some(_)) => self.outcome.short = true,
            (Refusal::BadRecordLength, None) => self.outcome.batch_refused[0] = true,
            (Refusal::BadWorkLength, None) => self.outcome.batch_refused[1] = true,
            (refusal, _) => self.outcome.other_refusal = Some(refusal),
        }
    }
}

fn ask_pieces(
    random: &mut Random,
    series: &mut Series,
    pieces: &[Option<Asked>],
    steps: &[Step],
) -> Outcome {
    let mut asker = Asker::new(pieces);
    for step in steps {
        match step {
            Step::Single(place) => asker.ask(random, series, *place),
            Step::Batch(places) => asker.ask_batch(random, series, places),
        }
    }
    asker.outcome
}

/// The claim, for one start, one request, one cut and one series.
fn check(random: &mut Random, tally: &mut Tally, start: &Table, asked: &Asked) {
    let least = least_operation_words(start.words.len() / MAPPING_WORDS);
    let spare = random.pick(&[0, 0, 0, 1, 14]);
    let mut uncut = Series::start(start, least + spare);
    let uncut_answer = uncut.ask(random, asked);

    let cuts = cuts(random, &asked.request);
    let pieces = pieces(asked, &cuts);
    let order = order(random, pieces.len());
    let steps = steps(random, &order);
    let mut series = Series::start(start, least + spare);
    let outcome = ask_pieces(random, &mut series, &pieces, &steps);
    tally.unaskable += u64::from(pieces.contains(&None));

    if uncut_answer.is_ok() {
        assert_eq!(outcome.other_refusal, None, "{asked:x?}");
    }
    tally.note_lent(uncut_answer, &outcome);
    if outcome.granted.iter().all(|&granted| granted) {
        assert!(uncut_answer.is_ok(), "{uncut_answer:?}, {asked:x?}");
        assert_same_end(asked, &pieces, uncut, &series);
        let extent = asked.request.extent();
        let shares = |range: &SparseRange| range.extent().shares_byte_with(&extent);
        let in_sparse = pieces.len() > 1 && start.list.ranges().iter().any(shares);
        tally.in_sparse += u64::from(in_sparse);
    }
    tally.note(asked, uncut_answer, &outcome, order.len());
    tally.note_batches(&outcome, &series);
    tally.calls += series.by_record + series.by_numbers + series.batches;
    tally.mixed += u64::from(series.by_record > 0 && series.by_numbers > 0);
}

/// Each of the pieces was granted: the end is the uncut request's, with a map's pieces in its place.
fn assert_same_end(asked: &Asked, pieces: &[Option<Asked>], uncut: Series, series: &Series) {
    let pieces: Option<Vec<Asked>> = pieces.iter().copied().collect();
    let pieces = pieces.expect("each was granted");
    let (count, words) = match asked.request.op {
        MAP => (
            uncut.table.count + pieces.len() as u64 - 1,
            with_pieces(&uncut.table, asked, &pieces),
        ),
        _ => (uncut.table.count, uncut.table.words),
    };
    assert_eq!((series.table.count, &series.table.words), (count, &words));
}

impl Tally {
    fn note_batches(&mut self, outcome: &Outcome, series: &Series) {
        let [bytes, work] = outcome.batch_refused;
        let refused = [outcome.batch_without_room, outcome.short, bytes, work];
        for (times, refused) in self.batch_refused.iter_mut().zip(refused) {
            *times += u64::from(refused);
        }
        let several = outcome.granted.len() > 1;
        if several && outcome.granted.iter().all(|&granted| granted) && series.batches > 0 {
            let single = series.by_record + series.by_numbers;
            self.all_with_batch += u64::from(outcome.batch_granted && single > 0);
            self.all_in_batches += u64::from(single == 0);
            self.all_after_refused += u64::from(refused.contains(&true));
        }
    }

    /// Where the table or the list as they are lent are refused, they are for each piece.
    fn note_lent(&mut self, uncut: Answer, outcome: &Outcome) {
        let Err(lent @ (Refusal::StaleWords | Refusal::BadRanges)) = uncut else {
            return;
        };
        let is_same = |refusal: Refusal| refusal == lent;
        let granted = outcome.granted.contains(&true) || outcome.without_room || outcome.short;
        assert!(!granted && outcome.other_refusal.is_none_or(is_same));
        let times = match lent {
            Refusal::StaleWords => &mut self.stale,
            _ => &mut self.bad_ranges,
        };
        *times += u64::from(outcome.other_refusal.is_some_and(is_same));
    }

    fn note(&mut self, asked: &Asked, uncut: Answer, outcome: &Outcome, asked_times: usize) {
        let pieces = outcome.granted.len();
        let granted = outcome.granted.iter().filter(|&&granted| granted).count();
        let unaligned = uncut == Err(Refusal::Unaligned);
        let count = |counter: &mut u64, condition: bool| *counter += u64::from(condition);
        count(&mut self.series, true);
        count(&mut self.repeated, asked_times > pieces);
        count(&mut self.left_out, asked_times < pieces);
        if let (Ok(operations), true) = (uncut, granted == pieces && pieces > 1) {
            let kind = usize::from(asked.request.op != MAP);
            self.all_granted[kind] += 1;
            count(&mut self.all_granted_over_old, operations > 1 - kind);
            count(&mut self.room_later, outcome.room_later);
        }
        count(
            &mut self.without_room,
            uncut.is_ok() && outcome.without_room,
        );
        count(&mut self.uncut_alone, uncut.is_ok() && granted < pieces);
        count(&mut self.pieces_alone, uncut.is_err() && granted > 0);
        count(&mut self.refused, uncut.is_err() && granted == 0);
        count(&mut self.unaligned, unaligned && pieces > 1);
        count(&mut self.unaligned_granted, unaligned && granted > 0);
    }

    /// Each situation with its name.
    fn situations(&self) -> [(&'static str, u64); 24] {
        let [maps, unmaps] = self.all_granted;
        let [without_room, short, bytes, work] = self.batch_refused;
        [
            ("all pieces of a map granted", maps),
            ("all pieces of an unmap granted", unmaps),
            ("all pieces over old mappings", self.all_granted_over_old),
            ("all pieces granted in a sparse range", self.in_sparse),
            ("no room for a piece", self.without_room),
            ("room for it later", self.room_later),
            ("granted uncut alone", self.uncut_alone),
            ("granted in pieces alone", self.pieces_alone),
            ("unaligned", self.unaligned),
            ("unaligned, a piece granted", self.unaligned_granted),
            ("refused", self.refused),
            ("refused for stale words", self.stale),
            ("refused for a bad list", self.bad_ranges),
            ("repeated", self.repeated),
            ("left out", self.left_out),
            ("by numbers and by record", self.mixed),
            ("a piece that can't be asked", self.unaskable),
            ("all pieces, some in a batch", self.all_with_batch),
            ("all pieces in batches", self.all_in_batches),
            ("all pieces after a refused batch", self.all_after_refused),
            ("no room in a batch", without_room),
            ("no words left in a batch", short),
            ("a batch of no whole records", bytes),
            ("a batch with another work table", work),
        ]
    }

    fn assert_all(&self, least: u64) {
        for (situation, times) in self.situations() {
            assert!(times >= least, "{situation}: only {times} times");
        }
    }
}

/// A request without the flag near the mappings; some with an unaligned end or offset, or another
/// fault.
fn some_request(random: &mut Random, good: &Good) -> Asked {
    let mut record = near_plain_record(random, good);
    for _ in 0..4 {
        // One page has no cut.
        if record.range == PAGE {
            record = near_plain_record(random, good);
        }
    }
    match random.below(24) {
        0 => record.addr += 1 + random.below(PAGE - 1),
        1 => record.range += 1 + random.below(PAGE - 1),
        2 => record.bo_offset += 1 + random.below(PAGE - 1),
        3 => disturb_record(random, &mut record, &good.space),
        4 => record.range = other64(random, &good.space, record.range),
        // The offsets of some pieces pass 2^64.
        5 => record.bo_offset = 0u64.wrapping_sub((1 + random.below(4)) * PAGE),
        _ => {}
    }
    let mut asked = Asked {
        request: record.request(),
        pad: record.pad,
    };
    if random.once_in(100) {
        widen(random, &mut asked.request);
    }
    // Of a sparse range there are no pieces: it is one of the list.
    if asked.request.is_sparse() {
        asked.request.flags = 0;
    }
    asked
}

/// A table with little room: good, or with one thing changed.
fn some_table(random: &mut Random, good: &Good) -> Table {
    let spare = random.pick(&[0, 1, 2, 2, 3, 4, 5, 8]);
    let mut table = good.table(spare);
    match random.below(32) {
        0 => damage(random, good, &mut table.words),
        1 => disturb_space(random, &mut table.space),
        2 => {
            let count = random.below(table.count + 2);
            table.recount(random, count);
        }
        3 => table.words.truncate(table.words.len() - 1),
        4 => make_stale(random, &mut table),
        5 => lists::damage(random, &good.space, &mut table.list),
        _ => {}
    }
    table
}

#[test]
fn good_tables_and_those_near_them() {
    const TABLES: u64 = 200_000;
    const ROUNDS: u64 = 5;
    let mut random = Random::new(201);
    let mut tally = Tally::default();
    for _ in 0..TABLES {
        let good = if random.once_in(2) {
            let space = random.pick(&small_spaces());
            let most = 1 + random.below(4);
            fill_space(&mut random, space, most)
        } else {
            good_table(&mut random, 8)
        };
        for _ in 0..ROUNDS {
            let table = some_table(&mut random, &good);
            let asked = some_request(&mut random, &good);
            if asked.request.size > 0 {
                check(&mut random, &mut tally, &table, &asked);
            }
        }
    }
    println!("{tally:#?}");
    tally.assert_all(1000);
}

#[test]
fn any_words() {
    const INPUTS: u64 = 50_000;
    let mut random = Random::new(211);
    let mut tally = Tally::default();
    for _ in 0..INPUTS {
        let mut table = any_table(&mut random);
        if random.once_in(2) {
            table.recount(&mut random, 0);
        }
        let good = good_table(&mut random, 4);
        let asked = some_request(&mut random, &good);
        if random.once_in(2) {
            table.space = good.space;
            table.list = good.list.clone();
        }
        if asked.request.size > 0 {
            check(&mut random, &mut tally, &table, &asked);
        }
    }
    println!("{tally:#?}");
    assert!(tally.all_granted.iter().all(|&times| times >= 100));
    assert!(tally.refused >= 1000);
}
