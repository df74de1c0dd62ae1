//! What each page of a small space shows, before a request and after it.

use crate::batches::Batch;
use crate::calls::Caller;
use crate::library;
use crate::tables::Table;
use crate::walk::{moved, Walk};
use waylluqen::{Seen, Shown};
use waylluqen_model::{decode, replay, Grant, Pages, Request};
use waylluqen_model::{OPERATION_WORDS, PAGE, RECORD_BYTES};

/// What each page shows and how far, by look-ups of its first and last byte.
fn seen_by_lookup(table: &Table) -> Vec<Seen> {
    let (space, walk) = (&table.space, Walk::new(table));
    let page = |page: u64| {
        let address = space.start + page * PAGE;
        let first = walk.look_up(address);
        let last = walk.look_up(address + PAGE - 1);
        assert_eq!(moved(first, PAGE - 1), last);
        first
    };
    (0..space.size / PAGE).map(page).collect()
}

/// The same as it is painted.
fn seen_as_painted(painted: &Pages) -> Vec<Seen> {
    let seen = |page: usize| library::seen(painted.seen(page));
    (0..painted.pages.len()).map(seen).collect()
}

/// Asserts that each page shows what is painted, and how far, by look-ups; and that table and list
/// have the mappings and the ranges that are painted. Answers what the pages show.
pub fn assert_painted(table: &Table, painted: &Pages) -> Vec<Seen> {
    assert_eq!(painted.mappings(), table.good().mappings);
    assert_eq!(painted.ranges(), table.list.ranges());
    let seen = seen_by_lookup(table);
    assert_eq!(seen, seen_as_painted(painted));
    seen
}

/// Asserts for each page of an old mapping inside the range that it shows what it showed before
/// exactly if the mapping has the keep mark. After an unmap none does.
fn assert_mark(
    operation: &waylluqen::Operation,
    request: &Request,
    start: u64,
    pages: &[[Shown; 2]],
) {
    use waylluqen::Operation::{Map, Remap, Unmap};
    let (old, keep) = match *operation {
        Remap { old, keep, .. } | Unmap { old, keep } => (old, keep),
        Map(_) => return,
    };
    let first = old.address.max(request.address);
    let end = (old.address + old.size).min(request.address + request.size);
    assert!(first < end, "{operation:x?} is not hit by {request:x?}");
    for address in (first..end).step_by(PAGE as usize) {
        let [before, after] = pages[((address - start) / PAGE) as usize];
        assert_eq!(
            keep,
            before == after,
            "{operation:x?}, {request:x?}, {address:#x}"
        );
    }
}

/// Asserts that a grant did page by page what was asked: a page of a map's range shows the
/// request's object, of an unmap's what the list says, and any other shows what it showed before;
/// with the flag the pages of the range are sparse or no longer so, where nothing is mapped. And
/// the operations at the front of `list` lead from the old mappings to the new ones, with the keep
/// mark where pages of the range show what they showed.
pub fn assert_pages(old: &Table, new: &Table, request: &Request, grant: &Grant, list: &[u64]) {
    let (before, after) = (old.good().mappings, new.good().mappings);
    let written = &list[..grant.operations.len() * OPERATION_WORDS];
    assert_eq!(replay(&before, written).as_ref(), Some(&after));
    let (read, _) = written.as_chunks();
    let read: Option<Vec<_>> = read.iter().map(waylluqen::Operation::read).collect();
    let read = read.expect("these are operations");
    let expected = grant.operations.iter().map(library::operation);
    assert!(read.iter().copied().eq(expected));

    let mut pages = Pages::new(&old.space, &before, &old.list.ranges());
    let seen_before = assert_painted(old, &pages);
    if request.is_sparse() {
        assert_eq!(pages.refusal(request), None);
    }
    pages.ask(request);
    let seen_after = assert_painted(new, &pages);
    let both = seen_before.iter().zip(&seen_after);
    let both: Vec<[Shown; 2]> = both.map(|(old, new)| [old.shown, new.shown]).collect();
    for operation in &read {
        assert_mark(operation, request, old.space.start, &both);
    }
}

/// Asserts that a granted batch did page by page what was asked: each page shows what the last
/// request that names it asked, and any other what it showed before. And its operations, which the
/// caller has, lead from the old mappings to the new ones.
pub fn assert_batch(caller: &Caller, batch: &Batch, grant: &Grant) {
    let old = batch.table;
    let new = caller.left(old.space, grant);
    let before = old.good().mappings;
    let written = &caller.operations()[..grant.operations.len() * OPERATION_WORDS];
    assert_eq!(replay(&before, written), Some(new.good().mappings));
    let mut pages = Pages::new(&old.space, &before, &old.list.ranges());
    for record in batch.records.chunks(RECORD_BYTES) {
        pages.ask(&decode(record).expect("it was granted"));
    }
    assert_painted(&new, &pages);
}
