//! The model's answers to the drawings, worked out by hand, in pages.

use waylluqen_model::{
    bind, lookup, replay, List, Mapping, Pages, Refused, Request, Space, MAP, MAPPING_WORDS,
    OPERATION_WORDS, PAGE, UNMAP,
};

/// 16 pages, nothing reserved.
const SPACE: Space = Space {
    start: 0,
    size: 16 * PAGE,
    reserved_start: 0,
    reserved_size: 0,
};

/// First page, page behind the last, object, page of the object.
type Drawn = [u64; 4];
const NONE: Drawn = [0; 4];

fn mapping([first, end, object, offset]: Drawn) -> Mapping {
    Mapping {
        address: first * PAGE,
        size: (end - first) * PAGE,
        object,
        offset: offset * PAGE,
    }
}

fn request(op: u64, drawn: Drawn) -> Request {
    let Mapping {
        address,
        size,
        object,
        offset,
    } = mapping(drawn);
    Request {
        op,
        address,
        size,
        object,
        offset,
        flags: 0,
    }
}

fn map(drawn: Drawn) -> Request {
    request(MAP, drawn)
}

fn unmap(first: u64, end: u64) -> Request {
    request(UNMAP, [first, end, 0, 0])
}

/// Kind and keep, then the named mapping, the lower rest and the upper rest.
type Line = ([u64; 2], [Drawn; 3]);

/// The lines and mappings that a request leaves, or the number of its refusal.
fn ask(old: &[Drawn], capacity: usize, request: &Request) -> Result<(Vec<u64>, Vec<Mapping>), u32> {
    let mappings: Vec<Mapping> = old.iter().copied().map(mapping).collect();
    let mut table: Vec<u64> = mappings.iter().flat_map(Mapping::words).collect();
    table.resize(capacity * MAPPING_WORDS, 0);
    let room = (capacity + 1) * OPERATION_WORDS;
    let count = old.len() as u64;
    let grant = bind(&SPACE, &List::NONE, &table, count, room, request);
    let grant = grant.map_err(|Refused { number, .. }| number)?;
    let words: Vec<u64> = grant
        .operations
        .iter()
        .flat_map(|one| one.words())
        .collect();
    assert_eq!(grant.count, grant.mappings.len() as u64);
    assert_eq!(grant.ranges, []);
    // The two other views agree.
    assert_eq!(replay(&mappings, &words).as_ref(), Some(&grant.mappings));
    let mut pages = Pages::new(&SPACE, &mappings, &[]);
    pages.ask(request);
    assert_eq!(pages.mappings(), grant.mappings);
    assert_runs(&pages, &grant.mappings);
    Ok((words, grant.mappings))
}

/// Each page shows the same by a look-up as by the pages, and as far.
fn assert_runs(pages: &Pages, mappings: &[Mapping]) {
    let mut table: Vec<u64> = mappings.iter().flat_map(Mapping::words).collect();
    table.extend([0; MAPPING_WORDS]);
    for page in 0..pages.pages.len() {
        let address = pages.start + page as u64 * PAGE;
        let count = mappings.len() as u64;
        let seen = lookup(&SPACE, &List::NONE, &table, count, address);
        assert_eq!(seen, Ok(pages.seen(page)), "{address:#x}");
    }
}

fn line_words(([kind, keep], mappings): &Line) -> Vec<u64> {
    let drawn = mappings.iter().flat_map(|&drawn| mapping(drawn).words());
    [*kind, *keep].into_iter().chain(drawn).collect()
}

/// A request in room for eight leaves these lines and mappings.
fn leaves(old: &[Drawn], request: &Request, lines: &[Line], after: &[Drawn]) {
    let words: Vec<u64> = lines.iter().flat_map(line_words).collect();
    let after: Vec<Mapping> = after.iter().copied().map(mapping).collect();
    assert_eq!(ask(old, 8, request), Ok((words, after)));
}

const NEW_MAP: [u64; 2] = [0, 0];
const REMAP: [u64; 2] = [1, 0];
const KEPT_REMAP: [u64; 2] = [1, 1];
const UNMAP_ALL: [u64; 2] = [2, 0];
const KEPT_UNMAP: [u64; 2] = [2, 1];

#[test]
fn same_again() {
    let old = [0, 1, 7, 1];
    leaves_one(old, old, KEPT_UNMAP, [NONE, NONE]);
}

/// A map over one mapping leaves one line for it, with these rests.
fn leaves_one(old: Drawn, new: Drawn, mark: [u64; 2], [lower, upper]: [Drawn; 2]) {
    let lines = [(mark, [old, lower, upper]), (NEW_MAP, [new, NONE, NONE])];
    let mut after = vec![lower, new, upper];
    after.retain(|&drawn| drawn != NONE);
    leaves(&[old], &map(new), &lines, &after);
}

#[test]
fn one_rest() {
    let (low, lower) = ([0, 2, 7, 1], [0, 1, 7, 1]);
    leaves_one(low, [1, 2, 9, 4], REMAP, [lower, NONE]);
    leaves_one(low, [0, 1, 9, 4], REMAP, [NONE, [1, 2, 7, 2]]);
    leaves_one(low, [1, 3, 9, 4], REMAP, [lower, NONE]);
    leaves_one([1, 3, 7, 1], [0, 2, 9, 4], REMAP, [NONE, [2, 3, 7, 2]]);
}

#[test]
fn both_rests() {
    let (old, new) = ([0, 3, 7, 1], [1, 2, 9, 4]);
    let (lower, upper) = ([0, 1, 7, 1], [2, 3, 7, 3]);
    let remap = (REMAP, [old, lower, upper]);
    let last = (NEW_MAP, [new, NONE, NONE]);
    leaves(&[old], &map(new), &[remap, last], &[lower, new, upper]);
    leaves(&[old], &unmap(1, 2), &[remap], &[lower, upper]);
    assert_eq!(ask(&[old], 2, &map(new)), Err(11));
    assert!(ask(&[old], 3, &map(new)).is_ok());
    assert_eq!(ask(&[old], 1, &unmap(1, 2)), Err(11));
}

#[test]
fn no_rest() {
    let (old, new) = ([1, 2, 7, 1], [0, 3, 9, 4]);
    let last = (NEW_MAP, [new, NONE, NONE]);
    leaves(
        &[old],
        &map(new),
        &[(UNMAP_ALL, [old, NONE, NONE]), last],
        &[new],
    );
    // The room that it frees is there for the new one.
    assert!(ask(&[old], 1, &map(new)).is_ok());
    leaves(&[old], &unmap(0, 3), &[(UNMAP_ALL, [old, NONE, NONE])], &[]);
}

#[test]
fn nothing_hit() {
    let (old, new) = ([0, 1, 7, 1], [1, 2, 7, 2]);
    leaves(
        &[old],
        &map(new),
        &[(NEW_MAP, [new, NONE, NONE])],
        &[old, new],
    );
    leaves(&[old], &unmap(1, 2), &[], &[old]);
    leaves(&[], &unmap(3, 4), &[], &[]);
    assert_eq!(ask(&[], 8, &map([15, 17, 9, 0])), Err(7));
    assert!(ask(&[], 8, &map([15, 16, 9, 0])).is_ok());
    assert_eq!(ask(&[], 8, &unmap(20, 20)), Err(6));
}

#[test]
fn several_hit() {
    let old = [[0, 2, 7, 1], [2, 3, 8, 0], [5, 7, 7, 9], [8, 9, 7, 3]];
    let new = [1, 6, 9, 2];
    let (lower, upper) = ([0, 1, 7, 1], [6, 7, 7, 10]);
    let lines = [
        (REMAP, [old[0], lower, NONE]),
        (UNMAP_ALL, [old[1], NONE, NONE]),
        (REMAP, [old[2], NONE, upper]),
        (NEW_MAP, [new, NONE, NONE]),
    ];
    leaves(&old, &map(new), &lines, &[lower, new, upper, old[3]]);
    leaves(&old, &unmap(1, 6), &lines[..3], &[lower, upper, old[3]]);
}

#[test]
fn numbers_have_64_bits() {
    let good = map([0, 1, 7, 0]);
    let high = 1 << 32;
    for (op, object, number) in [
        (2, 0, 13),
        (high, 7, 13),
        (MAP, high, 9),
        (MAP, high + 7, 9),
    ] {
        let request = Request { op, object, ..good };
        assert_eq!(ask(&[], 8, &request), Err(number));
    }
    let highest = Request {
        object: high - 1,
        ..good
    };
    assert!(ask(&[], 8, &highest).is_ok());
}

/// The first patch's drawings 6, 8, 10 and 12, and 13 and 14 where they show what was shown.
#[test]
fn kept_by_displacement() {
    let (old, lower) = ([0, 2, 7, 1], [0, 1, 7, 1]);
    leaves_one(old, [0, 1, 7, 1], KEPT_REMAP, [NONE, [1, 2, 7, 2]]);
    leaves_one(old, [1, 2, 7, 2], KEPT_REMAP, [lower, NONE]);
    leaves_one(old, [1, 3, 7, 2], KEPT_REMAP, [lower, NONE]);
    let both = [lower, [2, 3, 7, 3]];
    leaves_one([0, 3, 7, 1], [1, 2, 7, 2], KEPT_REMAP, both);
    leaves_one([1, 2, 7, 1], [0, 2, 7, 0], KEPT_UNMAP, [NONE, NONE]);
    leaves_one([1, 2, 7, 1], [0, 3, 7, 0], KEPT_UNMAP, [NONE, NONE]);
    // Below zero.
    let below = [3, 6, 7, 1];
    leaves_one(below, [2, 7, 7, 0], KEPT_UNMAP, [NONE, NONE]);
    leaves_one(below, [2, 5, 7, 0], KEPT_REMAP, [NONE, [5, 6, 7, 3]]);
    let both = [[3, 4, 7, 1], [5, 6, 7, 3]];
    leaves_one(below, [4, 5, 7, 2], KEPT_REMAP, both);
}

#[test]
fn not_kept() {
    let none = [NONE, NONE];
    // The drawings 13 and 14.
    leaves_one([1, 2, 7, 1], [0, 2, 7, 1], UNMAP_ALL, none);
    leaves_one([1, 2, 7, 1], [0, 3, 7, 1], UNMAP_ALL, none);
    // The same displacement, but another object.
    leaves_one([0, 2, 7, 1], [1, 2, 8, 2], REMAP, [[0, 1, 7, 1], NONE]);
    // A displacement of the same distance, but below zero; the same sum of offset and address.
    leaves_one([1, 3, 7, 0], [1, 3, 7, 2], UNMAP_ALL, none);
    leaves_one([1, 3, 7, 2], [2, 3, 7, 1], REMAP, [[1, 2, 7, 2], NONE]);
    // The same offset, at another address.
    leaves_one([0, 2, 7, 1], [1, 2, 7, 1], REMAP, [[0, 1, 7, 1], NONE]);
    // An unmap, whose offset less its address is the mapping's.
    let old = [0, 2, 7, 0];
    leaves(&[old], &unmap(0, 2), &[(UNMAP_ALL, [old, NONE, NONE])], &[]);
    let line = (REMAP, [old, NONE, [1, 2, 7, 1]]);
    leaves(&[old], &unmap(0, 1), &[line], &[[1, 2, 7, 1]]);
}

/// Of five that are hit the first, the third and the last.
#[test]
fn some_kept() {
    let old = [
        [1, 3, 7, 0],
        [3, 4, 8, 2],
        [4, 6, 7, 3],
        [7, 8, 7, 8],
        [8, 10, 7, 7],
    ];
    let new = [2, 9, 7, 1];
    let (lower, upper) = ([1, 2, 7, 0], [9, 10, 7, 8]);
    let lines = [
        (KEPT_REMAP, [old[0], lower, NONE]),
        (UNMAP_ALL, [old[1], NONE, NONE]),
        (KEPT_UNMAP, [old[2], NONE, NONE]),
        (UNMAP_ALL, [old[3], NONE, NONE]),
        (KEPT_REMAP, [old[4], NONE, upper]),
        (NEW_MAP, [new, NONE, NONE]),
    ];
    leaves(&old, &map(new), &lines, &[lower, new, upper]);
}

#[test]
fn displacements_of_any_words() {
    let displacement = |address: u64, offset: u64| {
        let (size, object) = (PAGE, 7);
        let mapping = Mapping {
            address,
            size,
            object,
            offset,
        };
        mapping.displacement()
    };
    let highest = i128::from(u64::MAX);
    assert_eq!(displacement(u64::MAX, 0), -highest);
    assert_eq!(displacement(0, u64::MAX), highest);
    assert_eq!(displacement(u64::MAX, u64::MAX), 0);
}

#[test]
fn replays_that_fail() {
    let old = mapping([0, 3, 7, 1]);
    let fails = |line: Line| assert_eq!(replay(&[old], &line_words(&line)), None);
    let drawn = [0, 3, 7, 1];
    // Occupied; not there; no rest; a rest with the old offset, outside, of another object, twice.
    fails((NEW_MAP, [[2, 4, 9, 0], NONE, NONE]));
    fails((UNMAP_ALL, [[0, 3, 7, 2], NONE, NONE]));
    fails((REMAP, [drawn, NONE, NONE]));
    fails((REMAP, [drawn, NONE, [2, 3, 7, 1]]));
    fails((REMAP, [drawn, NONE, [2, 4, 7, 3]]));
    fails((REMAP, [drawn, [0, 1, 8, 1], NONE]));
    fails((REMAP, [drawn, [0, 1, 7, 1], [0, 1, 7, 1]]));
    fails(([3, 0], [drawn, NONE, NONE]));
}
