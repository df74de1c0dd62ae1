//! Spaces and numbers for the comparisons: good ones, and those at and beside the boundaries.

use waylluqen_model::random::Random;
use waylluqen_model::{Space, PAGE};

/// No space and no object goes above this.
pub const LIMIT: u64 = 1 << 48;
pub const HALF: u64 = 1 << 63;

/// What is added to a boundary: nothing, a byte and a page, on both sides.
pub const DELTAS: [u64; 5] = [0, 1, 1u64.wrapping_neg(), PAGE, PAGE.wrapping_neg()];

/// The space of four numbers, in their order.
pub fn space_of([start, size, reserved_start, reserved_size]: [u64; 4]) -> Space {
    Space {
        start,
        size,
        reserved_start,
        reserved_size,
    }
}

/// Every space whose four numbers are at or beside 0, 4 pages, 8 pages, 2^48 and 2^63.
pub fn edge_spaces() -> impl Iterator<Item = Space> {
    let numbers = edges(&[0, 4 * PAGE, 8 * PAGE, LIMIT, HALF]);
    let count = numbers.len();
    (0..count.pow(4)).map(move |index| {
        space_of([0, 1, 2, 3].map(|place| numbers[index / count.pow(place) % count]))
    })
}

/// A number at one of the boundaries, or a byte or a page beside it. 2^64 is the wrapped 0.
pub fn edge(random: &mut Random, space: &Space) -> u64 {
    let boundary = random.pick(&[
        0,
        space.start,
        space.start.wrapping_add(space.size),
        space.reserved_start,
        space.reserved_start.wrapping_add(space.reserved_size),
        1 << 32,
        LIMIT,
        HALF,
    ]);
    boundary.wrapping_add(random.pick(&DELTAS))
}

/// A size such that the range from `start` ends at a boundary if the sum is wrapped.
pub fn size_to_edge(random: &mut Random, space: &Space, start: u64) -> u64 {
    edge(random, space).wrapping_sub(start)
}

/// A range of whole pages in `[start, end)`, as (start, size): often at one of the ends.
pub fn pages_in(random: &mut Random, start: u64, end: u64) -> (u64, u64) {
    let pages = (end - start) / PAGE;
    let size = 1 + random.up_to(pages - 1);
    let skipped = random.up_to(pages - size);
    (start + skipped * PAGE, size * PAGE)
}

/// A space that keeps its rules.
pub fn good_space(random: &mut Random) -> Space {
    let highest = random.pick(&[LIMIT, LIMIT, 1 << 32, 16 * PAGE]);
    let (start, size) = pages_in(random, 0, highest);
    let (reserved_start, reserved_size) = match random.below(4) {
        0 => (0, 0),
        _ => pages_in(random, start, start + size),
    };
    Space {
        start,
        size,
        reserved_start,
        reserved_size,
    }
}

/// Another value for a 64-bit field: at an edge, beside the present one, or any.
pub fn other64(random: &mut Random, space: &Space, present: u64) -> u64 {
    match random.below(8) {
        0..=3 => edge(random, space),
        4..=5 => present.wrapping_add(random.pick(&DELTAS)),
        6 => present ^ (1 << random.below(64)),
        _ => random.next_u64(),
    }
}

/// Changes one field of the space, or two so that their sum is at an edge.
pub fn disturb_space(random: &mut Random, space: &mut Space) {
    let before = *space;
    match random.below(6) {
        0 => space.start = other64(random, &before, before.start),
        1 => space.size = other64(random, &before, before.size),
        2 => space.reserved_start = other64(random, &before, before.reserved_start),
        3 => space.reserved_size = other64(random, &before, before.reserved_size),
        4 => {
            space.start = edge(random, &before);
            space.size = size_to_edge(random, &before, space.start);
        }
        _ => {
            space.reserved_start = edge(random, &before);
            space.reserved_size = size_to_edge(random, &before, space.reserved_start);
        }
    }
}

/// Each boundary with each of the deltas.
pub fn edges(boundaries: &[u64]) -> Vec<u64> {
    let beside = |boundary: &u64| DELTAS.map(|delta| boundary.wrapping_add(delta));
    let mut all: Vec<u64> = boundaries.iter().flat_map(beside).collect();
    all.sort_unstable();
    all.dedup();
    all
}
