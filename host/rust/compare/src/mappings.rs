//! Mappings whose page entries are listed: good ones near the boundaries of every size of page,
//! huge ones, and those that break a rule.

use crate::numbers::{DELTAS, LIMIT};
use waylluqen_model::random::Random;
use waylluqen_model::{Mapping, HIGHEST_OBJECT, PAGE, PAGE_SIZES};

const GIB: u64 = PAGE_SIZES[0];
const LARGE: u64 = PAGE_SIZES[1];

/// By how much an offset differs from its address, but for whole GiB: not at all, by 2 MiB or so,
/// by a page or so, on both sides.
pub const APARTS: [u64; 10] = [
    0,
    LARGE,
    GIB - LARGE,
    3 * LARGE,
    GIB / 2,
    PAGE,
    GIB - PAGE,
    LARGE - PAGE,
    LARGE + PAGE,
    GIB / 2 + PAGE,
];

/// An address with the pages beside it.
pub fn beside(boundary: u64) -> [u64; 3] {
    [boundary, boundary + PAGE, boundary.saturating_sub(PAGE)]
}

/// A boundary, or 2 MiB or so and a page beside it.
fn near_boundary(random: &mut Random, boundary: u64) -> u64 {
    let pages = random.pick(&[1, 1, 2, 3]) * LARGE;
    let near = random.pick(&[
        boundary,
        boundary,
        boundary + pages,
        boundary.saturating_sub(pages),
    ]);
    random.pick(&beside(near))
}

/// A number near a multiple of one of the sizes, and no higher than this.
fn near_any_boundary(random: &mut Random, highest: u64) -> u64 {
    let size = random.pick(&PAGE_SIZES);
    let boundary = random.up_to(highest / size) * size;
    near_boundary(random, boundary).min(highest)
}

/// An offset for a mapping there: as the address is, apart from it by a page of a size, by anything
/// of the like, or by itself.
fn some_offset(random: &mut Random, address: u64, size: u64) -> u64 {
    let highest = LIMIT - size;
    let apart = random.pick(&PAGE_SIZES);
    let offset = match random.below(8) {
        0 => near_any_boundary(random, highest),
        1 => random.up_to(highest / PAGE) * PAGE,
        2..=3 => address,
        4 => address + apart,
        5 => address.wrapping_sub(apart),
        _ => random.up_to(highest / GIB) * GIB + address % GIB + random.pick(&APARTS),
    };
    match offset <= highest {
        true => offset,
        // In the first GiB, at the same place.
        false => (offset % GIB).min(highest),
    }
}

/// The mapping of these bytes, with any object and some offset.
fn mapping_from(random: &mut Random, address: u64, end: u64) -> Mapping {
    let size = end.clamp(address + PAGE, LIMIT) - address;
    Mapping {
        address,
        size,
        object: 1 + random.up_to(HIGHEST_OBJECT - 1),
        offset: some_offset(random, address, size),
    }
}

/// A mapping that keeps its rules, of up to some GiB: its address, its end and its offset are near
/// boundaries.
pub fn near_mapping(random: &mut Random) -> Mapping {
    let address = near_any_boundary(random, LIMIT - PAGE);
    let span = random.pick(&PAGE_SIZES) * random.below(4);
    let boundary = (address + span).next_multiple_of(random.pick(&PAGE_SIZES));
    let end = near_boundary(random, boundary);
    mapping_from(random, address, end)
}

/// The same of any length.
pub fn huge_mapping(random: &mut Random) -> Mapping {
    let address = near_any_boundary(random, LIMIT - PAGE);
    let end = near_any_boundary(random, LIMIT);
    mapping_from(random, address, end)
}

/// The rules of a mapping in a space from 0 to 2^48.
pub const RULES: [&str; 8] = [
    "address in pages",
    "size in pages",
    "offset in pages",
    "not empty",
    "an object",
    "no higher object",
    "end of the object's part",
    "end",
];

/// Which of them are broken.
pub fn broken_rules(mapping: &Mapping) -> [bool; RULES.len()] {
    let &Mapping {
        address,
        size,
        object,
        offset,
    } = mapping;
    let is_above = |start: u64| u128::from(start) + u128::from(size) > u128::from(LIMIT);
    [
        address % PAGE != 0,
        size % PAGE != 0,
        offset % PAGE != 0,
        size < PAGE,
        object == 0,
        object > HIGHEST_OBJECT,
        is_above(offset),
        is_above(address),
    ]
}

/// Moves one of the numbers to the boundary of a rule, or beside it.
pub fn disturb_mapping(random: &mut Random, mapping: &mut Mapping) {
    let Mapping {
        address,
        size,
        object,
        offset,
    } = mapping;
    let bit_in_page = 1 << random.below(12);
    let beside = random.pick(&DELTAS);
    match random.below(12) {
        0 => *address ^= bit_in_page,
        1 => *size ^= bit_in_page,
        2 => *offset ^= bit_in_page,
        3 => *size = random.pick(&[0, 0, 1, PAGE - 1, PAGE]),
        4 => *object = random.pick(&[0, 0, 1]),
        5 => *object = HIGHEST_OBJECT + random.below(3) - 1,
        6 => *object |= 1 << (32 + random.below(32)),
        7 => *offset = LIMIT.wrapping_sub(*size).wrapping_add(beside),
        8 => *address = LIMIT.wrapping_sub(*size).wrapping_add(beside),
        // A sum that wraps is near 0.
        9 => *offset = beside.wrapping_sub(*size),
        10 => *address = beside.wrapping_sub(*size),
        _ => {
            *size = random
                .pick(&[LIMIT, 0, *offset, *address])
                .wrapping_sub(beside)
        }
    }
}
