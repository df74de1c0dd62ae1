//! The numbers of the answers, and a refusal.

pub const OK: u32 = 0;
pub const BAD_SPACE: u32 = 1;
pub const BAD_TABLE_LENGTH: u32 = 2;
pub const SHORT_OPERATIONS: u32 = 3;
pub const BAD_COUNT: u32 = 4;
pub const BAD_MAPPING: u32 = 5;
pub const UNALIGNED: u32 = 6;
pub const OUTSIDE_SPACE: u32 = 7;
pub const RESERVED: u32 = 8;
pub const BAD_OBJECT: u32 = 9;
pub const BAD_OFFSET: u32 = 10;
pub const NO_ROOM: u32 = 11;
pub const BAD_RECORD_LENGTH: u32 = 12;
pub const BAD_OP: u32 = 13;
pub const BAD_FLAGS: u32 = 14;
pub const BAD_WORK_LENGTH: u32 = 15;
pub const SHORT_OUTPUT: u32 = 16;
pub const STALE_WORDS: u32 = 17;
pub const BAD_RANGES: u32 = 18;
pub const RANGE_OVERLAPS: u32 = 19;
pub const NO_SUCH_RANGE: u32 = 20;

/// A refusal: its number, and the place of a mapping that is refused, or of a request in a batch,
/// else 0.
#[derive(Clone, Copy, Debug, PartialEq, Eq)]
pub struct Refused {
    pub number: u32,
    pub place: u64,
}

impl Refused {
    /// A refusal that has no place.
    pub fn of(number: u32) -> Refused {
        Refused { number, place: 0 }
    }
}
