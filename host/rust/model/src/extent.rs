//! Half-open ranges of addresses.

/// The addresses from `start` up to, but not including, `end`.
#[derive(Clone, Copy, Debug, PartialEq, Eq)]
pub struct Extent {
    pub start: u128,
    pub end: u128,
}

impl Extent {
    pub fn new(start: u64, size: u64) -> Extent {
        Extent {
            start: u128::from(start),
            end: u128::from(start) + u128::from(size),
        }
    }

    pub fn is_inside(&self, outer: &Extent) -> bool {
        outer.start <= self.start && self.end <= outer.end
    }

    pub fn has(&self, address: u64) -> bool {
        (self.start..self.end).contains(&u128::from(address))
    }

    /// Two that only touch share no byte, and an empty one shares none with any.
    pub fn shares_byte_with(&self, other: &Extent) -> bool {
        self.start.max(other.start) < self.end.min(other.end)
    }
}
