//! Ranges of addresses, mappings and the space, with their rules.

use crate::number::hex;

pub const PAGE: u64 = 4096;

/// A space ends at or below this, and a mapping's part of its object too.
const LIMIT: u64 = 1 << 48;
const HIGHEST_OBJECT: u64 = (1 << 32) - 1;

/// The addresses from `start` up to, but not including, `end`.
#[derive(Clone, Copy, Debug, PartialEq, Eq)]
pub struct Range {
    pub start: u64,
    pub end: u64,
}

impl Range {
    /// A range of whole pages, one at least, that ends at or below the limit.
    pub fn of_pages(start: u64, size: u64) -> Option<Range> {
        let end = start.checked_add(size).filter(|&end| end <= LIMIT)?;
        let whole = start % PAGE == 0 && size % PAGE == 0 && size != 0;
        whole.then_some(Range { start, end })
    }

    pub fn size(&self) -> u64 {
        self.end - self.start
    }

    pub fn is_inside(&self, outer: &Range) -> bool {
        outer.start <= self.start && self.end <= outer.end
    }

    pub fn shares_byte_with(&self, other: &Range) -> bool {
        self.start.max(other.start) < self.end.min(other.end)
    }

    /// Both ends, as the axis has them.
    pub fn shown(&self) -> String {
        format!("{} – {}", hex(self.start), hex(self.end))
    }
}

#[derive(Clone, Copy, Debug, PartialEq, Eq)]
pub struct Mapping {
    pub range: Range,
    pub object: u64,
    pub offset: u64,
}

impl Mapping {
    /// The mapping of four numbers as they are printed and saved, or the rule that it breaks.
    pub fn of([address, size, object, offset]: [u64; 4]) -> Result<Mapping, String> {
        let range = Range::of_pages(address, size)
            .ok_or_else(|| format!("{address} {size} is no range of whole pages below 2^48"))?;
        if !(1..=HIGHEST_OBJECT).contains(&object) {
            return Err(format!("{object} is no object"));
        }
        Range::of_pages(offset, size)
            .ok_or_else(|| format!("offset {offset} is within a page, or too high"))?;
        Ok(Mapping {
            range,
            object,
            offset,
        })
    }

    /// What an address of the mapping shows.
    pub fn offset_of(&self, address: u64) -> u64 {
        self.offset + (address - self.range.start)
    }
}

/// The mapping that has an address.
pub fn mapping_at(table: &[Mapping], address: u64) -> Option<&Mapping> {
    let behind = table.partition_point(|mapping| mapping.range.start <= address);
    table[..behind]
        .last()
        .filter(|mapping| address < mapping.range.end)
}

#[derive(Clone, Copy, Debug, PartialEq)]
pub struct Space {
    pub range: Range,
    pub reservation: Option<Range>,
}

impl Space {
    /// The space of its start and size and, if it has one, its reservation's; or the rule broken.
    pub fn of(start: u64, size: u64, reserved: (u64, u64)) -> Result<Space, String> {
        let range = Range::of_pages(start, size)
            .ok_or("the space is no range of whole pages that ends at or below 2^48")?;
        let reservation = match reserved {
            (0, 0) => None,
            (start, size) => Some(
                Range::of_pages(start, size)
                    .filter(|reservation| reservation.is_inside(&range))
                    .ok_or("the reservation is no range of whole pages in the space")?,
            ),
        };
        Ok(Space { range, reservation })
    }

    /// From the first mapping's start to the last one's end.
    pub fn around<'a>(mappings: impl Iterator<Item = &'a Mapping> + Clone) -> Option<Space> {
        let start = mappings.clone().map(|mapping| mapping.range.start).min()?;
        let end = mappings.map(|mapping| mapping.range.end).max()?;
        Some(Space {
            range: Range { start, end },
            reservation: None,
        })
    }

    /// Tells of a range, of what it is named, that it can't be in this space.
    pub fn check(&self, what: &str, range: &Range) -> Result<(), String> {
        let reserved = |reservation: Range| reservation.shares_byte_with(range);
        let place = if !range.is_inside(&self.range) {
            "outside of the space"
        } else if self.reservation.is_some_and(reserved) {
            "in the reservation"
        } else {
            return Ok(());
        };
        Err(format!("the {what} {} is {place}", range.shown()))
    }
}

#[cfg(test)]
mod tests {
    use super::*;

    #[test]
    fn a_mapping_has_rules() {
        let last = (1 << 48) - PAGE;
        assert!(Mapping::of([last, PAGE, HIGHEST_OBJECT, last]).is_ok());
        for words in [
            [1, PAGE, 7, 0],
            [0, 0, 7, 0],
            [0, PAGE + 1, 7, 0],
            [last, 2 * PAGE, 7, 0],
            [u64::MAX - PAGE + 1, PAGE, 7, 0],
            [0, PAGE, 0, 0],
            [0, PAGE, HIGHEST_OBJECT + 1, 0],
            [0, PAGE, 7, 1],
            [0, 2 * PAGE, 7, last],
        ] {
            assert!(Mapping::of(words).is_err(), "{words:?}");
        }
    }

    #[test]
    fn a_space_has_rules() {
        assert!(Space::of(0, 1 << 48, (0, PAGE)).is_ok());
        assert_eq!(Space::of(0, PAGE, (0, 0)).unwrap().reservation, None);
        for (start, size, reserved) in [
            (0, 0, (0, 0)),
            (1, PAGE, (0, 0)),
            (PAGE, 1 << 48, (0, 0)),
            (0, PAGE, (PAGE, PAGE)),
            (0, 2 * PAGE, (PAGE, 0)),
            (0, 2 * PAGE, (0, 1)),
        ] {
            assert!(Space::of(start, size, reserved).is_err());
        }
    }

    #[test]
    fn mappings_stand_in_the_space_and_not_in_its_reservation() {
        let space = Space::of(PAGE, 4 * PAGE, (2 * PAGE, PAGE)).unwrap();
        let check = |page, pages| {
            let mapping = Mapping::of([page * PAGE, pages * PAGE, 7, 0]).unwrap();
            space.check("mapping", &mapping.range)
        };
        assert_eq!(check(1, 1), Ok(()));
        assert_eq!(check(3, 2), Ok(()));
        let told = |place| Err(format!("the mapping {place}"));
        assert_eq!(check(0, 1), told("0x0 – 0x1000 is outside of the space"));
        assert_eq!(check(4, 2), told("0x4000 – 0x6000 is outside of the space"));
        assert_eq!(check(1, 2), told("0x1000 – 0x3000 is in the reservation"));
    }

    #[test]
    fn an_address_is_in_one_mapping_or_in_none() {
        let table = [[0, PAGE, 7, 0], [2 * PAGE, PAGE, 9, 0]].map(|m| Mapping::of(m).unwrap());
        let object = |address| mapping_at(&table, address).map(|mapping| mapping.object);
        assert_eq!(object(0), Some(7));
        assert_eq!(object(PAGE - 1), Some(7));
        assert_eq!(object(PAGE), None);
        assert_eq!(object(2 * PAGE), Some(9));
        assert_eq!(object(3 * PAGE), None);
    }
}
