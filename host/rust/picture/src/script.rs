//! The records of a script, of which vmbind's text tells the answers: they have the space's numbers
//! and the sparse ranges, which vmbind does not print.

use crate::mapping::{Range, Space};

/// The flag of a request for a sparse range, and the op that adds one.
const SPARSE: u64 = 256;
const MAP: u64 = 0;

/// A record, as far as the text does not tell of it.
#[derive(Clone, Copy, Debug, PartialEq)]
pub enum Record {
    Space([u64; 4]),
    /// The sparse range that a request adds or removes, if it has the flag.
    Request(Option<Change>),
    Lookup,
    /// No mark, or a record that the end cuts: vmbind stops.
    Broken,
}

/// A sparse range that is to be added, or removed.
#[derive(Clone, Copy, Debug, PartialEq)]
pub struct Change {
    pub start: u64,
    pub size: u64,
    pub is_added: bool,
}

/// The sparse ranges around a request, and the one that it adds or removes.
#[derive(Clone, Debug, Default, PartialEq)]
pub struct Sparse {
    pub before: Vec<Range>,
    pub after: Vec<Range>,
    pub changed: Option<Range>,
}

/// What is left of a script.
#[derive(Debug)]
pub struct Script<'a> {
    bytes: &'a [u8],
}

/// The little-endian number in these bytes.
fn number(bytes: &[u8]) -> u64 {
    let add = |value, &byte: &u8| value << 8 | u64::from(byte);
    bytes.iter().rev().fold(0, add)
}

/// A request's op, flags, address and size; handle, pad and offset are in the text, or of no use.
fn request(bytes: &[u8]) -> Record {
    let [op, flags] = [&bytes[0..4], &bytes[4..8]].map(number);
    let change = Change {
        start: number(&bytes[16..24]),
        size: number(&bytes[32..40]),
        is_added: op == MAP,
    };
    Record::Request((flags == SPARSE).then_some(change))
}

impl<'a> Script<'a> {
    pub fn of(bytes: &'a [u8]) -> Script<'a> {
        Script { bytes }
    }

    /// The next record; `None` at the end, and behind what is broken.
    pub fn next(&mut self) -> Option<Record> {
        let length = match self.bytes.get(..2) {
            Some(b"SP") => 32,
            Some(b"RQ") => 40,
            Some(b"LK") => 8,
            _ => usize::MAX,
        };
        let is_end = self.bytes.is_empty();
        let mark = &self.bytes[..self.bytes.len().min(2)];
        let Some((record, rest)) = self.bytes[mark.len()..].split_at_checked(length) else {
            self.bytes = &[];
            return (!is_end).then_some(Record::Broken);
        };
        self.bytes = rest;
        let field = |place: usize| number(&record[place * 8..][..8]);
        Some(match mark {
            b"SP" => Record::Space([0, 1, 2, 3].map(field)),
            b"RQ" => request(record),
            _ => Record::Lookup,
        })
    }
}

/// The space of an `SP` record, or the rule that it breaks.
pub fn space(numbers: [u64; 4]) -> Result<Space, String> {
    let [start, size, reserved_start, reserved_size] = numbers;
    Space::of(start, size, (reserved_start, reserved_size))
}

/// Adds a sparse range or removes it. Answers it, or tells why it can't have been granted.
pub fn change(ranges: &mut Vec<Range>, change: &Change) -> Result<Range, String> {
    let Change { start, size, .. } = *change;
    let range = Range::of_pages(start, size)
        .ok_or_else(|| format!("the script's {start} {size} is no range of whole pages"))?;
    if change.is_added {
        if let Some(old) = ranges.iter().find(|old| old.shares_byte_with(&range)) {
            return Err(format!(
                "the script's range overlaps the sparse one {}",
                old.shown()
            ));
        }
        let place = ranges.partition_point(|old| old.start < range.start);
        ranges.insert(place, range);
    } else {
        let place = ranges.iter().position(|old| *old == range);
        let no_range = || format!("there is no sparse range {} to remove", range.shown());
        ranges.remove(place.ok_or_else(no_range)?);
    }
    Ok(range)
}

#[cfg(test)]
mod tests {
    use super::*;

    fn records(bytes: &[u8]) -> Vec<Record> {
        let mut script = Script::of(bytes);
        std::iter::from_fn(|| script.next()).collect()
    }

    fn words(words: &[u64]) -> Vec<u8> {
        words.iter().flat_map(|word| word.to_le_bytes()).collect()
    }

    /// A request's two words of op and flags, and of handle and pad, then its address and so on.
    fn request(op: u64, flags: u64, start: u64, size: u64) -> Vec<u8> {
        let fields = words(&[op | flags << 32, 7, start, 0x5000, size]);
        [b"RQ".to_vec(), fields].concat()
    }

    #[test]
    fn each_record() {
        let space = [b"SP".to_vec(), words(&[1, 2, 3, 1 << 47])].concat();
        assert_eq!(records(&space), [Record::Space([1, 2, 3, 1 << 47])]);
        let look_up = [b"LK".to_vec(), words(&[5])].concat();
        assert_eq!(records(&look_up), [Record::Lookup]);
        let change = |is_added| {
            Record::Request(Some(Change {
                start: 0x1000,
                size: 0x2000,
                is_added,
            }))
        };
        let plain = request(0, 0, 0x1000, 0x2000);
        assert_eq!(records(&plain), [Record::Request(None)]);
        let (add, remove) = (
            request(0, 256, 0x1000, 0x2000),
            request(1, 256, 0x1000, 0x2000),
        );
        assert_eq!(records(&add), [change(true)]);
        assert_eq!(records(&remove), [change(false)]);
        let all = [space, add, look_up, remove].concat();
        assert_eq!(records(&all).len(), 4);
        assert_eq!(records(&all)[3], change(false));
    }

    #[test]
    fn ends() {
        assert_eq!(records(b""), []);
        for broken in [
            &b"S"[..],
            b"XY",
            b"SP",
            b"LK\0\0\0\0\0\0\0",
            b"XYLK\0\0\0\0\0\0\0\0",
        ] {
            assert_eq!(records(broken), [Record::Broken]);
            let look_up = [b"LK".to_vec(), words(&[5])].concat();
            let both = [&look_up, broken].concat();
            assert_eq!(records(&both), [Record::Lookup, Record::Broken]);
        }
    }

    #[test]
    fn ranges_come_and_go() {
        let mut ranges = Vec::new();
        let mut ask = |start, size, is_added| {
            let asked = Change {
                start,
                size,
                is_added,
            };
            change(&mut ranges, &asked).map(|range| (range.start, range.end))
        };
        assert_eq!(ask(0x4000, 0x2000, true), Ok((0x4000, 0x6000)));
        assert_eq!(ask(0x1000, 0x3000, true), Ok((0x1000, 0x4000)));
        let told = "the script's range overlaps the sparse one 0x4000 – 0x6000";
        assert_eq!(ask(0x5000, 0x2000, true), Err(told.to_string()));
        let told = "there is no sparse range 0x1000 – 0x2000 to remove";
        assert_eq!(ask(0x1000, 0x1000, false), Err(told.to_string()));
        assert_eq!(ask(0x4000, 0x2000, false), Ok((0x4000, 0x6000)));
        let told = "the script's 1 4096 is no range of whole pages";
        assert_eq!(ask(1, 0x1000, true), Err(told.to_string()));
        assert_eq!(ranges.len(), 1);
    }
}
