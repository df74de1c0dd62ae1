//! The script program, written a second time: what it prints for the bytes of a script.

use crate::bind::{least_operation_words, KIND_MAP, KIND_REMAP};
use crate::request::number;
use crate::{answer, bind_record, lookup, space_holds};
use crate::{Grant, List, Mapping, Operation, Refused, Seen, Shown, Space, SparseRange};
use crate::{MAPPING_WORDS, MOST_RANGES, RANGE_WORDS, RECORD_BYTES};
use alloc::string::String;
use core::fmt::{Arguments, Write};

/// The program's table has room for this many mappings.
pub const SCRIPT_MAPPINGS: usize = 256;

/// Its list has room for this many sparse ranges.
pub const SCRIPT_RANGES: usize = MOST_RANGES;

/// The bytes of a mark, and of the records `SP` and `LK` behind theirs.
pub const MARK_BYTES: usize = 2;
pub const SPACE_BYTES: usize = 32;
pub const ADDRESS_BYTES: usize = 8;

/// The records, by their marks.
#[derive(Clone, Copy, Debug, PartialEq, Eq)]
pub enum Kind {
    Space,
    Request,
    Lookup,
}

/// What some bytes of a script start with.
#[derive(Clone, Copy, Debug, PartialEq, Eq)]
pub enum Part<'a> {
    /// A record's bytes without its mark.
    Record(Kind, &'a [u8]),
    /// Two bytes that are no mark.
    OtherMark,
    /// Fewer bytes than a mark has, or than its record has.
    Cut,
    End,
}

/// The record that this mark announces, and the number of its bytes.
fn announced(mark: &[u8]) -> Option<(Kind, usize)> {
    match mark {
        b"SP" => Some((Kind::Space, SPACE_BYTES)),
        b"RQ" => Some((Kind::Request, RECORD_BYTES)),
        b"LK" => Some((Kind::Lookup, ADDRESS_BYTES)),
        _ => None,
    }
}

/// What stands first. A mark is judged as soon as it is there, the length behind it afterwards.
pub fn first_part(bytes: &[u8]) -> Part<'_> {
    if bytes.is_empty() {
        return Part::End;
    }
    let Some((mark, behind)) = bytes.split_at_checked(MARK_BYTES) else {
        return Part::Cut;
    };
    let Some((kind, length)) = announced(mark) else {
        return Part::OtherMark;
    };
    match behind.get(..length) {
        Some(record) => Part::Record(kind, record),
        None => Part::Cut,
    }
}

/// What the program keeps from record to record, and what it has printed.
struct Program {
    space: Space,
    list: [u64; SCRIPT_RANGES * RANGE_WORDS],
    ranges: u64,
    table: [u64; SCRIPT_MAPPINGS * MAPPING_WORDS],
    count: u64,
    printed: String,
}

impl Program {
    /// Before the first record: a space of four zeros, which breaks its rules, no sparse range and
    /// no mapping.
    fn new() -> Program {
        Program {
            space: space_in(&[0; SPACE_BYTES]),
            list: [0; SCRIPT_RANGES * RANGE_WORDS],
            ranges: 0,
            table: [0; SCRIPT_MAPPINGS * MAPPING_WORDS],
            count: 0,
            printed: String::new(),
        }
    }

    fn print(&mut self, line: Arguments) {
        writeln!(self.printed, "{line}").expect("a string takes any text");
    }

    fn print_refusal(&mut self, refused: Refused) {
        self.print(format_args!("refused {}", refused.number));
    }

    fn take(&mut self, kind: Kind, record: &[u8]) {
        match kind {
            Kind::Space => self.take_space(record),
            Kind::Request => self.take_request(record),
            Kind::Lookup => self.take_lookup(record),
        }
    }

    /// The list as the calls are lent it.
    fn list(&self) -> List<'_> {
        List {
            words: &self.list,
            count: self.ranges,
        }
    }

    /// A granted space empties the table and the list, a refused one changes nothing.
    fn take_space(&mut self, record: &[u8]) {
        let space = space_in(record);
        if !space_holds(&space) {
            return self.print_refusal(Refused::of(answer::BAD_SPACE));
        }
        self.space = space;
        self.list.fill(0);
        self.ranges = 0;
        self.table.fill(0);
        self.count = 0;
        self.print(format_args!("space {SCRIPT_MAPPINGS}"));
    }

    fn take_request(&mut self, record: &[u8]) {
        let room = least_operation_words(SCRIPT_MAPPINGS);
        let (list, count) = (self.list(), self.count);
        match bind_record(&self.space, &list, &self.table, count, room, record) {
            Ok(grant) => self.carry_out(&grant),
            Err(refused) => self.print_refusal(refused),
        }
    }

    /// Table and list become what the grant leaves, with zeros behind it.
    fn carry_out(&mut self, grant: &Grant) {
        let operations = grant.operations.len();
        self.print(format_args!("granted {operations} {}", grant.count));
        for operation in &grant.operations {
            self.print_operation(operation);
        }
        put(
            &mut self.table,
            grant.mappings.iter().flat_map(Mapping::words),
        );
        put(
            &mut self.list,
            grant.ranges.iter().flat_map(SparseRange::words),
        );
        self.count = grant.count;
        self.ranges = grant.ranges.len() as u64;
    }

    fn print_operation(&mut self, operation: &Operation) {
        let [address, size, object, offset] = operation.named.words();
        let keep = u64::from(operation.keep);
        let word = match operation.kind {
            KIND_MAP => return self.print_mapping("map", &operation.named),
            KIND_REMAP => "remap",
            _ => "unmap",
        };
        self.print(format_args!(
            "{word} {address} {size} {object} {offset} keep {keep}"
        ));
        if let Some(lower) = &operation.lower {
            self.print_mapping("lower", lower);
        }
        if let Some(upper) = &operation.upper {
            self.print_mapping("upper", upper);
        }
    }

    fn print_mapping(&mut self, word: &str, mapping: &Mapping) {
        let [address, size, object, offset] = mapping.words();
        self.print(format_args!("{word} {address} {size} {object} {offset}"));
    }

    fn take_lookup(&mut self, record: &[u8]) {
        let address = number(record);
        match lookup(&self.space, &self.list(), &self.table, self.count, address) {
            Ok(seen) => self.print_seen(address, seen),
            Err(refused) => self.print_refusal(refused),
        }
    }

    fn print_seen(&mut self, address: u64, Seen { shown, bytes }: Seen) {
        match shown {
            Shown::Nothing => self.print(format_args!("at {address} none {bytes}")),
            Shown::Sparse => self.print(format_args!("at {address} sparse {bytes}")),
            Shown::Object { object, offset } => {
                self.print(format_args!("at {address} {object} {offset} {bytes}"));
            }
        }
    }
}

/// Puts these words in front, and zeros behind them.
fn put(words: &mut [u64], new: impl Iterator<Item = u64>) {
    let zeros = core::iter::repeat(0);
    for (word, new) in words.iter_mut().zip(new.chain(zeros)) {
        *word = new;
    }
}

/// The space in these bytes: four numbers in their order.
fn space_in(record: &[u8]) -> Space {
    let field = |place: usize| number(&record[place * 8..][..8]);
    Space {
        start: field(0),
        size: field(1),
        reserved_start: field(2),
        reserved_size: field(3),
    }
}

/// The whole standard output for a script. A place counts from the script's first byte.
pub fn script(bytes: &[u8]) -> String {
    let mut program = Program::new();
    let mut place = 0;
    loop {
        match first_part(&bytes[place..]) {
            Part::Record(kind, record) => {
                program.take(kind, record);
                place += MARK_BYTES + record.len();
            }
            Part::OtherMark => {
                program.print(format_args!("mark {place}"));
                break;
            }
            Part::Cut => {
                program.print(format_args!("cut {place}"));
                break;
            }
            Part::End => break,
        }
    }
    program.printed
}
