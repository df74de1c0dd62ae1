// SPDX-License-Identifier: MIT
//! An example driver: it keeps one address space and carries each operation out on a page table,
//! here an array. Where that fails half-way, it goes back. It takes requests one by one and in
//! batches. It also keeps sparse ranges, and sees to the entries of their pages. host/c/driver.c is
//! the same in C. Both print what host/driver.out has, and end with 1 if a page entry is not what
//! look-ups say.
//!
//! After `make` at the repository's root, `cargo run --example driver` in host/rust.

use std::error::Error;
use std::fmt;
use std::ops::Range;
use std::process::ExitCode;
use waylluqen::{batch_list_words, range_words, table_words, BatchRefusal, Mapping, Operation};
use waylluqen::{Operations, Ranges, Refusal, Request, Rests, Seen, Shown, Space, Table, View};
use waylluqen::{MAX_BATCH, PAGE_SIZE as PAGE, RECORD_BYTES};

const START: u64 = 0x10_0000;
const PAGES: usize = 32;
const CAPACITY: usize = 8;
const TABLE_WORDS: usize = table_words(CAPACITY);
const RANGE_WORDS: usize = range_words(4);
const LIST_WORDS: usize = batch_list_words(CAPACITY, MAX_BATCH);
const PLENTY: u64 = u64::MAX;

const FRAMEBUFFER: u64 = 1;
const TEXTURE: u64 = 2;
const RING: u64 = 3;
const TILES: u64 = 4;

/// Stands for the page table that the GPU reads.
#[derive(Clone, PartialEq)]
struct PageTable {
    /// What each page's first byte shows. That it is sparse is a bit in hardware.
    entries: [Shown; PAGES],
    /// How many entries can be changed until one can't be; a simulation.
    memory: u64,
}

/// The words of a table and of a list of sparse ranges, and their counts: they belong together, so
/// they are copied together.
#[derive(Clone, Copy, PartialEq)]
struct Stored {
    words: [u64; TABLE_WORDS],
    count: u64,
    ranges: [u64; RANGE_WORDS],
    range_count: u64,
}

/// How many page entries were written from look-ups, and from how many.
#[derive(Clone, Copy, Default, PartialEq)]
struct FromLookUps {
    entries: u64,
    look_ups: u64,
}

/// All that a driver keeps for one address space, and scratch for the calls.
#[derive(Clone, PartialEq)]
struct AddressSpace {
    bounds: Space,
    table: Stored,
    operations: [u64; LIST_WORDS],
    /// A batch's.
    work: [u64; TABLE_WORDS],
    pages: PageTable,
    /// By the last going back.
    went_back: FromLookUps,
    /// How often the pages were compared with look-ups.
    compared: u64,
}

/// How many page entries a request clears, keeps, writes and makes sparse.
#[derive(Default)]
struct Counts {
    cleared: u64,
    kept: u64,
    written: u64,
    sparse: u64,
}

/// The ranges that were asked for, more than one by a batch, and whether with the sparse flag.
struct Asked {
    ranges: Vec<Range<u64>>,
    sparse: bool,
}

/// There is no memory for a page entry, as where a large page would have to be split first.
struct NoMemory;

/// Why a request was not carried out. All is as it was.
#[derive(Debug, PartialEq)]
enum Failure {
    Refused(Refusal),
    RefusedBatch(BatchRefusal),
    /// Carrying it out failed half-way.
    WentBack,
}

impl From<Refusal> for Failure {
    fn from(refusal: Refusal) -> Failure {
        Failure::Refused(refusal)
    }
}

impl From<BatchRefusal> for Failure {
    fn from(refusal: BatchRefusal) -> Failure {
        Failure::RefusedBatch(refusal)
    }
}

impl fmt::Display for Failure {
    fn fmt(&self, f: &mut fmt::Formatter<'_>) -> fmt::Result {
        match self {
            Failure::Refused(refusal) => write!(f, "refused: {refusal}"),
            Failure::RefusedBatch(refusal) => write!(f, "refused: {refusal}"),
            Failure::WentBack => write!(f, "failed half-way: went back"),
        }
    }
}

impl Error for Failure {}

fn name_of(object: u64) -> &'static str {
    match object {
        FRAMEBUFFER => "framebuffer",
        TEXTURE => "texture",
        RING => "ring",
        TILES => "tiles",
        _ => "unknown",
    }
}

fn end_of(mapping: Mapping) -> u64 {
    mapping.address + mapping.size
}

fn print_mapping(what: &str, mapping: Mapping) {
    let (start, end) = (mapping.address, end_of(mapping));
    let (name, offset) = (name_of(mapping.object), mapping.offset);
    println!("{what:<14} [{start:#x}, {end:#x}) {name}+{offset:#x}");
}

fn print_operation(operation: Operation) {
    match operation {
        Operation::Map(new) => print_mapping("  map", new),
        Operation::Remap { old, rests, keep } => {
            print_mapping(if keep { "  remap, keep" } else { "  remap" }, old);
            if let Rests::Lower(lower) | Rests::Both { lower, .. } = rests {
                print_mapping("    lower rest", lower);
            }
            if let Rests::Upper(upper) | Rests::Both { upper, .. } = rests {
                print_mapping("    upper rest", upper);
            }
        }
        Operation::Unmap { old, keep } => {
            print_mapping(if keep { "  unmap, keep" } else { "  unmap" }, old);
        }
    }
}

/// What an old mapping loses: all between its rests.
fn lost(old: Mapping, rests: Option<Rests>) -> Range<u64> {
    match rests {
        None => old.address..end_of(old),
        Some(Rests::Lower(lower)) => end_of(lower)..end_of(old),
        Some(Rests::Upper(upper)) => old.address..upper.address,
        Some(Rests::Both { lower, upper }) => end_of(lower)..upper.address,
    }
}

/// What it loses, if it has the keep mark.
fn kept(operation: Operation) -> Option<Range<u64>> {
    match operation {
        Operation::Remap { old, rests, keep } => keep.then(|| lost(old, Some(rests))),
        Operation::Unmap { old, keep } => keep.then(|| lost(old, None)),
        Operation::Map(_) => None,
    }
}

fn each_page(range: Range<u64>) -> impl Iterator<Item = u64> {
    range.step_by(PAGE as usize)
}

/// What is shown so many bytes further on, where it goes on in the same way.
fn further(shown: Shown, bytes: u64) -> Shown {
    match shown {
        Shown::Nothing | Shown::Sparse => shown,
        Shown::Object { object, offset } => Shown::Object {
            object,
            offset: offset + bytes,
        },
    }
}

impl PageTable {
    fn entry(&mut self, address: u64) -> &mut Shown {
        &mut self.entries[((address - START) / PAGE) as usize]
    }

    /// Where there was no memory there is some for the next one, so that passing over a failure
    /// shows.
    fn change(&mut self, address: u64, entry: Shown) -> Result<(), NoMemory> {
        let memory = self.memory;
        self.memory = memory.wrapping_sub(1);
        if memory == 0 {
            return Err(NoMemory);
        }
        *self.entry(address) = entry;
        Ok(())
    }

    /// Clears an entry, or makes it sparse.
    fn clear(&mut self, counts: &mut Counts, address: u64, sparse: bool) -> Result<(), NoMemory> {
        if sparse {
            self.change(address, Shown::Sparse)?;
            counts.sparse += 1;
        } else {
            self.change(address, Shown::Nothing)?;
            counts.cleared += 1;
        }
        Ok(())
    }

    /// With keep the entries are left alone: the new mapping shows the same there. Any others are
    /// sparse where the old mapping lies over a sparse range.
    fn unmap(
        &mut self,
        counts: &mut Counts,
        table: &Stored,
        old: Range<u64>,
        keep: bool,
    ) -> Result<(), NoMemory> {
        if keep {
            counts.kept += (old.end - old.start) / PAGE;
            return Ok(());
        }
        for at in each_page(old) {
            self.clear(counts, at, table.is_in_range(at))?;
        }
        Ok(())
    }

    /// Writes the new mapping's entries in a part of it.
    fn write_entries(
        &mut self,
        counts: &mut Counts,
        new: Mapping,
        part: Range<u64>,
    ) -> Result<(), NoMemory> {
        for at in each_page(part) {
            let (object, offset) = (new.object, new.offset + (at - new.address));
            self.change(at, Shown::Object { object, offset })?;
            counts.written += 1;
        }
        Ok(())
    }

    /// Writes what was not kept: the entries in front of, between and behind those that were. A map
    /// is the last operation of its request, and the others are in ascending order of their
    /// addresses.
    fn map(
        &mut self,
        counts: &mut Counts,
        before: Operations<'_>,
        new: Mapping,
    ) -> Result<(), NoMemory> {
        let mut start = new.address;
        let before = before.take_while(|operation| !matches!(operation, Operation::Map(_)));
        for kept in before.filter_map(kept) {
            self.write_entries(counts, new, start..kept.start)?;
            start = kept.end;
        }
        self.write_entries(counts, new, start..end_of(new))
    }

    /// Carries out the operations in order. In a batch what was kept since the last map operation
    /// is the next one's, since an unmap request keeps nothing.
    fn carry_out(
        &mut self,
        counts: &mut Counts,
        table: &Stored,
        mut list: Operations<'_>,
    ) -> Result<(), NoMemory> {
        let mut before = list.clone();
        while let Some(operation) = list.next() {
            match operation {
                Operation::Map(new) => {
                    self.map(counts, before, new)?;
                    before = list.clone();
                }
                // Its rests show what they showed.
                Operation::Remap { old, rests, keep } => {
                    self.unmap(counts, table, lost(old, Some(rests)), keep)?;
                }
                Operation::Unmap { old, keep } => {
                    self.unmap(counts, table, lost(old, None), keep)?;
                }
            }
        }
        Ok(())
    }

    /// What a sparse range that was added or removed leaves to the driver: its pages that no mapping
    /// has are sparse now, or show nothing.
    fn write_sparse(
        &mut self,
        counts: &mut Counts,
        table: &Stored,
        bounds: Space,
        range: Range<u64>,
    ) -> Result<(), NoMemory> {
        for run in table.view().runs(bounds, range) {
            let run = run.expect("the bind left this table");
            if let Shown::Object { .. } = run.shown {
                continue;
            }
            for at in each_page(run.address..run.address + run.bytes) {
                self.clear(counts, at, run.shown == Shown::Sparse)?;
            }
        }
        Ok(())
    }

    /// Carries a grant out; then a driver flushes the GPU's TLB, but not for what was kept.
    fn finish(
        &mut self,
        table: &Stored,
        bounds: Space,
        list: Operations<'_>,
        asked: &Asked,
    ) -> Result<(), NoMemory> {
        let mut counts = Counts::default();
        if asked.sparse {
            self.write_sparse(&mut counts, table, bounds, asked.ranges[0].clone())?;
        } else {
            self.carry_out(&mut counts, table, list.clone())?;
        }
        list.for_each(print_operation);
        if asked.sparse {
            println!("  sparse ranges: {}", table.range_count);
        }
        let (cleared, kept, written) = (counts.cleared, counts.kept, counts.written);
        print!("  page entries: {cleared} cleared, {kept} kept, {written} written");
        println!(", {} sparse", counts.sparse);
        Ok(())
    }
}

impl Stored {
    fn view(&self) -> View<'_> {
        View::new(&self.words, self.count).with_ranges(&self.ranges, self.range_count)
    }

    fn table(&mut self) -> Table<'_> {
        let ranges = Ranges::with_count(&mut self.ranges, self.range_count);
        Table::with_count(&mut self.words, self.count).with_ranges(ranges)
    }

    /// Whether a page is in a sparse range. For a map request a look-up would show the new mapping
    /// here already, before its entries are written.
    fn is_in_range(&self, address: u64) -> bool {
        let mut ranges = self.view().ranges();
        ranges.any(|range| (range.start..range.start + range.size).contains(&address))
    }
}

impl AddressSpace {
    /// The copy is 32 bytes for each mapping that there is room for: up to 128 KiB, which is too
    /// much for a kernel stack. With much room a driver has it beside the table.
    fn bind(&mut self, request: Request) -> Result<(), Failure> {
        let before = self.table;
        let mut table = self.table.table();
        let operations = table.bind(self.bounds, request, &mut self.operations)?;
        (self.table.count, self.table.range_count) = (table.count(), table.ranges().count());
        let range = request.address..request.address + request.size;
        let asked = Asked {
            ranges: vec![range],
            sparse: request.flags == Request::SPARSE,
        };
        let done = self
            .pages
            .finish(&self.table, self.bounds, operations, &asked);
        done.map_err(|NoMemory| self.go_back(before, &asked))
    }

    fn bind_record(&mut self, record: &[u8]) -> Result<(), Failure> {
        let before = self.table;
        let mut table = self.table.table();
        let operations = table.bind_record(self.bounds, record, &mut self.operations)?;
        (self.table.count, self.table.range_count) = (table.count(), table.ranges().count());
        // It is granted, so it has all its bytes; these are the flags.
        let asked = Asked {
            ranges: vec![range_of(record)],
            sparse: get(record, 4, 4) == Request::SPARSE,
        };
        let done = self
            .pages
            .finish(&self.table, self.bounds, operations, &asked);
        done.map_err(|NoMemory| self.go_back(before, &asked))
    }

    /// Records in a row, all or none.
    fn bind_batch(&mut self, records: &[u8]) -> Result<(), Failure> {
        let before = self.table;
        let mut table = self.table.table();
        let (work, list) = (&mut self.work, &mut self.operations);
        let operations = table.bind_batch_records(self.bounds, records, work, list)?;
        self.table.count = table.count();
        let asked = Asked {
            ranges: records.chunks(RECORD_BYTES).map(range_of).collect(),
            sparse: false,
        };
        let done = self
            .pages
            .finish(&self.table, self.bounds, operations, &asked);
        done.map_err(|NoMemory| self.go_back(before, &asked))
    }

    /// Takes back what failed half-way: the table by its copy, and the entries by look-ups in it.
    /// Only pages of the asked ranges can have changed; one that was kept gets the entry that it
    /// has. No memory is needed for what was there before, if the page table gives none back until
    /// all is carried out. Then a driver flushes the TLB here too.
    fn go_back(&mut self, before: Stored, asked: &Asked) -> Failure {
        self.table = before;
        self.went_back = FromLookUps::default();
        for range in &asked.ranges {
            let written = self.write_shown(range.clone());
            let written = written.expect("the bind took this table");
            self.went_back.entries += written.entries;
            self.went_back.look_ups += written.look_ups;
        }
        Failure::WentBack
    }

    /// Writes the entries of a range from look-ups: one answers for all pages that go on in the
    /// same way, so that a large mapping takes no more of them than a small one.
    fn write_shown(&mut self, range: Range<u64>) -> Result<FromLookUps, Refusal> {
        let mut written = FromLookUps::default();
        for run in self.table.view().runs(self.bounds, range) {
            let run = run?;
            written.look_ups += 1;
            for at in each_page(run.address..run.address + run.bytes) {
                *self.pages.entry(at) = further(run.shown, at - run.address);
                written.entries += 1;
            }
        }
        Ok(written)
    }

    fn look_up(&self, address: u64) -> Result<Seen, Refusal> {
        self.table.view().lookup(self.bounds, address)
    }

    /// Compares each page entry with look-ups of the page's first and last byte.
    fn compare(&mut self) -> Result<(), Box<dyn Error>> {
        for address in (0..2 * PAGES as u64).map(|i| START + i / 2 * PAGE + i % 2 * (PAGE - 1)) {
            let expected = further(*self.pages.entry(address), address % PAGE);
            if self.look_up(address)?.shown != expected {
                let why = "the page entry is not what a look-up says at";
                return Err(format!("{why} {address:#x}").into());
            }
        }
        self.compared += 1;
        Ok(())
    }

    /// What a debugfs file would show.
    fn print(&self) {
        println!("start     end       pages  object       offset");
        for mapping in self.table.view().mappings() {
            let (start, end, pages) = (mapping.address, end_of(mapping), mapping.size / PAGE);
            let (name, offset) = (name_of(mapping.object), mapping.offset);
            println!("{start:#x}  {end:#x}  {pages:5}  {name:11}  {offset:#x}");
        }
        for range in self.table.view().ranges() {
            let (start, end, pages) = (range.start, range.start + range.size, range.size / PAGE);
            println!("{start:#x}  {end:#x}  {pages:5}  (sparse)");
        }
        let (start, size) = (self.bounds.reserved_start, self.bounds.reserved_size);
        let (end, pages) = (start + size, size / PAGE);
        println!("{start:#x}  {end:#x}  {pages:5}  (reserved)");
    }
}

/// Requests by numbers, as a driver makes them itself.
fn ask(space: &mut AddressSpace) -> Result<(), Box<dyn Error>> {
    let framebuffer = Request::map(0x10_0000, 8 * PAGE, FRAMEBUFFER, 0);
    let texture = Request::map(0x10_2000, 2 * PAGE, TEXTURE, 0x50_0000);
    let longer = Request::map(0x10_2000, 5 * PAGE, TEXTURE, 0x50_0000);
    let third = Request::map(0x10_4000, PAGE, TEXTURE, 0x50_2000);
    let around = Request::map(0x10_3000, 3 * PAGE, TEXTURE, 0x50_1000);
    for (what, request) in [
        ("map the framebuffer", framebuffer),
        ("map the texture into it", texture),
        ("map more of the texture", longer),
        ("map its third page again", third),
        ("map its neighbours too", around),
        ("map the framebuffer again", framebuffer),
        ("unmap two pages", Request::unmap(0x10_1000, 2 * PAGE)),
    ] {
        println!("{what}");
        space.bind(request)?;
        space.compare()?;
    }
    Ok(())
}

/// The bytes of a record's field, little-endian.
fn get(record: &[u8], at: usize, bytes: usize) -> u64 {
    let bytes = record[at..].iter().take(bytes).rev();
    bytes.fold(0, |value, &byte| (value << 8) | u64::from(byte))
}

/// What a record asks for: its addr and range.
fn range_of(record: &[u8]) -> Range<u64> {
    let (address, size) = (get(record, 16, 8), get(record, 32, 8));
    address..address + size
}

/// Requests by records, as programs hand them over in an ioctl: a good one, then hostile ones.
fn ask_by_record(space: &mut AddressSpace) -> Result<(), Box<dyn Error>> {
    println!("map a part of the ring");
    let ring = Request::map(0x10_2000, 3 * PAGE, RING, 0x1000);
    space.bind_record(&ring.record())?;
    space.compare()?;

    let past = Request::map(u64::MAX - PAGE + 1, 2 * PAGE, RING, 0);
    let reserved = Request::map(0x10_d000, 2 * PAGE, RING, 0);
    let unmap = Request::unmap(0x10_1000, 3 * PAGE);
    let mut with_object = unmap;
    with_object.object = RING;
    let mut with_flags = unmap;
    with_flags.flags = 1;
    for (what, record) in [
        ("map past 2^64", &past.record()[..]),
        ("map the reservation", &reserved.record()),
        ("unmap an object", &with_object.record()),
        ("unmap with flags", &with_flags.record()),
        ("unmap by 39 bytes", &unmap.record()[..39]),
    ] {
        println!("{what}");
        let before = space.clone();
        let Err(failure) = space.bind_record(record) else {
            return Err("a hostile request was granted".into());
        };
        println!("  {failure}");
        if *space != before {
            return Err("a refused request changed something".into());
        }
        space.compare()?;
    }
    Ok(())
}

/// A stray write into the table: the next call tells which mapping it hit. A count that was not kept
/// up: the next call does not take what it tells of for the whole table, or for the whole list.
fn ask_with_broken_table(space: &AddressSpace) -> Result<(), Box<dyn Error>> {
    let mut broken = space.clone();
    broken.table.words[table_words(2) + 1] += 1;
    let mut forgetful = space.clone();
    forgetful.table.count -= 1;
    let mut sparse = space.clone();
    sparse.table.range_count -= 1;
    for (what, mut space) in [
        ("unmap in a broken table", broken),
        ("unmap with a count that is too low", forgetful),
        ("unmap with a count of ranges that is too low", sparse),
    ] {
        println!("{what}");
        let before = space.clone();
        let Err(failure) = space.bind(Request::unmap(0x10_0000, PAGE)) else {
            return Err("a broken table was taken".into());
        };
        println!("  {failure}");
        if space != before {
            return Err("a refused request changed a broken table".into());
        }
    }
    Ok(())
}

/// Lets a request fail after no page entry, after one and so on, until it goes through.
fn fail_half_way(
    space: &mut AddressSpace,
    bind: impl Fn(&mut AddressSpace) -> Result<(), Failure>,
) -> Result<(), Box<dyn Error>> {
    let before = space.table;
    let mut failed = 0;
    loop {
        space.pages.memory = failed;
        let done = bind(space);
        space.compare()?;
        if done != Err(Failure::WentBack) {
            done?;
            break;
        }
        if space.table != before {
            return Err("going back left another table".into());
        }
        failed += 1;
    }
    let last = failed
        .checked_sub(1)
        .ok_or("a request did not fail half-way")?;
    println!("  failed half-way first, after 0 to {last} page entries: went back each time");
    let FromLookUps { entries, look_ups } = space.went_back;
    println!("  going back: {entries} page entries written from {look_ups} look-ups");
    space.pages.memory = PLENTY;
    Ok(())
}

/// Requests that hit mappings in all ways: in the middle, at an end, wholly, and with keep.
fn ask_without_memory(space: &mut AddressSpace) -> Result<(), Box<dyn Error>> {
    let into = Request::map(0x10_3000, PAGE, TEXTURE, 0);
    let whole = Request::map(0x10_1000, 6 * PAGE, RING, 0);
    for (what, request) in [("map into the ring", into), ("map all of the ring", whole)] {
        println!("{what}, at first without memory");
        fail_half_way(space, |space| space.bind(request))?;
    }
    let elsewhere = Request::map(0x10_a000, 2 * PAGE, FRAMEBUFFER, 0);
    let between = Request::map(0x10_5000, 6 * PAGE, TEXTURE, 0);
    for (what, request) in [
        ("map where nothing is", elsewhere),
        ("map across three mappings", between),
        ("unmap across two", Request::unmap(0x10_4000, 3 * PAGE)),
    ] {
        println!("{what}, at first without memory");
        fail_half_way(space, |space| space.bind_record(&request.record()))?;
    }
    Ok(())
}

/// An array of requests, as a program hands it over in one ioctl. The last one of the first batch
/// maps over entries that an earlier one kept; it fails half-way first. Two batches have a request
/// that is refused.
fn ask_by_batch(space: &mut AddressSpace) -> Result<(), Box<dyn Error>> {
    let start_up = [
        Request::map(0x10_0000, 8 * PAGE, FRAMEBUFFER, 0),
        Request::map(0x10_2000, 2 * PAGE, TEXTURE, 0x50_0000),
        Request::map(0x10_2000, 5 * PAGE, TEXTURE, 0x50_0000),
        Request::unmap(0x10_7000, PAGE),
        Request::map(0x11_0000, 2 * PAGE, RING, 0),
        Request::map(0x10_3000, 2 * PAGE, RING, 0),
    ];
    let change = [
        Request::unmap(0x10_0000, 8 * PAGE),
        Request::map(0x10_0000, 4 * PAGE, TEXTURE, 0),
        Request::map(0x10_d000, 2 * PAGE, RING, 0),
    ];
    let sparse = [
        Request::unmap(0x10_0000, 8 * PAGE),
        Request::map_sparse(0x11_2000, 8 * PAGE),
        Request::map(0x11_2000, 4 * PAGE, TILES, 0),
    ];
    let shut_down = [
        Request::unmap(0x10_0000, 8 * PAGE),
        Request::unmap(0x11_0000, 2 * PAGE),
    ];
    println!("start up in one batch, at first without memory");
    let records = start_up.map(Request::record).concat();
    fail_half_way(space, |space| space.bind_batch(&records))?;
    println!("change all of it, and map the reservation");
    ask_batch_in_vain(space, &change.map(Request::record).concat())?;
    println!("reserve a sparse texture in a batch");
    ask_batch_in_vain(space, &sparse.map(Request::record).concat())?;
    println!("shut down in one batch, at first without memory");
    let records = shut_down.map(Request::record).concat();
    fail_half_way(space, |space| space.bind_batch(&records))
}

/// Of a refused batch nothing is carried out, and nothing has to be taken back.
fn ask_batch_in_vain(space: &mut AddressSpace, records: &[u8]) -> Result<(), Box<dyn Error>> {
    let mut before = space.clone();
    before.operations.fill(0);
    before.work.fill(0);
    let Err(failure) = space.bind_batch(records) else {
        return Err("a hostile batch was granted".into());
    };
    println!("  {failure}");
    if *space != before {
        return Err("a refused batch left something".into());
    }
    space.compare()
}

/// A sparse texture: all its addresses are reserved at once, tiles are mapped and unmapped in it,
/// and in the end it is released. Then a range that lies over mappings, which stays. What is carried
/// out fails half-way first.
fn ask_for_sparse(space: &mut AddressSpace) -> Result<(), Box<dyn Error>> {
    let reserve = Request::map_sparse(0x11_2000, 8 * PAGE);
    let again = Request::map_sparse(0x11_9000, 2 * PAGE);
    let release = Request::unmap_sparse(0x11_2000, 8 * PAGE);
    let half = Request::unmap_sparse(0x11_2000, 4 * PAGE);
    let four = Request::map(0x11_2000, 4 * PAGE, TILES, 0);
    let across = Request::map(0x11_9000, 2 * PAGE, RING, 0);
    let another = Request::map(0x11_3000, PAGE, TILES, 0x8000);
    let over = Request::map_sparse(0x10_3000, 7 * PAGE);
    for (what, request, refusal) in [
        ("reserve a sparse texture", reserve, None),
        ("reserve its end again", again, Some(Refusal::RangeOverlaps)),
        ("map four tiles of it", four, None),
        ("map across its end", across, None),
        ("map another tile", another, None),
        ("unmap a tile", Request::unmap(0x11_4000, PAGE), None),
        (
            "unmap across its end",
            Request::unmap(0x11_9000, 2 * PAGE),
            None,
        ),
        ("release it too early", release, Some(Refusal::NoSuchRange)),
        ("unmap all of it", Request::unmap(0x11_2000, 8 * PAGE), None),
        ("release half of it", half, Some(Refusal::NoSuchRange)),
        ("release it", release, None),
        ("reserve over mappings", over, None),
    ] {
        match refusal {
            None => {
                println!("{what}, at first without memory");
                fail_half_way(space, |space| space.bind(request))?;
            }
            Some(refusal) => {
                println!("{what}");
                ask_in_vain(space, request, refusal)?;
            }
        }
    }
    Ok(())
}

fn ask_in_vain(
    space: &mut AddressSpace,
    request: Request,
    refusal: Refusal,
) -> Result<(), Box<dyn Error>> {
    let before = space.clone();
    let done = space.bind(request);
    if done != Err(Failure::Refused(refusal)) || *space != before {
        return Err("a sparse range was not left as it is".into());
    }
    println!("  refused: {refusal}");
    space.compare()
}

fn run() -> Result<(), Box<dyn Error>> {
    let mut space = AddressSpace {
        bounds: Space::new(START, PAGES as u64 * PAGE).reserving(START + 14 * PAGE, 2 * PAGE),
        table: Stored {
            words: [0; TABLE_WORDS],
            count: 0,
            ranges: [0; RANGE_WORDS],
            range_count: 0,
        },
        operations: [0; LIST_WORDS],
        work: [0; TABLE_WORDS],
        pages: PageTable {
            entries: [Shown::Nothing; PAGES],
            memory: PLENTY,
        },
        went_back: FromLookUps::default(),
        compared: 0,
    };
    ask_by_batch(&mut space)?;
    ask(&mut space)?;
    ask_by_record(&mut space)?;
    ask_without_memory(&mut space)?;
    ask_for_sparse(&mut space)?;
    ask_with_broken_table(&space)?;
    space.print();
    for address in [0x10_0fff, 0x10_2010, 0x10_5000, 0x10_8000, 0x10_c000] {
        let seen = space.look_up(address)?;
        print!("{address:#x} ");
        match seen.shown {
            Shown::Nothing => print!("shows nothing"),
            Shown::Sparse => print!("is sparse"),
            Shown::Object { object, offset } => print!("shows {}+{offset:#x}", name_of(object)),
        }
        println!(" up to {:#x}", address + seen.bytes);
    }
    let requests = space.compared;
    println!("all {PAGES} pages agreed with look-ups after each of {requests} requests");
    Ok(())
}

fn main() -> ExitCode {
    match run() {
        Ok(()) => ExitCode::SUCCESS,
        Err(error) => {
            eprintln!("driver: {error}");
            ExitCode::FAILURE
        }
    }
}
