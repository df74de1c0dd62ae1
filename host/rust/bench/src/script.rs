//! The script program on a million requests, beside the library's calls for the same requests.

use crate::line::space_and_mappings;
use std::fs::File;
use std::hint::black_box;
use std::io;
use std::path::Path;
use std::process::{Command, Stdio};
use std::time::Instant;
use waylluqen::{operation_list_words, range_words, table_words};
use waylluqen::{Ranges, Space, Table, RECORD_BYTES};
use waylluqen_compare::{library, program};
use waylluqen_model::random::Random;
use waylluqen_model::{self as model, write, Record, PAGE, SCRIPT_MAPPINGS, SCRIPT_RANGES};

const REQUESTS: usize = 1_000_000;

/// Of the 256 that the program's table has room for; a request adds up to two and takes up to one.
const MAPPINGS: usize = 250;

const ROUNDS: usize = 21;

const MAP: u32 = 0;
const UNMAP: u32 = 1;

/// The requests that make the table, and those that are timed: mapping over one mapping, into one,
/// and unmapping one, each put back by the next request.
struct Script {
    space: model::Space,
    first: Vec<Record>,
    timed: Vec<Record>,
}

fn change(random: &mut Random, [address, size, ..]: [u64; 4]) -> Record {
    let object = 100 + random.below(100) as u32;
    match random.below(3) {
        0 => Record::plain(MAP, object, address, 0, size),
        1 => Record::plain(MAP, object, address + size / 3 / PAGE * PAGE, 0, PAGE),
        _ => Record::plain(UNMAP, 0, address, 0, size),
    }
}

impl Script {
    fn new() -> Script {
        let (space, mappings) = space_and_mappings(MAPPINGS);
        let map = |&[address, size, object, offset]: &[u64; 4]| {
            Record::plain(MAP, object as u32, address, offset, size)
        };
        let mut random = Random::new(REQUESTS as u64);
        let mut timed = Vec::new();
        while timed.len() < REQUESTS {
            let old = random.pick(&mappings);
            timed.extend([change(&mut random, old), map(&old)]);
        }
        Script {
            space,
            first: mappings.iter().map(map).collect(),
            timed,
        }
    }

    fn bytes(&self) -> Vec<u8> {
        let mut bytes = write::space(&self.space).to_vec();
        for record in self.first.iter().chain(&self.timed) {
            bytes.extend_from_slice(&write::request(record));
        }
        bytes
    }
}

/// Seconds that the library takes for the requests that are timed; each is granted. The list has
/// room, as the program's has.
fn time_calls(space: Space, first: &[Record], timed: &[[u8; RECORD_BYTES]]) -> f64 {
    let mut words = [0; table_words(SCRIPT_MAPPINGS)];
    let mut ranges = [0; range_words(SCRIPT_RANGES)];
    let mut list = [0; operation_list_words(SCRIPT_MAPPINGS)];
    let mut table = Table::empty(&mut words).with_ranges(Ranges::empty(&mut ranges));
    for record in first {
        let bound = table.bind_record(space, &record.encode(), &mut list);
        assert!(bound.is_ok(), "the table is made");
    }
    let start = Instant::now();
    for record in timed {
        let bound = table.bind_record(space, black_box(record), &mut list);
        assert!(black_box(bound).is_ok(), "what is timed is granted");
    }
    start.elapsed().as_secs_f64()
}

/// Seconds that the program takes for the whole script, with its lines thrown away.
fn time_program(script: &Path) -> io::Result<f64> {
    let mut vmbind = Command::new(program::path());
    vmbind.stdin(File::open(script)?).stdout(Stdio::null());
    let start = Instant::now();
    let status = vmbind.status()?;
    assert!(status.success(), "vmbind failed");
    Ok(start.elapsed().as_secs_f64())
}

/// Seconds for the whole script: in the quickest round, and in the middle one.
pub struct Seconds {
    pub quickest: f64,
    pub median: f64,
}

impl Seconds {
    fn of(mut rounds: Vec<f64>) -> Seconds {
        rounds.sort_unstable_by(f64::total_cmp);
        Seconds {
            quickest: rounds[0],
            median: rounds[rounds.len() / 2],
        }
    }
}

pub struct Measured {
    pub requests: usize,
    pub mappings: usize,
    pub rounds: usize,
    pub program: Seconds,
    pub calls: Seconds,
}

/// Writes the script to this file, and times both ways in turn.
pub fn measure(file: &Path) -> io::Result<Measured> {
    let script = Script::new();
    std::fs::write(file, script.bytes())?;
    let space = library::space(&script.space);
    let timed: Vec<_> = script.timed.iter().map(Record::encode).collect();
    let (mut program, mut calls) = (Vec::new(), Vec::new());
    for _ in 0..ROUNDS {
        program.push(time_program(file)?);
        calls.push(time_calls(space, &script.first, &timed));
    }
    Ok(Measured {
        requests: REQUESTS,
        mappings: MAPPINGS,
        rounds: ROUNDS,
        program: Seconds::of(program),
        calls: Seconds::of(calls),
    })
}
