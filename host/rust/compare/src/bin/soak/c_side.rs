//! The C program that makes the same calls through the header: `host/c/answer.c`.

use crate::call::{Asked, Call, Outcome, ANSWER_WORDS};
use std::io::{self, BufReader, Read, Write};
use std::net::Shutdown;
use std::os::fd::OwnedFd;
use std::os::unix::net::UnixStream;
use std::process::{Child, Command};
use std::thread;
use std::time::Duration;
use waylluqen::ffi;
use waylluqen_compare::calls::{describe, lines};
use waylluqen_compare::library;
use waylluqen_model::{MAPPING_WORDS, OPERATION_WORDS, RANGE_WORDS, RECORD_BYTES};

/// Longer than any call takes, also where there is much else to do.
const PATIENCE: Duration = Duration::from_secs(20);

/// The running program, and both ends of what it reads and writes.
pub struct CSide {
    child: Child,
    calls: UnixStream,
    answers: BufReader<UnixStream>,
}

impl CSide {
    pub fn start(program: &str) -> io::Result<CSide> {
        let (ours, theirs) = UnixStream::pair()?;
        ours.set_read_timeout(Some(PATIENCE))?;
        ours.set_write_timeout(Some(PATIENCE))?;
        let child = Command::new(program)
            .stdin(OwnedFd::from(theirs.try_clone()?))
            .stdout(OwnedFd::from(theirs))
            .spawn()?;
        Ok(CSide {
            child,
            calls: ours.try_clone()?,
            answers: BufReader::with_capacity(1 << 17, ours),
        })
    }

    /// Has all the calls made, and compares what each leaves to what the model says.
    pub fn compare(&mut self, calls: &[Call]) {
        let mut bytes = Vec::new();
        for call in calls {
            put_call(&mut bytes, call);
        }
        let Self {
            child,
            calls: stream,
            answers,
        } = self;
        let compared = thread::scope(|scope| {
            // A program that has ended takes no more; its answers tell.
            scope.spawn(move || stream.write_all(&bytes).ok());
            let compared = compare_answers(answers, calls);
            if compared.is_err() {
                child.kill().ok();
            }
            compared
        });
        match compared {
            Ok(()) => {}
            Err(Failure::Difference(report)) => panic!("from C: {report}"),
            Err(Failure::NoAnswer(error, report)) => {
                let status = child.wait().expect("it was started here");
                panic!("from C: no answer, {error}, {status}\n{report}")
            }
        }
    }

    /// Ends the program, which has no more to answer.
    pub fn end(mut self) {
        self.calls
            .shutdown(Shutdown::Write)
            .expect("the socket is open");
        let mut rest = Vec::new();
        if let Err(error) = self.answers.read_to_end(&mut rest) {
            self.child.kill().ok();
            panic!("from C: no end, {error}");
        }
        let status = self.child.wait().expect("it was started here");
        let more = rest.len();
        assert!(
            more == 0 && status.success(),
            "from C: {more} bytes behind the last answer, {status}"
        );
    }
}

/// Why a call failed, and which one.
enum Failure {
    Difference(String),
    NoAnswer(io::Error, String),
}

fn compare_answers(answers: &mut impl Read, calls: &[Call]) -> Result<(), Failure> {
    for (place, call) in calls.iter().enumerate() {
        let outcome = read_outcome(answers, call)
            .map_err(|error| Failure::NoAnswer(error, report(place, call)))?;
        if outcome != call.outcome() {
            let report = report(place, call) + &left(&outcome);
            return Err(Failure::Difference(report));
        }
    }
    Ok(())
}

/// What a call asks as the program reads it: kind, request, address, record.
fn asked_parts(asked: &Asked) -> (u64, [u64; 5], u64, &[u8]) {
    match asked {
        Asked::Numbers(request, _) => {
            let ffi::Numbers {
                op,
                address,
                size,
                object,
                offset,
            } = library::numbers(request);
            (0, [op, address, size, object, offset], 0, &[])
        }
        Asked::Record(record, _) => (1, [0; 5], 0, record),
        Asked::Lookup(address, _) => (2, [0; 5], *address, &[]),
        Asked::Check(record, _) => (3, [0; 5], 0, record),
        Asked::Batch(records, _) => (4, [0; 5], 0, records),
        Asked::Entries(mapping, _) => {
            let [address, size, object, offset] = mapping.words();
            (5, [0, address, size, object, offset], 0, &[])
        }
    }
}

/// Adds a call as the program reads it.
fn put_call(bytes: &mut Vec<u8>, call: &Call) {
    let (what, request, address, record) = asked_parts(&call.asked);
    let space = &call.table.space;
    let head = [
        what,
        u64::from(call.goes_on),
        call.at_back,
        space.start,
        space.size,
        space.reserved_start,
        space.reserved_size,
        call.table.list.words.len() as u64,
        call.table.list.count,
        call.table.words.len() as u64,
        call.table.count,
        call.work.len() as u64,
        call.operations.len() as u64,
        record.len() as u64,
    ];
    put_words(bytes, &head);
    put_words(bytes, &request);
    put_words(bytes, &[address]);
    if !call.goes_on {
        put_words(bytes, &call.table.list.words);
        put_words(bytes, &call.table.words);
    }
    put_words(bytes, &call.work);
    put_words(bytes, &call.operations);
    bytes.extend_from_slice(record);
}

fn put_words(bytes: &mut Vec<u8>, words: &[u64]) {
    for word in words {
        bytes.extend_from_slice(&word.to_ne_bytes());
    }
}

/// What the program left, as much as this call should leave.
fn read_outcome(answers: &mut impl Read, call: &Call) -> io::Result<Outcome> {
    let mut answer = [0; ANSWER_WORDS];
    let words = read_words(answers, ANSWER_WORDS)?;
    answer.copy_from_slice(&words);
    Ok(Outcome {
        answer,
        list: read_words(answers, call.table.list.words.len())?,
        table: read_words(answers, call.table.words.len())?,
        work: read_words(answers, call.work.len())?,
        operations: read_words(answers, call.operations.len())?,
    })
}

fn read_words(answers: &mut impl Read, words: usize) -> io::Result<Vec<u64>> {
    let mut bytes = vec![0; words * 8];
    answers.read_exact(&mut bytes)?;
    let (words, _) = bytes.as_chunks();
    Ok(words.iter().copied().map(u64::from_ne_bytes).collect())
}

/// The call at this place of its round, and what the model says.
fn report(place: usize, call: &Call) -> String {
    let asked = match &call.asked {
        Asked::Numbers(request, bound) => format!("{request:x?}\nmodel {bound:x?}"),
        Asked::Record(record, bound) => format!("record {record:02x?}\nmodel {bound:x?}"),
        Asked::Lookup(address, looked) => format!("look up {address:#x}\nmodel {looked:x?}"),
        Asked::Check(record, number) => format!("check {record:02x?}\nmodel {number}"),
        Asked::Entries(mapping, listed) => format!("entries of {mapping:x?}\nmodel {listed:x?}"),
        Asked::Batch(records, batched) => {
            let lines: Vec<String> = records
                .chunks(RECORD_BYTES)
                .map(|record| format!("record {record:02x?}"))
                .collect();
            format!("{}\nmodel {batched:x?}", lines.join("\n"))
        }
    };
    let table = describe(&call.table);
    format!("call {place} of the round\n{table}{asked}\n")
}

fn left(outcome: &Outcome) -> String {
    format!(
        "library {:x?}\nthe list afterwards:\n{}\nthe table afterwards:\n{}\n\
         to work in, {} words:\n{}\noperations, {} words:\n{}",
        outcome.answer,
        lines(&outcome.list, RANGE_WORDS),
        lines(&outcome.table, MAPPING_WORDS),
        outcome.work.len(),
        lines(&outcome.work, MAPPING_WORDS),
        outcome.operations.len(),
        lines(&outcome.operations, OPERATION_WORDS)
    )
}
