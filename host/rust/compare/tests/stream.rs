//! Compares the script program to the model where it matters how the bytes come in and go out:
//! in small chunks, across the ends of its buffers, much of them, and when they can't.

use std::fs::{File, OpenOptions};
use std::io::{self, Read, Seek, Write};
use std::os::fd::OwnedFd;
use std::os::unix::net::UnixStream;
use std::process::{Command, Stdio};
use std::thread;
use std::time::Duration;
use waylluqen_compare::near::record_of;
use waylluqen_compare::numbers::{space_of, LIMIT};
use waylluqen_compare::printed::{Tally, ENDS, LINES};
use waylluqen_compare::program::{file_of, gather, path, Input, Ran};
use waylluqen_compare::requests::{MAP, UNMAP};
use waylluqen_compare::scripts::{bad_script, good_script, Script, ROOM};
use waylluqen_model::random::Random;
use waylluqen_model::script::{first_part, Part, MARK_BYTES};
use waylluqen_model::{script, write, Mapping, Record, PAGE};

/// The program reads into a buffer of this many bytes, and gathers about so many to write.
const INPUT_BUFFER: usize = 8192;
const OUTPUT_BUFFER: usize = 12_288;

/// Adds some records.
type Add = fn(&mut Script);

#[test]
fn chunks() {
    let (mut tally, mut random) = Tally::new("chunks", 271);
    for length in 1..=43 {
        let good = good_script(&mut random, 60).bytes;
        tally.compare(&good, Input::Chunks(&[length]));
        let bad = bad_script(&mut random, 30).bytes;
        tally.compare(&bad, Input::Chunks(&[length]));
    }
    for _ in 0..100 {
        let lengths: Vec<usize> = (0..50).map(|_| 1 + random.below(43) as usize).collect();
        let mut bytes = bad_script(&mut random, 60).bytes;
        bytes.extend(random.pick(&ENDS));
        tally.compare(&bytes, Input::Chunks(&lengths));
    }
    tally.print();
    tally.assert_kinds(&LINES, 5);
    tally.assert_kinds(&["mark", "cut"], 10);
}

/// A script in two reads, the second from every place of it on.
#[test]
fn two_reads() {
    let (mut tally, mut random) = Tally::new("two reads", 281);
    let records = good_script(&mut random, 12).bytes;
    for end in ENDS {
        let bytes = [&records, end].concat();
        for first in 1..bytes.len() {
            tally.compare(&bytes, Input::Chunks(&[first, bytes.len()]));
        }
    }
    tally.print();
    tally.assert_kinds(&["mark", "cut"], 300);
}

/// A script of exactly this many bytes, an even number: a mapping, then spaces that are refused,
/// of 34 bytes, until look-ups, of 10 bytes, can make up what is left.
fn script_of_length(length: usize) -> Script {
    let mut script = Script::empty();
    script.space(&space_of([0, 16 * PAGE, 0, 0]));
    script.request(&Record::plain(MAP, 7, 0, 0, 12 * PAGE));
    while !(length - script.bytes.len()).is_multiple_of(10) {
        script.space(&space_of([0, 1, 0, 0]));
    }
    while script.bytes.len() < length {
        script.look_up(script.bytes.len() as u64 * 4);
    }
    assert_eq!(script.bytes.len(), length);
    script
}

/// Each kind of record across the end of the input buffer, at every place where a mark can stand:
/// all records have an even length. Behind it more records, or the end, or the end right there.
#[test]
fn input_buffers() {
    let (mut tally, mut random) = Tally::new("input buffers", 291);
    let kinds: [(usize, Add); 3] = [
        (34, |script| script.space(&space_of([0, 8 * PAGE, 0, 0]))),
        (42, |script| {
            script.request(&Record::plain(MAP, 9, PAGE, 0, PAGE));
        }),
        (10, |script| script.look_up(u64::MAX)),
    ];
    for (length, add) in kinds {
        for before in (0..=length).step_by(2) {
            for boundary in [INPUT_BUFFER, 2 * INPUT_BUFFER, 3 * INPUT_BUFFER] {
                let mut script = script_of_length(boundary - before);
                add(&mut script);
                tally.compare(&script.bytes[..boundary], Input::File);
                tally.compare(&script.bytes, Input::File);
                for _ in 0..20 {
                    script.good_step(&mut random);
                }
                script.bytes.extend(random.pick(&ENDS));
                tally.compare(&script.bytes, Input::File);
            }
        }
    }
    tally.print();
    tally.assert_kinds(&["cut", "mark", "remap keep 0", "space"], 20);
}

/// Cut about the ends of buffers, and read in lengths about that of a buffer.
#[test]
fn long_scripts() {
    let (mut tally, mut random) = Tally::new("long scripts", 301);
    let bytes = bad_script(&mut random, 900).bytes;
    for boundary in [INPUT_BUFFER, 2 * INPUT_BUFFER, 3 * INPUT_BUFFER] {
        for length in boundary - 50..boundary + 50 {
            tally.compare(&bytes[..length], Input::File);
        }
    }
    for about in [INPUT_BUFFER / 2, INPUT_BUFFER, 2 * INPUT_BUFFER] {
        for length in about - 3..=about + 3 {
            tally.compare(&bytes, Input::Chunks(&[length]));
            tally.compare(&bytes, Input::Chunks(&[length, 1]));
            tally.compare(&bytes, Input::Chunks(&[length, 43, 7]));
        }
    }
    tally.print();
    tally.assert_kinds(&LINES, 100);
    tally.assert_kinds(&["cut"], 200);
}

/// A script that prints exactly this many bytes, 90 or more: requests and look-ups before any
/// space, whose `refused 13` is 11 bytes and whose `refused 1` is 10.
fn script_that_prints(length: usize) -> Script {
    let mut script = Script::empty();
    let elevens = length % 10;
    for _ in 0..elevens {
        script.request(&Record::plain(2, 7, 0, 0, PAGE));
    }
    for _ in 0..(length - 11 * elevens) / 10 {
        script.look_up(0);
    }
    script
}

/// Scripts that end when a buffer of output is full or about so, in each of the ways to end.
#[test]
fn ends_about_full_output() {
    let (mut tally, mut random) = Tally::new("ends about full output", 311);
    let full = OUTPUT_BUFFER;
    let windows = [(full / 4, 12), (full / 2, 12), (full, 120), (2 * full, 30)];
    let near = windows.map(|(about, beside)| about - beside..=about + beside);
    let anywhere = (0..300).map(|_| full / 2 + random.below(2 * full as u64) as usize);
    let lengths: Vec<usize> = near.into_iter().flatten().chain(anywhere).collect();
    for length in lengths {
        let bytes = script_that_prints(length).bytes;
        assert_eq!(script(&bytes).len(), length);
        for end in ENDS {
            tally.compare(&[&bytes, end].concat(), Input::File);
        }
    }
    tally.print();
    tally.assert_kinds(&["mark", "cut"], 500);
}

/// One of as many mappings as there is room for. They fill all that there is, so that their lines
/// are long.
fn large_mapping(place: u64) -> Mapping {
    let size = LIMIT / ROOM;
    Mapping {
        address: place * size,
        size,
        object: u64::from(u32::MAX),
        offset: LIMIT - size,
    }
}

/// Records that print the same lines as often as they are added, all kinds of lines together.
const ROUNDS: [(&str, Add); 5] = [
    ("cuts", |script| {
        // All of it again, its start again, the end of that, a part of what is left, the end of what
        // is left.
        script.request(&Record::plain(MAP, 7, 0, 0, 12 * PAGE));
        script.request(&Record::plain(MAP, 7, 0, 0, 4 * PAGE));
        script.request(&Record::plain(MAP, 7, 3 * PAGE, 3 * PAGE, PAGE));
        script.request(&Record::plain(MAP, 9, 5 * PAGE, 0, PAGE));
        script.request(&Record::plain(UNMAP, 0, 10 * PAGE, 0, 6 * PAGE));
    }),
    ("look-ups", |script| {
        // All four numbers are long.
        script.look_up(large_mapping(ROOM - 1).address);
        script.look_up(LIMIT - 1);
        script.look_up(u64::MAX);
        script.look_up(7);
    }),
    ("sparse ranges", |script| {
        // One is added, can't be a second time, is looked at, and goes, but not by its start alone.
        script.request(&Record::sparse(MAP, LIMIT / 2, PAGE));
        script.request(&Record::sparse(MAP, LIMIT / 2, 2 * PAGE));
        script.look_up(LIMIT / 2 + 7);
        script.request(&Record::sparse(UNMAP, LIMIT / 2, 2 * PAGE));
        script.request(&Record::sparse(UNMAP, LIMIT / 2, PAGE));
    }),
    ("refusals", |script| {
        script.request(&Record::plain(MAP, 7, 1, 0, PAGE));
        script.request(&Record::plain(2, 7, 0, 0, PAGE));
        script.space(&space_of([1, 0, 0, 0]));
    }),
    ("spaces", |script| {
        script.space(&space_of([0, LIMIT, 0, 0]));
        script.request(&Record::plain(UNMAP, 0, 0, 0, PAGE));
    }),
];

/// Every kind of line at every place about the end of the output buffer: rounds of the same lines
/// that fill it twice, behind as many bytes as a round has, or fewer.
#[test]
fn output_buffers() {
    let (mut tally, _) = Tally::new("output buffers", 0);
    for (name, add) in ROUNDS {
        let mut rounds = Script::empty();
        rounds.space(&space_of([0, LIMIT, 0, 0]));
        rounds.request(&record_of(&large_mapping(ROOM - 1)));
        add(&mut rounds);
        let before = script(&rounds.bytes).len();
        add(&mut rounds);
        let round = script(&rounds.bytes).len() - before;
        for _ in 0..2 * OUTPUT_BUFFER / round + 2 {
            add(&mut rounds);
        }
        for shift in 0..round {
            let shifted = script_that_prints(90 + shift).bytes;
            tally.compare(&[shifted, rounds.bytes.clone()].concat(), Input::File);
        }
        println!("{name}: {round} bytes a round");
    }
    tally.print();
    tally.assert_kinds(&LINES, 1000);
    let refused = [
        "refused 1",
        "refused 6",
        "refused 13",
        "refused 19",
        "refused 20",
    ];
    tally.assert_kinds(&refused, 1000);
}

/// One request whose 257 lines of operations alone fill the output buffer, at every place of them.
#[test]
fn output_of_one_request() {
    let (mut tally, _) = Tally::new("output of one request", 0);
    let mut full = Script::empty();
    full.space(&space_of([0, LIMIT, 0, 0]));
    for place in 0..ROOM {
        full.request(&record_of(&large_mapping(place)));
    }
    let filled = script(&full.bytes).len();
    full.request(&Record::plain(MAP, 7, 0, 0, LIMIT));
    assert!(script(&full.bytes).len() - filled > OUTPUT_BUFFER);
    for shift in 0..80 {
        for end in ENDS {
            let shifted = script_that_prints(90 + shift).bytes;
            tally.compare(&[&shifted, &full.bytes, end].concat(), Input::File);
        }
    }
    tally.print();
    tally.assert_kinds(&["unmap keep 0"], 80 * ROOM);
}

/// Adds a record in a space of 16 pages, in which there are never many mappings.
fn small_step(random: &mut Random, script: &mut Vec<u8>) {
    let from = random.below(16);
    let (addr, range) = (from * PAGE, (1 + random.below(16 - from)) * PAGE);
    let object = 1 + random.below(3) as u32;
    let offset = random.below(3) * PAGE;
    let map = Record::plain(MAP, object, addr, offset, range);
    let unmap = Record::plain(UNMAP, 0, addr, 0, range);
    // Small, so that there are several and one of them is met.
    let sparse = Record::sparse(random.pick(&[MAP, UNMAP]), addr, range.min(2 * PAGE));
    match random.below(64) {
        0 => script.extend(write::space(&space_of([0, 16 * PAGE, 0, 0]))),
        1..=8 => script.extend(write::lookup(random.below(17 * PAGE))),
        9..=20 => script.extend(write::request(&unmap)),
        21..=23 => script.extend(write::request(&sparse)),
        _ => script.extend(write::request(&map)),
    }
}

#[test]
fn fifty_megabytes() {
    const BYTES: usize = 50_000_000;
    let (mut tally, mut random) = Tally::new("fifty megabytes", 321);
    let mut bytes = write::space(&space_of([0, 16 * PAGE, 0, 0])).to_vec();
    while bytes.len() < BYTES {
        small_step(&mut random, &mut bytes);
    }
    bytes.extend(ENDS[1]);
    tally.compare(&bytes, Input::Pipe);
    tally.print();
    tally.assert_kinds(&LINES, 1000);
    tally.assert_kinds(&["granted"], 1_000_000);
}

/// Whoever writes a record and waits for its lines gets them before writing the next one.
#[test]
fn lines_before_more_input() {
    let (mut reader, writer) = UnixStream::pair().expect("two sockets");
    let patience = Duration::from_secs(60);
    reader.set_read_timeout(Some(patience)).expect("not zero");
    let mut child = Command::new(path())
        .stdin(Stdio::piped())
        .stdout(OwnedFd::from(writer))
        .spawn()
        .expect("the program starts");
    let mut stdin = child.stdin.take().expect("a pipe");
    let bytes = good_script(&mut Random::new(361), 300).bytes;
    let (mut at, mut printed) = (0, 0);
    while let Part::Record(_, record) = first_part(&bytes[at..]) {
        let end = at + MARK_BYTES + record.len();
        stdin.write_all(&bytes[at..end]).expect("the program reads");
        let lines = script(&bytes[..end]);
        let mut out = vec![0; lines.len() - printed];
        reader
            .read_exact(&mut out)
            .expect("lines before the next record");
        assert!(out == lines.as_bytes()[printed..]);
        (at, printed) = (end, lines.len());
    }
    assert_eq!(at, bytes.len());
    drop(stdin);
    assert!(child.wait().expect("it was started here").success());
}

/// A place above 2^32: 4 GiB of requests that are refused, since no record has more bytes and
/// prints fewer. It takes some seconds.
#[test]
fn places_above_32_bits() {
    const RECORDS: usize = 1 << 15;
    const TIMES: usize = (1 << 32) / (42 * RECORDS) + 1;
    let block = write::request(&Record::plain(MAP, 7, 0, 0, PAGE)).repeat(RECORDS);
    let lines = script(&block);
    let mut command = Command::new(path());
    let mut child = command
        .stdin(Stdio::piped())
        .stdout(Stdio::piped())
        .spawn()
        .expect("the program starts");
    let (stdin, stdout) = (child.stdin.take(), child.stdout.take());
    thread::scope(|scope| {
        let mut stdin = stdin.expect("a pipe");
        scope.spawn(move || {
            for _ in 0..TIMES {
                stdin.write_all(&block).expect("the program reads on");
            }
            stdin.write_all(ENDS[1]).expect("the program reads on");
        });
        let mut stdout = stdout.expect("a pipe");
        let mut out = vec![0; lines.len()];
        for _ in 0..TIMES {
            stdout.read_exact(&mut out).expect("a line for each record");
            assert!(out == lines.as_bytes());
        }
        let mut last = String::new();
        stdout.read_to_string(&mut last).expect("text");
        assert_eq!(last, format!("mark {}\n", 42 * RECORDS * TIMES));
    });
    assert!(child.wait().expect("it was started here").success());
}

const CANNOT_READ: &str = "vmbind: cannot read standard input\n";
const CANNOT_WRITE: &str = "vmbind: cannot write standard output\n";

/// The program, started by a shell that has done something before.
fn by_shell(before: &str) -> Command {
    let mut command = Command::new("sh");
    command
        .arg("-c")
        .arg(format!("{before} \"$0\""))
        .arg(path());
    command
}

/// What a command leaves that needs no feeding.
fn gather_unfed(command: &mut Command) -> Ran {
    gather(command, |_, _| {}, 1 << 20)
}

/// There is an error, and before it nothing but whole lines, the first ones of these.
fn assert_error(ran: &Ran, error: &str, lines: &str) {
    assert_eq!(ran.err, error);
    assert!(ran.status.success(), "{}", ran.status);
    let out = String::from_utf8_lossy(&ran.out);
    let last = out.lines().last();
    assert!(out.is_empty() || out.ends_with('\n'), "cut: {last:?}");
    assert!(lines.starts_with(&*out), "does not belong there: {last:?}");
}

#[test]
fn input_that_cannot_be_read() {
    let directory = File::open(env!("CARGO_TARGET_TMPDIR")).expect("a directory");
    let mut command = Command::new(path());
    let ran = gather_unfed(command.stdin(directory).stdout(Stdio::piped()));
    assert_error(&ran, CANNOT_READ, "");
    let mut closed = by_shell("exec <&-; exec");
    let ran = gather_unfed(closed.stdin(Stdio::null()).stdout(Stdio::piped()));
    assert_error(&ran, CANNOT_READ, "");
}

/// A read that fails when a part of the script has come: the other end has no more and is open, and
/// the reader is told not to wait. What has come of a record then is not a record that is cut.
#[test]
fn input_that_fails_later() {
    const SEED: u64 = 331;
    let Script { bytes, marks, .. } = good_script(&mut Random::new(SEED), 500);
    let places: Vec<usize> = (0..200).chain((200..=bytes.len()).step_by(97)).collect();
    for &place in &places {
        let (mut writer, reader) = UnixStream::pair().expect("two sockets");
        let sent = writer.write_all(&bytes[..place]);
        sent.expect("room for the script");
        reader.set_nonblocking(true).expect("a socket may be so");
        let mut command = Command::new(path());
        command.stdin(OwnedFd::from(reader)).stdout(Stdio::piped());
        let ran = gather_unfed(&mut command);
        let ends = marks.iter().copied().chain([bytes.len()]);
        let whole = ends.filter(|&end| end <= place).max();
        let lines = script(&bytes[..whole.expect("0 is one")]);
        assert_error(&ran, CANNOT_READ, &lines);
    }
    let runs = places.len();
    println!("input that fails later: seed {SEED}, {runs} scripts");
}

/// Scripts that print a line, some lines, or more than the output buffer has room for.
fn scripts_that_print() -> Vec<Vec<u8>> {
    let lengths = [90, 200, 5000, OUTPUT_BUFFER, 3 * OUTPUT_BUFFER];
    let scripts = lengths.map(|length| script_that_prints(length).bytes);
    let ended = |bytes: &Vec<u8>| ENDS.map(|end| [bytes, end].concat());
    let mut all: Vec<Vec<u8>> = scripts.iter().flat_map(ended).collect();
    all.extend(ENDS[1..].iter().map(|end| end.to_vec()));
    all
}

#[test]
fn output_that_cannot_be_written() {
    for bytes in scripts_that_print() {
        let full = OpenOptions::new().write(true).open("/dev/full");
        let mut command = Command::new(path());
        command.stdout(full.expect("Linux has it"));
        let ran = gather_unfed(command.stdin(file_of(&bytes)));
        assert_error(&ran, CANNOT_WRITE, "");
        let mut closed = by_shell("exec >&-; exec");
        let ran = gather_unfed(closed.stdin(file_of(&bytes)));
        assert_error(&ran, CANNOT_WRITE, "");
        // Nobody reads, and the signal that would tell so is ignored.
        let (reader, writer) = io::pipe().expect("a pipe");
        drop(reader);
        let mut unread = by_shell("trap '' PIPE; exec");
        let ran = gather_unfed(unread.stdin(file_of(&bytes)).stdout(writer));
        assert_error(&ran, CANNOT_WRITE, "");
    }
}

/// A write that takes a part, because the file may not become longer, has not written all.
#[test]
fn output_that_is_taken_in_part() {
    let mut in_part = 0;
    for bytes in scripts_that_print() {
        let mut file = file_of(&[]);
        // Four blocks, of 512 bytes or of 1,024.
        let mut limited = by_shell("trap '' XFSZ; ulimit -f 4; exec");
        let stdout = file.try_clone().expect("the same file");
        let ran = gather_unfed(limited.stdin(file_of(&bytes)).stdout(stdout));
        let mut out = String::new();
        file.rewind().expect("a file has a start");
        file.read_to_string(&mut out).expect("text");
        let lines = script(&bytes);
        if lines.len() <= 2048 {
            assert_eq!((out, ran.err.as_str()), (lines, ""));
        } else {
            in_part += 1;
            assert!(lines.starts_with(&out) && out.len() < lines.len());
            assert_eq!(ran.err, CANNOT_WRITE);
        }
    }
    assert!(in_part >= 10);
}
