//! The model's output for scripts, worked out by hand.

use std::fmt::Display;
use waylluqen_model::{script, write, Record, Space, PAGE, SCRIPT_MAPPINGS, SCRIPT_RANGES};

const MAP: u32 = 0;
const UNMAP: u32 = 1;
const LIMIT: u64 = 1 << 48;

fn space(start: u64, size: u64, reserved_start: u64, reserved_size: u64) -> Vec<u8> {
    let space = Space {
        start,
        size,
        reserved_start,
        reserved_size,
    };
    write::space(&space).to_vec()
}

/// The fields in the order in which a mapping is printed.
fn map(address: u64, size: u64, object: u32, offset: u64) -> Vec<u8> {
    write::request(&Record::plain(MAP, object, address, offset, size)).to_vec()
}

fn unmap(address: u64, size: u64) -> Vec<u8> {
    write::request(&Record::plain(UNMAP, 0, address, 0, size)).to_vec()
}

fn map_sparse(address: u64, size: u64) -> Vec<u8> {
    write::request(&Record::sparse(MAP, address, size)).to_vec()
}

fn unmap_sparse(address: u64, size: u64) -> Vec<u8> {
    write::request(&Record::sparse(UNMAP, address, size)).to_vec()
}

fn look_up(address: u64) -> Vec<u8> {
    write::lookup(address).to_vec()
}

/// 16 pages, nothing reserved.
fn plain_space() -> Vec<u8> {
    space(0, 16 * PAGE, 0, 0)
}

/// These records make these lines.
fn prints(records: &[Vec<u8>], lines: &[impl Display]) {
    let lines: String = lines.iter().map(|line| format!("{line}\n")).collect();
    assert_eq!(script(&records.concat()), lines);
}

/// Document 01's example, every byte of it.
#[test]
fn worked_example() {
    let bytes: Vec<u8> = [
        b"SP".as_slice(),
        &[0, 0, 0, 0, 0, 0, 0, 0],
        &[0, 0, 1, 0, 0, 0, 0, 0],
        &[0, 0, 0, 0, 0, 0, 0, 0],
        &[0, 0, 0, 0, 0, 0, 0, 0],
        b"RQ",
        &[0, 0, 0, 0, 0, 0, 0, 0, 7, 0, 0, 0, 0, 0, 0, 0],
        &[0, 0, 0, 0, 0, 0, 0, 0],
        &[0, 0, 0, 0, 0, 0, 0, 0],
        &[0, 48, 0, 0, 0, 0, 0, 0],
        b"RQ",
        &[0, 0, 0, 0, 0, 0, 0, 0, 9, 0, 0, 0, 0, 0, 0, 0],
        &[0, 16, 0, 0, 0, 0, 0, 0],
        &[0, 0, 0, 0, 0, 0, 0, 0],
        &[0, 16, 0, 0, 0, 0, 0, 0],
        b"LK",
        &[8, 32, 0, 0, 0, 0, 0, 0],
    ]
    .concat();
    let records = [
        space(0, 65536, 0, 0),
        map(0, 12288, 7, 0),
        map(4096, 4096, 9, 0),
        look_up(8200),
    ];
    assert_eq!(records.concat(), bytes);
    let printed = "space 256\n\
                   granted 1 1\n\
                   map 0 12288 7 0\n\
                   granted 2 3\n\
                   remap 0 12288 7 0 keep 0\n\
                   lower 0 4096 7 0\n\
                   upper 8192 4096 7 8192\n\
                   map 4096 4096 9 0\n\
                   at 8200 7 8200 4088\n";
    assert_eq!(script(&bytes), printed);
}

#[test]
fn empty_script() {
    assert_eq!(script(&[]), "");
}

#[test]
fn numbers_are_decimal_and_whole() {
    let highest = u64::from(u32::MAX);
    prints(
        &[
            space(0, LIMIT, 0, 0),
            look_up(0),
            map(LIMIT - 2 * PAGE, 2 * PAGE, u32::MAX, LIMIT - 2 * PAGE),
            look_up(LIMIT - 1),
            look_up(LIMIT),
            look_up(u64::MAX),
            look_up(highest + 1),
        ],
        &[
            "space 256",
            "at 0 none 281474976710656",
            "granted 1 1",
            "map 281474976702464 8192 4294967295 281474976702464",
            "at 281474976710655 4294967295 281474976710655 1",
            "at 281474976710656 none 0",
            "at 18446744073709551615 none 0",
            "at 4294967296 none 281470681735168",
        ],
    );
}

/// An unmap, and a remap with each of its rests.
#[test]
fn operations_with_a_keep_mark() {
    prints(
        &[
            plain_space(),
            map(0, 5 * PAGE, 7, 0),
            // As it was.
            map(0, 5 * PAGE, 7, 0),
            // The start alone: an upper rest.
            map(0, PAGE, 7, 0),
            // The end alone: a lower rest. Then the middle: both.
            map(4 * PAGE, PAGE, 7, 4 * PAGE),
            map(2 * PAGE, PAGE, 7, 2 * PAGE),
        ],
        &[
            "space 256",
            "granted 1 1",
            "map 0 20480 7 0",
            "granted 2 1",
            "unmap 0 20480 7 0 keep 1",
            "map 0 20480 7 0",
            "granted 2 2",
            "remap 0 20480 7 0 keep 1",
            "upper 4096 16384 7 4096",
            "map 0 4096 7 0",
            "granted 2 3",
            "remap 4096 16384 7 4096 keep 1",
            "lower 4096 12288 7 4096",
            "map 16384 4096 7 16384",
            "granted 2 5",
            "remap 4096 12288 7 4096 keep 1",
            "lower 4096 4096 7 4096",
            "upper 12288 4096 7 12288",
            "map 8192 4096 7 8192",
        ],
    );
}

#[test]
fn operations_that_keep_nothing() {
    prints(
        &[
            plain_space(),
            map(PAGE, 3 * PAGE, 7, PAGE),
            // The end alone: a lower rest.
            unmap(3 * PAGE, 2 * PAGE),
            // The start, for another object; then nothing, then all that is left.
            map(PAGE, PAGE, 9, 5 * PAGE),
            unmap(8 * PAGE, PAGE),
            unmap(0, 16 * PAGE),
        ],
        &[
            "space 256",
            "granted 1 1",
            "map 4096 12288 7 4096",
            "granted 1 1",
            "remap 4096 12288 7 4096 keep 0",
            "lower 4096 8192 7 4096",
            "granted 2 2",
            "remap 4096 8192 7 4096 keep 0",
            "upper 8192 4096 7 8192",
            "map 4096 4096 9 20480",
            "granted 0 2",
            "granted 2 0",
            "unmap 4096 4096 9 20480 keep 0",
            "unmap 8192 4096 7 8192 keep 0",
        ],
    );
}

#[test]
fn lookups() {
    prints(
        &[
            space(16 * PAGE, 16 * PAGE, 24 * PAGE, PAGE),
            map(17 * PAGE, 2 * PAGE, 7, 3 * PAGE),
            look_up(16 * PAGE),
            look_up(17 * PAGE - 1),
            look_up(17 * PAGE),
            look_up(19 * PAGE - 1),
            look_up(19 * PAGE),
            // In the reservation, which ends no gap; below the space, and 0; its last byte and end.
            look_up(24 * PAGE),
            look_up(16 * PAGE - 1),
            look_up(0),
            look_up(32 * PAGE - 1),
            look_up(32 * PAGE),
        ],
        &[
            "space 256",
            "granted 1 1",
            "map 69632 8192 7 12288",
            "at 65536 none 4096",
            "at 69631 none 1",
            "at 69632 7 12288 8192",
            "at 77823 7 20479 1",
            "at 77824 none 53248",
            "at 98304 none 32768",
            "at 65535 none 0",
            "at 0 none 0",
            "at 131071 none 1",
            "at 131072 none 0",
        ],
    );
}

/// A mapping that is cut shows what it showed, but no longer goes on over the cut.
#[test]
fn lookups_beside_a_cut() {
    prints(
        &[
            plain_space(),
            map(0, 3 * PAGE, 7, 0),
            look_up(8),
            // The same page again, which becomes a mapping of its own; then it goes.
            map(PAGE, PAGE, 7, PAGE),
            look_up(8),
            look_up(PAGE + 8),
            unmap(PAGE, PAGE),
            look_up(PAGE + 8),
            look_up(2 * PAGE + 8),
        ],
        &[
            "space 256",
            "granted 1 1",
            "map 0 12288 7 0",
            "at 8 7 8 12280",
            "granted 2 3",
            "remap 0 12288 7 0 keep 1",
            "lower 0 4096 7 0",
            "upper 8192 4096 7 8192",
            "map 4096 4096 7 4096",
            "at 8 7 8 4088",
            "at 4104 7 4104 4088",
            "granted 1 2",
            "unmap 4096 4096 7 4096 keep 0",
            "at 4104 none 4088",
            "at 8200 7 8200 4088",
        ],
    );
}

/// A range with a mapping in it: no line but how many mappings there are, and what it shows.
#[test]
fn sparse_ranges() {
    prints(
        &[
            plain_space(),
            map_sparse(2 * PAGE, 4 * PAGE),
            map(3 * PAGE, PAGE, 7, 0),
            look_up(0),
            look_up(2 * PAGE + 8),
            look_up(3 * PAGE + 8),
            look_up(4 * PAGE),
            // One that touches it, and one that shares a page with it.
            map_sparse(6 * PAGE, PAGE),
            map_sparse(PAGE, 2 * PAGE),
            look_up(4 * PAGE + 1),
            look_up(6 * PAGE),
        ],
        &[
            "space 256",
            "granted 0 0",
            "granted 1 1",
            "map 12288 4096 7 0",
            "at 0 none 8192",
            "at 8200 sparse 4088",
            "at 12296 7 8 4088",
            "at 16384 sparse 8192",
            "granted 0 1",
            "refused 19",
            "at 16385 sparse 8191",
            "at 24576 sparse 4096",
        ],
    );
}

/// Not while something is mapped there, not by another size; then it goes.
#[test]
fn sparse_ranges_that_go() {
    prints(
        &[
            plain_space(),
            map_sparse(2 * PAGE, 4 * PAGE),
            map(3 * PAGE, PAGE, 7, 0),
            unmap_sparse(2 * PAGE, 4 * PAGE),
            unmap(3 * PAGE, PAGE),
            look_up(3 * PAGE),
            unmap_sparse(2 * PAGE, 5 * PAGE),
            unmap_sparse(2 * PAGE, 4 * PAGE),
            look_up(3 * PAGE),
        ],
        &[
            "space 256",
            "granted 0 0",
            "granted 1 1",
            "map 12288 4096 7 0",
            "refused 20",
            "granted 1 0",
            "unmap 12288 4096 7 0 keep 0",
            "at 12288 sparse 12288",
            "refused 20",
            "granted 0 0",
            "at 12288 none 53248",
        ],
    );
}

/// A granted space empties the list, a refused one does not.
#[test]
fn spaces_and_sparse_ranges() {
    prints(
        &[
            plain_space(),
            map_sparse(0, 2 * PAGE),
            space(0, 0, 0, 0),
            look_up(0),
            plain_space(),
            look_up(0),
            unmap_sparse(0, 2 * PAGE),
            map_sparse(0, PAGE),
            look_up(0),
        ],
        &[
            "space 256",
            "granted 0 0",
            "refused 1",
            "at 0 sparse 8192",
            "space 256",
            "at 0 none 65536",
            "refused 20",
            "granted 0 0",
            "at 0 sparse 4096",
        ],
    );
}

/// 64 ranges are all; room for mappings is another matter.
#[test]
fn full_list() {
    let ranges = SCRIPT_RANGES as u64;
    let mut records = vec![space(0, LIMIT, 0, 0), map(0, PAGE, 7, 0)];
    records.extend(
        (0..ranges)
            .rev()
            .map(|place| map_sparse(place * 2 * PAGE, PAGE)),
    );
    let before = script(&records.concat());
    assert!(before.ends_with("granted 0 1\n"));
    assert_eq!(before.lines().count(), 3 + SCRIPT_RANGES);
    let prints_then = |record: Vec<u8>, lines: &str| {
        let bytes = [records.concat(), record].concat();
        assert_eq!(script(&bytes), format!("{before}{lines}"));
    };
    prints_then(map_sparse(PAGE, PAGE), "refused 11\n");
    prints_then(map_sparse(PAGE, 2 * PAGE), "refused 19\n");
    prints_then(unmap_sparse(0, PAGE), "refused 20\n");
    prints_then(unmap_sparse(126 * PAGE, PAGE), "granted 0 1\n");
    prints_then(look_up(126 * PAGE), "at 516096 sparse 4096\n");
    prints_then(map(PAGE, PAGE, 8, 0), "granted 1 2\nmap 4096 4096 8 0\n");
    let again = [unmap_sparse(4 * PAGE, PAGE), map_sparse(3 * PAGE, 3 * PAGE)];
    prints_then(again.concat(), "granted 0 1\ngranted 0 1\n");
}

/// The record itself, then the space, then the rest.
#[test]
fn before_any_space() {
    let good = Record::plain(MAP, 7, 0, 0, PAGE);
    let with = |change: fn(&mut Record)| {
        let mut record = good;
        change(&mut record);
        write::request(&record).to_vec()
    };
    prints(
        &[
            with(|_| {}),
            with(|record| record.op = 2),
            with(|record| record.flags = 1),
            with(|record| record.pad = 1 << 31),
            with(|record| record.flags = 256),
            with(|record| record.addr = 1),
            look_up(0),
            // Refused, so that there is still none.
            space(0, 0, 0, 0),
            with(|_| {}),
            look_up(u64::MAX),
        ],
        &[
            "refused 1",
            "refused 13",
            "refused 14",
            "refused 14",
            "refused 1",
            "refused 1",
            "refused 1",
            "refused 1",
            "refused 1",
            "refused 1",
        ],
    );
}

#[test]
fn refused_requests() {
    let raw = |record: Record| write::request(&record).to_vec();
    let good = Record::plain(MAP, 7, 0, 0, PAGE);
    let refused = [
        (raw(Record { op: 2, ..good }), 13),
        (raw(Record { op: 256, ..good }), 13),
        (raw(Record { flags: 8, ..good }), 14),
        (raw(Record { pad: 1, ..good }), 14),
        (map(1, PAGE, 7, 0), 6),
        (map(0, 0, 7, 0), 6),
        (map(15 * PAGE, 2 * PAGE, 7, 0), 7),
        (map(u64::MAX - PAGE + 1, 2 * PAGE, 7, 0), 7),
        (map(7 * PAGE, 2 * PAGE, 7, 0), 8),
        (unmap(9 * PAGE, PAGE), 8),
        (map(0, PAGE, 0, 0), 9),
        (raw(Record { op: UNMAP, ..good }), 9),
        (raw(Record { flags: 256, ..good }), 9),
        (raw(Record { flags: 257, ..good }), 14),
        (map_sparse(0, 9 * PAGE), 8),
        (unmap_sparse(0, PAGE), 20),
        (map(0, 2 * PAGE, 7, LIMIT - PAGE), 10),
        (map(0, 2 * PAGE, 7, u64::MAX - PAGE + 1), 10),
    ];
    let mut records = vec![space(0, 16 * PAGE, 8 * PAGE, 2 * PAGE)];
    let mut lines = vec!["space 256".to_string()];
    for (record, number) in refused {
        records.push(record);
        lines.push(format!("refused {number}"));
    }
    // Nothing has come of them.
    records.push(unmap(0, 8 * PAGE));
    lines.push("granted 0 0".to_string());
    prints(&records, &lines);
}

/// 256 mappings are all; room that a request frees counts.
#[test]
fn full_table() {
    let mappings = SCRIPT_MAPPINGS as u64;
    let mut records = vec![space(0, LIMIT, 0, 0)];
    records.extend((0..mappings).map(|place| map(place * 3 * PAGE, 3 * PAGE, 7, 0)));
    let before = script(&records.concat());
    assert!(before.ends_with("granted 1 256\nmap 3133440 12288 7 0\n"));
    let prints_then = |record: Vec<u8>, lines: &str| {
        let bytes = [records.concat(), record].concat();
        assert_eq!(script(&bytes), format!("{before}{lines}"));
    };
    prints_then(map(mappings * 3 * PAGE, PAGE, 8, 0), "refused 11\n");
    prints_then(map(PAGE, PAGE, 8, 0), "refused 11\n");
    prints_then(unmap(PAGE, PAGE), "refused 11\n");
    prints_then(
        map(0, 3 * PAGE, 8, 0),
        "granted 2 256\nunmap 0 12288 7 0 keep 0\nmap 0 12288 8 0\n",
    );
    let unmaps: String = (0..mappings)
        .map(|place| format!("unmap {} 12288 7 0 keep 0\n", place * 3 * PAGE))
        .collect();
    prints_then(
        map(0, LIMIT, 8, 0),
        &format!("granted 257 1\n{unmaps}map 0 281474976710656 8 0\n"),
    );
}

#[test]
fn refused_space_changes_nothing() {
    prints(
        &[
            plain_space(),
            map(0, PAGE, 7, 0),
            space(PAGE, LIMIT, 0, 0),
            space(0, 0, 0, 0),
            look_up(1),
            map(15 * PAGE, PAGE, 7, 0),
            map(16 * PAGE, PAGE, 7, 0),
        ],
        &[
            "space 256",
            "granted 1 1",
            "map 0 4096 7 0",
            "refused 1",
            "refused 1",
            "at 1 7 1 4095",
            "granted 1 2",
            "map 61440 4096 7 0",
            "refused 7",
        ],
    );
}

#[test]
fn granted_space_empties() {
    prints(
        &[
            plain_space(),
            map(0, PAGE, 7, 0),
            space(0, 8 * PAGE, 0, 0),
            look_up(1),
            map(8 * PAGE, PAGE, 7, 0),
            map(0, PAGE, 7, 0),
        ],
        &[
            "space 256",
            "granted 1 1",
            "map 0 4096 7 0",
            "space 256",
            "at 1 none 32767",
            "refused 7",
            "granted 1 1",
            "map 0 4096 7 0",
        ],
    );
}

/// Whatever is missing behind a known mark, the record is cut, and the place is its mark's.
#[test]
fn cut_records() {
    let (start, request, address) = (plain_space(), unmap(0, PAGE), look_up(5));
    for missing in 1..=33 {
        let cut = &start[..34 - missing];
        assert_eq!(script(cut), "cut 0\n", "{missing} bytes missing");
    }
    for missing in 1..=41 {
        let cut = [&start, &request[..42 - missing]].concat();
        assert_eq!(script(&cut), "space 256\ncut 34\n");
    }
    for missing in 1..=9 {
        let cut = [&start, &request, &address[..10 - missing]].concat();
        assert_eq!(script(&cut), "space 256\ngranted 0 0\ncut 76\n");
    }
    // One byte that starts no mark.
    assert_eq!(script(b"X"), "cut 0\n");
    let left_over = [&start, &request, &address, b"\0".as_slice()].concat();
    assert_eq!(
        script(&left_over),
        "space 256\ngranted 0 0\nat 5 none 65531\ncut 86\n"
    );
}

/// Two bytes that are no mark stop the program, however few or many stand behind them.
#[test]
fn other_marks() {
    for mark in [
        b"XY", b"PS", b"sp", b"SQ", b"SK", b"RP", b"LQ", b"\0\0", b"SS",
    ] {
        for behind in [0, 1, 8, 32, 40, 100] {
            let other = [mark.as_slice(), &vec![b'S'; behind]].concat();
            assert_eq!(script(&other), "mark 0\n");
            let later = [plain_space(), look_up(0), other, look_up(0)].concat();
            assert_eq!(script(&later), "space 256\nat 0 none 65536\nmark 44\n");
        }
    }
}
