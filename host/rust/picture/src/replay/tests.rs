//! Texts that replay, and each way in which one does not.

use super::*;

const WORKED: &str = include_str!("../../../../../examples/worked.out");

fn mapping(words: [u64; 4]) -> Mapping {
    Mapping::of(words).unwrap()
}

/// What is told of the worked example with one of its lines, counted from 1, as `text`.
fn told(number: usize, text: &str) -> (usize, String) {
    let mut lines: Vec<&str> = WORKED.lines().collect();
    lines[number - 1] = text;
    told_of(lines.join("\n"))
}

fn told_of(text: impl AsRef<[u8]>) -> (usize, String) {
    let bad = replay(text, None, None).err().expect("a line that is bad");
    (bad.line, bad.what)
}

#[test]
fn the_worked_example() {
    let replayed = replay(WORKED, None, None).unwrap();
    assert_eq!(replayed.grants, 2);
    let grant = replayed.wanted.unwrap();
    let old = mapping([0, 12288, 7, 0]);
    let (lower, upper) = (mapping([0, 4096, 7, 0]), mapping([8192, 4096, 7, 8192]));
    let new = mapping([4096, 4096, 9, 0]);
    assert_eq!(grant.before, [old]);
    assert_eq!(grant.after, [lower, new, upper]);
    let [remap, map] = &grant.operations[..] else {
        panic!("two operations");
    };
    assert_eq!((remap.kind, remap.named), (Kind::Remap, old));
    assert_eq!(remap.rests, [(Side::Lower, lower), (Side::Upper, upper)]);
    assert_eq!((map.kind, map.named), (Kind::Map, new));

    let first = replay(WORKED, None, Some(1)).unwrap().wanted.unwrap();
    assert_eq!((first.before, first.after), (vec![], vec![old]));
    assert_eq!(replay(WORKED, None, Some(3)).unwrap().wanted, None);
}

#[test]
fn every_example_replays() {
    for (text, grants) in [
        (include_str!("../../../../../examples/startup.out"), 10),
        (include_str!("../../../../../examples/every-line.out"), 354),
        (
            include_str!("../../../../../examples/sparse-texture.out"),
            11,
        ),
        (include_str!("../../../../../examples/full-table.out"), 261),
        (include_str!("../../../../../examples/broken.out"), 1),
        ("refused 1\nat 0 none 4096\ncut 3\n", 0),
        ("", 0),
    ] {
        let replayed = replay(text, None, None).unwrap();
        assert_eq!(
            (replayed.grants, replayed.wanted.is_some()),
            (grants, grants > 0)
        );
    }
}

/// The script of a text, as the assembler makes it.
fn script(text: &str) -> Vec<u8> {
    waylluqen_assemble::text::assemble(text.as_bytes()).unwrap()
}

#[test]
fn every_example_replays_beside_its_script() {
    macro_rules! example {
        ($name:literal) => {
            (
                include_str!(concat!("../../../../../examples/", $name, ".txt")),
                include_str!(concat!("../../../../../examples/", $name, ".out")),
            )
        };
    }
    for (records, text) in [
        example!("worked"),
        example!("startup"),
        example!("sparse-texture"),
        example!("every-line"),
        example!("full-table"),
        example!("broken"),
    ] {
        let script = script(records);
        let grants = replay(text, None, None).unwrap().grants;
        for wanted in 1..=grants.min(120) {
            let alone = replay(text, None, Some(wanted)).unwrap().wanted.unwrap();
            let beside = replay(text, Some(&script), Some(wanted)).unwrap();
            let beside = beside.wanted.unwrap();
            assert!(beside.space.is_some() && alone.space.is_none());
            assert_eq!(alone.sparse, Sparse::default());
            assert_eq!(
                (alone.before, alone.operations, alone.after),
                (beside.before, beside.operations, beside.after)
            );
        }
    }
}

const RANGES: &str = "SP 0 65536
map-sparse 0x1000 0x3000
map 0x2000 0x1000 7 0
map-sparse 0x4000 0x1000
LK 0x1000
unmap-sparse 0x1000 0x3000
unmap 0x2000 0x1000
unmap-sparse 0x1000 0x3000
SP 0 0
SP 4096 8192
unmap 4096 4096";

const OF_RANGES: &str = "space 256
granted 0 0
granted 1 1
map 8192 4096 7 0
granted 0 1
at 4096 sparse 4096
refused 20
granted 1 0
unmap 8192 4096 7 0 keep 0
granted 0 0
refused 1
space 256
granted 0 0
";

#[test]
fn a_script_has_the_sparse_ranges_and_the_space() {
    let script = script(RANGES);
    let range = |start, end| Range { start, end };
    let (first, second) = (range(0x1000, 0x4000), range(0x4000, 0x5000));
    for (wanted, before, after, changed) in [
        (1, vec![], vec![first], Some(first)),
        (2, vec![first], vec![first], None),
        (3, vec![first], vec![first, second], Some(second)),
        (4, vec![first, second], vec![first, second], None),
        (5, vec![first, second], vec![second], Some(first)),
        (6, vec![], vec![], None),
    ] {
        let replayed = replay(OF_RANGES, Some(&script), Some(wanted)).unwrap();
        let Grant { sparse, space, .. } = replayed.wanted.unwrap();
        let expected = Sparse {
            before,
            after,
            changed,
        };
        assert_eq!(sparse, expected, "grant {wanted}");
        let bytes = if wanted < 6 { 65536 } else { 8192 };
        assert_eq!(space.unwrap().range.size(), bytes);
    }
}

#[test]
fn a_script_of_another_text() {
    let told = |records: &str, text: &str| {
        let script = script(records);
        let bad = replay(text, Some(&script), None).err().unwrap();
        (bad.line, bad.what)
    };
    let other = "is no answer to the record that the script has here".to_string();
    assert_eq!(told("LK 0", WORKED), (1, other.clone()));
    assert_eq!(told("SP 0 65536\nLK 0", WORKED), (2, other.clone()));
    assert_eq!(
        told("SP 0 65536\nmap 0 4096 7 0", "space 256\nat 0 none 1"),
        (2, other.clone())
    );
    assert_eq!(told("bytes 00", "refused 1"), (1, other.clone()));
    assert_eq!(told("LK 0", "mark 0"), (1, other));
    let ended = "the script has ended before this line".to_string();
    assert_eq!(told("SP 0 65536", WORKED), (2, ended));
    let operation = "a request for a sparse range has no operation".to_string();
    assert_eq!(
        told("SP 0 65536\nmap-sparse 0 4096", WORKED),
        (2, operation)
    );
    let twice = "SP 0 65536\nrepeat 2: map-sparse 0 4096";
    let overlap = "the script's range overlaps the sparse one 0x0 – 0x1000".to_string();
    assert_eq!(
        told(twice, "space 256\ngranted 0 0\ngranted 0 0"),
        (3, overlap)
    );
    let none = "there is no sparse range 0x0 – 0x1000 to remove".to_string();
    let remove = "SP 0 65536\nunmap-sparse 0 4096";
    assert_eq!(told(remove, "space 256\ngranted 0 0"), (2, none));
    let space = "the space is no range of whole pages that ends at or below 2^48".to_string();
    assert_eq!(told("SP 1 65536", "space 256"), (1, space));
    // A text that ends before its script does is as good as any other that ends.
    assert!(replay("space 256\n", Some(&script(RANGES)), None).is_ok());
}

#[test]
fn a_space_empties_the_table() {
    let again = format!("{WORKED}{WORKED}granted 0 3\n");
    let grant = replay(&again, None, Some(3)).unwrap().wanted.unwrap();
    assert_eq!(grant.before, []);
    let none = replay(&again, None, None).unwrap().wanted.unwrap();
    assert_eq!((none.operations.len(), none.after.len()), (0, 3));
}

#[test]
fn mappings_that_do_not_fit_the_table() {
    let absent = "there is no such mapping in the table".to_string();
    assert_eq!(told(5, "remap 0 8192 7 0 keep 0"), (5, absent.clone()));
    assert_eq!(told(5, "unmap 0 12288 8 0 keep 0"), (5, absent));
    let overlap = "overlaps the mapping 0x0 – 0x1000".to_string();
    assert_eq!(told(8, "map 0 8192 9 0"), (8, overlap.clone()));
    assert_eq!(told(7, "upper 0 12288 7 0"), (7, overlap));
}

#[test]
fn rests_that_are_none() {
    let what = "is no rest of a mapping that is remapped before it".to_string();
    for rest in [
        "upper 8192 8192 7 8192",
        "upper 8192 4096 8 8192",
        "upper 8192 4096 7 0",
        "upper 4096 4096 7 4096",
        "lower 8192 4096 7 8192",
    ] {
        assert_eq!(told(7, rest), (7, what.clone()));
    }
    assert_eq!(told(9, "upper 8192 4096 7 8192"), (9, what.clone()));
    assert_eq!(told(2, "lower 0 4096 7 0"), (2, what));
}

#[test]
fn numbers_that_differ() {
    let mappings = "tells of 4 mappings, and there are 3".to_string();
    assert_eq!(told(4, "granted 2 4"), (4, mappings));
    let operations = "tells of 3 operations, and there are 2".to_string();
    assert_eq!(told(4, "granted 3 3"), (4, operations));
    let untold = "no granted line has told of this operation".to_string();
    assert_eq!(told(4, "granted 1 2"), (8, untold.clone()));
    assert_eq!(told(2, "at 0 none 65536"), (3, untold));
    let cut: Vec<&str> = WORKED.lines().take(7).collect();
    let operations = "tells of 2 operations, and there are 1".to_string();
    assert_eq!(told_of(cut.join("\n")), (4, operations));
}

#[test]
fn lines_of_no_kind() {
    for text in ["", "granted", "map 0 4096 7 0 keep 0"] {
        assert_eq!(told(4, text), (4, format!("'{text}' is no line of vmbind")));
    }
    let stopped = "vmbind has stopped before this line".to_string();
    assert_eq!(
        told_of(format!("{WORKED}mark 96\nat 0 7 0 4096\n")),
        (11, stopped)
    );
}

#[test]
fn lines_are_those_of_a_text() {
    for text in ["", "\n", "\r\n", "a", "a\n", "a\r\nb\r", "\n\na\r\r\nb\n"] {
        let lines: Vec<&[u8]> = lines_of(text.as_bytes()).collect();
        let wanted: Vec<&[u8]> = text.lines().map(str::as_bytes).collect();
        assert_eq!(lines, wanted);
    }
    let told = r"'at 0 \xff\x1b' is no line of vmbind".to_string();
    assert_eq!(told_of(b"space 256\r\nat 0 \xff\x1b\nat"), (2, told));
}

/// A text that grants as many maps as said.
fn maps(count: u64) -> String {
    (0..count)
        .map(|at| format!("granted 1 {}\nmap {} 4096 7 0\n", at + 1, at << 12))
        .collect()
}

#[test]
fn a_table_has_an_end() {
    let full = replay(maps(4096), None, None).unwrap();
    assert_eq!((full.grants, full.table.len()), (4096, 4096));
    let told = "a table has no more than 4096 mappings".to_string();
    assert_eq!(told_of(maps(4097)), (8194, told));
}

#[test]
fn a_request_has_an_end() {
    let pairs = "map 0 4096 7 0\nunmap 0 4096 7 0 keep 0\n";
    let all = format!("granted 4097 1\n{}map 0 4096 7 0", pairs.repeat(2048));
    let grant = replay(all, None, None).unwrap().wanted.unwrap();
    assert_eq!(grant.operations.len(), 4097);
    let told = "a request has no more than 4097 operations".to_string();
    let more = format!("granted 999999 0\n{}", pairs.repeat(2049));
    assert_eq!(told_of(more), (4099, told));
}
