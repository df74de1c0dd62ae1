//! Compares the script program to the model, script by script.

use waylluqen_compare::printed::{Tally, ENDS, LINES, NO_ROOM, REFUSALS};
use waylluqen_compare::program::Input;
use waylluqen_compare::scripts::{bad_script, good_script, Script, RANGE_ROOM, ROOM};
use waylluqen_compare::tables::{plain_spaces, small_spaces};
use waylluqen_model::random::Random;
use waylluqen_model::Space;

#[test]
fn good_scripts() {
    const SCRIPTS: u64 = 1500;
    let (mut tally, mut random) = Tally::new("good scripts", 201);
    for _ in 0..SCRIPTS {
        let records = random.up_to(200);
        let mut bytes = good_script(&mut random, records).bytes;
        bytes.extend(random.pick(&ENDS));
        tally.compare_by_turn(&bytes);
    }
    tally.print();
    tally.assert_kinds(&LINES, 500);
    tally.assert_kinds(&["mark", "cut"], 100);
}

#[test]
fn bad_scripts() {
    const SCRIPTS: u64 = 1500;
    let (mut tally, mut random) = Tally::new("bad scripts", 211);
    for _ in 0..SCRIPTS {
        let records = random.up_to(200);
        let mut bytes = bad_script(&mut random, records).bytes;
        bytes.extend(random.pick(&ENDS));
        tally.compare_by_turn(&bytes);
    }
    tally.print();
    tally.assert_kinds(&LINES, 100);
    tally.assert_kinds(&REFUSALS, 500);
    tally.assert_kinds(&["mark", "cut"], 100);
}

/// Takes bytes out, puts some in or changes some, so that what follows stands at other places.
fn damage(random: &mut Random, bytes: &mut Vec<u8>) {
    let at = random.below(1 + bytes.len() as u64) as usize;
    let end = (at + 1 + random.below(4) as usize).min(bytes.len());
    let mut other = [0; 4];
    random.fill(&mut other);
    match random.below(4) {
        0 => drop(bytes.drain(at..end)),
        1 => drop(bytes.splice(at..at, other)),
        2 => drop(bytes.splice(at..at, *b"SPRQLK")),
        _ => drop(bytes.splice(at..end, other)),
    }
}

#[test]
fn any_bytes() {
    const SCRIPTS: u64 = 1000;
    let (mut tally, mut random) = Tally::new("any bytes", 221);
    for _ in 0..SCRIPTS {
        let mut bytes = bad_script(&mut random, 12).bytes;
        match random.below(8) {
            0 => random.fill(&mut bytes),
            // A right mark, and any bytes behind it.
            1..=3 => {
                bytes.truncate(random.below(80) as usize);
                random.fill(&mut bytes);
                let mark = random.pick(&[b"SP", b"RQ", b"LK"]);
                bytes.splice(..bytes.len().min(2), *mark);
            }
            _ => damage(&mut random, &mut bytes),
        }
        tally.compare_by_turn(&bytes);
    }
    tally.print();
    tally.assert_kinds(&["mark", "cut", "granted"], 100);
    tally.assert_kinds(&["refused 1", "refused 13"], 100);
}

#[test]
fn empty_script_and_single_bytes() {
    let (mut tally, _) = Tally::new("empty script and single bytes", 0);
    for input in [Input::File, Input::Pipe] {
        tally.compare(&[], input);
        for byte in 0..=u8::MAX {
            tally.compare(&[byte], input);
        }
    }
    tally.print();
    tally.assert_kinds(&["cut"], 512);
}

/// Tables that are full or nearly so, requests about their mappings, and then one over them all.
#[test]
fn full_tables() {
    let (mut tally, mut random) = Tally::new("full tables", 231);
    for space in plain_spaces() {
        for missing in [0, 0, 0, 1, 1, 2, 3, 8] {
            let mut script = Script::filled(&mut random, space, ROOM - missing);
            script.fill_list(&mut random, 6);
            for _ in 0..40 {
                script.narrow_step(&mut random);
            }
            script.look_up_boundaries();
            script.sweep(&mut random);
            for _ in 0..10 {
                script.good_step(&mut random);
            }
            tally.compare_by_turn(&script.bytes);
            // All of them at once: 257 operations if the table is full.
            let mut script = Script::filled(&mut random, space, ROOM - missing);
            script.sweep(&mut random);
            tally.compare_by_turn(&script.bytes);
        }
    }
    tally.print();
    tally.assert_kinds(&LINES, 20);
    tally.assert_kinds(&[NO_ROOM], 300);
}

/// Lists that are full or nearly so, beside few mappings or many, and requests about their ranges.
#[test]
fn full_lists() {
    let (mut tally, mut random) = Tally::new("full lists", 233);
    for space in plain_spaces() {
        for (mappings, ranges) in [
            (2, RANGE_ROOM),
            (8, RANGE_ROOM),
            (40, 60),
            (ROOM, RANGE_ROOM),
        ] {
            for _ in 0..3 {
                let mut script = Script::filled(&mut random, space, mappings);
                script.fill_list(&mut random, ranges);
                for _ in 0..100 {
                    script.sparse_step(&mut random);
                }
                script.look_up_boundaries();
                // All that is mapped goes, so that every range can.
                script.sweep(&mut random);
                for _ in 0..60 {
                    script.sparse_step(&mut random);
                }
                script.look_up_boundaries();
                tally.compare_by_turn(&script.bytes);
            }
        }
    }
    tally.print();
    tally.assert_kinds(
        &["granted 0", "at sparse", "refused 19", "refused 20"],
        1000,
    );
    tally.assert_kinds(&[NO_ROOM], 100);
}

/// A granted space empties the list, a refused one does not.
#[test]
fn spaces_and_lists() {
    let (mut tally, mut random) = Tally::new("spaces and lists", 234);
    for space in plain_spaces().into_iter().chain(small_spaces()) {
        for _ in 0..10 {
            let mut script = Script::empty();
            script.space(&space);
            for _ in 0..4 {
                script.fill_list(&mut random, 8);
                script.look_up_boundaries();
                let size = random.pick(&[0, space.size, space.size]);
                script.space(&Space { size, ..space });
                script.look_up_boundaries();
            }
            tally.compare_by_turn(&script.bytes);
        }
    }
    tally.print();
    tally.assert_kinds(&["granted 0", "at sparse", "at none", "refused 1"], 100);
}

/// Look-ups at every boundary of what some requests leave: in spaces of a few pages, and in tables
/// that are full or nearly so.
#[test]
fn look_ups_at_every_boundary() {
    let (mut tally, mut random) = Tally::new("look-ups at every boundary", 235);
    for _ in 0..25 {
        for space in small_spaces() {
            let mut script = Script::empty();
            script.space(&space);
            for _ in 0..random.below(12) {
                script.good_step(&mut random);
            }
            script.look_up_boundaries();
            tally.compare_by_turn(&script.bytes);
        }
    }
    for space in plain_spaces() {
        for missing in [0, 1, 40] {
            let mut script = Script::filled(&mut random, space, ROOM - missing);
            script.fill_list(&mut random, 20);
            script.look_up_boundaries();
            tally.compare_by_turn(&script.bytes);
        }
    }
    tally.print();
    tally.assert_kinds(&["at", "at none", "at none 0", "at sparse"], 300);
}

#[test]
fn cuts_at_every_place() {
    let (mut tally, mut random) = Tally::new("cuts at every place", 241);
    for bytes in [
        good_script(&mut random, 20).bytes,
        bad_script(&mut random, 30).bytes,
    ] {
        for length in 0..=bytes.len() {
            tally.compare_by_turn(&bytes[..length]);
        }
    }
    tally.print();
    tally.assert_kinds(&["cut"], 1000);
}

/// Every wrong mark of which one byte is right, with few bytes behind it or many.
#[test]
fn marks_that_are_half_right() {
    let (mut tally, mut random) = Tally::new("marks that are half right", 251);
    for right in [*b"SP", *b"RQ", *b"LK"] {
        for byte in 0..=u8::MAX {
            for mark in [[right[0], byte], [byte, right[1]]] {
                let mut bytes = good_script(&mut random, 1).bytes;
                bytes.extend(mark);
                let behind = random.pick(&[0, 0, 1, 7, 8, 31, 32, 39, 40, 41, 100]);
                bytes.resize(bytes.len() + behind, byte);
                tally.compare_by_turn(&bytes);
            }
        }
    }
    tally.print();
    tally.assert_kinds(&["mark"], 1500);
}

/// A wrong mark before each record or in place of its mark.
#[test]
fn wrong_marks_at_every_record() {
    let (mut tally, mut random) = Tally::new("wrong marks at every record", 261);
    for _ in 0..6 {
        let script = good_script(&mut random, 60);
        for &place in &script.marks {
            let mark = random.pick(&[b"XY", b"PS", b"sp", b"Sp", b"SK", b"RP", b"\0\0", b"\n\n"]);
            let replaced = random.pick(&[0, mark.len()]);
            let mut bytes = script.bytes.clone();
            bytes.splice(place..place + replaced, *mark);
            bytes.truncate(place + mark.len() + random.up_to(60) as usize);
            tally.compare_by_turn(&bytes);
        }
    }
    tally.print();
    tally.assert_kinds(&["mark"], 300);
}
