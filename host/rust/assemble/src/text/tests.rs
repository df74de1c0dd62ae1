//! Each kind of line, good and bad.

use super::*;

fn bytes(text: &str) -> Vec<u8> {
    assemble(text.as_bytes()).unwrap()
}

/// What is told of a line that is bad, at its place.
fn told(line: &str) -> String {
    let text = format!("LK 0\n\n{line}\nLK 0\n");
    let bad = assemble(text.as_bytes()).unwrap_err();
    assert_eq!(bad.line, 3);
    bad.what
}

#[test]
fn blank_lines_and_comments_have_no_bytes() {
    for text in [
        "",
        "\n",
        " \t\r\n\n",
        "# LK",
        "   # LK 0 #",
        "#repeat",
        "\u{2003}\n\x1f",
    ] {
        assert_eq!(bytes(text), b"");
    }
}

#[test]
fn a_space() {
    let values = [1_u64, 2, 3, 4].map(u64::to_le_bytes).concat();
    assert_eq!(bytes("SP 1 2 3 4"), [&b"SP"[..], &values].concat());
    assert_eq!(bytes("SP 1 2"), bytes("SP 1 2 0 0"));
    let wanted = "numbers, not 3: start size reserved-start reserved-size";
    assert_eq!(told("SP 1 2 3"), format!("SP wants 2 or 4 {wanted}"));
}

#[test]
fn requests() {
    let record = bytes("RQ 1 2 3 4 5 6 7");
    assert_eq!(&record[..18], b"RQ\x01\0\0\0\x02\0\0\0\x03\0\0\0\x04\0\0\0");
    assert_eq!(&record[18..], [5_u64, 6, 7].map(u64::to_le_bytes).concat());
    assert_eq!(bytes("map 1 2 3 4"), bytes("RQ 0 0 3 0 1 4 2"));
    assert_eq!(bytes("unmap 1 2"), bytes("RQ 1 0 0 0 1 0 2"));
    assert_eq!(
        told("map 1 2 3"),
        "map wants 4 numbers, not 3: address size object offset"
    );
    assert_eq!(told("unmap"), "unmap wants 2 numbers, not 0: address size");
}

#[test]
fn requests_for_sparse_ranges() {
    assert_eq!(bytes("map-sparse 1 2"), bytes("RQ 0 256 0 0 1 0 2"));
    assert_eq!(bytes("unmap-sparse 1 2"), bytes("RQ 1 256 0 0 1 0 2"));
    let two = bytes("map-sparse 0x1000 0x1000\nmap-sparse 0x3000 0x1000");
    assert_eq!(bytes("repeat 2: map-sparse 0x1000+0x2000*i 0x1000"), two);
    for kind in ["map-sparse", "unmap-sparse"] {
        for (numbers, count) in [("", 0), ("1", 1), ("1 2 3", 3), ("1 2 3 4", 4)] {
            let wanted = format!("{kind} wants 2 numbers, not {count}: address size");
            assert_eq!(told(&format!("{kind} {numbers}")), wanted);
        }
        let wanted = "size 18446744073709551616 does not fit in 64 bits";
        assert_eq!(told(&format!("{kind} 0 18446744073709551616")), wanted);
    }
}

#[test]
fn a_look_up() {
    assert_eq!(bytes("LK 0x1_23"), b"LK\x23\x01\0\0\0\0\0\0");
    assert_eq!(bytes("\tLK 1\r\nLK 2"), bytes("LK 1\nLK\u{a0}2 # two\n"));
    assert_eq!(told("LK"), "LK wants 1 numbers, not 0: address");
    let many = format!("LK {}", "7 ".repeat(4096));
    assert_eq!(told(&many), "LK wants 1 numbers, not 4096: address");
    assert_eq!(told("LK 1*i"), "'1*i' is not a number");
}

#[test]
fn raw_bytes() {
    assert_eq!(bytes("bytes 58 59 fF"), b"XY\xff");
    assert_eq!(told("bytes"), "bytes wants one byte at least");
    for word in ["5", "0x58", "+5", "g0", "5_5", "\u{e9}"] {
        let wanted = format!("'{word}' is not a byte of two hexadecimal digits");
        assert_eq!(told(&format!("bytes 58 {word}")), wanted);
    }
}

#[test]
fn repeated_lines() {
    assert_eq!(bytes("repeat 3: LK 0x10+5*i"), bytes("LK 16\nLK 21\nLK 26"));
    assert_eq!(bytes("repeat 2 :bytes 00"), [0, 0]);
    assert_eq!(bytes("repeat 0: what is never read"), b"");
    for line in [
        "repeat",
        "repeat 2 LK 0",
        "repeat 2:",
        "repeat 1 2: LK 0",
        "repeat : LK 0",
    ] {
        assert_eq!(told(line), "repeat wants a number, a colon and a record");
    }
    assert_eq!(told("repeat x: LK 0"), "'x' is not a number");
    assert_eq!(told("repeat 1: repeat 1: LK 0"), "'repeat' is not a record");
    assert_eq!(told("repeat: 1 LK 0"), "'repeat:' is not a record");
}

#[test]
fn a_number_has_to_fit_its_field() {
    assert_eq!(bytes("map 0 0 0xffff_ffff 0")[10..14], [0xff; 4]);
    assert_eq!(bytes("LK 0xffff_ffff_ffff_ffff")[2..], [0xff; 8]);
    assert_eq!(
        told("repeat 3: map 0 0 0x8000_0000*i 0"),
        "object 4294967296 does not fit in 32 bits"
    );
    assert_eq!(
        told("repeat 3: LK 0x8000_0000_0000_0000*i"),
        "address 18446744073709551616 does not fit in 64 bits"
    );
    // How many they are is told first.
    assert_eq!(
        told("LK 1 0x1_0000_0000_0000_0000"),
        "LK wants 1 numbers, not 2: address"
    );
}

#[test]
fn other_words_are_no_records() {
    for word in [
        "XY",
        "sp",
        "Map",
        "BYTES",
        "LK:",
        "sparse",
        "map_sparse",
        "map-Sparse",
        "unmap-sparse:",
    ] {
        assert_eq!(told(word), format!("'{word}' is not a record"));
    }
    assert_eq!(told("\u{feff}LK"), r"'\u{feff}LK' is not a record");
}

#[test]
fn what_a_line_says_is_quoted() {
    let (esc, shown) = ("\x1b]0;title\x07", r"\x1b]0;title\x07");
    let (long, short) = ("x".repeat(1 << 20), format!("{}...", "x".repeat(37)));
    for (word, shown) in [(esc, shown), (&long, &short)] {
        assert_eq!(told(word), format!("'{shown}' is not a record"));
        assert_eq!(told(&format!("repeat 1: {word}")), told(word));
        let no_number = format!("'{shown}' is not a number");
        assert_eq!(told(&format!("LK {word}")), no_number);
        assert_eq!(told(&format!("repeat {word}: LK 0")), no_number);
        let no_byte = format!("'{shown}' is not a byte of two hexadecimal digits");
        assert_eq!(told(&format!("bytes {word}")), no_byte);
    }
}

#[test]
fn negative_numbers() {
    for line in [
        "SP -1 4096",
        "map 0 0 -1 0",
        "unmap 0 -1",
        "map-sparse -1 0",
        "unmap-sparse 0 -1",
        "LK -1",
        "LK 1 2 -1",
    ] {
        assert_eq!(told(line), "'-1' is negative");
    }
    assert_eq!(told("RQ 0 0 0 0 -0x10 0 0"), "'-0x10' is negative");
    assert_eq!(told("repeat -4_096: LK 0"), "'-4_096' is negative");
    assert_eq!(told("repeat 2: LK 8+-4*i"), "'-4' is negative");
}

#[test]
fn turns_have_a_limit() {
    assert_eq!(bytes("repeat 1_000_000: bytes 00").len(), 1_000_000);
    for turns in ["1000001", "0xf_4241", "18446744073709551616"] {
        let wanted = format!("repeat has at most 1000000 turns, not {turns}");
        assert_eq!(told(&format!("repeat {turns}: LK 0")), wanted);
    }
    let nines = "9".repeat(4096);
    let wanted = format!("{}... is too large", "9".repeat(37));
    assert_eq!(told(&format!("repeat {nines}: LK 0")), wanted);
}

#[test]
fn a_script_has_a_limit() {
    let script = |text: &str| assemble_within(text.as_bytes(), 94);
    let full = "repeat 2: map 0 0 0 0\nLK 0";
    assert_eq!(script(full).unwrap().len(), 94);
    for (text, line) in [
        ("repeat 3: map 0 0 0 0", 1),
        ("SP 0 0\nLK 0\nmap 0 0 0 0\nLK 0", 4),
        ("repeat 2: map 0 0 0 0\nLK 0\n\nbytes 00", 4),
    ] {
        let bad = script(text).unwrap_err();
        let what = "the script is longer than 256 MiB".to_string();
        assert_eq!(bad, BadLine { line, what });
    }
}

#[test]
fn bytes_that_are_no_text() {
    assert_eq!(assemble(b"LK 1 # \xff\xc3").unwrap(), bytes("LK 1"));
    let bad = assemble(b"LK 1\nLK \xc3\xa9\xed\xa0\x80\n").unwrap_err();
    assert_eq!(bad.line, 2);
    assert_eq!(bad.what, r"'\xed\xa0\x80' is not UTF-8");
}
