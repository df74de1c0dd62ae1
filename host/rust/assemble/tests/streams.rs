//! Standard streams that can't be read or written: told on one line, with status 1.

#![forbid(unsafe_code)]

use std::fs::{File, OpenOptions};
use std::io::Write;
use std::process::{Child, Command, Stdio};

fn start(arguments: &[&str], input: impl Into<Stdio>, output: impl Into<Stdio>) -> Child {
    Command::new(env!("CARGO_BIN_EXE_waylluqen-assemble"))
        .args(arguments)
        .stdin(input)
        .stdout(output)
        .stderr(Stdio::piped())
        .spawn()
        .unwrap()
}

/// That the program ends with status 1 and tells this.
fn tells(what: &str, program: Child) {
    let ended = program.wait_with_output().unwrap();
    let told = String::from_utf8(ended.stderr).unwrap();
    assert_eq!(told, format!("assemble: {what}\n"));
    assert_eq!(ended.status.code(), Some(1));
}

fn for_reading(path: &str) -> File {
    File::open(path).unwrap()
}

fn for_writing(path: &str) -> File {
    OpenOptions::new().write(true).open(path).unwrap()
}

#[test]
fn output_that_is_open_for_reading_only() {
    let worked = concat!(env!("CARGO_MANIFEST_DIR"), "/../../../examples/worked.txt");
    // An empty script, and the help, have to be written as well.
    for arguments in [&[worked][..], &[], &["--help"]] {
        let program = start(arguments, Stdio::null(), for_reading("/dev/null"));
        tells("standard output: Bad file descriptor", program);
    }
}

#[test]
fn output_that_is_full() {
    let program = start(&["--help"], Stdio::null(), for_writing("/dev/full"));
    tells("standard output: No space left on device", program);
}

#[test]
fn output_that_nobody_reads() {
    let mut program = start(&[], Stdio::piped(), Stdio::piped());
    drop(program.stdout.take());
    let mut input = program.stdin.take().unwrap();
    input.write_all(b"LK 0\n").unwrap();
    drop(input);
    tells("standard output: Broken pipe", program);
}

#[test]
fn input_that_can_not_be_read() {
    for arguments in [&[][..], &["-"]] {
        let program = start(arguments, for_writing("/dev/null"), Stdio::null());
        tells("standard input: Bad file descriptor", program);
        let program = start(arguments, for_reading("/"), Stdio::null());
        tells("standard input: Is a directory", program);
    }
    let mut elsewhere = start(&["/dev/null"], for_writing("/dev/null"), Stdio::null());
    assert!(elsewhere.wait().unwrap().success());
}

#[test]
fn input_without_an_end() {
    let program = start(&[], for_reading("/dev/zero"), Stdio::null());
    tells("standard input: longer than 64 MiB", program);
}
