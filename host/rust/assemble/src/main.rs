//! Makes the bytes of a script for vmbind from a readable text; `--help` tells the text's form.

#![forbid(unsafe_code)]

use std::ffi::{OsStr, OsString};
use std::os::unix::ffi::OsStrExt;
use std::process::ExitCode;
use waylluqen_assemble::quote::named;
use waylluqen_assemble::stream::{read, tell, write};
use waylluqen_assemble::text;

const USAGE: &str = "usage: assemble [-h] [file]\n";

const HELP: &str = "
Makes the bytes of a script for vmbind from a readable text, one record a line:

  SP start size [reserved-start reserved-size]   a space; with two numbers nothing is reserved
  map address size object offset                 a request, in the order of a printed mapping
  unmap address size                             a request
  map-sparse address size                        a request, with the flag: a sparse range is added
  unmap-sparse address size                      a request, with the flag: one is removed
  RQ op flags handle pad addr bo_offset range    a request, every field of its record
  LK address                                     a look-up
  bytes 58 59 ff                                 bytes in hex, for scripts that are broken
  repeat 3: map 0x1000*i 0x1000 7 0x8000+4096*i  a line three times, with 0, 1 and 2 for i

Numbers are decimal or, with 0x, hexadecimal; _ may stand between digits. # starts a comment,
blank lines are free. A text has at most 64 MiB, a script 256 MiB, and repeat 1,000,000 turns.
A bad line is told on standard error, and then nothing is written.

positional arguments:
  file        the text; standard input if - or none

options:
  -h, --help  show this help message and exit
";

const FAILED: u8 = 1;
const BAD_USAGE: u8 = 2;

/// What the program's arguments ask for.
#[derive(Debug, PartialEq)]
enum Asked {
    Help,
    Assemble(OsString),
    /// The arguments that no rule takes.
    Unrecognized(Vec<OsString>),
}

fn asked(arguments: impl Iterator<Item = OsString>) -> Asked {
    let mut file = None;
    let mut others = Vec::new();
    let mut only_files = false;
    for word in arguments {
        let option = !only_files && word.len() > 1 && word.as_bytes()[0] == b'-';
        if option && word == "--" {
            only_files = true;
        } else if option && (word == "-h" || word == "--help") {
            return Asked::Help;
        } else if option || file.is_some() {
            others.push(word);
        } else {
            file = Some(word);
        }
    }
    if others.is_empty() {
        Asked::Assemble(file.unwrap_or_else(|| "-".into()))
    } else {
        Asked::Unrecognized(others)
    }
}

/// The script of a file, or what is wrong with it.
fn script(file: &OsStr) -> Result<Vec<u8>, String> {
    let bytes = read(file, text::MOST_TEXT)?;
    text::assemble(&bytes).map_err(|bad| format!("{}:{}: {}", named(file), bad.line, bad.what))
}

fn main() -> ExitCode {
    let done = match asked(std::env::args_os().skip(1)) {
        Asked::Help => write([USAGE, HELP].concat().as_bytes()),
        Asked::Assemble(file) => script(&file).and_then(|bytes| write(&bytes)),
        Asked::Unrecognized(words) => {
            let words = named(&words.join(OsStr::new(" ")));
            tell(&format!(
                "{USAGE}assemble: error: unrecognized arguments: {words}\n"
            ));
            return ExitCode::from(BAD_USAGE);
        }
    };
    if let Err(wrong) = done {
        tell(&format!("assemble: {wrong}\n"));
        return ExitCode::from(FAILED);
    }
    ExitCode::SUCCESS
}

#[cfg(test)]
mod tests {
    use super::*;

    fn asked_of(words: &[&str]) -> Asked {
        asked(words.iter().map(OsString::from))
    }

    fn unrecognized(words: &[&str]) -> Asked {
        Asked::Unrecognized(words.iter().map(OsString::from).collect())
    }

    #[test]
    fn one_file_or_standard_input() {
        assert_eq!(asked_of(&[]), Asked::Assemble("-".into()));
        assert_eq!(asked_of(&["-"]), Asked::Assemble("-".into()));
        assert_eq!(asked_of(&["a b"]), Asked::Assemble("a b".into()));
        assert_eq!(asked_of(&[""]), Asked::Assemble("".into()));
        assert_eq!(asked_of(&["--", "-h"]), Asked::Assemble("-h".into()));
    }

    #[test]
    fn help_goes_before_what_is_wrong() {
        for words in [&["-h"][..], &["--help"], &["a", "b", "-x", "-h"]] {
            assert_eq!(asked_of(words), Asked::Help);
        }
    }

    #[test]
    fn other_arguments_are_told() {
        assert_eq!(asked_of(&["a", "b", "c"]), unrecognized(&["b", "c"]));
        assert_eq!(asked_of(&["-x", "a"]), unrecognized(&["-x"]));
        assert_eq!(asked_of(&["--he"]), unrecognized(&["--he"]));
    }

    #[test]
    fn the_help_tells_the_limits() {
        let (text, script, turns) = (text::MOST_TEXT, text::MOST_SCRIPT, text::MOST_TURNS);
        let told = format!("{text} MiB, a script {script} MiB, and repeat {turns} turns");
        assert!(HELP.replace("1,000,000", "1000000").contains(&told));
    }
}
