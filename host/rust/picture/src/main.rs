//! Draws vmbind's text, or a saved table, as an SVG picture of the address space.

#![forbid(unsafe_code)]

mod colours;
mod column;
mod flow;
mod layout;
mod legend;
mod mapping;
mod number;
mod picture;
mod place;
mod replay;
mod saved;
mod script;
mod text;

use mapping::Space;
use picture::View;
use replay::Grant;
use std::ffi::OsString;
use std::os::unix::ffi::OsStrExt;
use std::process::ExitCode;
use waylluqen_assemble::quote::named;
use waylluqen_assemble::stream::{read, tell, write};
use waylluqen_svg as svg;

const USAGE: &str =
    "usage: picture [-h] [--space START SIZE [RESERVED-START RESERVED-SIZE] | --script SCRIPT]
               [--grant N | --table] [file]
";

const HELP: &str = "
Draws vmbind's text as an SVG picture of the address space: the mappings before and after a
granted request, and its operations between them. Or draws a saved table.

One scale for all, which goes by what the request changes. What is much longer is broken by a
zigzag, what is much shorter is a thin line, and gaps are shortened. Of many mappings that stay
as they are, those far from the request are left out. A bar tells the scale.

positional arguments:
  file        the text or the table; standard input if - or none

options:
  --space START SIZE [RESERVED-START RESERVED-SIZE]
              the space's numbers, which vmbind does not print, decimal or with 0x; if there are
              none, the picture goes from the first mapping to the last
  --script SCRIPT
              the script whose answers the text has, as assemble makes it: it has the space's
              numbers and the sparse ranges, which are drawn under the mappings
  --grant N   the request of the N-th granted line of the text, counted from 1; else the last
  --table     the file is a saved table: the lent words as bytes, 64-bit little-endian, four a
              mapping, 4096 mappings at most, up to the first whose size is 0
  -h, --help  show this help message and exit

A text has at most 256 MiB. One that does not replay is told on standard error with its line,
and nothing is written.
";

const FAILED: u8 = 1;
const BAD_USAGE: u8 = 2;

/// What the program's arguments ask for.
#[derive(Debug, Default, PartialEq)]
struct Asked {
    help: bool,
    space: Option<Vec<u64>>,
    script: Option<OsString>,
    grant: Option<usize>,
    table: bool,
    file: Option<OsString>,
}

/// The numbers behind `--space`, two or four.
fn take_numbers(words: &mut &[OsString]) -> Result<Vec<u64>, String> {
    let meant = words.iter().take_while(|word| number::is_meant(word));
    let (numbers, others) = words.split_at(meant.count().min(4));
    *words = others;
    let numbers = numbers.iter().map(|word| number::parse(word));
    let numbers: Result<Vec<u64>, String> = numbers.collect();
    let numbers = numbers.map_err(|what| format!("--space: {what}"))?;
    match numbers.len() {
        2 | 4 => Ok(numbers),
        others => Err(format!(
            "--space wants 2 or 4 numbers of 64 bits, not {others}"
        )),
    }
}

fn take_number(words: &mut &[OsString]) -> Result<usize, String> {
    let number = words.first().map(|word| number::parse(word)).transpose();
    let number = number.map_err(|what| format!("--grant: {what}"))?;
    let number = number
        .and_then(|number| usize::try_from(number).ok())
        .filter(|&number| number > 0);
    *words = words.get(1..).unwrap_or_default();
    number.ok_or_else(|| "--grant wants a number from 1 on".to_string())
}

fn take_script(words: &mut &[OsString]) -> Result<OsString, String> {
    let (script, others) = words.split_first().ok_or("--script wants a file")?;
    *words = others;
    Ok(script.clone())
}

/// What can't be asked together.
fn check(asked: &Asked) -> Result<(), String> {
    let is_input = |file: &Option<OsString>| file.as_ref().map_or(true, |file| file == "-");
    let wrong = [
        (
            asked.table && asked.grant.is_some(),
            "a table has no grants",
        ),
        (
            asked.table && asked.script.is_some(),
            "a table has no script",
        ),
        (
            asked.space.is_some() && asked.script.is_some(),
            "a script has the space's numbers",
        ),
        (
            asked.script.is_some() && is_input(&asked.script) && is_input(&asked.file),
            "script and text can't both be standard input",
        ),
    ];
    let first = wrong.iter().find(|(is_wrong, _)| *is_wrong);
    first.map_or(Ok(()), |(_, what)| Err(what.to_string()))
}

fn asked(mut words: &[OsString]) -> Result<Asked, String> {
    let mut asked = Asked {
        help: words.iter().any(|word| word == "-h" || word == "--help"),
        ..Asked::default()
    };
    while let ([word, others @ ..], false) = (words, asked.help) {
        words = others;
        let option = word.len() > 1 && word.as_bytes()[0] == b'-';
        match word.as_bytes() {
            b"--space" => asked.space = Some(take_numbers(&mut words)?),
            b"--grant" => asked.grant = Some(take_number(&mut words)?),
            b"--script" => asked.script = Some(take_script(&mut words)?),
            b"--table" => asked.table = true,
            _ if !option && asked.file.is_none() => asked.file = Some(word.clone()),
            _ => return Err(format!("unrecognized arguments: {}", named(word))),
        }
    }
    if !asked.help {
        check(&asked)?;
    }
    Ok(asked)
}

/// The request that is asked for, and the picture's title.
fn grant_of(
    asked: &Asked,
    name: &str,
    bytes: &[u8],
    script: Option<&[u8]>,
) -> Result<(Grant, String), String> {
    if asked.table {
        let after = saved::table(bytes).map_err(|what| format!("{name}: {what}"))?;
        let grant = Grant {
            before: after.clone(),
            after,
            ..Grant::default()
        };
        return Ok((grant, "The address space".to_string()));
    }
    let replayed = replay::replay(bytes, script, asked.grant)
        .map_err(|bad| format!("{name}:{}: {}", bad.line, bad.what))?;
    let grants = replayed.grants;
    let grant = replayed.wanted.ok_or_else(|| match grants {
        0 => format!("{name}: no request is granted"),
        _ => format!(
            "{name}: it grants {}, no more",
            number::count(grants, "request")
        ),
    })?;
    let place = asked.grant.unwrap_or(grants);
    Ok((grant, format!("Granted request {place} of {grants}")))
}

fn space_of(asked: &Asked, grant: &Grant) -> Result<Space, String> {
    let named = grant.operations.iter().map(|operation| &operation.named);
    let mut mappings = grant.before.iter().chain(&grant.after).chain(named);
    let space = match (&asked.space, grant.space) {
        (Some(numbers), _) => {
            let reserved = match numbers[2..] {
                [start, size] => (start, size),
                _ => (0, 0),
            };
            Space::of(numbers[0], numbers[1], reserved)?
        }
        (None, Some(space)) => space,
        (None, None) => {
            let around = Space::around(mappings);
            return around.ok_or("no mapping to show; --space gives a space".to_string());
        }
    };
    mappings.try_for_each(|mapping| space.check("mapping", &mapping.range))?;
    let mut sparse = grant.sparse.before.iter().chain(&grant.sparse.after);
    sparse.try_for_each(|range| space.check("sparse range", range))?;
    Ok(space)
}

fn picture(asked: &Asked) -> Result<String, String> {
    let file = asked.file.clone().unwrap_or_else(|| "-".into());
    let most = match asked.table {
        true => saved::MOST_READ,
        false => replay::MOST_READ,
    };
    let bytes = read(&file, most)?;
    let script = asked.script.as_ref();
    let script = script
        .map(|file| read(file, replay::MOST_READ))
        .transpose()?;
    let name = named(&file);
    let (grant, title) = grant_of(asked, &name, &bytes, script.as_deref())?;
    let space = space_of(asked, &grant).map_err(|what| format!("{name}: {what}"))?;
    Ok(picture::draw(&View {
        title,
        space,
        grant,
        alone: asked.table,
    }))
}

fn main() -> ExitCode {
    let words: Vec<OsString> = std::env::args_os().skip(1).collect();
    let asked = match asked(&words) {
        Ok(asked) => asked,
        Err(wrong) => {
            tell(&format!("{USAGE}picture: error: {wrong}\n"));
            return ExitCode::from(BAD_USAGE);
        }
    };
    let text = match asked.help {
        true => Ok([USAGE, HELP].concat()),
        false => picture(&asked),
    };
    if let Err(wrong) = text.and_then(|text| write(text.as_bytes())) {
        tell(&format!("picture: {wrong}\n"));
        return ExitCode::from(FAILED);
    }
    ExitCode::SUCCESS
}

#[cfg(test)]
mod tests {
    use super::*;
    use crate::mapping::Mapping;
    use std::ffi::OsStr;

    fn asked_of(words: &[&str]) -> Result<Asked, String> {
        asked(&words.iter().map(OsString::from).collect::<Vec<_>>())
    }

    #[test]
    fn options_and_one_file() {
        assert_eq!(asked_of(&[]), Ok(Asked::default()));
        let all = asked_of(&["--space", "0", "0x1_0000", "a b", "--grant", "2"]).unwrap();
        assert_eq!(all.space, Some(vec![0, 65536]));
        assert_eq!((all.grant, all.file), (Some(2), Some("a b".into())));
        let script = asked_of(&["--script", "-", "a"]).unwrap();
        assert_eq!(script.script, Some("-".into()));
        let text = asked_of(&["--script", "a"]).unwrap();
        assert_eq!((text.script, text.file), (Some("a".into()), None));
        let table = asked_of(&["--table", "-", "--space", "1", "2", "3", "4"]).unwrap();
        assert!(table.table);
        assert_eq!(
            (table.space, table.file),
            (Some(vec![1, 2, 3, 4]), Some("-".into()))
        );
    }

    #[test]
    fn help_goes_before_what_is_wrong() {
        for words in [&["-h"][..], &["--help"], &["a", "b", "-x", "-h"]] {
            assert!(asked_of(words).unwrap().help);
        }
    }

    #[test]
    fn what_is_wrong_is_told() {
        for (words, told) in [
            (&["-x"][..], "unrecognized arguments: -x"),
            (&["a", "b"], "unrecognized arguments: b"),
            (
                &["--space", "0", "a"],
                "--space wants 2 or 4 numbers of 64 bits, not 1",
            ),
            (
                &["--space", "0", "1", "2", "a"],
                "--space wants 2 or 4 numbers of 64 bits, not 3",
            ),
            (
                &["--space", "0", "18446744073709551616"],
                "--space: 18446744073709551616 does not fit in 64 bits",
            ),
            (&["--grant"], "--grant wants a number from 1 on"),
            (&["--grant", "0"], "--grant wants a number from 1 on"),
            (
                &["--grant", "--table"],
                "--grant: '--table' is not a number",
            ),
            (&["--table", "--grant", "1"], "a table has no grants"),
        ] {
            assert_eq!(asked_of(words), Err(told.to_string()));
        }
    }

    #[test]
    fn a_script_goes_with_a_text_alone() {
        let both = "script and text can't both be standard input";
        for (words, told) in [
            (&["--script"][..], "--script wants a file"),
            (&["--table", "--script", "a"], "a table has no script"),
            (
                &["--script", "a", "--space", "0", "4096"],
                "a script has the space's numbers",
            ),
            (&["--script", "-"], both),
            (&["-", "--script", "-"], both),
        ] {
            assert_eq!(asked_of(words), Err(told.to_string()));
        }
        assert!(asked_of(&["--table", "--script", "a", "-h"]).unwrap().help);
    }

    #[test]
    fn negative_numbers_are_values_of_their_option() {
        for words in [
            &["--space", "-1", "5"][..],
            &["--space", "0", "-1"],
            &["--space", "0", "1", "-1", "3"],
            &["--space", "-1"],
        ] {
            let told = "--space: '-1' is negative".to_string();
            assert_eq!(asked_of(words), Err(told));
        }
        let told = "--grant: '-0x10' is negative".to_string();
        assert_eq!(asked_of(&["--grant", "-0x10", "a"]), Err(told));
        let told = "unrecognized arguments: -1".to_string();
        assert_eq!(asked_of(&["--space", "0", "1", "2", "3", "-1"]), Err(told));
    }

    #[test]
    fn arguments_are_quoted() {
        let told_of = |word: &[u8]| asked(&[OsStr::from_bytes(word).to_owned()]).unwrap_err();
        let told = r"unrecognized arguments: -\xff\x1b\n";
        assert_eq!(told_of(b"-\xff\x1b\n"), told);
        let long = format!("-{}", "x".repeat(999));
        let told = format!("unrecognized arguments: {}...", &long[..197]);
        assert_eq!(told_of(long.as_bytes()), told);
        let told = r"--grant: '\xff\x1b' is not a number".to_string();
        let words = ["--grant".into(), OsStr::from_bytes(b"\xff\x1b").to_owned()];
        assert_eq!(asked(&words), Err(told));
    }

    #[test]
    fn the_help_tells_the_limits() {
        let most = format!("A text has at most {} MiB", replay::MOST_READ);
        assert!(HELP.contains(&most));
        assert!(HELP.contains(&format!("{} mappings at most", saved::MOST_MAPPINGS)));
    }

    #[test]
    fn without_a_space_the_mappings_give_it() {
        let mapping = |address| Mapping::of([address, 4096, 7, 0]).unwrap();
        let mut grant = Grant::default();
        assert!(space_of(&Asked::default(), &grant).is_err());
        grant.before = vec![mapping(8192)];
        grant.after = vec![mapping(4096)];
        let range = space_of(&Asked::default(), &grant).unwrap().range;
        assert_eq!((range.start, range.end), (4096, 12288));
    }

    #[test]
    fn a_script_gives_the_space() {
        let mut grant = Grant {
            space: Space::of(0, 65536, (8192, 4096)).ok(),
            ..Grant::default()
        };
        let range = |start, end| mapping::Range { start, end };
        assert_eq!(
            space_of(&Asked::default(), &grant),
            Ok(grant.space.unwrap())
        );
        for (start, end, place) in [
            (61440, 69632, "outside of the space"),
            (4096, 12288, "in the reservation"),
        ] {
            grant.sparse.after = vec![range(start, end)];
            let shown = range(start, end).shown();
            let told = format!("the sparse range {shown} is {place}");
            assert_eq!(space_of(&Asked::default(), &grant), Err(told));
        }
    }
}
