//! Times the library's calls beside plain Rust that gives the same answers and leaves the same
//! words, and the script program beside the library. `host/bench` runs it.

#![forbid(unsafe_code)]

mod agree;
mod batch;
mod count;
mod cut;
mod entries;
mod figures;
mod growth;
mod line;
mod manager;
mod plain;
mod report;
mod rules;
mod script;
mod seen;
mod timed;
mod timing;
mod tree;

use figures::Figures;
use line::Line;
use std::env;
use std::fs;
use std::path::Path;
use std::process::ExitCode;
use timed::Timed;

/// Where what is written goes; `host/bench` makes it.
const FOLDER: &str = "BENCH_FOLDER";

/// Writes the picture, and tells where it is.
fn write_growth(file: &Path, picture: &str) -> Result<(), String> {
    let name = file.display();
    fs::write(file, picture).map_err(|error| format!("{name}: {error}"))?;
    eprintln!("waylluqen-bench: the growth as a picture is {name}");
    Ok(())
}

fn print_all(folder: &Path) -> Result<(), String> {
    agree::assert_equal();
    batch::agree::assert_equal();
    entries::agree::assert_equal();
    let calls = Figures::measure(&manager::contenders(), line::lines(), folder);
    report::print_calls(&calls);
    let growth = growth::draw(&growth::panels(&calls.lines, &calls.times));
    write_growth(&folder.join("growth.svg"), &growth)?;
    let batches = Figures::measure(&batch::contenders(), batch::lines(), folder);
    batch::print(&batches);
    let entries = Figures::measure(&entries::contenders(), entries::lines(), folder);
    entries::print(&entries);
    let measured = script::measure(&folder.join("million.script"));
    report::print_script(&measured.map_err(|error| format!("the script program: {error}"))?);
    Ok(())
}

fn main() -> ExitCode {
    let words: Vec<String> = env::args().skip(1).collect();
    let words: Vec<&str> = words.iter().map(String::as_str).collect();
    match (&words[..], env::var_os(FOLDER)) {
        ([count::COUNT, Line::KIND], _) => {
            count::make_counted_calls(&manager::contenders(), &line::lines());
            ExitCode::SUCCESS
        }
        ([count::COUNT, batch::Line::KIND], _) => {
            count::make_counted_calls(&batch::contenders(), &batch::lines());
            ExitCode::SUCCESS
        }
        ([count::COUNT, entries::Line::KIND], _) => {
            count::make_counted_calls(&entries::contenders(), &entries::lines());
            ExitCode::SUCCESS
        }
        ([], Some(folder)) => match print_all(Path::new(&folder)) {
            Ok(()) => ExitCode::SUCCESS,
            Err(error) => {
                eprintln!("waylluqen-bench: {error}");
                ExitCode::FAILURE
            }
        },
        _ => {
            eprintln!("waylluqen-bench: run host/bench");
            ExitCode::from(2)
        }
    }
}
