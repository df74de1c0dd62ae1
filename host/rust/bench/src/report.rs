//! The tables as docs/BENCHMARKS.md has them.

use crate::figures::{Figures, Ratios};
use crate::line::Line;
use crate::manager::PLAIN;
use crate::script::Measured;
use crate::timed::{Timed, LIBRARY};
use crate::timing::Spread;

/// The place of the tree among the contenders for single calls.
pub const TREE: usize = PLAIN.len() + 1;

/// From so many mappings on we hold ourselves to the quickest plain version.
const HELD_FROM: usize = 64;

/// A table in which at most so many mappings are missing counts as full: a request needs the room.
const FREE: usize = 2;

fn head(columns: &[&str]) {
    println!("| {} |", columns.join(" | "));
    println!("|{}", "---|".repeat(columns.len()));
}

/// A line for each line of calls: what it is, and these figures of it.
pub fn print_lines<L: Timed>(
    lines: &[L],
    columns: &[&str],
    figures: impl Fn(usize, &L) -> Vec<String>,
) {
    head(&[&["calls", L::SIZE], columns].concat());
    for (place, line) in lines.iter().enumerate() {
        let figures = figures(place, line).join(" | ");
        println!("| {} | {} | {figures} |", line.what(), line.size());
    }
}

/// The range that holds 8 of 10 rounds.
pub fn most_rounds(ratio: &Spread) -> String {
    format!("{:.2} to {:.2}", ratio.low, ratio.high)
}

fn is_full(line: &Line) -> bool {
    line.table.count as usize + FREE >= line.room
}

/// Whether we hold ourselves to this line. Those with sparse ranges stand for themselves.
fn is_held(line: &Line) -> bool {
    line.table.list.is_none() && line.room >= HELD_FROM
}

/// How near the library is to the quickest plain version where it is furthest from it.
fn verdict(lines: &[Line], ratios: &Ratios) -> String {
    let most = |full: bool| ratios.most(lines, |line| is_held(line) && is_full(line) == full);
    format!(
        "From {HELD_FROM} mappings on, of the quickest plain version at most {}; \
         with few or none in so much room {}.",
        most(true),
        most(false)
    )
}

/// Every contender's number for every line.
fn print_each<L: Timed>(
    what: &str,
    figures: &Figures<L>,
    digits: usize,
    number: impl Fn(usize, usize) -> f64,
) {
    println!("\n{what}:\n");
    print_lines(&figures.lines, &figures.names, |place, _| {
        (0..figures.names.len())
            .map(|at| format!("{:.digits$}", number(place, at)))
            .collect()
    });
}

/// The times and the instructions of every contender: for so many nanoseconds at a time, with so
/// many digits.
pub fn print_all<L: Timed>(figures: &Figures<L>, [times, counts]: [&str; 2], unit: (f64, usize)) {
    let (nanoseconds, digits) = unit;
    print_each(times, figures, digits, |place, at| {
        figures.times[place].of_call(at).median / nanoseconds
    });
    match &figures.counts {
        Some(of_lines) => print_each(counts, figures, 0, |place, at| of_lines[place][at]),
        None => println!("\nInstructions are not counted: valgrind could not be run."),
    }
}

/// The figures of a line of single calls.
fn summary(figures: &Figures<Line>, place: usize, line: &Line) -> Vec<String> {
    let (times, names) = (&figures.times[place], &figures.names);
    let median = |at| times.of_call(at).median;
    let (quickest, ratio) = figures.by_time(place);
    let mut summary = vec![
        format!("{:.0}", median(LIBRARY)),
        format!("{:.0} ({})", median(quickest), names[quickest]),
        format!("{:.0}", median(TREE)),
        format!("{:.2}", ratio.median),
        most_rounds(&ratio),
        format!("{:.2}", times.ratio(LIBRARY, TREE).median),
        format!("{:.2}", median(LIBRARY) / line.room as f64),
    ];
    if let (Some(counts), Some((fewest, ratio))) = (&figures.counts, figures.by_instructions(place))
    {
        let counts = &counts[place];
        summary.extend([
            format!("{:.0}", counts[LIBRARY]),
            format!("{:.0} ({})", counts[fewest], names[fewest]),
            format!("{:.0}", counts[TREE]),
            format!("{ratio:.2}"),
        ]);
    }
    summary
}

pub fn print_calls(figures: &Figures<Line>) {
    let mut columns = vec![
        "library, ns",
        "quickest plain",
        "BTreeMap",
        "library / plain",
        "8 of 10 rounds",
        "library / BTreeMap",
        "ns a mapping",
    ];
    if figures.counts.is_some() {
        columns.extend([
            "library, instructions",
            "fewest plain",
            "BTreeMap",
            "library / plain",
        ]);
    }
    print_lines(&figures.lines, &columns, |place, line| {
        summary(figures, place, line)
    });
    println!("\n{}", verdict(&figures.lines, &figures.ratios()));
    let titles = ["Nanoseconds a call", "Instructions a call"];
    print_all(figures, titles, (1.0, 0));
}

pub fn print_script(measured: &Measured) {
    let Measured {
        requests,
        mappings,
        rounds,
        program,
        calls,
    } = measured;
    println!("\nvmbind, {requests} requests on {mappings} mappings:\n");
    head(&["", &format!("quickest of {rounds} rounds"), "median"]);
    let line = |what: &str, quickest: f64, median: f64, digits: usize| {
        println!("| {what} | {quickest:.digits$} | {median:.digits$} |");
    };
    let records = |seconds: f64| *requests as f64 / seconds;
    let outside = |calls: f64, program: f64| 1.0 - calls / program;
    line("seconds", program.quickest, program.median, 3);
    line(
        "seconds, the same calls of the library alone",
        calls.quickest,
        calls.median,
        3,
    );
    line(
        "share outside the calls",
        outside(calls.quickest, program.quickest),
        outside(calls.median, program.median),
        2,
    );
    line(
        "records a second",
        records(program.quickest),
        records(program.median),
        0,
    );
}

#[cfg(test)]
mod tests {
    use super::*;
    use crate::line::lines;

    /// A ratio for each line, all lower than the one that a line has by its name.
    fn ratios(lines: &[Line], full: (&str, f64), other: (&str, f64)) -> Vec<f64> {
        let of = |line: &Line| {
            let few = [0, 16].contains(&line.table.count);
            let (name, ratio) = if few { other } else { full };
            match line.room {
                // Not among those that we hold ourselves to.
                16 => 9.0,
                _ if !line.table.list.is_none() => 9.0,
                _ if line.name() == name => ratio,
                _ => ratio - 0.001,
            }
        };
        lines.iter().map(of).collect()
    }

    #[test]
    fn the_verdict_is_the_highest_ratio_from_64_mappings_on() {
        let lines = lines();
        let empty = ("map into an empty table, 256", 2.212);
        let times = ratios(&lines, ("the same at the front, 4096", 0.886), empty);
        let small = ("look-up among 16, 64", 0.518);
        let counts = ratios(&lines, ("look-up, 64", 1.034), small);
        let ratios = |by_instructions| Ratios {
            by_time: times.clone(),
            by_instructions,
        };
        assert_eq!(
            verdict(&lines, &ratios(Some(counts))),
            "From 64 mappings on, of the quickest plain version at most 0.89 by time \
             (the same at the front, 4096) and 1.03 by instructions (look-up, 64); \
             with few or none in so much room 2.21 by time (map into an empty table, 256) \
             and 0.52 by instructions (look-up among 16, 64)."
        );
        assert_eq!(
            verdict(&lines, &ratios(None)),
            "From 64 mappings on, of the quickest plain version at most 0.89 by time \
             (the same at the front, 4096); \
             with few or none in so much room 2.21 by time (map into an empty table, 256)."
        );
    }
}
