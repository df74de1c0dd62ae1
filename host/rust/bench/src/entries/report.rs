//! The tables of page entries.

use super::Line;
use crate::figures::{Figures, Ratios};
use crate::report::{most_rounds, print_all, print_lines};
use crate::timed::LIBRARY;

const SECOND: f64 = 1e9;
const MILLION: f64 = 1e6;

/// How many entries are listed in a second; none where they are refused.
fn rate(line: &Line, nanoseconds: f64) -> String {
    match line.fits {
        true => format!(
            "{:.0}",
            line.entries as f64 / nanoseconds * SECOND / MILLION
        ),
        false => "none".to_string(),
    }
}

/// The figures of a line of mappings.
fn summary(figures: &Figures<Line>, place: usize, line: &Line) -> Vec<String> {
    let (times, names) = (&figures.times[place], &figures.names);
    let median = |at| times.of_call(at).median;
    let (quickest, ratio) = figures.by_time(place);
    let mut summary = vec![
        format!("{:.1}", median(LIBRARY)),
        format!("{:.1} ({})", median(quickest), names[quickest]),
        format!("{:.2}", ratio.median),
        most_rounds(&ratio),
        rate(line, median(LIBRARY)),
        rate(line, median(quickest)),
    ];
    if let (Some(counts), Some((fewest, ratio))) = (&figures.counts, figures.by_instructions(place))
    {
        let counts = &counts[place];
        summary.extend([
            format!("{:.0}", counts[LIBRARY]),
            format!("{:.0} ({})", counts[fewest], names[fewest]),
            format!("{ratio:.2}"),
        ]);
    }
    summary
}

/// What `summary` has, with or without instructions.
fn columns(are_counted: bool) -> Vec<&'static str> {
    let mut columns = vec![
        "library, ns",
        "quickest plain",
        "library / plain",
        "8 of 10 rounds",
        "library, million entries a second",
        "quickest plain",
    ];
    if are_counted {
        columns.extend(["library, instructions", "fewest plain", "library / plain"]);
    }
    columns
}

/// How near the library is to the quickest plain version where it is furthest from it.
fn verdict(lines: &[Line], ratios: &Ratios) -> String {
    let most = ratios.most(lines, |_| true);
    format!("Page entries, of the quickest plain version at most {most}.")
}

pub fn print(figures: &Figures<Line>) {
    let columns = columns(figures.counts.is_some());
    println!("\nPage entries of a mapping:\n");
    print_lines(&figures.lines, &columns, |place, line| {
        summary(figures, place, line)
    });
    println!("\n{}", verdict(&figures.lines, &figures.ratios()));
    let titles = ["Nanoseconds a mapping", "Instructions a mapping"];
    print_all(figures, titles, (1.0, 1));
}

#[cfg(test)]
mod tests {
    use super::super::{contenders, lines};
    use super::*;
    use crate::timing::Times;

    /// Two lines' figures: the second is refused.
    fn figures() -> Figures<Line> {
        let number = |name: &&str| match *name {
            "library" => 50.0,
            "by runs" => 40.0,
            _ => 100.0,
        };
        let names: Vec<&str> = contenders().iter().map(|one| one.name).collect();
        let numbers: Vec<f64> = names.iter().map(number).collect();
        let of_line = || Times::of_rounds(vec![numbers.clone()]);
        let told = |line: &Line| line.entries == 16 || !line.fits;
        Figures {
            names,
            lines: lines().into_iter().filter(told).collect(),
            times: vec![of_line(), of_line()],
            counts: Some(vec![numbers.clone(), numbers.clone()]),
        }
    }

    #[test]
    fn the_figures_of_a_line() {
        let figures = figures();
        let expected = [
            ("library, ns", "50.0"),
            ("quickest plain", "40.0 (by runs)"),
            ("library / plain", "1.25"),
            ("8 of 10 rounds", "1.25 to 1.25"),
            ("library, million entries a second", "320"),
            ("quickest plain", "400"),
            ("library, instructions", "50"),
            ("fewest plain", "40 (by runs)"),
            ("library / plain", "1.25"),
        ];
        assert_eq!(columns(true), expected.map(|(column, _)| column));
        let summary = |place: usize| summary(&figures, place, &figures.lines[place]);
        assert_eq!(summary(0), expected.map(|(_, figure)| figure));
        assert_eq!(summary(1)[4..6], ["none", "none"]);
    }

    /// docs/growth.svg is held to the lines of 13 columns, which those of single calls have alone.
    #[test]
    fn the_columns_are_not_as_many_as_those_of_single_calls() {
        for are_counted in [false, true] {
            let columns = 2 + columns(are_counted).len();
            assert!(columns < 13, "{columns} columns");
        }
    }

    #[test]
    fn the_verdict_is_the_highest_ratio() {
        let lines = lines();
        let ratios = |highest: &str, ratio: f64| -> Vec<f64> {
            let of = |line: &Line| if line.what == highest { ratio } else { 0.5 };
            lines.iter().map(of).collect()
        };
        let by_time = ratios("8 GiB in step", 1.126);
        let mut both = Ratios {
            by_time,
            by_instructions: Some(ratios("one page", 2.0)),
        };
        assert_eq!(
            verdict(&lines, &both),
            "Page entries, of the quickest plain version at most 1.13 by time (8 GiB in step) \
             and 2.00 by instructions (one page)."
        );
        both.by_instructions = None;
        assert_eq!(
            verdict(&lines, &both),
            "Page entries, of the quickest plain version at most 1.13 by time (8 GiB in step)."
        );
    }
}
