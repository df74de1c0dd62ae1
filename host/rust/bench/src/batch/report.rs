//! The tables of batches.

use super::{Line, PLAIN};
use crate::figures::{Figures, Ratios};
use crate::report::{most_rounds, print_all, print_lines};
use crate::timed::LIBRARY;
use waylluqen::MAX_BATCH;

/// The places behind the plain versions among the contenders: of the one with a gap, of the single
/// calls and of the tree.
const GAPPED: usize = PLAIN.len() + 1;
const SINGLE: usize = PLAIN.len() + 2;
const TREE: usize = PLAIN.len() + 3;

/// A table of this room is in the verdict by itself.
const USUAL: usize = 512;

const MICROSECOND: f64 = 1000.0;

/// The figures of a line of batches.
fn summary(figures: &Figures<Line>, place: usize) -> Vec<String> {
    let (times, names) = (&figures.times[place], &figures.names);
    let median = |at| times.of_call(at).median / MICROSECOND;
    let (quickest, ratio) = figures.by_time(place);
    let mut summary = vec![
        format!("{:.2}", median(LIBRARY)),
        format!("{:.2} ({})", median(quickest), names[quickest]),
        format!("{:.2}", median(SINGLE)),
        format!("{:.2}", median(TREE)),
        format!("{:.2}", ratio.median),
        most_rounds(&ratio),
        format!("{:.2}", median(GAPPED)),
        format!("{:.2}", times.ratio(LIBRARY, GAPPED).median),
        format!("{:.2}", times.ratio(LIBRARY, SINGLE).median),
        format!("{:.2}", times.ratio(LIBRARY, TREE).median),
        format!("{:.0}", times.of_call(LIBRARY).median / MAX_BATCH as f64),
    ];
    if let (Some(counts), Some((fewest, ratio))) = (&figures.counts, figures.by_instructions(place))
    {
        let counts = &counts[place];
        summary.extend([
            format!("{:.0}", counts[LIBRARY]),
            format!("{:.0} ({})", counts[fewest], names[fewest]),
            format!("{:.0}", counts[SINGLE]),
            format!("{:.0}", counts[TREE]),
            format!("{ratio:.2}"),
        ]);
    }
    summary
}

/// How near the library is to the quickest plain version where it is furthest from it, and to the
/// one with a gap.
fn verdict(lines: &[Line], plain: &Ratios, gapped: &Ratios) -> String {
    let is_usual = |line: &Line| line.room == USUAL;
    format!(
        "Batches in room for {USUAL} mappings, of the quickest plain version at most {}; \
         of all sizes {}. Of the plain version with a gap, in room for {USUAL}, at most {}.",
        plain.most(lines, is_usual),
        plain.most(lines, |_| true),
        gapped.most(lines, is_usual)
    )
}

/// What `summary` has, with or without instructions.
fn columns(are_counted: bool) -> Vec<&'static str> {
    let mut columns = vec![
        "library, µs",
        "quickest plain",
        "64 single calls",
        "BTreeMap",
        "library / plain",
        "8 of 10 rounds",
        "plain with a gap, µs",
        "library / with a gap",
        "library / single calls",
        "library / BTreeMap",
        "ns a request",
    ];
    if are_counted {
        columns.extend([
            "library, instructions",
            "fewest plain",
            "64 single calls",
            "BTreeMap",
            "library / plain",
        ]);
    }
    columns
}

pub fn print(figures: &Figures<Line>) {
    let columns = columns(figures.counts.is_some());
    println!("\nBatches of {MAX_BATCH} requests:\n");
    print_lines(&figures.lines, &columns, |place, _| summary(figures, place));
    let (plain, gapped) = (figures.ratios(), figures.ratios_to(GAPPED));
    println!("\n{}", verdict(&figures.lines, &plain, &gapped));
    let titles = ["Microseconds a batch", "Instructions a batch"];
    print_all(figures, titles, (MICROSECOND, 2));
}

#[cfg(test)]
mod tests {
    use super::super::{contenders, lines};
    use super::*;
    use crate::timed::Timed;
    use crate::timing::Times;

    /// A ratio for each line: the highest of all and that of 512 for the lines of these names.
    fn ratios(lines: &[Line], all: (&str, f64), usual: (&str, f64)) -> Vec<f64> {
        let of = |line: &Line| match line.name() {
            name if name == all.0 => all.1,
            name if name == usual.0 => usual.1,
            _ if line.room == USUAL => usual.1 - 0.001,
            _ => all.1 - 0.001,
        };
        lines.iter().map(of).collect()
    }

    /// The verdict with or without instructions.
    fn verdict_of(are_counted: bool) -> String {
        let lines = lines();
        let of = |all, usual| ratios(&lines, all, usual);
        let over = ("map over one mapping, 4096", 1.204);
        let empty = ("64 maps into an empty space, 512", 1.516);
        let into = ("map into one and undo, 64", 1.3);
        let plain = of(over, ("unmap and map, 512", 0.876));
        // At another size it is higher, which is not told.
        let gapped = of(over, ("map into one and undo, 512", 1.117));
        let [plain, gapped] = [
            (plain, of(into, empty)),
            (gapped, of(over, ("unmap and map, 512", 1.444))),
        ]
        .map(|(by_time, by_instructions)| Ratios {
            by_time,
            by_instructions: are_counted.then_some(by_instructions),
        });
        verdict(&lines, &plain, &gapped)
    }

    #[test]
    fn the_verdict_is_of_the_plain_versions_and_of_the_one_with_a_gap() {
        assert_eq!(
            verdict_of(true),
            "Batches in room for 512 mappings, of the quickest plain version at most 0.88 by time \
             (unmap and map, 512) and 1.52 by instructions (64 maps into an empty space, 512); \
             of all sizes 1.20 by time (map over one mapping, 4096) and 1.52 by instructions \
             (64 maps into an empty space, 512). \
             Of the plain version with a gap, in room for 512, at most 1.12 by time \
             (map into one and undo, 512) and 1.44 by instructions (unmap and map, 512)."
        );
        assert_eq!(
            verdict_of(false),
            "Batches in room for 512 mappings, of the quickest plain version at most 0.88 by time \
             (unmap and map, 512); of all sizes 1.20 by time (map over one mapping, 4096). \
             Of the plain version with a gap, in room for 512, at most 1.12 by time \
             (map into one and undo, 512)."
        );
    }

    /// A line's figures where the one with a gap is the quickest of all in lent words.
    fn figures() -> Figures<Line> {
        let number = |name: &&str| match *name {
            "library" => 6400.0,
            "gapped" => 3200.0,
            "undone" => 8000.0,
            "single calls" => 64_000.0,
            "BTreeMap" => 12_800.0,
            _ => 10_000.0,
        };
        let names: Vec<&str> = contenders().iter().map(|one| one.name).collect();
        let numbers: Vec<f64> = names.iter().map(number).collect();
        Figures {
            names,
            lines: lines().into_iter().take(1).collect(),
            times: vec![Times::of_rounds(vec![numbers.clone()])],
            counts: Some(vec![numbers]),
        }
    }

    #[test]
    fn the_one_with_a_gap_does_not_count_as_plain() {
        let figures = figures();
        let expected = [
            ("library, µs", "6.40"),
            ("quickest plain", "8.00 (undone)"),
            ("64 single calls", "64.00"),
            ("BTreeMap", "12.80"),
            ("library / plain", "0.80"),
            ("8 of 10 rounds", "0.80 to 0.80"),
            ("plain with a gap, µs", "3.20"),
            ("library / with a gap", "2.00"),
            ("library / single calls", "0.10"),
            ("library / BTreeMap", "0.50"),
            ("ns a request", "100"),
            ("library, instructions", "6400"),
            ("fewest plain", "8000 (undone)"),
            ("64 single calls", "64000"),
            ("BTreeMap", "12800"),
            ("library / plain", "0.80"),
        ];
        assert_eq!(columns(true), expected.map(|(column, _)| column));
        assert_eq!(summary(&figures, 0), expected.map(|(_, figure)| figure));
        for (ratios, ratio) in [(figures.ratios(), 0.8), (figures.ratios_to(GAPPED), 2.0)] {
            assert_eq!(ratios.by_time, [ratio]);
            assert_eq!(ratios.by_instructions, Some(vec![ratio]));
        }
    }
}
