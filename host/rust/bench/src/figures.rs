//! What was measured of the lines of a kind, and what of it stands in every table.

use crate::count::count;
use crate::timed::{lowest_plain, Contenders, Timed, LIBRARY};
use crate::timing::{measure, Spread, Times};
use std::path::Path;

/// For each line, in their order, the times and the instructions a call of each contender.
pub struct Figures<L> {
    pub names: Vec<&'static str>,
    pub lines: Vec<L>,
    pub times: Vec<Times>,
    /// Nothing if they could not be counted.
    pub counts: Option<Vec<Vec<f64>>>,
}

impl<L: Timed> Figures<L> {
    /// What valgrind writes goes to the folder.
    pub fn measure(contenders: &Contenders<L>, lines: Vec<L>, folder: &Path) -> Figures<L> {
        let counts = count(contenders, &lines, &folder.join("counts").join(L::KIND));
        Figures {
            names: contenders.iter().map(|contender| contender.name).collect(),
            times: measure(contenders, &lines),
            lines,
            counts,
        }
    }

    /// The quickest plain version of a line, and the library's time by its.
    pub fn by_time(&self, place: usize) -> (usize, Spread) {
        let times = &self.times[place];
        let quickest = times.quickest_plain::<L>();
        (quickest, times.ratio(LIBRARY, quickest))
    }

    /// The plain version of the fewest instructions, and the library's by its.
    pub fn by_instructions(&self, place: usize) -> Option<(usize, f64)> {
        let counts = &self.counts.as_ref()?[place];
        let fewest = lowest_plain::<L>(|at| counts[at]);
        Some((fewest, counts[LIBRARY] / counts[fewest]))
    }

    /// The library by the plain versions, for each line.
    pub fn ratios(&self) -> Ratios {
        let places = 0..self.lines.len();
        let by_instructions = |place| self.by_instructions(place).map(|(_, ratio)| ratio);
        Ratios {
            by_time: places
                .clone()
                .map(|place| self.by_time(place).1.median)
                .collect(),
            by_instructions: places.map(by_instructions).collect(),
        }
    }

    /// The library by one contender, for each line.
    pub fn ratios_to(&self, other: usize) -> Ratios {
        let by_time = |times: &Times| times.ratio(LIBRARY, other).median;
        let by_instructions = |counts: &Vec<f64>| counts[LIBRARY] / counts[other];
        let counts = self.counts.as_ref();
        Ratios {
            by_time: self.times.iter().map(by_time).collect(),
            by_instructions: counts.map(|of_lines| of_lines.iter().map(by_instructions).collect()),
        }
    }
}

pub struct Ratios {
    pub by_time: Vec<f64>,
    pub by_instructions: Option<Vec<f64>>,
}

/// The highest of the ratios of some lines, with its line.
fn highest<L: Timed>(lines: &[L], ratios: &[f64], held: &impl Fn(&L) -> bool) -> (f64, String) {
    let held = lines.iter().zip(ratios).filter(|(line, _)| held(line));
    let highest = held.max_by(|(_, one), (_, other)| one.total_cmp(other));
    let (line, ratio) = highest.expect("there are such lines");
    (*ratio, line.name())
}

impl Ratios {
    /// The highest of those lines that are `held`, by time and by instructions.
    pub fn most<L: Timed>(&self, lines: &[L], held: impl Fn(&L) -> bool) -> String {
        let of = |ratios: &[f64], what: &str| {
            let (ratio, line) = highest(lines, ratios, &held);
            format!("{ratio:.2} by {what} ({line})")
        };
        let mut most_of_each = vec![of(&self.by_time, "time")];
        if let Some(ratios) = &self.by_instructions {
            most_of_each.push(of(ratios, "instructions"));
        }
        most_of_each.join(" and ")
    }
}
