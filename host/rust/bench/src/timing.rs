//! Times of several contenders, taken in turn in one run.

use crate::timed::{lowest_plain, Contenders, Timed};
use std::time::Instant;

/// About how long one timing takes: long beside the clock, short beside what else the machine does.
const TIMING_NANOSECONDS: f64 = 50_000.0;

/// Of many numbers the middle one, and those that a tenth is below and above.
pub struct Spread {
    pub low: f64,
    pub median: f64,
    pub high: f64,
}

impl Spread {
    pub fn of(mut numbers: Vec<f64>) -> Spread {
        numbers.sort_unstable_by(f64::total_cmp);
        let last = numbers.len() - 1;
        Spread {
            low: numbers[last / 10],
            median: numbers[last / 2],
            high: numbers[last - last / 10],
        }
    }
}

/// Nanoseconds a call of one line: for each round, those of each contender.
pub struct Times {
    rounds: Vec<Vec<f64>>,
}

impl Times {
    #[cfg(test)]
    pub fn of_rounds(rounds: Vec<Vec<f64>>) -> Times {
        Times { rounds }
    }

    pub fn of_call(&self, contender: usize) -> Spread {
        Spread::of(self.rounds.iter().map(|round| round[contender]).collect())
    }

    /// The plain version whose middle time is the lowest.
    pub fn quickest_plain<L: Timed>(&self) -> usize {
        lowest_plain::<L>(|at| self.of_call(at).median)
    }

    /// One contender's time by another's, in each round by itself.
    pub fn ratio(&self, one: usize, other: usize) -> Spread {
        let ratio = |round: &Vec<f64>| round[one] / round[other];
        Spread::of(self.rounds.iter().map(ratio).collect())
    }
}

/// A line with a manager for each contender, and the words that are lent to all of them.
struct Field<'a, L: Timed> {
    line: &'a L,
    managers: Vec<Box<L::Manager>>,
    lent: Vec<u64>,
    /// How often the calls are made in a timing.
    times: u32,
}

impl<'a, L: Timed> Field<'a, L> {
    fn new(contenders: &Contenders<L>, line: &'a L) -> Field<'a, L> {
        let begin = contenders.iter().map(|contender| contender.begin);
        let mut field = Field {
            line,
            managers: begin.map(|begin| begin(line.start())).collect(),
            lent: line.lent(),
            times: 1,
        };
        // The first time warms up, and the second tells how many take as long as a timing should.
        field.times = (1000 / line.calls()) as u32;
        field.time(0);
        let of_call = field.time(0);
        field.times = (TIMING_NANOSECONDS / (of_call * line.calls() as f64)).ceil() as u32;
        field
    }

    /// Nanoseconds a call of one contender.
    fn time(&mut self, contender: usize) -> f64 {
        let manager = &mut *self.managers[contender];
        // Once before: since its last timing all the other tables were used, some 11 MB, and this one
        // went to a cache further away. At 4,096 mappings a call would take half as long again.
        self.line.make_calls(manager, &mut self.lent);
        let start = Instant::now();
        for _ in 0..self.times {
            self.line.make_calls(manager, &mut self.lent);
        }
        let calls = f64::from(self.times) * self.line.calls() as f64;
        start.elapsed().as_nanos() as f64 / calls
    }

    /// One time of each contender, one directly after the other, the one at `first` first.
    fn round(&mut self, first: usize) -> Vec<f64> {
        let mut times = vec![0.0; self.managers.len()];
        for turn in 0..times.len() {
            let at = (first + turn) % times.len();
            times[at] = self.time(at);
        }
        times
    }
}

/// The times of each line. A round goes through all lines, so that what else the machine does
/// meanwhile meets them all alike.
pub fn measure<L: Timed>(contenders: &Contenders<L>, lines: &[L]) -> Vec<Times> {
    let fields = lines.iter().map(|line| Field::new(contenders, line));
    let mut fields: Vec<Field<L>> = fields.collect();
    let mut all: Vec<Times> = lines.iter().map(|_| Times { rounds: Vec::new() }).collect();
    for first in 0..L::ROUNDS {
        for (times, field) in all.iter_mut().zip(&mut fields) {
            times.rounds.push(field.round(first));
        }
    }
    all
}
