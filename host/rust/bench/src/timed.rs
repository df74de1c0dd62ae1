//! What is timed and counted, and by whom: lines of single calls, of batches and of page entries alike.

use waylluqen_compare::tables::Table;

/// A line of a table of figures: calls that leave all as it was, so that they can be made again.
pub trait Timed {
    /// What makes the calls, and keeps the table if they need one.
    type Manager: ?Sized;

    /// What a manager begins with.
    type Start;

    /// The argument with which this program makes such calls to be counted.
    const KIND: &'static str;

    /// How many of the contenders are plain versions: those behind the library, which is first.
    const PLAIN: usize;

    /// How often each contender is timed on each line.
    const ROUNDS: usize;

    /// What is told of a line beside its calls: what [`Timed::size`] counts.
    const SIZE: &'static str;

    fn what(&self) -> &'static str;

    /// How many mappings there is room for, or how many entries a mapping has.
    fn size(&self) -> usize;

    fn start(&self) -> &Self::Start;

    /// Words that are lent to the calls beside the table's.
    fn lent(&self) -> Vec<u64>;

    /// How many calls there are; the figures are for one of them.
    fn calls(&self) -> usize;

    /// Makes the calls once.
    fn make_calls(&self, manager: &mut Self::Manager, lent: &mut [u64]);

    fn name(&self) -> String {
        format!("{}, {}", self.what(), self.size())
    }
}

pub struct Contender<M: ?Sized, S = Table> {
    pub name: &'static str,
    /// A manager of the mappings and the list of a table, or of what else there is at the start.
    pub begin: fn(&S) -> Box<M>,
}

/// Those that make the calls of a kind of lines.
pub type Contenders<L> = [&'static Contender<<L as Timed>::Manager, <L as Timed>::Start>];

/// The place of the library among the contenders.
pub const LIBRARY: usize = 0;

/// Among the contenders, the place of the plain version for which a number is lowest.
pub fn lowest_plain<L: Timed>(number: impl Fn(usize) -> f64) -> usize {
    (LIBRARY + 1..=L::PLAIN)
        .min_by(|&one, &other| number(one).total_cmp(&number(other)))
        .expect("there is a plain version")
}
