//! What the script program prints, compared to what the model prints, byte for byte.

use crate::program::{keep, run, Input, Ran};
use std::collections::BTreeMap;
use waylluqen_model::random::Random;
use waylluqen_model::script;

/// The lines that granted requests and answered look-ups make.
pub const LINES: [&str; 16] = [
    "space",
    "granted",
    "granted 0",
    "map",
    "remap keep 0",
    "remap keep 1",
    "remap keep 1 and lower",
    "lower",
    "upper",
    "lower and upper",
    "unmap keep 0",
    "unmap keep 1",
    "at",
    "at none",
    "at none 0",
    "at sparse",
];

/// Every refusal that a script can have, but for [`NO_ROOM`].
pub const REFUSALS: [&str; 10] = [
    "refused 1",
    "refused 6",
    "refused 7",
    "refused 8",
    "refused 9",
    "refused 10",
    "refused 13",
    "refused 14",
    "refused 19",
    "refused 20",
];

/// The one that takes a full table or a full list.
pub const NO_ROOM: &str = "refused 11";

/// The ends that a script can have: none of its own, a wrong mark, a cut mark, a cut record.
pub const ENDS: [&[u8]; 4] = [b"", b"XY", b"S", b"RQ\0\0\0\0\0"];

/// Compares, and counts the lines that came.
pub struct Tally {
    test: &'static str,
    seed: u64,
    scripts: u64,
    bytes: usize,
    /// By kind.
    lines: BTreeMap<String, u64>,
}

/// The kind of a line: its words, with the numbers that tell one answer from another.
fn kind(line: &str) -> &str {
    let first = line.split(' ').next().unwrap_or_default();
    match first {
        "refused" => line,
        "at" if line.ends_with(" none 0") => "at none 0",
        "at" if line.contains(" none ") => "at none",
        "at" if line.contains(" sparse ") => "at sparse",
        "granted" if line.starts_with("granted 0 ") => "granted 0",
        "remap" if line.ends_with(" keep 1") => "remap keep 1",
        "remap" => "remap keep 0",
        "unmap" if line.ends_with(" keep 1") => "unmap keep 1",
        "unmap" => "unmap keep 0",
        _ => first,
    }
}

/// Whether a script can have a line of this kind. Its table and its list are ones that only requests
/// write, and its records have their length: it is not refused for any of them.
fn can_come(kind: &str) -> bool {
    let is_refusal = kind.starts_with("refused");
    !is_refusal || kind == NO_ROOM || REFUSALS.contains(&kind)
}

impl Tally {
    /// A test's tally, and the randomness of its scripts.
    pub fn new(test: &'static str, seed: u64) -> (Tally, Random) {
        let tally = Tally {
            test,
            seed,
            scripts: 0,
            bytes: 0,
            lines: BTreeMap::new(),
        };
        (tally, Random::new(seed))
    }

    pub fn compare(&mut self, bytes: &[u8], input: Input) {
        let printed = script(bytes);
        let ran = run(bytes, input, printed.len());
        if !ran.is_plain(&printed) {
            self.report(bytes, input, &ran, &printed);
        }
        self.scripts += 1;
        self.bytes += bytes.len();
        let mut last = "";
        for line in printed.lines() {
            let kind = kind(line);
            assert!(can_come(kind), "`{kind}` came");
            self.count(kind);
            match (last, kind) {
                ("lower", "upper") => self.count("lower and upper"),
                ("remap keep 1", "lower") => self.count("remap keep 1 and lower"),
                _ => {}
            }
            last = kind;
        }
    }

    /// By a file and by a pipe in turn.
    pub fn compare_by_turn(&mut self, bytes: &[u8]) {
        let inputs = [Input::File, Input::Pipe];
        self.compare(bytes, inputs[self.scripts as usize % inputs.len()]);
    }

    fn count(&mut self, kind: &str) {
        match self.lines.get_mut(kind) {
            Some(times) => *times += 1,
            None => {
                self.lines.insert(kind.to_string(), 1);
            }
        }
    }

    /// Each of these kinds came at least `least` times.
    pub fn assert_kinds(&self, kinds: &[&str], least: u64) {
        for &kind in kinds {
            let times = self.lines.get(kind).copied().unwrap_or_default();
            assert!(times >= least, "`{kind}` came only {times} times");
        }
    }

    /// Seen with `cargo test -- --nocapture`.
    pub fn print(&self) {
        let Tally {
            test,
            seed,
            scripts,
            bytes,
            lines,
        } = self;
        println!("{test}: seed {seed}, {scripts} scripts, {bytes} bytes, lines {lines:?}");
    }

    #[cold]
    fn report(&self, bytes: &[u8], input: Input, ran: &Ran, printed: &str) -> ! {
        let out = String::from_utf8_lossy(&ran.out);
        let pairs = out.split('\n').zip(printed.split('\n'));
        let same = pairs.take_while(|(one, other)| one == other).count();
        let line = |text: &str| text.split('\n').nth(same).map(str::to_string);
        panic!(
            "{}, seed {}, script {} by {input:?}, {} bytes, kept in {}\nafter {same} lines\n\
             the program {:?}\nthe model   {:?}\n{}, standard error {:?}",
            self.test,
            self.seed,
            self.scripts,
            bytes.len(),
            keep(self.test, bytes).display(),
            line(&out),
            line(printed),
            ran.status,
            ran.err,
        );
    }
}
