//! Carries vmbind's operations out, from its text, so that the tables around a request are known.

use crate::mapping::{Mapping, Range, Space};
use crate::saved::MOST_MAPPINGS;
use crate::script::{self, Record, Script, Sparse};
use crate::text::{line, Kind, Line, Side};

/// What is read of a text, in MiB: some million requests.
pub const MOST_READ: u64 = 256;

/// A request hits each mapping once, and a map has one of its own. More would only need memory.
const MOST_OPERATIONS: usize = MOST_MAPPINGS + 1;

#[derive(Clone, Debug, PartialEq)]
pub struct Operation {
    pub kind: Kind,
    /// The old mapping; for a map the new one.
    pub named: Mapping,
    pub keep: bool,
    pub rests: Vec<(Side, Mapping)>,
}

/// A granted request: the mappings before it, its operations, and the mappings after them. If the
/// script is there, also the space and the sparse ranges.
#[derive(Clone, Debug, Default, PartialEq)]
pub struct Grant {
    pub before: Vec<Mapping>,
    pub operations: Vec<Operation>,
    pub after: Vec<Mapping>,
    pub space: Option<Space>,
    pub sparse: Sparse,
}

/// The first line that is bad, and what is wrong with it.
#[derive(Debug, PartialEq)]
pub struct BadLine {
    pub line: usize,
    pub what: String,
}

/// A grant whose operations are still to come, and what its line, at `line`, tells of it.
#[derive(Default)]
struct Open {
    line: usize,
    operations: u64,
    count: u64,
    grant: Grant,
}

/// The text so far: how many requests it grants, and the one that is wanted.
#[derive(Default)]
pub struct Replay<'a> {
    pub grants: usize,
    pub wanted: Option<Grant>,
    table: Vec<Mapping>,
    script: Option<Script<'a>>,
    space: Option<Space>,
    ranges: Vec<Range>,
    open: Option<Open>,
    stopped: bool,
}

fn take_out(table: &mut Vec<Mapping>, old: &Mapping) -> Result<(), String> {
    let place = table.iter().position(|mapping| mapping == old);
    table.remove(place.ok_or("there is no such mapping in the table")?);
    Ok(())
}

fn put_in(table: &mut Vec<Mapping>, new: Mapping) -> Result<(), String> {
    let in_the_way = |mapping: &&Mapping| mapping.range.shares_byte_with(&new.range);
    if let Some(old) = table.iter().find(in_the_way) {
        return Err(format!("overlaps the mapping {}", old.range.shown()));
    }
    if table.len() == MOST_MAPPINGS {
        return Err(format!("a table has no more than {MOST_MAPPINGS} mappings"));
    }
    let place = table.partition_point(|mapping| mapping.range.start < new.range.start);
    table.insert(place, new);
    Ok(())
}

/// A rest begins or ends as the old mapping does, and shows what that showed.
fn is_rest(old: &Mapping, side: Side, rest: &Mapping) -> bool {
    let at_its_end = match side {
        Side::Lower => rest.range.start == old.range.start,
        Side::Upper => rest.range.end == old.range.end,
    };
    at_its_end
        && rest.range.is_inside(&old.range)
        && rest.object == old.object
        && rest.offset == old.offset_of(rest.range.start)
}

impl Replay<'_> {
    fn operation(&mut self, kind: Kind, named: Mapping, keep: bool) -> Result<(), String> {
        let is_told = |open: &&mut Open| (open.grant.operations.len() as u64) < open.operations;
        let open = self.open.as_mut().filter(is_told);
        let open = open.ok_or("no granted line has told of this operation")?;
        if open.grant.operations.len() == MOST_OPERATIONS {
            return Err(format!(
                "a request has no more than {MOST_OPERATIONS} operations"
            ));
        }
        match kind {
            Kind::Map => put_in(&mut self.table, named)?,
            Kind::Remap | Kind::Unmap => take_out(&mut self.table, &named)?,
        }
        open.grant.operations.push(Operation {
            kind,
            named,
            keep,
            rests: Vec::new(),
        });
        Ok(())
    }

    fn rest(&mut self, side: Side, rest: Mapping) -> Result<(), String> {
        let open = self.open.as_mut();
        let last = open.and_then(|open| open.grant.operations.last_mut());
        let last =
            last.filter(|last| last.kind == Kind::Remap && is_rest(&last.named, side, &rest));
        let last = last.ok_or("is no rest of a mapping that is remapped before it")?;
        put_in(&mut self.table, rest)?;
        last.rests.push((side, rest));
        Ok(())
    }

    /// Ends the grant that is open: all that its line tells has to be there.
    fn close(&mut self, wanted: Option<usize>) -> Result<(), BadLine> {
        let Some(mut open) = self.open.take() else {
            return Ok(());
        };
        let check = |what: &str, told: u64, there: usize| match told == there as u64 {
            true => Ok(()),
            false => Err(BadLine {
                line: open.line,
                what: format!("tells of {told} {what}, and there are {there}"),
            }),
        };
        check("operations", open.operations, open.grant.operations.len())?;
        check("mappings", open.count, self.table.len())?;
        self.grants += 1;
        if wanted.map_or(true, |number| number == self.grants) {
            open.grant.after.clone_from(&self.table);
            self.wanted = Some(open.grant);
        }
        Ok(())
    }

    /// The script's record that a line answers, if the script is there.
    fn record(&mut self, line: &Line) -> Result<Option<Record>, String> {
        let Some(script) = &mut self.script else {
            return Ok(None);
        };
        let record = script
            .next()
            .ok_or("the script has ended before this line")?;
        let fits = match (line, &record) {
            (Line::Refused, record) => *record != Record::Broken,
            (Line::Space, Record::Space(_))
            | (Line::Granted(..), Record::Request(_))
            | (Line::Seen, Record::Lookup)
            | (Line::Stopped, Record::Broken) => true,
            _ => false,
        };
        fits.then_some(Some(record))
            .ok_or("is no answer to the record that the script has here".to_string())
    }

    /// What a granted request does to the sparse ranges.
    fn change(&mut self, record: Option<Record>, operations: u64) -> Result<Sparse, String> {
        let before = self.ranges.clone();
        let mut changed = None;
        if let Some(Record::Request(Some(change))) = record {
            if operations != 0 {
                return Err("a request for a sparse range has no operation".to_string());
            }
            changed = Some(script::change(&mut self.ranges, &change)?);
        }
        Ok(Sparse {
            before,
            after: self.ranges.clone(),
            changed,
        })
    }

    /// Any line but an operation's.
    fn answer(&mut self, number: usize, line: Line) -> Result<(), String> {
        let record = self.record(&line)?;
        match line {
            Line::Space => {
                self.table.clear();
                self.ranges.clear();
                if let Some(Record::Space(numbers)) = record {
                    self.space = Some(script::space(numbers)?);
                }
            }
            Line::Stopped => self.stopped = true,
            Line::Granted(operations, count) => {
                let grant = Grant {
                    before: self.table.clone(),
                    space: self.space,
                    sparse: self.change(record, operations)?,
                    ..Grant::default()
                };
                self.open = Some(Open {
                    line: number,
                    operations,
                    count,
                    grant,
                });
            }
            _ => (),
        }
        Ok(())
    }
}

/// The lines of a text, as `str::lines` gives them.
fn lines_of(text: &[u8]) -> impl Iterator<Item = &[u8]> {
    text.split_inclusive(|&byte| byte == b'\n').map(|line| {
        let Some(line) = line.strip_suffix(b"\n") else {
            return line;
        };
        line.strip_suffix(b"\r").unwrap_or(line)
    })
}

/// Replays the whole text. `wanted` counts the grants from 1; `None` is the last one. The script, if
/// it is there, is the one whose answers the text has.
pub fn replay<'a>(
    text: impl AsRef<[u8]>,
    script: Option<&'a [u8]>,
    wanted: Option<usize>,
) -> Result<Replay<'a>, BadLine> {
    let mut replay = Replay {
        script: script.map(Script::of),
        ..Replay::default()
    };
    for (at, words) in lines_of(text.as_ref()).enumerate() {
        let bad = |what| BadLine { line: at + 1, what };
        if replay.stopped {
            return Err(bad("vmbind has stopped before this line".to_string()));
        }
        match line(words).map_err(bad)? {
            Line::Operation(kind, named, keep) => {
                replay.operation(kind, named, keep).map_err(bad)?
            }
            Line::Rest(side, rest) => replay.rest(side, rest).map_err(bad)?,
            answer => {
                replay.close(wanted)?;
                replay.answer(at + 1, answer).map_err(bad)?;
            }
        }
    }
    replay.close(wanted)?;
    Ok(replay)
}

#[cfg(test)]
mod tests;
