//! The operations between the columns: a box for each, and what leads into it and out of it.

use crate::layout::Layout;
use crate::mapping::Mapping;
use crate::number::count;
use crate::picture::{Drawing, Sheet, COLUMN, LINE, TOP};
use crate::place::{spread, Wanted};
use crate::replay::{Grant, Operation};
use crate::script::Sparse;
use crate::svg::{width_of, FINE, HEADING, WHITE};
use crate::text::{Kind, Side};

/// Between a column and the boxes.
pub const GUTTER: f64 = 66.0;

const PADDING: f64 = 8.0;
const BETWEEN: f64 = 6.0;
const INDENT: f64 = 16.0;

const MOST_BOXES: usize = 16;

/// The lines of an operation, or of none: those say how many operations are left out.
struct OneBox {
    operation: Option<usize>,
    lines: Vec<String>,
    top: f64,
}

pub struct Boxes {
    boxes: Vec<OneBox>,
    heading: String,
    pub width: f64,
    pub bottom: f64,
}

/// The mappings that an operation puts in.
fn new_ones(operation: &Operation) -> Vec<Mapping> {
    match operation.kind {
        Kind::Map => vec![operation.named],
        _ => operation.rests.iter().map(|(_, rest)| *rest).collect(),
    }
}

pub fn names(operation: &Operation, mapping: &Mapping) -> bool {
    operation.named == *mapping || new_ones(operation).contains(mapping)
}

impl OneBox {
    fn of((at, operation): (usize, &Operation)) -> OneBox {
        let name = match operation.kind {
            Kind::Map => "map",
            Kind::Remap => "remap",
            Kind::Unmap => "unmap",
        };
        let (object, range) = (operation.named.object, operation.named.range.shown());
        let keep = if operation.keep { ", keep" } else { "" };
        let mut lines = vec![format!("{} {name} object {object}, {range}{keep}", at + 1)];
        lines.extend(operation.rests.iter().map(|(side, rest)| match side {
            Side::Lower => format!("lower rest {}", rest.range.shown()),
            Side::Upper => format!("upper rest {}", rest.range.shown()),
        }));
        OneBox {
            operation: Some(at),
            lines,
            top: 0.0,
        }
    }

    fn width(&self) -> f64 {
        let rests = self.lines[1..].iter().map(|line| INDENT + width_of(line));
        rests.fold(width_of(&self.lines[0]), f64::max) + 2.0 * PADDING
    }

    fn height(&self) -> f64 {
        self.lines.len() as f64 * LINE + PADDING
    }

    /// The top and the bottom of a line.
    fn line(&self, number: usize) -> (f64, f64) {
        let top = self.top + PADDING / 2.0 + number as f64 * LINE;
        (top, top + LINE)
    }
}

/// Of many the first ones and the last one stay, and a box tells how many do not.
fn shorten(boxes: &mut Vec<OneBox>) {
    let (first, last) = (MOST_BOXES - 2, boxes.len().saturating_sub(1));
    if boxes.len() > MOST_BOXES {
        let told = OneBox {
            operation: None,
            lines: vec![format!("… {}", count(last - first, "more operation"))],
            top: 0.0,
        };
        boxes.splice(first..last, [told]);
    }
}

/// Where an operation's mapping has its middle.
fn middle(layout: &Layout, operation: &Operation) -> f64 {
    let span = layout.span(&operation.named.range);
    span.map_or(TOP, |(top, bottom)| (top + bottom) / 2.0)
}

/// What stands over the boxes: how many operations there are, or what is done without one.
fn heading(grant: &Grant) -> String {
    let Sparse { before, after, .. } = &grant.sparse;
    match grant.operations.len() {
        0 if before.len() < after.len() => "a sparse range is added".to_string(),
        0 if after.len() < before.len() => "a sparse range is removed".to_string(),
        0 => "no operation".to_string(),
        1 => "1 operation".to_string(),
        more => format!("{more} operations, in order"),
    }
}

impl Boxes {
    pub fn of(grant: &Grant, layout: &Layout) -> Boxes {
        let mut boxes: Vec<OneBox> = grant
            .operations
            .iter()
            .enumerate()
            .map(OneBox::of)
            .collect();
        shorten(&mut boxes);
        let wanted = |(at, one): (usize, &OneBox)| Wanted {
            // What is left out stands behind the box before it.
            middle: middle(layout, &grant.operations[one.operation.unwrap_or(at)]),
            height: one.height() + BETWEEN,
        };
        let wanted: Vec<Wanted> = boxes.iter().enumerate().map(wanted).collect();
        let high: f64 = wanted.iter().map(|one| one.height).sum();
        let bottom = layout.bottom().max(TOP + high);
        for (one, top) in boxes.iter_mut().zip(spread(&wanted, (TOP, bottom))) {
            one.top = top + BETWEEN / 2.0;
        }
        let heading = heading(grant);
        let width = boxes
            .iter()
            .map(OneBox::width)
            .fold(width_of(&heading), f64::max);
        Boxes {
            boxes,
            heading,
            width,
            bottom,
        }
    }

    /// The operations in words.
    pub fn told(&self) -> String {
        let lines: Vec<String> = self.boxes.iter().map(|one| one.lines.join(", ")).collect();
        lines.join("; ")
    }
}

impl Drawing<'_> {
    /// From a mapping's side, at `x`, to a box's side, in the object's colour.
    fn flow(&mut self, (x, mapping): (f64, &Mapping), (end, sides): (f64, (f64, f64))) {
        let Some((top, bottom)) = self.layout.span(&mapping.range) else {
            return;
        };
        let pale = format!(
            r#"fill="{}" fill-opacity="0.35""#,
            self.colours.fill(mapping.object)
        );
        let area = [(x, top), (end, sides.0), (end, sides.1), (x, bottom)];
        // White below: where two cross, one lies over the other.
        self.svg.area(&area, WHITE);
        self.svg.area(&area, &pale);
        self.svg.line(&area[..2], FINE);
        self.svg.line(&area[2..], FINE);
    }

    pub fn flows(&mut self, sheet: &Sheet, boxes: &Boxes) {
        let (left, right) = (sheet.boxes, sheet.boxes + boxes.width);
        for one in &boxes.boxes {
            let Some(operation) = one.operation.map(|at| &self.view.grant.operations[at]) else {
                continue;
            };
            let sides = (one.top, one.top + one.height());
            if operation.kind != Kind::Map {
                self.flow((sheet.before + COLUMN, &operation.named), (left, sides));
            }
            for (at, new) in new_ones(operation).iter().enumerate() {
                let sides = if operation.kind == Kind::Map {
                    sides
                } else {
                    one.line(at + 1)
                };
                self.flow((sheet.after, new), (right, sides));
            }
        }
    }

    pub fn boxes(&mut self, sheet: &Sheet, boxes: &Boxes) {
        self.heading(sheet.boxes + boxes.width / 2.0, &boxes.heading);
        for one in &boxes.boxes {
            let dashes = if one.operation.is_none() {
                r#"stroke-dasharray="3 3""#
            } else {
                ""
            };
            let style = format!(r##"{WHITE} stroke="#1a1a1a" rx="3" {dashes}"##);
            self.svg
                .rect((sheet.boxes, one.top), (boxes.width, one.height()), &style);
            for (at, line) in one.lines.iter().enumerate() {
                let x = sheet.boxes + PADDING + if at > 0 { INDENT } else { 0.0 };
                self.svg.text((x, one.line(at).0 + LINE / 2.0), "", line);
            }
        }
    }

    /// What stands over a column or over the boxes.
    pub fn heading(&mut self, middle: f64, words: &str) {
        self.svg.text((middle, TOP - 18.0), HEADING, words);
    }
}
