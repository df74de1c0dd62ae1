//! A column: its stretches with their labels, and the zigzags over them.

pub mod stretch;

use crate::flow;
use crate::mapping::{Mapping, Range};
use crate::number::hex;
use crate::picture::{Drawing, COLUMN, LINE, TOP};
use crate::svg::{width_in, DASHED, DOTS, FINE, FONT, HATCHED, MIDDLE, SMALL, STRONG, WHITE};
use stretch::{object_and_offset, stretches, Stretch, What};

/// Below this height a mapping has no outline: that would hide its colour.
const THIN: f64 = 6.0;

/// The heights of a zigzag with a label in it, and of one without.
const STRIP: f64 = 18.0;
const BARE: f64 = 8.0;

/// As far a zigzag and a sparse range stand out on both sides, so that they are seen beside a mapping.
pub const OUT: f64 = 3.0;

/// Between a label and the sides of its column.
const PADDING: f64 = 4.0;

/// Between a label and the outline above it, or a pattern around it.
const CLEARANCE: f64 = 2.0;

/// A stretch's lines of text, and the height of their middle.
#[derive(Debug)]
struct Label {
    lines: Vec<String>,
    middle: f64,
    font: f64,
}

/// A stretch where it stands in its column.
#[derive(Debug)]
pub struct Place {
    pub stretch: Stretch,
    pub top: f64,
    pub bottom: f64,
    pub is_named: bool,
    /// The middles of its zigzags.
    zigzags: Vec<f64>,
    label: Option<Label>,
}

impl Label {
    fn height(&self) -> f64 {
        self.lines.len() as f64 * LINE
    }

    fn width(&self) -> f64 {
        let widths = self.lines.iter().map(|line| width_in(line, self.font));
        widths.fold(0.0, f64::max)
    }
}

/// The label of a mapping in the first form that fits into a width and between two heights.
fn label_of_mapping(
    stretch: &Stretch,
    mapping: &Mapping,
    width: f64,
    room: (f64, f64),
) -> Option<Label> {
    let (offset, size) = (format!("+ {}", hex(mapping.offset)), stretch.size());
    let object = format!("object {}", mapping.object);
    let forms = [
        (FONT, vec![object_and_offset(mapping), size.clone()]),
        (FONT, vec![object.clone(), format!("{offset}, {size}")]),
        (FONT, vec![object, offset, size]),
        (SMALL, vec![stretch.told()]),
    ];
    let middle = (room.0 + room.1) / 2.0;
    let label = |(font, lines)| Label {
        lines,
        middle,
        font,
    };
    let mut labels = forms.into_iter().map(label);
    let height = room.1 - room.0 - CLEARANCE;
    labels.find(|label| label.height() <= height && label.width() <= width)
}

impl Place {
    fn of(drawing: &Drawing, stretch: Stretch) -> Option<Place> {
        let (top, bottom) = drawing.layout.span(&stretch.range)?;
        let mut place = Place {
            stretch,
            top,
            bottom,
            is_named: false,
            zigzags: drawing.layout.breaks(&stretch.range),
            label: None,
        };
        if let What::Mapping(mapping) = &stretch.what {
            let mut operations = drawing.view.grant.operations.iter();
            place.is_named = operations.any(|one| flow::names(one, mapping));
            let is_dotted = drawing.colours.is_dotted(mapping.object);
            place.label = place.mapping_label(mapping, is_dotted);
        } else {
            place.label = place.other_label();
        }
        Some(place)
    }

    /// On the mapping's colour, above its zigzags. Beside it some dots are to be seen.
    fn mapping_label(&self, mapping: &Mapping, is_dotted: bool) -> Option<Label> {
        let width = match is_dotted {
            true => COLUMN - 4.0 * DOTS - 2.0 * CLEARANCE,
            false => COLUMN - 2.0 * PADDING,
        };
        let first = self.zigzags.first().map(|middle| middle - BARE / 2.0);
        let room = (self.top, first.unwrap_or(self.bottom));
        label_of_mapping(&self.stretch, mapping, width, room)
    }

    /// In the middle, and if a zigzag is there, in that.
    fn other_label(&self) -> Option<Label> {
        let middle = (self.top + self.bottom) / 2.0;
        let is_there = |zigzag: &&f64| (*zigzag - middle).abs() < STRIP;
        let zigzag = self.zigzags.iter().find(is_there);
        let least = match self.stretch.what {
            What::Gap | What::Sparse => 2.0 * LINE,
            _ => LINE + PADDING,
        };
        let has_room = zigzag.is_some() || self.bottom - self.top >= least;
        has_room.then(|| Label {
            lines: vec![self.stretch.told()],
            middle: *zigzag.unwrap_or(&middle),
            font: SMALL,
        })
    }

    /// Whether it has no label in the column, and wants one: a thin gap is plain enough, sparse or
    /// not.
    pub fn is_untold(&self) -> bool {
        let is_gap = matches!(self.stretch.what, What::Gap | What::Sparse);
        self.label.is_none() && !is_gap
    }
}

impl Drawing<'_> {
    /// The stretches of a table, with its sparse ranges, where they stand.
    pub fn places(&self, table: &[Mapping], sparse: &[Range]) -> Vec<Place> {
        let left_out: Vec<Range> = self.layout.left_out().collect();
        let stretches = stretches(&self.view.space, table, sparse, &left_out);
        let place = |stretch| Place::of(self, stretch);
        stretches.into_iter().filter_map(place).collect()
    }

    /// A rectangle in an object's colour; its outline lies over the dots.
    pub fn object(&mut self, at: (f64, f64), size: (f64, f64), object: u64, stroke: &str) {
        let fill = self.colours.fill(object);
        self.svg
            .rect(at, size, &format!(r#"fill="{fill}" {stroke}"#));
        if !self.colours.is_dotted(object) {
            return;
        }
        self.svg.dots(at, size);
        if !stroke.is_empty() {
            self.svg.rect(at, size, &format!(r#"fill="none" {stroke}"#));
        }
    }

    fn stretch(&mut self, x: f64, place: &Place) {
        let (at, size) = ((x, place.top), (COLUMN, place.bottom - place.top));
        let outline = match place.is_named {
            true => STRONG,
            false => FINE,
        };
        let outline = if size.1 < THIN { "" } else { outline };
        match place.stretch.what {
            // A sparse range is drawn whole, under the mappings.
            What::Gap | What::Sparse => (),
            What::Reservation => self.svg.rect(at, size, HATCHED),
            What::Mapping(mapping) => self.object(at, size, mapping.object, outline),
            What::LeftOut(_) => {
                let style = format!(r##"fill="#cccccc" {FINE}"##);
                self.svg.rect(at, size, &style);
            }
        }
    }

    /// A sparse range between two heights, with a dashed outline; a thin one is a dashed line.
    pub fn sparse(&mut self, (left, right): (f64, f64), (top, bottom): (f64, f64)) {
        if bottom - top < THIN {
            let middle = (top + bottom) / 2.0;
            self.svg.line(&[(left, middle), (right, middle)], DASHED);
            return;
        }
        let style = format!("{WHITE} {DASHED}");
        self.svg
            .rect((left, top), (right - left, bottom - top), &style);
    }

    fn sparse_ranges(&mut self, x: f64, ranges: &[Range]) {
        for range in ranges {
            for part in self.layout.parts(range) {
                self.sparse((x - OUT, x + COLUMN + OUT), part);
            }
        }
    }

    /// A white strip with torn edges.
    pub fn zigzag(&mut self, (left, right): (f64, f64), (top, bottom): (f64, f64)) {
        let teeth = ((right - left) / 6.0) as usize;
        let edge = |y: f64| {
            let x = move |at| left + (right - left) * at as f64 / teeth as f64;
            (0..=teeth).map(move |at| (x(at), if at % 2 == 0 { y - 1.5 } else { y + 1.5 }))
        };
        let around: Vec<(f64, f64)> = edge(top).chain(edge(bottom).rev()).collect();
        self.svg.area(&around, WHITE);
        for edge in [&around[..=teeth], &around[teeth + 1..]] {
            self.svg.line(edge, FINE);
        }
    }

    fn zigzags(&mut self, x: f64, place: &Place) {
        for &middle in &place.zigzags {
            let has_label = place.label.as_ref().is_some_and(|it| it.middle == middle);
            let half = if has_label { STRIP } else { BARE } / 2.0;
            let sides = (x - OUT, x + COLUMN + OUT);
            self.zigzag(sides, (middle - half, middle + half));
        }
    }

    /// What is behind a label, so that no pattern is: between whole dots, within the outline.
    fn plate(&mut self, x: f64, place: &Place, label: &Label) {
        let fill = match place.stretch.what {
            What::Mapping(mapping) if self.colours.is_dotted(mapping.object) => {
                self.colours.fill(mapping.object)
            }
            What::Reservation if place.zigzags.is_empty() => "#ffffff",
            _ => return,
        };
        let around = |middle: f64, size: f64, (least, most): (f64, f64)| {
            let first = ((middle - size / 2.0) / DOTS).floor() * DOTS;
            let last = ((middle + size / 2.0) / DOTS).ceil() * DOTS;
            // Of dots that are less than a row there are none.
            let is_first = first < least + DOTS;
            let first = if is_first { least + 1.0 } else { first };
            let last = if last > most - DOTS { most - 1.0 } else { last };
            (first, last - first)
        };
        let width = label.width() + 2.0 * CLEARANCE;
        let (left, width) = around(x + COLUMN / 2.0, width, (x, x + COLUMN));
        let (top, height) = around(label.middle, label.height(), (place.top, place.bottom));
        let style = format!(r#"fill="{fill}""#);
        self.svg.rect((left, top), (width, height), &style);
    }

    fn label(&mut self, x: f64, label: &Label) {
        let style = match label.font == FONT {
            true => MIDDLE.to_string(),
            false => format!(r#"{MIDDLE} font-size="{}""#, label.font),
        };
        // A small letter's middle is nearer to its foot.
        let first = label.middle - (label.height() - LINE + 0.7 * (FONT - label.font)) / 2.0;
        for (at, line) in label.lines.iter().enumerate() {
            let y = first + at as f64 * LINE;
            self.svg.text((x + COLUMN / 2.0, y), &style, line);
        }
    }

    pub fn column(&mut self, x: f64, heading: &str, places: &[Place], sparse: &[Range]) {
        self.heading(x + COLUMN / 2.0, heading);
        let size = (COLUMN, self.layout.bottom() - TOP);
        self.svg
            .rect((x, TOP), size, &format!(r##"fill="#f6f6f6" {FINE}"##));
        self.sparse_ranges(x, sparse);
        // Those that an operation names lie over their neighbours' edges.
        for is_named in [false, true] {
            let these = places.iter().filter(|place| place.is_named == is_named);
            these.for_each(|place| self.stretch(x, place));
        }
        places.iter().for_each(|place| self.zigzags(x, place));
        for place in places {
            if let Some(label) = &place.label {
                self.plate(x, place, label);
                self.label(x, label);
            }
        }
    }
}

#[cfg(test)]
mod tests;
