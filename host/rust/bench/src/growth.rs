//! How the cost grows with the number of mappings, as an SVG picture: a panel for each line of
//! calls, all to the same scale.

mod axis;
mod curve;

use crate::line::{Line, SIZES};
use crate::report::TREE;
use crate::timed::LIBRARY;
use crate::timing::Times;
use axis::{decades, grouped, range, Axis};
use curve::STYLES;
use std::array;
use waylluqen_svg::{width_of, Svg, FINE, MIDDLE};

/// Nanoseconds a call at each size.
type Curve = [f64; SIZES.len()];

/// The same calls at all sizes, as `STYLES` has their curves.
pub struct Panel {
    pub what: &'static str,
    pub curves: [Curve; STYLES.len()],
}

const TITLE: &str = "Nanoseconds a call, by the number of mappings that there is room for";
const NOTE: &str = "Both axes are logarithmic. \
    Beside the end of the library's curve: its time a mapping at 4,096.";

const MARGIN: f64 = 16.0;

/// Where the first panels begin, below title, legend and note.
const TOP: f64 = 84.0;

const COLUMNS: usize = 2;
const PLOT: (f64, f64) = (292.0, 172.0);

/// What a panel has around its plot: the numbers of the axes, its heading, the library's label.
const LEFT: f64 = 66.0;
const RIGHT: f64 = 72.0;
const ABOVE: f64 = 26.0;
const BELOW: f64 = 46.0;

/// So far inside of the plot its first and last size stand.
const INSET: f64 = 10.0;

const GRID: &str = r##"stroke="#dddddd" stroke-width="0.8""##;
const SMALL: &str = r#"font-size="11""#;

/// A panel's plot: its axes, and the corners that they give.
struct Plot {
    x: Axis,
    y: Axis,
    left: f64,
    right: f64,
    top: f64,
    bottom: f64,
}

impl Plot {
    /// Of the panel at this place, with such numbers on the axis of times.
    fn of(place: usize, times: (f64, f64)) -> Plot {
        let (row, column) = ((place / COLUMNS) as f64, (place % COLUMNS) as f64);
        let left = MARGIN + column * (LEFT + PLOT.0 + RIGHT) + LEFT;
        let top = TOP + row * (ABOVE + PLOT.1 + BELOW) + ABOVE;
        let (right, bottom) = (left + PLOT.0, top + PLOT.1);
        let sizes = (SIZES[0] as f64, SIZES[SIZES.len() - 1] as f64);
        Plot {
            x: Axis::new(sizes, (left + INSET, right - INSET)),
            y: Axis::new(times, (bottom, top)),
            left,
            right,
            top,
            bottom,
        }
    }

    fn points(&self, curve: &Curve) -> [(f64, f64); SIZES.len()] {
        array::from_fn(|at| (self.x.place(SIZES[at] as f64), self.y.place(curve[at])))
    }

    fn draw_axes(&self, svg: &mut Svg, what: &str) {
        for size in SIZES {
            let x = self.x.place(size as f64);
            svg.line(&[(x, self.top), (x, self.bottom)], GRID);
            let style = format!("{MIDDLE} {SMALL}");
            svg.text((x, self.bottom + 12.0), &style, &grouped(size as u64));
        }
        let end = format!(r#"text-anchor="end" {SMALL}"#);
        for decade in decades(self.y.numbers) {
            let y = self.y.place(decade);
            svg.line(&[(self.left, y), (self.right, y)], GRID);
            svg.text((self.left - 6.0, y), &end, &grouped(decade as u64));
        }
        let frame = format!(r#"fill="none" {FINE}"#);
        svg.rect((self.left, self.top), PLOT, &frame);
        let middle = (self.left + self.right) / 2.0;
        let style = format!("{MIDDLE} {SMALL}");
        svg.text((middle, self.bottom + 27.0), &style, "mappings");
        let heading = self.top - 12.0;
        svg.text((self.left - 6.0, heading), &end, "ns");
        svg.text((self.left + 6.0, heading), r#"font-weight="bold""#, what);
    }

    /// The library's nanoseconds a mapping, beside the end of its curve.
    fn label(&self, svg: &mut Svg, library: &Curve) {
        let last = SIZES.len() - 1;
        let number = library[last] / SIZES[last] as f64;
        let (x, y) = (self.right + 6.0, self.y.place(library[last]));
        let y = y.clamp(self.top + 6.0, self.bottom - 6.0);
        let style = format!(r#"{SMALL} fill="{}""#, STYLES[0].colour);
        svg.text((x, y - 6.0), &style, &format!("{number:.2} ns"));
        svg.text((x, y + 7.0), &style, "a mapping");
    }

    fn draw(&self, svg: &mut Svg, panel: &Panel) {
        self.draw_axes(svg, panel.what);
        // The library's curve last, so that it lies above the others.
        for (style, curve) in STYLES.iter().zip(&panel.curves).rev() {
            style.draw(svg, &self.points(curve));
        }
        self.label(svg, &panel.curves[0]);
    }
}

fn draw_legend(svg: &mut Svg, y: f64) {
    let mut x = MARGIN;
    for style in &STYLES {
        style.draw(svg, &[(x + 4.0, y), (x + 44.0, y)]);
        svg.text((x + 56.0, y), "", style.name);
        x += 56.0 + width_of(style.name) + 28.0;
    }
}

/// The picture in words: what stands at the right of each panel.
fn about(panels: &[Panel]) -> String {
    let mut told = "Nanoseconds a call where there is room for 4,096 mappings.".to_string();
    for panel in panels {
        let [library, plain, tree] = panel.curves.map(|curve| curve[SIZES.len() - 1]);
        let what = panel.what;
        told += &format!(
            " {what}: library {library:.0}, quickest plain version {plain:.0}, BTreeMap {tree:.0}."
        );
    }
    told
}

/// The whole file.
pub fn draw(panels: &[Panel]) -> String {
    let times = range(panels.iter().flat_map(|panel| panel.curves.as_flattened()));
    let mut svg = Svg::default();
    let bold = r#"font-size="15" font-weight="bold""#;
    svg.text((MARGIN, 22.0), bold, TITLE);
    draw_legend(&mut svg, 46.0);
    svg.text((MARGIN, 68.0), SMALL, NOTE);
    for (place, panel) in panels.iter().enumerate() {
        Plot::of(place, times).draw(&mut svg, panel);
    }
    let rows = panels.len().div_ceil(COLUMNS) as f64;
    let width = 2.0 * MARGIN + COLUMNS as f64 * (LEFT + PLOT.0 + RIGHT);
    let height = TOP + rows * (ABOVE + PLOT.1 + BELOW);
    svg.file((width, height), TITLE, &about(panels))
}

/// The figures of the tables. Those of the same calls stand beside one another, the smallest first;
/// the last ones, of one size alone, do not grow.
pub fn panels(lines: &[Line], times: &[Times]) -> Vec<Panel> {
    let lines = lines.chunks_exact(SIZES.len());
    let of_calls = lines.zip(times.chunks_exact(SIZES.len()));
    let panel = |(lines, times): (&[Line], &[Times])| {
        let median = |size: usize, contender| times[size].of_call(contender).median;
        Panel {
            what: lines[0].what,
            curves: [
                array::from_fn(|size| median(size, LIBRARY)),
                array::from_fn(|size| median(size, times[size].quickest_plain::<Line>())),
                array::from_fn(|size| median(size, TREE)),
            ],
        }
    };
    of_calls.map(panel).collect()
}

#[cfg(test)]
mod tests;
