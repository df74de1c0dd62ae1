//! Labels beside a column, of what is too thin for one in it, with a line that leads to each.

use super::{Drawing, LEAD, LINE};
use crate::column::Place;
use crate::number::hex;
use crate::place::near_enough;
use crate::svg::{width_of, FINE};

/// As far above or below its stretch a label may stand.
const FARTHEST: f64 = 60.0;

/// A label, its height, and that of the stretch that it tells of.
pub struct Beside {
    pub words: String,
    pub stretch: f64,
    pub y: f64,
}

pub enum Side {
    Left,
    Right,
}

/// The labels of those that tell nothing in the column, between two heights. In a crowd those
/// that an operation names come first.
pub fn beside(places: &[Place], limits: (f64, f64)) -> Vec<Beside> {
    let untold = || places.iter().filter(|place| place.is_untold());
    let middle = |place: &Place| (place.top + place.bottom) / 2.0;
    let wanted: Vec<(f64, u8)> = untold()
        .map(|place| (middle(place), u8::from(!place.is_named)))
        .collect();
    let label = |(place, y): (&Place, Option<f64>)| {
        let start = hex(place.stretch.range.start);
        Some(Beside {
            words: format!("{start}: {}", place.stretch.told()),
            stretch: middle(place),
            y: y?,
        })
    };
    let heights = near_enough(&wanted, LINE, FARTHEST, limits);
    untold().zip(heights).filter_map(label).collect()
}

/// The room that the labels take, with the lines that lead to them.
pub fn width(labels: &[Beside]) -> f64 {
    let widths = labels.iter().map(|label| LEAD + width_of(&label.words));
    widths.fold(0.0, f64::max)
}

impl Beside {
    /// Whether an address at this height would lie over the label. It does not lie over the line
    /// that leads there: a label that is far from its stretch has others between them.
    pub fn is_in_the_way_of(&self, y: f64) -> bool {
        (self.y - y).abs() < LINE
    }
}

impl Drawing<'_> {
    /// Labels beside a column whose side is at `x`.
    pub fn labels(&mut self, x: f64, side: Side, labels: &[Beside]) {
        let (sign, style) = match side {
            Side::Left => (-1.0, r#"text-anchor="end""#),
            Side::Right => (1.0, ""),
        };
        for label in labels {
            let lead = [
                (x, label.stretch),
                (x + sign * 6.0, label.stretch),
                (x + sign * (LEAD - 10.0), label.y),
                (x + sign * (LEAD - 4.0), label.y),
            ];
            self.svg.line(&lead, FINE);
            self.svg
                .text((x + sign * LEAD, label.y), style, &label.words);
        }
    }
}
