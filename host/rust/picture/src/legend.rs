//! What the colours and marks mean, and the scale.

use crate::colours::DISTINCT;
use crate::layout::{Band, Kind, Layout};
use crate::mapping::PAGE;
use crate::number::{count, size};
use crate::picture::{Drawing, Sheet, MARGIN};
use crate::script::Sparse;
use crate::svg::{width_of, FINE, HATCHED, STRONG};

const ROW: f64 = 24.0;
const SWATCH: (f64, f64) = (28.0, 14.0);
const INDENT: f64 = SWATCH.0 + 8.0;
const BETWEEN: f64 = 22.0;

/// The bar of the scale is at least this high.
const LEAST_BAR: f64 = 20.0;

/// An entry's mark; a note has none.
enum Mark {
    Object(u64),
    Reservation,
    Sparse,
    Named,
    Zigzag,
    Hairline,
    Note,
}

const KEEP: &str = "keep: what the page tables have can stay";

/// The longest entry has to fit.
pub fn least_width() -> f64 {
    INDENT + width_of(KEEP)
}

/// The left side of the scale's label.
const SCALE: f64 = MARGIN + 12.0;

/// The bytes that the bar of the scale shows.
fn scale_bytes(layout: &Layout) -> u64 {
    let mut bytes = PAGE;
    while layout.scale * (bytes as f64) < LEAST_BAR {
        bytes *= 2;
    }
    bytes
}

/// Where the entries can begin, beside the scale.
pub fn least_start(layout: &Layout) -> f64 {
    SCALE + width_of(&size(scale_bytes(layout))) + 12.0
}

impl Drawing<'_> {
    fn entries(&self) -> Vec<(Mark, String)> {
        let (layout, operations) = (&self.layout, &self.view.grant.operations);
        let objects = &self.colours.objects;
        let object = |&object: &u64| (Mark::Object(object), format!("object {object}"));
        let others = objects.len().saturating_sub(DISTINCT);
        let others_told = format!("{} in colours used again", count(others, "more object"));
        let is_hairline =
            |band: &Band| band.kind == Kind::Mapped && layout.is_hairline(&band.range);
        let broken = layout.bands.iter().any(|band| layout.is_broken(band));
        let hairline = layout.bands.iter().any(is_hairline);
        let kept = operations.iter().any(|one| one.keep);
        let Sparse { before, after, .. } = &self.view.grant.sparse;
        let sparse = !before.is_empty() || !after.is_empty();
        let marks = [
            (others > 0, Mark::Note, others_told.as_str()),
            (
                self.view.space.reservation.is_some(),
                Mark::Reservation,
                "reserved",
            ),
            (sparse, Mark::Sparse, "sparse range"),
            (!operations.is_empty(), Mark::Named, "named by an operation"),
            (broken, Mark::Zigzag, "shortened, not to scale"),
            (hairline, Mark::Hairline, "thinner than its line"),
            (kept, Mark::Note, KEEP),
        ];
        let mut entries: Vec<(Mark, String)> = objects.iter().take(DISTINCT).map(object).collect();
        let used = marks.into_iter().filter(|mark| mark.0);
        entries.extend(used.map(|(_, mark, words)| (mark, words.to_string())));
        entries
    }

    fn mark(&mut self, mark: &Mark, (x, y): (f64, f64)) {
        let corner = (x, y - SWATCH.1 / 2.0);
        match mark {
            Mark::Object(object) => self.object(corner, SWATCH, *object, FINE),
            Mark::Reservation => self.svg.rect(corner, SWATCH, HATCHED),
            Mark::Sparse => {
                let half = SWATCH.1 / 2.0;
                self.sparse((x, x + SWATCH.0), (y - half, y + half));
            }
            Mark::Named => self
                .svg
                .rect(corner, SWATCH, &format!(r#"fill="none" {STRONG}"#)),
            Mark::Zigzag => self.zigzag((x, x + SWATCH.0), (y - 4.0, y + 4.0)),
            Mark::Hairline => self.svg.line(&[(x, y), (x + SWATCH.0, y)], STRONG),
            Mark::Note => (),
        }
    }

    /// A bar, and how many bytes are as high as it. Gives its end.
    fn scale_bar(&mut self, top: f64) -> f64 {
        let bytes = scale_bytes(&self.layout);
        let bottom = top + self.layout.scale * bytes as f64;
        let (left, middle, right) = (MARGIN, MARGIN + 4.0, MARGIN + 8.0);
        for (from, to) in [
            ((left, top), (right, top)),
            ((middle, top), (middle, bottom)),
            ((left, bottom), (right, bottom)),
        ] {
            self.svg.line(&[from, to], STRONG);
        }
        self.svg
            .text((SCALE, (top + bottom) / 2.0), "", &size(bytes));
        bottom
    }

    /// Draws it below `top`, and gives the height at which the picture ends.
    pub fn legend(&mut self, sheet: &Sheet, top: f64) -> f64 {
        let start = sheet.before;
        let (mut x, mut y) = (start, top + ROW / 2.0);
        for (mark, words) in self.entries() {
            let indent = if let Mark::Note = mark { 0.0 } else { INDENT };
            let width = indent + width_of(&words);
            if x > start && x + width > sheet.width - MARGIN {
                (x, y) = (start, y + ROW);
            }
            self.mark(&mark, (x, y));
            self.svg.text((x + indent, y), "", &words);
            x += width + BETWEEN;
        }
        self.scale_bar(top + 4.0).max(y + ROW / 2.0) + MARGIN
    }
}
