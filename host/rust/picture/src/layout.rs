//! Where an address stands in the picture.
//!
//! One scale for all, which goes by what the request changes: its range is to be seen well. What
//! is much longer is broken by a zigzag, what is much shorter becomes a hairline: with a line of
//! text for a page, 16 MiB without a break would be sixty thousand pixels high.
//! Of many mappings that stay as they are, those far from the request are left out together.

use crate::mapping::{mapping_at, Mapping, Range, Space, PAGE};
use crate::replay::{Grant, Operation};
use crate::text;

/// Heights in pixels: of a page at most, of what the request changes at most, of the thinnest.
const MOST_OF_PAGE: f64 = 56.0;
const MOST_OF_CHANGE: f64 = 160.0;
const HAIRLINE: f64 = 2.0;

/// The columns' height at most; with many bands as many pixels for each of them.
const MOST_OF_ALL: f64 = 900.0;
const BAND_ROOM: f64 = 3.5;

/// As many mappings on each side of what the request touches are shown always.
const NEAR: usize = 4;

/// As many mappings in a row at least are left out together.
const FOLD_LEAST: usize = 8;

#[derive(Clone, Copy, Debug, PartialEq)]
pub enum Kind {
    Free,
    Reserved,
    Mapped,
    /// Mappings that stay as they are, left out with the gaps between them.
    Folded,
}

impl Kind {
    /// A band that would be higher is broken.
    fn most(self) -> f64 {
        match self {
            Kind::Folded => 40.0,
            // A gap of one page stays as it is.
            Kind::Free | Kind::Reserved => MOST_OF_PAGE,
            Kind::Mapped => 240.0,
        }
    }
}

/// Addresses between two edges, of whatever lies there in both columns.
#[derive(Clone, Copy, Debug, PartialEq)]
pub struct Band {
    pub range: Range,
    pub kind: Kind,
    pub top: f64,
    pub height: f64,
}

impl Band {
    pub fn bottom(&self) -> f64 {
        self.top + self.height
    }
}

#[derive(Debug)]
pub struct Layout {
    pub bands: Vec<Band>,
    /// Pixels a byte.
    pub scale: f64,
}

fn edges(space: &Space, grant: &Grant) -> Vec<u64> {
    let tables = grant.before.iter().chain(&grant.after);
    let named = grant.operations.iter().map(|operation| &operation.named);
    let sparse = grant.sparse.before.iter().chain(&grant.sparse.after);
    let mut edges: Vec<u64> = tables
        .chain(named)
        .map(|mapping| mapping.range)
        .chain(sparse.copied())
        .chain(space.reservation)
        .chain([space.range])
        .flat_map(|range| [range.start, range.end])
        .collect();
    edges.sort_unstable();
    edges.dedup();
    edges
}

fn kind_at(space: &Space, grant: &Grant, address: u64) -> Kind {
    let page = Range {
        start: address,
        end: address + PAGE,
    };
    let mapped = |table: &[Mapping]| mapping_at(table, address).is_some();
    if space
        .reservation
        .is_some_and(|range| range.shares_byte_with(&page))
    {
        Kind::Reserved
    } else if mapped(&grant.before) || mapped(&grant.after) {
        Kind::Mapped
    } else {
        Kind::Free
    }
}

/// Whether an operation names the mapping here, or it is in the sparse range that is asked for.
fn is_touched(grant: &Grant, range: &Range) -> bool {
    let mut named = grant.operations.iter().map(|one| one.named.range);
    named.any(|named| range.is_inside(&named)) || is_asked(grant, range)
}

/// Whether it is in the sparse range that the request adds or removes.
fn is_asked(grant: &Grant, range: &Range) -> bool {
    let changed = grant.sparse.changed;
    changed.is_some_and(|changed| range.is_inside(&changed))
}

/// Whether the request has the range: it shows something else now, or a map has named it.
fn is_changed(grant: &Grant, range: &Range) -> bool {
    let shown = |table: &[Mapping]| {
        mapping_at(table, range.start)
            .map(|mapping| (mapping.object, mapping.offset_of(range.start)))
    };
    let is_map = |one: &&Operation| one.kind == text::Kind::Map;
    let mut maps = grant.operations.iter().filter(is_map);
    shown(&grant.before) != shown(&grant.after)
        || is_asked(grant, range)
        || maps.any(|map| range.is_inside(&map.named.range))
}

/// For each stretch, how many mappings are between it and the last one touched.
fn distances<'a>(bands: impl Iterator<Item = (&'a Band, bool)>) -> Vec<usize> {
    let mut distance = usize::MAX;
    let mut out = Vec::new();
    for (band, touched) in bands {
        if touched {
            distance = 0;
        } else if band.kind == Kind::Mapped {
            distance = distance.saturating_add(1);
        }
        out.push(distance);
    }
    out
}

/// The run with its mappings, and the gaps between them, as one band; none if they are few.
fn folded(run: &[Band]) -> Option<Vec<Band>> {
    let is_mapped = |band: &Band| band.kind == Kind::Mapped;
    let mappings = run.iter().filter(|band| is_mapped(band)).count();
    if mappings < FOLD_LEAST {
        return None;
    }
    let (first, last) = (
        run.iter().position(is_mapped)?,
        run.iter().rposition(is_mapped)?,
    );
    let mut folded = run[first];
    folded.kind = Kind::Folded;
    folded.range.end = run[last].range.end;
    Some([&run[..first], &[folded], &run[last + 1..]].concat())
}

/// Puts the stretches far from what is touched together, where they are many.
fn fold(bands: &[Band], touched: &[bool]) -> Vec<Band> {
    let marked = || bands.iter().zip(touched.iter().copied());
    let above = distances(marked());
    let mut below = distances(marked().rev());
    below.reverse();
    let is_far = |at: usize| {
        above[at].min(below[at]) > NEAR
            && bands[at].kind != Kind::Reserved
            && touched.contains(&true)
    };
    let mut out = Vec::new();
    let mut at = 0;
    while at < bands.len() {
        let far = (at..bands.len()).take_while(|&at| is_far(at)).count();
        let run = &bands[at..at + far.max(1)];
        out.extend(folded(run).unwrap_or_else(|| run.to_vec()));
        at += run.len();
    }
    out
}

fn height(band: &Band, scale: f64) -> f64 {
    let most = band.kind.most();
    match band.kind {
        Kind::Folded => most,
        _ => (scale * band.range.size() as f64).clamp(HAIRLINE, most),
    }
}

/// The size that the scale goes by. A quarter of the stretches may be longer.
fn focus(bands: &[Band], grant: &Grant) -> u64 {
    let sizes = |wanted: &dyn Fn(&Band) -> bool| {
        let mut sizes: Vec<u64> = bands
            .iter()
            .filter(|band| wanted(band))
            .map(|band| band.range.size())
            .collect();
        sizes.sort_unstable();
        sizes.get(sizes.len().saturating_sub(1) * 3 / 4).copied()
    };
    sizes(&|band| is_changed(grant, &band.range))
        .or_else(|| sizes(&|band| band.kind == Kind::Mapped))
        .unwrap_or(PAGE)
}

/// The largest scale at which nothing gets too high.
fn scale(bands: &[Band], focus: u64) -> f64 {
    let total = |scale: f64| bands.iter().map(|band| height(band, scale)).sum::<f64>();
    let limit = MOST_OF_ALL.max(BAND_ROOM * bands.len() as f64);
    let mut high = (MOST_OF_PAGE / PAGE as f64).min(MOST_OF_CHANGE / focus as f64);
    if total(high) <= limit {
        return high;
    }
    let mut low = 0.0;
    for _ in 0..60 {
        let middle = (low + high) / 2.0;
        if total(middle) <= limit {
            low = middle;
        } else {
            high = middle;
        }
    }
    low
}

impl Layout {
    pub fn of(space: &Space, grant: &Grant, top: f64) -> Layout {
        let edges = edges(space, grant);
        let band = |pair: &[u64]| Band {
            range: Range {
                start: pair[0],
                end: pair[1],
            },
            kind: kind_at(space, grant, pair[0]),
            top,
            height: 0.0,
        };
        let bands: Vec<Band> = edges.windows(2).map(band).collect();
        let touched: Vec<bool> = bands
            .iter()
            .map(|band| is_touched(grant, &band.range))
            .collect();
        let mut bands = fold(&bands, &touched);
        let scale = scale(&bands, focus(&bands, grant));
        let mut y = top;
        for band in &mut bands {
            band.top = y;
            band.height = height(band, scale);
            y += band.height;
        }
        Layout { bands, scale }
    }

    pub fn bottom(&self) -> f64 {
        self.bands.last().map_or(0.0, Band::bottom)
    }

    /// The top and the bottom of a range between two edges; none if an end is left out.
    pub fn span(&self, range: &Range) -> Option<(f64, f64)> {
        let first = self
            .bands
            .iter()
            .find(|band| band.range.start == range.start)?;
        let last = self.bands.iter().find(|band| band.range.end == range.end)?;
        Some((first.top, last.bottom()))
    }

    pub fn is_broken(&self, band: &Band) -> bool {
        let whole = self.scale * band.range.size() as f64;
        band.kind == Kind::Folded || whole > band.kind.most()
    }

    pub fn is_hairline(&self, range: &Range) -> bool {
        self.scale * (range.size() as f64) < HAIRLINE
    }

    /// The heights at which a range is broken.
    pub fn breaks(&self, range: &Range) -> Vec<f64> {
        let broken = self.bands.iter().filter(|band| self.is_broken(band));
        let inside = broken.filter(|band| band.range.is_inside(range));
        inside.map(|band| band.top + band.height / 2.0).collect()
    }

    /// The heights of what is shown of a range between two edges: one part, and more where something
    /// in it is left out.
    pub fn parts(&self, range: &Range) -> Vec<(f64, f64)> {
        let mut parts: Vec<(f64, f64)> = Vec::new();
        let shown = self.bands.iter().filter(|band| band.kind != Kind::Folded);
        for band in shown.filter(|band| band.range.is_inside(range)) {
            match parts.last_mut() {
                Some(last) if last.1 == band.top => last.1 = band.bottom(),
                _ => parts.push((band.top, band.bottom())),
            }
        }
        parts
    }

    /// The ranges of which nothing is shown.
    pub fn left_out(&self) -> impl Iterator<Item = Range> + '_ {
        let folded = self.bands.iter().filter(|band| band.kind == Kind::Folded);
        folded.map(|band| band.range)
    }
}

#[cfg(test)]
mod tests;
