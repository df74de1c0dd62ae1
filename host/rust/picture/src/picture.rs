//! The picture: an axis, a column before and one after, and the operations between them.

mod beside;

use crate::colours::Colours;
use crate::column::{Place, OUT};
use crate::flow::{Boxes, GUTTER};
use crate::layout::Layout;
use crate::legend;
use crate::mapping::{Range, Space};
use crate::number::{count, hex};
use crate::place::thin_out;
use crate::replay::Grant;
use crate::svg::{width_of, Svg, DOTS, FINE};
use beside::{beside, Beside, Side};

pub const MARGIN: f64 = 16.0;
pub const LINE: f64 = 15.0;
pub const COLUMN: f64 = 204.0;

/// Where the columns begin.
pub const TOP: f64 = 78.0;

const TITLE: (f64, f64) = (MARGIN, 24.0);
const TICK: f64 = 8.0;

/// Between a column and the labels beside it.
const LEAD: f64 = 28.0;

/// What is drawn. A table alone is the column after a grant that changed nothing.
pub struct View {
    pub title: String,
    pub space: Space,
    pub grant: Grant,
    pub alone: bool,
}

/// The left sides of the columns and of the boxes between them.
pub struct Sheet {
    pub before: f64,
    pub boxes: f64,
    pub after: f64,
    pub width: f64,
}

pub struct Drawing<'a> {
    pub view: &'a View,
    pub layout: Layout,
    pub colours: Colours,
    pub svg: Svg,
}

/// A column's stretches, and the labels beside it.
struct Column {
    places: Vec<Place>,
    beside: Vec<Beside>,
}

/// The columns before and after. On the left the labels share their room with the addresses, of
/// which the space's own stay; a table alone has its labels on the right.
fn columns(drawing: &Drawing) -> [Column; 2] {
    let (top, bottom) = (TOP, drawing.layout.bottom());
    let Grant {
        before,
        after,
        sparse,
        ..
    } = &drawing.view.grant;
    let before = drawing.places(before, &sparse.before);
    let after = drawing.places(after, &sparse.after);
    let left = match drawing.view.alone {
        true => Vec::new(),
        false => beside(&before, (top + LINE / 2.0, bottom - LINE / 2.0)),
    };
    let right = beside(&after, (top - LINE / 2.0, bottom + LINE / 2.0));
    [(before, left), (after, right)].map(|(places, beside)| Column { places, beside })
}

impl Sheet {
    fn of(drawing: &Drawing, boxes: &Boxes, [before, after]: &[Column; 2]) -> Sheet {
        let Drawing { view, layout, .. } = drawing;
        let ends = [view.space.range.start, view.space.range.end].map(|end| width_of(&hex(end)));
        let addresses = reach(before) + 4.0 + ends[0].max(ends[1]);
        let beside = MARGIN + addresses.max(beside::width(&before.beside));
        // The legend begins where the column does.
        let left = on_dots(beside.max(legend::least_start(layout)));
        let start = left + COLUMN + GUTTER;
        let right = match view.alone {
            true => left,
            false => on_dots(start + boxes.width + GUTTER),
        };
        // The zigzags stand out a little.
        let end = right + COLUMN + beside::width(&after.beside).max(OUT);
        Sheet {
            before: left,
            boxes: start,
            after: right,
            width: end.max(left + legend::least_width()) + MARGIN,
        }
    }
}

/// Where a column can begin, so that its sides cut no dots.
fn on_dots(x: f64) -> f64 {
    (x / DOTS).ceil() * DOTS
}

/// The length of an address's tick: it ends where the labels do, if there are any.
fn reach(before: &Column) -> f64 {
    match before.beside.is_empty() {
        true => TICK,
        false => LEAD - 4.0,
    }
}

impl Drawing<'_> {
    /// What is written first where addresses are too near each other.
    fn rank(&self, edge: u64) -> u8 {
        let is_end = |range: &Range| range.start == edge || range.end == edge;
        let View { space, grant, .. } = self.view;
        let named = || grant.operations.iter().map(|one| one.named.range);
        if is_end(&space.range) {
            0
        } else if named()
            .chain(grant.sparse.changed)
            .any(|range| is_end(&range))
        {
            1
        } else if space.reservation.as_ref().is_some_and(is_end) {
            2
        } else {
            3
        }
    }

    /// Addresses at the edges, where no label is in the way.
    fn axis(&mut self, right: f64, before: &Column) {
        let bands = self.layout.bands.iter();
        let tops = bands.map(|band| (band.range.start, band.top));
        let end = (self.view.space.range.end, self.layout.bottom());
        let is_free = |y: f64| !before.beside.iter().any(|one| one.is_in_the_way_of(y));
        let edges: Vec<(u64, f64)> = tops.chain([end]).filter(|edge| is_free(edge.1)).collect();
        let ranked: Vec<(f64, u8)> = edges
            .iter()
            .map(|&(edge, y)| (y, self.rank(edge)))
            .collect();
        for ((edge, y), kept) in edges.into_iter().zip(thin_out(&ranked, LINE)) {
            let tick = if kept { reach(before) } else { TICK / 2.0 };
            self.svg.line(&[(right - tick, y), (right, y)], FINE);
            let weight = if self.rank(edge) == 0 {
                "bold"
            } else {
                "normal"
            };
            let style = format!(r#"text-anchor="end" font-weight="{weight}""#);
            if kept {
                self.svg.text((right - tick - 4.0, y), &style, &hex(edge));
            }
        }
    }

    fn columns(&mut self, sheet: &Sheet, boxes: &Boxes, [before, after]: &[Column; 2]) {
        let Grant {
            before: old,
            after: new,
            sparse,
            ..
        } = &self.view.grant;
        let [were, are] = [old, new].map(|table| count(table.len(), "mapping"));
        if self.view.alone {
            self.column(sheet.after, &are, &after.places, &sparse.after);
        } else {
            let (were, are) = (format!("before: {were}"), format!("after: {are}"));
            self.flows(sheet, boxes);
            self.column(sheet.before, &were, &before.places, &sparse.before);
            self.column(sheet.after, &are, &after.places, &sparse.after);
            self.boxes(sheet, boxes);
        }
        self.axis(sheet.before, before);
        self.labels(sheet.before, Side::Left, &before.beside);
        self.labels(sheet.after + COLUMN, Side::Right, &after.beside);
    }
}

/// The picture in words.
fn about(view: &View, boxes: &Boxes) -> String {
    let [before, after] = [&view.grant.before, &view.grant.after].map(|table| table.len());
    let space = format!("The address space {}.", view.space.range.shown());
    if view.alone {
        return format!("{space} Mappings: {after}.");
    }
    let operations = boxes.told();
    let [sparse_before, sparse_after] = [&view.grant.sparse.before, &view.grant.sparse.after];
    let sparse = match (sparse_before.len(), sparse_after.len()) {
        (0, 0) => String::new(),
        (before, after) => format!(" Sparse ranges before: {before}, after: {after}."),
    };
    format!(
        "{space} Mappings before: {before}. Operations: {operations}. Mappings after: {after}.{sparse}"
    )
}

/// The whole file.
pub fn draw(view: &View) -> String {
    let layout = Layout::of(&view.space, &view.grant, TOP);
    let mut drawing = Drawing {
        view,
        colours: Colours::of(&view.grant, &layout),
        layout,
        svg: Svg::default(),
    };
    let columns = columns(&drawing);
    let boxes = Boxes::of(&view.grant, &drawing.layout);
    let sheet = Sheet::of(&drawing, &boxes, &columns);
    let style = r#"font-size="15" font-weight="bold""#;
    drawing.svg.text(TITLE, style, &view.title);
    drawing.columns(&sheet, &boxes, &columns);
    let height = drawing.legend(&sheet, boxes.bottom + 24.0);
    drawing
        .svg
        .file((sheet.width, height), &view.title, &about(view, &boxes))
}

#[cfg(test)]
pub mod tests;
