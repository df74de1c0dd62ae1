//! How the curves look: apart in their dashes and marks too, for who sees no colours.

use waylluqen_svg::Svg;

/// A way to draw a curve.
pub struct Style {
    pub name: &'static str,
    pub colour: &'static str,
    width: f64,
    /// None for a line that is not broken.
    dashes: Option<&'static str>,
    /// The corners of its mark, from the middle.
    corners: &'static [(f64, f64)],
}

/// The library, the quickest plain version and the map.
pub const STYLES: [Style; 3] = [
    Style {
        name: "library",
        colour: "#0072b2",
        width: 2.2,
        dashes: None,
        corners: &[(-3.0, -3.0), (3.0, -3.0), (3.0, 3.0), (-3.0, 3.0)],
    },
    Style {
        name: "quickest plain version of each size",
        colour: "#d55e00",
        width: 1.6,
        dashes: Some("8 4"),
        corners: &[(0.0, -4.5), (4.5, 3.5), (-4.5, 3.5)],
    },
    Style {
        name: "BTreeMap",
        colour: "#555555",
        width: 1.6,
        dashes: Some("2 3"),
        corners: &[(0.0, -4.5), (4.5, 0.0), (0.0, 4.5), (-4.5, 0.0)],
    },
];

impl Style {
    /// A line through the points, with a mark at each: a filled one if it is not broken.
    pub fn draw(&self, svg: &mut Svg, points: &[(f64, f64)]) {
        let Style { colour, width, .. } = self;
        let line = format!(r#"stroke="{colour}" stroke-width="{width}""#);
        let (line, fill) = match self.dashes {
            Some(dashes) => (format!(r#"{line} stroke-dasharray="{dashes}""#), "#ffffff"),
            None => (line, *colour),
        };
        svg.line(points, &line);
        let mark = format!(r#"fill="{fill}" stroke="{colour}" stroke-width="1.3""#);
        for (x, y) in points {
            let corners = self.corners.iter();
            let corners = corners.map(|corner| (x + corner.0, y + corner.1));
            svg.area(&corners.collect::<Vec<_>>(), &mark);
        }
    }
}
