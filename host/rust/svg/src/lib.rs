//! The elements of an SVG file, with presentation attributes alone: every viewer knows those. For
//! the tests of pictures also a reader of such files, and where their elements are.

#![forbid(unsafe_code)]

pub mod read;
pub mod room;

/// All text is monospaced, so that its width is known without the font: some 0.6 of its size a
/// letter.
pub const FONT: f64 = 12.0;
pub const SMALL: f64 = 11.0;
const LETTER: f64 = 0.605;

/// The dots of the pattern are as far apart.
pub const DOTS: f64 = 6.0;

pub const INK: &str = "#1a1a1a";

/// Styles of what is drawn more than once.
pub const WHITE: &str = r##"fill="#ffffff""##;
pub const HATCHED: &str = r##"fill="url(#hatch)" stroke="#666666""##;
pub const FINE: &str = r##"stroke="#666666" stroke-width="0.8""##;
pub const DASHED: &str = r##"stroke="#1a1a1a" stroke-width="1" stroke-dasharray="5 3""##;
pub const STRONG: &str = r##"stroke="#1a1a1a" stroke-width="1.8""##;
pub const MIDDLE: &str = r#"text-anchor="middle""#;
pub const HEADING: &str = r#"text-anchor="middle" font-weight="bold""#;

/// The width of a text in the usual size.
pub fn width_of(words: &str) -> f64 {
    width_in(words, FONT)
}

pub fn width_in(words: &str, font: f64) -> f64 {
    words.chars().count() as f64 * LETTER * font
}

fn escaped(words: &str) -> String {
    words
        .replace('&', "&amp;")
        .replace('<', "&lt;")
        .replace('>', "&gt;")
        .replace('"', "&quot;")
}

/// A length with at most one decimal.
fn length(number: f64) -> String {
    format!("{number:.1}").trim_end_matches(".0").to_string()
}

#[derive(Default)]
pub struct Svg {
    elements: String,
}

impl Svg {
    fn add(&mut self, element: &str) {
        self.elements.push_str(element);
        self.elements.push('\n');
    }

    pub fn rect(&mut self, (x, y): (f64, f64), (width, height): (f64, f64), style: &str) {
        let [x, y, width, height] = [x, y, width, height].map(length);
        self.add(&format!(
            r#"<rect x="{x}" y="{y}" width="{width}" height="{height}" {style}/>"#
        ));
    }

    /// A line through the points, closed to an area if `name` is polygon.
    fn points(&mut self, name: &str, points: &[(f64, f64)], style: &str) {
        let point = |&(x, y): &(f64, f64)| format!("{},{}", length(x), length(y));
        let points: Vec<String> = points.iter().map(point).collect();
        self.add(&format!(
            r#"<{name} points="{}" {style}/>"#,
            points.join(" ")
        ));
    }

    pub fn line(&mut self, points: &[(f64, f64)], style: &str) {
        self.points("polyline", points, &format!(r#"fill="none" {style}"#));
    }

    pub fn area(&mut self, points: &[(f64, f64)], style: &str) {
        self.points("polygon", points, style);
    }

    /// Dots over a rectangle. A thin one has a row of them: the pattern could miss it.
    pub fn dots(&mut self, (x, y): (f64, f64), (width, height): (f64, f64)) {
        if height >= 2.0 * DOTS {
            self.rect((x, y), (width, height), r#"fill="url(#dots)""#);
            return;
        }
        let middle = y + height / 2.0;
        let style = r##"stroke="#444444" stroke-width="2" stroke-dasharray="2 4""##;
        self.line(&[(x + 2.0, middle), (x + width - 2.0, middle)], style);
    }

    /// Text whose middle is at the height `y`; `style` can have an anchor, a weight and a size.
    pub fn text(&mut self, (x, y): (f64, f64), style: &str, words: &str) {
        // Half of the height of a digit below the middle.
        let (x, y) = (length(x), length(y + 0.35 * FONT));
        let space = if style.is_empty() { "" } else { " " };
        self.add(&format!(
            r#"<text x="{x}" y="{y}"{space}{style}>{}</text>"#,
            escaped(words)
        ));
    }

    /// The whole file, on white, which dark pages leave as it is.
    pub fn file(&self, (width, height): (f64, f64), title: &str, about: &str) -> String {
        let (width, height) = (length(width.ceil()), length(height.ceil()));
        let (title, about) = (escaped(title), escaped(about));
        let elements = &self.elements;
        format!(
            r##"<svg xmlns="http://www.w3.org/2000/svg" version="1.1" role="img" width="{width}" height="{height}" viewBox="0 0 {width} {height}" font-family="monospace" font-size="{FONT}" fill="{INK}">
<title>{title}</title>
<desc>{about}</desc>
<defs>
<pattern id="hatch" width="7" height="7" patternUnits="userSpaceOnUse" patternTransform="rotate(45)"><rect width="7" height="7" fill="#ffffff"/><rect width="2" height="7" fill="#888888"/></pattern>
<pattern id="dots" width="{DOTS}" height="{DOTS}" patternUnits="userSpaceOnUse"><circle cx="3" cy="3" r="1" fill="#444444"/></pattern>
</defs>
<rect width="{width}" height="{height}" fill="#ffffff"/>
{elements}</svg>
"##
        )
    }
}
