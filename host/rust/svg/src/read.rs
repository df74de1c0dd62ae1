//! A reader of XML that takes what is well-formed and nothing else, for the pictures' tests.

pub struct Element {
    pub name: String,
    pub attributes: Vec<(String, String)>,
    pub text: String,
}

impl Element {
    pub fn get(&self, name: &str) -> Option<&str> {
        let has_name = |(key, _): &&(String, String)| key == name;
        self.attributes
            .iter()
            .find(has_name)
            .map(|(_, value)| value.as_str())
    }

    pub fn number(&self, name: &str) -> Option<f64> {
        self.get(name).map(|value| value.parse().unwrap())
    }
}

/// Text behind its escapes; a mark that should have been escaped is a panic.
fn unescaped(text: &str) -> String {
    assert!(!text.contains(['<', '>', '"']), "{text}");
    let mut out = String::new();
    let mut parts = text.split('&');
    out.push_str(parts.next().unwrap());
    for part in parts {
        let (name, behind) = part.split_once(';').expect("an escape has an end");
        out.push(match name {
            "amp" => '&',
            "lt" => '<',
            "gt" => '>',
            "quot" => '"',
            _ => panic!("&{name};"),
        });
        out.push_str(behind);
    }
    out
}

/// `NAME KEY="VALUE" ...`
fn tag(inside: &str) -> Element {
    let (name, mut rest) = inside.split_once(' ').unwrap_or((inside, ""));
    assert!(name.chars().all(|c| c.is_ascii_alphabetic()), "{inside}");
    let mut attributes: Vec<(String, String)> = Vec::new();
    while !rest.trim_start().is_empty() {
        let (key, behind) = rest
            .trim_start()
            .split_once("=\"")
            .expect("a value in quotes");
        let (value, behind) = behind.split_once('"').expect("a value's end");
        assert!(
            !attributes.iter().any(|(other, _)| other == key),
            "{key} twice"
        );
        assert!(
            key.chars().all(|c| c.is_ascii_alphabetic() || c == '-'),
            "{key}"
        );
        attributes.push((key.to_string(), unescaped(value)));
        rest = behind;
        assert!(rest.is_empty() || rest.starts_with(' '), "{inside}");
    }
    Element {
        name: name.to_string(),
        attributes,
        text: String::new(),
    }
}

/// The elements in the order of their ends.
pub fn elements(file: &str) -> Vec<Element> {
    let mut open: Vec<Element> = Vec::new();
    let mut out: Vec<Element> = Vec::new();
    let mut pieces = file.split('<');
    assert_eq!(pieces.next(), Some(""));
    for piece in pieces {
        let (inside, text) = piece.split_once('>').expect("a tag's end");
        if let Some(name) = inside.strip_prefix('/') {
            let closed = open.pop().expect("an open element");
            assert_eq!(closed.name, name);
            out.push(closed);
        } else if let Some(inside) = inside.strip_suffix('/') {
            out.push(tag(inside));
        } else {
            assert!(!open.is_empty() || out.is_empty(), "two roots");
            open.push(tag(inside));
        }
        match open.last_mut() {
            Some(parent) => parent.text.push_str(&unescaped(text)),
            None => assert_eq!(text, "\n"),
        }
    }
    assert!(open.is_empty());
    out
}

#[cfg(test)]
mod tests {
    use super::*;
    use crate::Svg;

    #[test]
    fn a_file_is_well_formed() {
        let mut svg = Svg::default();
        svg.rect((0.0, 0.25), (10.0, 20.0), r#"fill="none""#);
        svg.area(&[(0.0, 0.0), (1.06, 2.0)], r#"fill="none""#);
        svg.text((5.0, 5.0), "", r#"a < b & "c" > d"#);
        let elements = elements(&svg.file((99.5, 50.0), "<title>", "&amp;"));
        let text = |name: &str| &elements.iter().find(|one| one.name == name).unwrap().text;
        assert_eq!(text("title"), "<title>");
        assert_eq!(text("desc"), "&amp;");
        assert_eq!(text("text"), r#"a < b & "c" > d"#);
        let root = elements.last().unwrap();
        assert_eq!(root.get("viewBox"), Some("0 0 100 50"));
        assert_eq!(
            (root.number("width"), root.number("height")),
            (Some(100.0), Some(50.0))
        );
        let area = elements.iter().find(|one| one.name == "polygon").unwrap();
        assert_eq!(area.get("points"), Some("0,0 1.1,2"));
    }

    #[test]
    fn a_thin_rectangle_has_a_row_of_dots_in_it() {
        let dots = |height: f64| {
            let mut svg = Svg::default();
            svg.dots((6.0, 20.0), (60.0, height));
            let mut elements = elements(&format!("<svg>\n{}</svg>\n", svg.elements));
            assert_eq!(elements.len(), 2);
            elements.remove(0)
        };
        let row = dots(2.0);
        assert_eq!(row.get("points"), Some("8,21 64,21"));
        assert_eq!(row.get("stroke-dasharray"), Some("2 4"));
        assert_eq!(dots(11.0).get("points"), Some("8,25.5 64,25.5"));
        assert_eq!(dots(12.0).get("fill"), Some("url(#dots)"));
    }

    #[test]
    fn what_is_not_well_formed_is_seen() {
        for file in [
            "<a>",
            "</a>",
            "<a></b>",
            "<a b=c/>",
            "<a b=\"c/>",
            "<a b=\"1\" b=\"2\"/>",
            "<a>&</a>",
            "<a>&x;</a>",
            "<a b=\"<\"/>",
            "<a></a>\n<b></b>",
        ] {
            let quiet = std::panic::catch_unwind(|| elements(file));
            assert!(quiet.is_err(), "{file}");
        }
    }
}
