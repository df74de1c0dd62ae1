//! Where the elements of a picture are, and what is in the way of what.

use crate::read::Element;
use crate::FONT;

/// Left, top, right, bottom; of a line its ends.
pub type Room = [f64; 4];

fn text_room(text: &Element) -> Option<Room> {
    let size = text.number("font-size").unwrap_or(FONT);
    let width = text.text.chars().count() as f64 * 0.602 * size;
    let (x, base) = (text.number("x")?, text.number("y")?);
    let left = match text.get("text-anchor") {
        None => x,
        Some("middle") => x - width / 2.0,
        Some("end") => x - width,
        Some(other) => panic!("{other}"),
    };
    Some([left, base - 0.76 * size, left + width, base + 0.24 * size])
}

/// The points of a line or an area.
pub fn points(element: &Element) -> Vec<(f64, f64)> {
    let point = |point: &str| {
        let (x, y) = point.split_once(',').unwrap();
        (x.parse().unwrap(), y.parse().unwrap())
    };
    element
        .get("points")
        .unwrap()
        .split(' ')
        .map(point)
        .collect()
}

/// The room of any element that has one of its own.
pub fn room(element: &Element) -> Option<Room> {
    match element.name.as_str() {
        "text" => text_room(element),
        "rect" => {
            let at = ["x", "y", "width", "height"].map(|name| element.number(name));
            let [Some(x), Some(y), Some(width), Some(height)] = at else {
                return None;
            };
            Some([x, y, x + width, y + height])
        }
        "polygon" | "polyline" => {
            let nothing = [f64::MAX, f64::MAX, f64::MIN, f64::MIN];
            Some(points(element).into_iter().fold(nothing, |room, (x, y)| {
                [
                    room[0].min(x),
                    room[1].min(y),
                    room[2].max(x),
                    room[3].max(y),
                ]
            }))
        }
        _ => None,
    }
}

pub fn overlap(a: Room, b: Room) -> bool {
    a[0] < b[2] && b[0] < a[2] && a[1] < b[3] && b[1] < a[3]
}

/// The lines of a polyline.
pub fn lines(element: &Element) -> Vec<Room> {
    let line = |pair: &[(f64, f64)]| [pair[0].0, pair[0].1, pair[1].0, pair[1].1];
    points(element).windows(2).map(line).collect()
}

/// Whether a line goes through a room: at one of many steps it is there.
fn goes_through(line: Room, room: Room) -> bool {
    (0..=100).any(|step| {
        let part = f64::from(step) / 100.0;
        let x = line[0] + part * (line[2] - line[0]);
        let y = line[1] + part * (line[3] - line[1]);
        overlap([x, y, x, y], room)
    })
}

/// Whether an element whose room a text shares disturbs it: by a pattern or by a line.
pub fn disturbs(element: &Element, text: Room) -> bool {
    match element.name.as_str() {
        "rect" => {
            let fill = element.get("fill");
            fill.is_some_and(|fill| fill.starts_with("url"))
        }
        "polyline" => lines(element).iter().any(|line| goes_through(*line, text)),
        _ => false,
    }
}
