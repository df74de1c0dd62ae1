//! What hides what in a picture, and where its columns are.

pub use crate::svg::room::{disturbs, lines, overlap, room, Room};

use crate::svg::read::Element;
use crate::svg::room::points;

/// On which side of a line a point is.
fn turn(line: Room, (x, y): (f64, f64)) -> f64 {
    (line[2] - line[0]) * (y - line[1]) - (line[3] - line[1]) * (x - line[0])
}

pub fn cross(a: Room, b: Room) -> bool {
    let apart = |line: Room, other: Room| {
        turn(line, (other[0], other[1])) * turn(line, (other[2], other[3])) < 0.0
    };
    apart(a, b) && apart(b, a)
}

/// Whether an element hides what is under it.
pub fn is_filled(element: &Element) -> bool {
    let is_area = ["rect", "polygon"].contains(&element.name.as_str());
    is_area && element.get("fill") != Some("none")
}

/// Whether a plain rectangle or a zigzag, which has teeth, lies under the whole text.
pub fn covers(element: &Element, text: Room) -> bool {
    let teeth = match element.name.as_str() {
        "rect" => 0.0,
        "polygon" if points(element).len() > 10 => 3.0,
        _ => return false,
    };
    let fill = element.get("fill");
    let is_plain = fill.is_some_and(|fill| fill.starts_with('#'));
    room(element).is_some_and(|[left, top, right, bottom]| {
        let across = left <= text[0] + 0.1 && text[2] <= right + 0.1;
        let down = top + teeth <= text[1] + 0.1 && text[3] <= bottom - teeth + 0.1;
        is_plain && across && down
    })
}

/// The rooms of the columns, from the left.
pub fn column_rooms(elements: &[Element]) -> Vec<Room> {
    let is_column = |one: &&Element| one.get("fill") == Some("#f6f6f6");
    elements.iter().filter(is_column).filter_map(room).collect()
}
