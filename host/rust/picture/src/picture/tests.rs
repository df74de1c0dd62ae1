//! Pictures: valid, nothing outside, and nothing in the way of a text.

pub mod generated;
mod geometry;
mod sizes;

use super::*;
use crate::mapping::Mapping;
use crate::replay::replay;
use crate::svg::read::{elements, Element};
use geometry::{column_rooms, covers, cross, disturbs, is_filled, lines, overlap, room, Room};

const WORKED: &str = include_str!("../../../../../examples/worked.out");
const STARTUP: &str = include_str!("../../../../../examples/startup.out");
const EVERY_LINE: &str = include_str!("../../../../../examples/every-line.out");
const EVERY_LINE_TXT: &str = include_str!("../../../../../examples/every-line.txt");
const FULL_TABLE: &str = include_str!("../../../../../examples/full-table.out");
const TEXTURE: &str = include_str!("../../../../../examples/sparse-texture.out");
const TEXTURE_TXT: &str = include_str!("../../../../../examples/sparse-texture.txt");

fn view(text: &str, number: usize, space: Option<Space>) -> View {
    let grant = replay(text, None, Some(number)).unwrap().wanted.unwrap();
    let around = Space::around(grant.before.iter().chain(&grant.after));
    View {
        title: format!("Granted request {number}"),
        space: space.or(around).unwrap(),
        grant,
        alone: false,
    }
}

fn worked() -> View {
    view(WORKED, 2, Some(Space::of(0, 65536, (0, 0)).unwrap()))
}

fn startup(number: usize) -> View {
    let space = Space::of(0x10_0000, 0x1000_0000, (0x10_0000, 0x10_0000));
    view(STARTUP, number, Some(space.unwrap()))
}

/// A request of a text, with what its script tells.
fn scripted(text: &str, script: &[u8], number: usize) -> View {
    let replayed = replay(text, Some(script), Some(number)).unwrap();
    let grant = replayed.wanted.unwrap();
    View {
        title: format!("Granted request {number}"),
        space: grant.space.unwrap(),
        grant,
        alone: false,
    }
}

fn assemble(text: &str) -> Vec<u8> {
    waylluqen_assemble::text::assemble(text.as_bytes()).unwrap()
}

/// A request of the sparse texture.
fn texture(number: usize) -> View {
    scripted(TEXTURE, &assemble(TEXTURE_TXT), number)
}

fn table(mappings: impl Iterator<Item = [u64; 4]>) -> View {
    let after: Vec<Mapping> = mappings.map(|words| Mapping::of(words).unwrap()).collect();
    View {
        title: "The address space".to_string(),
        space: Space::of(0, 1 << 48, (0, 0)).unwrap(),
        grant: Grant {
            before: after.clone(),
            after,
            ..Grant::default()
        },
        alone: true,
    }
}

fn check_inside(view: &View, elements: &[Element]) {
    let root = elements.last().unwrap();
    let [width, height] = ["width", "height"].map(|name| root.number(name).unwrap());
    for element in elements {
        if let Some([left, top, right, bottom]) = room(element) {
            let inside = left >= 0.0 && top >= 0.0 && right <= width && bottom <= height;
            assert!(inside, "{}: {} {}", view.title, element.name, element.text);
        }
    }
}

/// Whether the text at `at` can be read where the other element is too.
fn is_readable(elements: &[Element], at: usize, text: Room, other: usize) -> bool {
    let element = &elements[other];
    if other > at {
        return !is_filled(element) && !disturbs(element, text);
    }
    let mut between = elements[other + 1..at].iter();
    !disturbs(element, text) || between.any(|one| covers(one, text))
}

fn check(view: &View) {
    let elements = elements(&draw(view));
    check_inside(view, &elements);
    let rooms: Vec<Option<Room>> = elements.iter().map(room).collect();
    for (at, one) in elements.iter().enumerate() {
        let Some(text) = rooms[at].filter(|_| one.name == "text") else {
            continue;
        };
        let is_there = |&other: &usize| rooms[other].is_some_and(|room| overlap(room, text));
        for other in (0..elements.len()).filter(is_there) {
            let is_text = elements[other].name == "text";
            let right = match is_text {
                true => other == at,
                false => is_readable(&elements, at, text, other),
            };
            let (name, words) = (&elements[other].name, &elements[other].text);
            assert!(right, "{}: '{}' and {name} '{words}'", view.title, one.text);
        }
    }
}

#[test]
fn nothing_is_outside_and_nothing_in_the_way_of_a_text() {
    (0..300).for_each(|seed| check(&generated::view(seed)));
    check(&worked());
    (1..=10).for_each(|number| check(&startup(number)));
    // All but those that have no mapping, and most of a table that fills.
    for number in (1..=4).chain(6..=31).chain(98..=110).chain([353, 354]) {
        check(&view(EVERY_LINE, number, None));
    }
    (1..=11).for_each(|number| check(&texture(number)));
    let script = assemble(EVERY_LINE_TXT);
    for number in (1..=97).chain([98, 120, 300, 353, 354]) {
        check(&scripted(EVERY_LINE, &script, number));
    }
    for number in [1, 2, 12, 128, 255, 256, 257, 258, 259, 260, 261] {
        check(&view(FULL_TABLE, number, None));
    }
}

#[test]
fn nor_in_a_table_alone() {
    check(&table([].into_iter()));
    check(&table([[0x5000, 0x3000, 7, 0]].into_iter()));
    check(&table((0..40).map(|at| [at << 13, 0x1000, at + 1, 0])));
    check(&table(
        (0..4096).map(|at| [at << 16, 0x3000, at + 1, 0x3000 * at]),
    ));
    let last = (1 << 48) - 0x1000;
    let ends = [
        [0, 0x1000, 0xffff_ffff, last],
        [last, 0x1000, 0xffff_fffe, last],
    ];
    check(&table(ends.into_iter()));
    // The labels beside the last mappings stand above the column's end.
    let thin = |at: u64| [last - (7 - at) * 0x1000, 0x1000, at + 1, 0];
    check(&table(
        [[0, 1 << 40, 99, 0]].into_iter().chain((0..8).map(thin)),
    ));
}

fn texts(view: &View) -> Vec<String> {
    let elements = elements(&draw(view)).into_iter();
    elements
        .filter(|one| one.name == "text")
        .map(|one| one.text)
        .collect()
}

fn count_of(view: &View, part: &str) -> usize {
    draw(view).matches(part).count()
}

#[test]
fn the_worked_example() {
    let view = worked();
    let texts = texts(&view);
    for words in [
        "before: 1 mapping",
        "2 operations, in order",
        "after: 3 mappings",
        "1 remap object 7, 0x0 – 0x3000",
        "lower rest 0x0 – 0x1000",
        "upper rest 0x2000 – 0x3000",
        "2 map object 9, 0x1000 – 0x2000",
        "object 7 + 0x2000",
        "0x1_0000",
        "4 KiB",
    ] {
        assert!(texts.iter().any(|text| text == words), "{words}");
    }
    let both = texts.iter().filter(|text| *text == "52 KiB free").count();
    assert_eq!(both, 2);
    // One mapping before, two after, and the legend.
    assert_eq!(count_of(&view, r##"fill="#77aadd" stroke="##), 4);
    assert_eq!(count_of(&view, r##"fill="#ee8866" stroke="##), 2);
    // From the old mapping, to its rests, to the new one.
    assert_eq!(count_of(&view, "fill-opacity"), 4);
}

#[test]
fn the_reservation_is_hatched_in_both_columns_and_in_the_legend() {
    assert_eq!(count_of(&worked(), "url(#hatch)"), 0);
    assert_eq!(count_of(&startup(7), "url(#hatch)"), 3);
    assert!(texts(&startup(7)).contains(&"reserved".to_string()));
    assert!(texts(&startup(7)).contains(&"reserved, 1 MiB".to_string()));
}

/// The rooms of the dashed rectangles, from the left and from above.
fn dashed(view: &View) -> Vec<Room> {
    let elements = elements(&draw(view));
    let is_dashed = |one: &&Element| one.name == "rect" && one.get("stroke-dasharray").is_some();
    let mut rooms: Vec<Room> = elements.iter().filter(is_dashed).filter_map(room).collect();
    rooms.sort_by(|one, other| one.partial_cmp(other).unwrap());
    rooms
}

#[test]
fn a_sparse_range_is_dashed_where_it_is_and_in_the_legend() {
    assert_eq!(dashed(&startup(7)).len(), 0);
    assert!(!draw(&startup(7)).contains("parse"));
    // It is added: it is in the column after the request alone.
    let view = texture(1);
    let columns = column_rooms(&elements(&draw(&view)));
    let [legend, after] = dashed(&view)[..] else {
        panic!("{:?}", dashed(&view));
    };
    let (top, bottom) = Layout::of(&view.space, &view.grant, TOP)
        .span(&view.grant.sparse.after[0])
        .unwrap();
    assert_eq!(after[1..], [top, columns[1][2] + 3.0, bottom]);
    assert_eq!(after[0], columns[1][0] - 3.0);
    assert!(legend[1] > columns[0][3]);
    let texts = texts(&view);
    for words in ["a sparse range is added", "sparse range", "16 MiB sparse"] {
        assert_eq!(
            texts.iter().filter(|text| *text == words).count(),
            1,
            "{words}"
        );
    }
    assert!(draw(&view).contains("Sparse ranges before: 0, after: 1."));
}

#[test]
fn mappings_lie_over_their_sparse_range() {
    // Two touching ranges in both columns, and a tile that is mapped.
    let view = texture(3);
    assert_eq!(dashed(&view).len(), 5);
    let elements = elements(&draw(&view));
    let is_range = |one: &Element| one.name == "rect" && one.get("stroke-dasharray").is_some();
    let (column, tile) = (column_rooms(&elements)[1], view.grant.after[0]);
    let (top, bottom) = Layout::of(&view.space, &view.grant, TOP)
        .span(&tile.range)
        .unwrap();
    let is_tile = |one: &Element| {
        let at = room(one).unwrap_or_default();
        one.name == "rect" && at == [column[0], top, column[2], bottom]
    };
    let tile = elements.iter().position(is_tile).unwrap();
    let around = |one: &Element| room(one).is_some_and(|at| at[1] <= top && bottom <= at[3]);
    let range =
        |one: &Element| is_range(one) && around(one) && room(one).unwrap()[0] > column[0] - 4.0;
    let range = elements.iter().position(range).unwrap();
    assert!(
        range < tile,
        "the range is drawn first, and seen on both sides"
    );
    assert!(texts(&view).contains(&"1 operation".to_string()));
}

#[test]
fn a_sparse_range_that_goes() {
    let view = texture(8);
    assert_eq!(view.grant.sparse.before.len(), 2);
    assert_eq!(dashed(&view).len(), 4);
    assert!(texts(&view).contains(&"a sparse range is removed".to_string()));
}

#[test]
fn a_keep_mark_is_told() {
    let kept = texts(&startup(9));
    assert!(kept.contains(&"1 unmap object 11, 0x100_0000 – 0x17e_9000, keep".to_string()));
    assert!(kept.iter().any(|text| text.starts_with("keep: ")));
    assert!(!texts(&startup(8)).iter().any(|text| text.contains("keep")));
}

#[test]
fn thin_mappings_have_their_labels_beside_their_column() {
    let elements = elements(&draw(&startup(7)));
    let columns = column_rooms(&elements);
    for words in [
        "0x20_0000: object 1 + 0x0, 64 KiB",
        "0x21_0000: object 2 + 0x0, 64 KiB",
        "0x22_0000: object 3 + 0x0, 4 KiB",
    ] {
        let these = elements.iter().filter(|one| one.text == words);
        let rooms: Vec<Room> = these.filter_map(room).collect();
        assert_eq!(rooms.len(), 2, "{words}");
        let on_the_left = rooms[0][2] < columns[0][0];
        assert!(on_the_left && columns[1][2] < rooms[1][0], "{words}");
    }
}

#[test]
fn a_hairline_has_no_outline() {
    let elements = elements(&draw(&startup(7)));
    let lines = || {
        elements
            .iter()
            .filter(|one| one.number("height") == Some(2.0))
    };
    assert_eq!(lines().count(), 6);
    assert!(lines().all(|one| one.get("stroke").is_none()));
}

#[test]
fn a_thin_reservation_has_its_label_beside_the_columns() {
    let texts = texts(&startup(5));
    let reserved = texts
        .iter()
        .filter(|text| *text == "0x10_0000: reserved, 1 MiB");
    assert_eq!(reserved.count(), 2);
}

#[test]
fn each_thin_mapping_before_a_request_is_told() {
    let thin = |at: u64| [at << 14, 0x1000, at + 1, 0];
    let mut view = table((0..5).map(thin).chain([[1 << 30, 1 << 30, 9, 0]]));
    let new = view.grant.after.pop().unwrap();
    view.grant.before.pop();
    view.alone = false;
    view.grant.after.push(new);
    view.grant.operations.push(crate::replay::Operation {
        kind: crate::text::Kind::Map,
        named: new,
        keep: false,
        rests: Vec::new(),
    });
    check(&view);
    let texts = texts(&view);
    for at in 0..5 {
        let words = format!("{}: object {} + 0x0, 4 KiB", hex(at << 14), at + 1);
        assert_eq!(
            texts.iter().filter(|text| **text == words).count(),
            2,
            "{words}"
        );
    }
}

#[test]
fn the_spaces_ends_are_told() {
    for view in (0..300).map(generated::view) {
        let elements = elements(&draw(&view));
        for end in [view.space.range.start, view.space.range.end].map(hex) {
            let is_it = |one: &Element| one.text == end && one.get("font-weight") == Some("bold");
            assert!(elements.iter().any(is_it), "{}", view.title);
        }
    }
}

#[test]
fn no_line_crosses_another_beside_the_columns() {
    for view in (0..300).map(generated::view) {
        let elements = elements(&draw(&view));
        let columns = column_rooms(&elements);
        let [first, last] = [columns[0], columns[columns.len() - 1]];
        let is_beside = |line: &Room| {
            let (left, right) = (line[0].min(line[2]), line[0].max(line[2]));
            line[1] <= first[3] && (right <= first[0] || last[2] <= left)
        };
        let polylines = elements.iter().filter(|one| one.name == "polyline");
        let lines: Vec<Room> = polylines.flat_map(lines).filter(is_beside).collect();
        for (at, line) in lines.iter().enumerate() {
            let crossed = lines[at + 1..].iter().any(|other| cross(*line, *other));
            assert!(!crossed, "{}: {line:?}", view.title);
        }
    }
}

#[test]
fn a_label_stands_between_whole_dots() {
    let view = table((0..20).map(|at| [at << 14, 0x4000, at + 1, 0]));
    let elements = elements(&draw(&view));
    let column = column_rooms(&elements)[0];
    let dotted: Vec<usize> = (0..elements.len())
        .filter(|&at| elements[at].get("fill") == Some("url(#dots)"))
        .filter(|&at| elements[at].number("width") == Some(COLUMN))
        .collect();
    assert_eq!(dotted.len(), 8);
    let on_dots = |x: f64| (x / DOTS).fract() == 0.0;
    assert!(on_dots(column[0]) && on_dots(column[2]));
    for at in dotted {
        // The outline lies over the dots; the plate comes later, with the labels.
        assert_eq!(elements[at + 1].get("fill"), Some("none"));
        assert_eq!(room(&elements[at + 1]), room(&elements[at]));
        let [left, top, right, bottom] = room(&elements[at]).unwrap();
        let is_plate =
            |room: &Room| left < room[0] && top < room[1] && room[2] < right && room[3] < bottom;
        let rooms = elements[at + 1..].iter().filter(|one| one.name == "rect");
        let plates: Vec<Room> = rooms.filter_map(room).filter(is_plate).collect();
        assert_eq!(plates.len(), 1);
        assert!(on_dots(plates[0][0]) && on_dots(plates[0][2]));
    }
}

#[test]
fn the_legend_stands_beside_the_scale() {
    // The axis is narrower than the scale's label with the room behind it.
    let mut view = table([[0, 0x8000, 7, 0]].into_iter());
    view.space = Space::of(0, 0x8000, (0, 0)).unwrap();
    let elements = elements(&draw(&view));
    let scale = elements.iter().find(|one| one.text == "4 KiB").unwrap();
    let is_mark = |one: &&Element| one.get("fill") == Some("#77aadd");
    let mark = elements.iter().rev().find(is_mark).unwrap();
    assert!(room(scale).unwrap()[2] + 10.0 < mark.number("x").unwrap());
}

#[test]
fn of_many_operations_some_are_left_out() {
    let texts = texts(&view(FULL_TABLE, 261, None));
    let has = |words: &str| texts.iter().any(|text| text == words);
    assert!(has("257 operations, in order"));
    assert!(has("14 unmap object 7, 0xd_0000 – 0xd_3000"));
    assert!(has("… 242 more operations"));
    assert!(has("257 map object 10, 0x0 – 0x1_0000_0000"));
}

#[test]
fn a_table_alone_has_one_column_and_no_operations() {
    let texts = texts(&table([[0x5000, 0x3000, 7, 0]].into_iter()));
    assert!(texts.contains(&"1 mapping".to_string()));
    let of_request = |text: &String| {
        ["before", "after", "operation"]
            .iter()
            .any(|w| text.contains(w))
    };
    assert!(!texts.iter().any(of_request));
}
