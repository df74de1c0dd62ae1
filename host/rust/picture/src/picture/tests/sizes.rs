//! Each size that a picture tells is that of what is drawn there.

use super::generated;
use super::*;
use crate::layout::Band;
use crate::mapping::Mapping;
use crate::number::size;
use crate::svg::FONT;

/// What a column is of: a table and its sparse ranges.
type Columns<'a> = (&'a [Mapping], &'a [Range]);

/// The bytes of what a column has at a height.
fn bytes_at(layout: &Layout, space: &Space, (table, sparse): Columns, y: f64) -> u64 {
    let mut taken: Vec<Range> = table.iter().map(|mapping| mapping.range).collect();
    taken.retain(|range| layout.span(range).is_some());
    taken.extend(space.reservation);
    taken.extend(layout.left_out());
    let span = |range: &Range| layout.span(range).unwrap();
    let has_it = |range: &&Range| span(range).0 < y && y < span(range).1;
    if let Some(range) = taken.iter().find(has_it) {
        return range.size();
    }
    // Off all of these the edges of sparse ranges count too, as far as they are shown.
    let top = |edge: u64| {
        let is_there = |band: &&Band| band.range.start == edge;
        layout.bands.iter().find(is_there).map(|band| band.top)
    };
    let taken = taken.iter().chain(sparse).chain([&space.range]);
    let edges = taken.flat_map(|range| [range.start, range.end]);
    let at = |edge: u64| match edge == space.range.end {
        true => Some(layout.bottom()),
        false => top(edge),
    };
    let shown: Vec<(u64, f64)> = edges.filter_map(|edge| Some((edge, at(edge)?))).collect();
    let above = shown.iter().filter(|(_, top)| *top <= y);
    let below = shown.iter().filter(|(_, top)| *top >= y);
    let start = above.map(|(edge, _)| *edge).max().unwrap();
    below.map(|(edge, _)| *edge).min().unwrap() - start
}

/// The size in a label, if there is one.
fn told_size(text: &str) -> Option<&str> {
    let words = text.strip_suffix(" free").unwrap_or(text);
    let words = words.strip_suffix(" sparse").unwrap_or(words);
    let size = words.rsplit(", ").next()?;
    let units = [" KiB", " MiB", " GiB", " TiB"];
    units
        .iter()
        .any(|unit| size.ends_with(unit))
        .then_some(size)
}

#[derive(Clone, Copy, PartialEq)]
enum Which {
    Before,
    After,
}

use Which::{After, Before};

/// The heights and texts of a column.
fn column_texts(elements: &[Element], which: Which) -> Vec<(f64, String)> {
    let columns = column_rooms(elements);
    let [left, _, right, _] = match which {
        Before => columns[0],
        After => columns[columns.len() - 1],
    };
    let texts = elements.iter().filter(|one| one.name == "text");
    let in_column = texts.filter(|one| {
        let x = one.number("x").unwrap();
        one.get("text-anchor") == Some("middle") && left < x && x < right
    });
    let below = in_column.filter(|one| middle(one) > TOP);
    below.map(|one| (middle(one), one.text.clone())).collect()
}

/// The height of a text's middle.
fn middle(text: &Element) -> f64 {
    text.number("y").unwrap() - 0.35 * text.number("font-size").unwrap_or(FONT)
}

/// The labels beside the columns: left ones end at their place.
fn beside_texts<'a>(elements: &'a [Element], anchor: Option<&str>) -> Vec<&'a str> {
    let texts = elements.iter().filter(|one| one.name == "text");
    let is_beside = |one: &&Element| one.text.starts_with("0x") && one.text.contains(": ");
    let these = texts.filter(is_beside);
    let these = these.filter(|one| one.get("text-anchor") == anchor);
    these.map(|one| one.text.as_str()).collect()
}

fn words_beside(space: &Space, table: &[Mapping]) -> Vec<String> {
    let words = |range: &Range, what: String| {
        let (start, bytes) = (hex(range.start), size(range.size()));
        format!("{start}: {what}, {bytes}")
    };
    let object = |one: &Mapping| format!("object {} + {}", one.object, hex(one.offset));
    let mappings = table.iter().map(|one| words(&one.range, object(one)));
    let reserved = |range: &Range| words(range, "reserved".to_string());
    mappings
        .chain(space.reservation.iter().map(reserved))
        .collect()
}

/// Checks a column, and gives how many sizes it tells, in it and beside it.
fn check_column(view: &View, elements: &[Element], which: Which) -> usize {
    let layout = Layout::of(&view.space, &view.grant, TOP);
    let Grant {
        before,
        after,
        sparse,
        ..
    } = &view.grant;
    let (table, sparse, anchor) = match which {
        Before => (before, &sparse.before, Some("end")),
        After => (after, &sparse.after, None),
    };
    let mut told = 0;
    for (y, text) in column_texts(elements, which) {
        if let Some(shown) = told_size(&text) {
            let bytes = bytes_at(&layout, &view.space, (table, sparse), y);
            assert_eq!(shown, size(bytes), "{}: '{text}'", view.title);
            told += 1;
        }
    }
    let beside = beside_texts(elements, anchor);
    let right = words_beside(&view.space, table);
    for text in &beside {
        let is_right = right.iter().any(|words| words == text);
        assert!(is_right, "{}: '{text}'", view.title);
    }
    told + beside.len()
}

fn check_sizes(view: &View) {
    let elements = elements(&draw(view));
    let after = check_column(view, &elements, After);
    // Of few mappings each tells its size.
    let mappings = view.grant.after.len();
    assert!(mappings > 4 || after >= mappings, "{}", view.title);
    if !view.alone {
        let before = check_column(view, &elements, Before);
        let mappings = view.grant.before.len();
        assert!(mappings > 4 || before >= mappings, "{}", view.title);
    }
}

#[test]
fn every_size_told_is_of_what_is_there() {
    (0..600).for_each(|seed| check_sizes(&generated::view(seed)));
    (1..=10).for_each(|number| check_sizes(&startup(number)));
    let some = (6..=31).chain(98..=110);
    some.for_each(|number| check_sizes(&view(EVERY_LINE, number, None)));
    (1..=11).for_each(|number| check_sizes(&texture(number)));
    let script = assemble(EVERY_LINE_TXT);
    (25..=97).for_each(|number| check_sizes(&scripted(EVERY_LINE, &script, number)));
    (255..=261).for_each(|number| check_sizes(&view(FULL_TABLE, number, None)));
}

/// The sizes of the gaps in a column, from above.
fn gaps(view: &View, which: Which) -> Vec<String> {
    let texts = column_texts(&elements(&draw(view)), which).into_iter();
    let gaps = texts.filter(|(_, text)| text.ends_with(" free"));
    gaps.map(|(_, text)| text).collect()
}

/// `unmap 0x2000 0x1000` behind `map 0 0x3000 7 0`.
const SHORTENED: &str = "space 256
granted 1 1
map 0 12288 7 0
granted 1 1
remap 0 12288 7 0 keep 0
lower 0 8192 7 0
";

#[test]
fn a_gap_before_and_a_longer_one_after() {
    let shortened = view(SHORTENED, 2, Some(Space::of(0, 0x1_0000, (0, 0)).unwrap()));
    assert_eq!(gaps(&shortened, Before), ["52 KiB free"]);
    assert_eq!(gaps(&shortened, After), ["56 KiB free"]);
    let full = view(FULL_TABLE, 258, None);
    assert_eq!(gaps(&full, Before), ["52 KiB free"; 6]);
    let after = gaps(&full, After);
    assert_eq!(after[1], "56 KiB free");
    assert_eq!([&after[..1], &after[2..]].concat(), ["52 KiB free"; 5]);
}

#[test]
fn a_gap_with_more_zigzags_than_one_tells_its_size_once() {
    let first = ["13.9 MiB free", "233.1 MiB free"];
    let second = ["13.9 MiB free", "40.1 MiB free", "177 MiB free"];
    assert_eq!(gaps(&startup(5), Before), first);
    assert_eq!(gaps(&startup(5), After), second);
}

/// All that a column tells, from above.
fn told(view: &View, which: Which) -> Vec<String> {
    let texts = column_texts(&elements(&draw(view)), which);
    texts.into_iter().map(|(_, text)| text).collect()
}

#[test]
fn what_is_shortened_tells_its_whole_size() {
    let ring = [
        "reserved, 1 MiB",
        "object 1 + 0x0",
        "64 KiB",
        "254.9 MiB free",
    ];
    assert_eq!(told(&startup(2), Before), ring);
    let heap = told(&startup(7), Before);
    assert_eq!(
        heap[heap.len() - 3..],
        ["object 21 + 0x200_0000", "32 MiB", "145 MiB free"]
    );
    let full = view(
        FULL_TABLE,
        261,
        Some(Space::of(0, 1 << 32, (0, 0)).unwrap()),
    );
    assert_eq!(told(&full, Before), ["almost 4 GiB free"]);
    assert_eq!(told(&full, After), ["object 10 + 0x0", "4 GiB"]);
}

#[test]
fn a_mapping_of_half_of_all_addresses() {
    let text = "granted 1 1\nmap 0 140737488355328 3 0\n";
    let view = view(text, 1, Some(Space::of(0, 1 << 48, (0, 0)).unwrap()));
    check_sizes(&view);
    assert_eq!(gaps(&view, Before), ["256 TiB free"]);
    assert_eq!(gaps(&view, After), ["128 TiB free"]);
}
