//! The scale, its breaks and hairlines, and what is left out.

use super::*;
use crate::replay::replay;

const TOP: f64 = 10.0;

const STARTUP: &str = include_str!("../../../../../examples/startup.out");
const EVERY_LINE: &str = include_str!("../../../../../examples/every-line.out");
const FULL_TABLE: &str = include_str!("../../../../../examples/full-table.out");

fn grant(text: &str, number: usize) -> Grant {
    replay(text, None, Some(number)).unwrap().wanted.unwrap()
}

fn layout_around(grant: &Grant) -> Layout {
    let space = Space::around(grant.before.iter().chain(&grant.after)).unwrap();
    Layout::of(&space, grant, TOP)
}

fn startup(number: usize) -> Layout {
    let space = Space::of(0x10_0000, 0x1000_0000, (0x10_0000, 0x10_0000)).unwrap();
    Layout::of(&space, &grant(STARTUP, number), TOP)
}

fn band_at(layout: &Layout, start: u64) -> Band {
    *layout
        .bands
        .iter()
        .find(|band| band.range.start == start)
        .unwrap()
}

fn table(mappings: &[[u64; 4]]) -> Grant {
    let after: Vec<Mapping> = mappings
        .iter()
        .map(|&words| Mapping::of(words).unwrap())
        .collect();
    Grant {
        before: after.clone(),
        after,
        ..Grant::default()
    }
}

/// Layouts of many kinds.
fn layouts() -> Vec<Layout> {
    let mut out: Vec<Layout> = (1..=10).map(startup).collect();
    for number in [1, 2, 9, 17, 18, 21, 23, 24, 353, 354] {
        out.push(layout_around(&grant(EVERY_LINE, number)));
    }
    for number in [256, 257, 259, 260, 261] {
        out.push(layout_around(&grant(FULL_TABLE, number)));
    }
    let far = |at: u64| [at << 30, PAGE << (at % 20), at + 1, 0];
    out.push(layout_around(&table(
        &(0..4096).map(far).collect::<Vec<_>>(),
    )));
    out
}

#[test]
fn a_page_has_one_height_in_every_mapping() {
    for layout in layouts() {
        for band in &layout.bands {
            let whole = layout.scale * band.range.size() as f64;
            if !layout.is_broken(band) && !layout.is_hairline(&band.range) {
                assert!((band.height - whole).abs() < 1e-6);
            }
        }
    }
}

#[test]
fn what_is_longer_is_never_drawn_shorter() {
    for layout in layouts() {
        let is_mapped = |band: &&Band| band.kind == Kind::Mapped;
        let mut bands: Vec<&Band> = layout.bands.iter().filter(is_mapped).collect();
        bands.sort_by_key(|band| band.range.size());
        assert!(bands
            .windows(2)
            .all(|pair| pair[0].height <= pair[1].height));
    }
}

#[test]
fn bands_follow_one_another_and_stay_within_the_limit() {
    for layout in layouts() {
        assert_eq!(layout.bands[0].top, TOP);
        for pair in layout.bands.windows(2) {
            assert_eq!(pair[0].range.end, pair[1].range.start);
            assert!((pair[0].bottom() - pair[1].top).abs() < 1e-6);
            assert!(pair[0].height >= HAIRLINE);
        }
        let limit = MOST_OF_ALL.max(BAND_ROOM * layout.bands.len() as f64);
        assert!(layout.bottom() - TOP <= limit + 1e-6);
    }
}

#[test]
fn the_scale_goes_by_the_change() {
    // The second ring, 64 KiB: the reservation before it is broken.
    let ring = startup(2);
    assert!((band_at(&ring, 0x21_0000).height - MOST_OF_CHANGE).abs() < 1e-6);
    assert!(ring.is_broken(&band_at(&ring, 0x10_0000)));
    // The middle of the texture, 4 MiB: of it and its rests nothing is left out.
    let texture = startup(7);
    for start in [0x400_0000, 0x460_0000, 0x4a0_0000] {
        assert!(!texture.is_broken(&band_at(&texture, start)));
    }
    // The heap's 32 MiB behind them are broken, and the fence's page is a hairline.
    let heap = band_at(&texture, 0x500_0000);
    assert!(texture.is_broken(&heap));
    let middle = (heap.top + heap.bottom()) / 2.0;
    assert_eq!(texture.breaks(&heap.range), [middle]);
    assert!(texture.is_hairline(&band_at(&texture, 0x22_0000).range));
    assert_eq!(band_at(&texture, 0x22_0000).height, HAIRLINE);
}

#[test]
fn long_gaps_are_shortened_and_a_page_is_not() {
    let two_gaps = [
        [0, PAGE, 7, 0],
        [2 * PAGE, PAGE, 7, 0],
        [5 * PAGE, PAGE, 7, 0],
    ];
    let layout = layout_around(&table(&two_gaps));
    let kinds: Vec<Kind> = layout.bands.iter().map(|band| band.kind).collect();
    use Kind::{Free, Mapped};
    assert_eq!(kinds, [Mapped, Free, Mapped, Free, Mapped]);
    let (page, pages) = (&layout.bands[1], &layout.bands[3]);
    assert!(!layout.is_broken(page));
    assert!(layout.is_broken(pages));
    let all = Range {
        start: 0,
        end: 6 * PAGE,
    };
    assert_eq!(layout.breaks(&all), layout.breaks(&pages.range));
}

#[test]
fn mappings_far_from_the_change_are_left_out() {
    let grant = grant(EVERY_LINE, 354);
    let layout = layout_around(&grant);
    let left_out: Vec<Range> = layout.left_out().collect();
    let [range] = left_out[..] else {
        panic!("{left_out:?}");
    };
    // One of 255 is the new one, and four behind it are near.
    for table in [&grant.before, &grant.after] {
        let inside = table.iter().filter(|one| one.range.is_inside(&range));
        assert_eq!(inside.count(), 250);
    }
    let drawn = |table: &[Mapping]| {
        table
            .iter()
            .filter(|m| layout.span(&m.range).is_some())
            .count()
    };
    assert_eq!((drawn(&grant.before), drawn(&grant.after)), (6, 5));
    // Nothing is far from a change of everything, nor in a table alone.
    let all = layout_around(&self::grant(FULL_TABLE, 261));
    let alone = layout_around(&Grant {
        before: grant.after.clone(),
        after: grant.after,
        ..Grant::default()
    });
    for layout in [all, alone] {
        assert_eq!(layout.left_out().count(), 0);
    }
}

#[test]
fn the_edges_of_sparse_ranges_are_edges() {
    let range = |first: u64, end: u64| Range {
        start: first * PAGE,
        end: end * PAGE,
    };
    let space = Space::of(0, 32 * PAGE, (0, 0)).unwrap();
    let mut grant = table(&[[4 * PAGE, 4 * PAGE, 7, 0]]);
    grant.sparse.before = vec![range(2, 6)];
    grant.sparse.after = vec![range(2, 6), range(6, 20)];
    grant.sparse.changed = Some(range(6, 20));
    let layout = Layout::of(&space, &grant, TOP);
    let starts = layout.bands.iter().map(|band| band.range.start / PAGE);
    assert_eq!(starts.collect::<Vec<_>>(), [0, 2, 4, 6, 8, 20]);
    // Where two ranges touch they are two.
    let [first, second] = [range(2, 6), range(6, 20)].map(|one| layout.parts(&one));
    assert_eq!((first.len(), second.len()), (1, 1));
    assert_eq!(first[0].1, second[0].0);
    assert_eq!(Some(first[0]), layout.span(&range(2, 6)));
    // The scale goes by the range that is added.
    let added = band_at(&layout, 8 * PAGE).range.size().min(2 * PAGE);
    assert!(layout.scale * added as f64 <= MOST_OF_CHANGE);
}

#[test]
fn of_a_sparse_range_what_is_left_out_is_not_shown() {
    let mappings: Vec<[u64; 4]> = (0..40).map(|at| [2 * at * PAGE, PAGE, 7, 0]).collect();
    let mut grant = table(&mappings);
    let last = grant.after.pop().unwrap();
    grant.operations.push(Operation {
        kind: text::Kind::Unmap,
        named: last,
        keep: false,
        rests: Vec::new(),
    });
    let all = Range {
        start: 0,
        end: 100 * PAGE,
    };
    (grant.sparse.before, grant.sparse.after) = (vec![all], vec![all]);
    let layout = Layout::of(&Space::of(0, 100 * PAGE, (0, 0)).unwrap(), &grant, TOP);
    let left_out: Vec<Range> = layout.left_out().collect();
    let [(top, bottom)] = layout.parts(&all)[..] else {
        panic!("the first mapping is left out too");
    };
    assert_eq!(left_out[0].start, 0);
    assert_eq!(layout.span(&left_out[0]).unwrap().1, top);
    assert_eq!(bottom, layout.bottom());
}

#[test]
fn an_empty_space_is_one_gap() {
    let space = Space::of(0, 1 << 48, (0, 0)).unwrap();
    let layout = Layout::of(&space, &Grant::default(), TOP);
    assert_eq!(layout.bands.len(), 1);
    assert_eq!(layout.breaks(&space.range).len(), 1);
    assert_eq!(layout.span(&space.range), Some((TOP, layout.bottom())));
}
