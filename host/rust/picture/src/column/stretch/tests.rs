//! The stretches of a column have every byte of the space once.

use super::*;
use crate::layout::Layout;
use crate::picture::tests::generated;
use crate::picture::TOP;
use crate::replay::Grant;

fn told(stretches: &[Stretch]) -> Vec<String> {
    stretches.iter().map(Stretch::told).collect()
}

#[test]
fn gaps_are_a_columns_own() {
    let space = Space::of(0, 0x1_0000, (0x8000, 0x1000)).unwrap();
    let mapping = |words| Mapping::of(words).unwrap();
    let before = [
        mapping([0, 0x3000, 7, 0]),
        mapping([0x9000, 0x1000, 8, 0x2000]),
    ];
    let after = [mapping([0, 0x2000, 7, 0]), before[1]];
    let behind = ["reserved, 4 KiB", "object 8 + 0x2000, 4 KiB", "24 KiB free"];
    let first = [&["object 7 + 0x0, 12 KiB", "20 KiB free"], &behind[..]].concat();
    let second = [&["object 7 + 0x0, 8 KiB", "24 KiB free"], &behind[..]].concat();
    assert_eq!(told(&stretches(&space, &before, &[], &[])), first);
    assert_eq!(told(&stretches(&space, &after, &[], &[])), second);
    assert_eq!(
        told(&stretches(&space, &[], &[], &[])),
        ["32 KiB free", "reserved, 4 KiB", "28 KiB free"]
    );
}

#[test]
fn gaps_are_cut_at_sparse_ranges() {
    let space = Space::of(0, 0x1_0000, (0xe000, 0x1000)).unwrap();
    let table = [[0x2000, 0x1000], [0x5000, 0x2000]];
    let table = table.map(|[start, size]| Mapping::of([start, size, 7, 0]).unwrap());
    let range = |start, end| Range { start, end };
    // Into a mapping, touching it, over one and on both sides, and up to the reservation.
    let sparse = [
        range(0x1000, 0x3000),
        range(0x3000, 0x4000),
        range(0x4000, 0x8000),
        range(0xc000, 0xe000),
    ];
    let right = [
        "4 KiB free",
        "4 KiB sparse",
        "object 7 + 0x0, 4 KiB",
        "4 KiB sparse",
        "4 KiB sparse",
        "object 7 + 0x0, 8 KiB",
        "4 KiB sparse",
        "16 KiB free",
        "8 KiB sparse",
        "reserved, 4 KiB",
        "4 KiB free",
    ];
    assert_eq!(told(&stretches(&space, &table, &sparse, &[])), right);
    let all = [range(0, 0xe000)];
    assert_eq!(told(&stretches(&space, &[], &all, &[]))[0], "56 KiB sparse");
}

#[test]
fn mappings_left_out_are_counted() {
    let space = Space::of(0, 0x1_0000, (0, 0)).unwrap();
    let table = [0, 0x2000, 0x3000, 0x6000].map(|at| Mapping::of([at, 0x1000, 7, 0]).unwrap());
    let range = Range {
        start: 0x2000,
        end: 0x7000,
    };
    let stretches = stretches(&space, &table, &[], &[range]);
    let right = [
        "object 7 + 0x0, 4 KiB",
        "4 KiB free",
        "3 mappings, 20 KiB",
        "36 KiB free",
    ];
    assert_eq!(told(&stretches), right);
}

/// Whether the stretch is what the space, the table and the sparse ranges have there.
fn is_true(stretch: &Stretch, space: &Space, table: &[Mapping], sparse: &[Range]) -> bool {
    let Stretch { range, what } = stretch;
    let mut taken = table.iter().map(|one| one.range).chain(space.reservation);
    let shares = |one: &Range| one.shares_byte_with(range);
    match what {
        What::Gap => !taken.any(|one| shares(&one)) && !sparse.iter().any(shares),
        What::Sparse => {
            let has_it = |one: &Range| range.is_inside(one);
            !taken.any(|one| shares(&one)) && sparse.iter().any(has_it)
        }
        What::Reservation => space.reservation == Some(*range),
        What::Mapping(mapping) => mapping.range == *range && table.contains(mapping),
        What::LeftOut(mappings) => {
            taken.filter(|one| one.is_inside(range)).count() == *mappings && *mappings > 1
        }
    }
}

#[test]
fn each_byte_is_in_one_stretch() {
    for view in (0..600).map(generated::view) {
        let (space, layout) = (&view.space, Layout::of(&view.space, &view.grant, TOP));
        let left_out: Vec<Range> = layout.left_out().collect();
        let Grant {
            before,
            after,
            sparse,
            ..
        } = &view.grant;
        for (table, sparse) in [(before, &sparse.before), (after, &sparse.after)] {
            let stretches = stretches(space, table, sparse, &left_out);
            let (first, last) = (stretches[0].range, stretches[stretches.len() - 1].range);
            assert_eq!(
                (first.start, last.end),
                (space.range.start, space.range.end)
            );
            for stretch in &stretches {
                assert!(
                    is_true(stretch, space, table, sparse),
                    "{}: {stretch:?}",
                    view.title
                );
                assert!(layout.span(&stretch.range).is_some());
            }
            for pair in stretches.windows(2) {
                assert_eq!(pair[0].range.end, pair[1].range.start);
                assert!(pair[0].what != What::Gap || pair[1].what != What::Gap);
            }
            let shown = stretches.iter().map(|stretch| match stretch.what {
                What::Mapping(_) => 1,
                What::LeftOut(mappings) => mappings,
                _ => 0,
            });
            assert_eq!(shown.sum::<usize>(), table.len());
        }
    }
}
