//! Labels in the first form that has room, and patterns that leave a text alone.

use super::*;

fn place(range: Range, what: What, height: f64, zigzags: &[f64]) -> Place {
    Place {
        stretch: Stretch { range, what },
        top: TOP,
        bottom: TOP + height,
        is_named: false,
        zigzags: zigzags.iter().map(|zigzag| TOP + zigzag).collect(),
        label: None,
    }
}

fn label(words: [u64; 4], room: f64, is_dotted: bool) -> Option<Vec<String>> {
    let mapping = Mapping::of(words).unwrap();
    let place = place(mapping.range, What::Mapping(mapping), room, &[]);
    let label = place.mapping_label(&mapping, is_dotted)?;
    assert_eq!(label.middle, TOP + room / 2.0);
    Some(label.lines)
}

fn lines(of: &[&str]) -> Option<Vec<String>> {
    Some(of.iter().map(|line| line.to_string()).collect())
}

#[test]
fn a_mapping_tells_its_size_in_every_form() {
    let short = [0x1000, 0x3000, 7, 0x1_2000];
    assert_eq!(
        label(short, 32.0, false),
        lines(&["object 7 + 0x1_2000", "12 KiB"])
    );
    assert_eq!(
        label(short, 31.0, false),
        lines(&["object 7 + 0x1_2000, 12 KiB"])
    );
    assert_eq!(label(short, 16.0, false), None);
    let long = [0x1000, 0x3000, 0xffff_ffff, 0xffff_fff0_0000];
    let two = ["object 4294967295", "+ 0xffff_fff0_0000, 12 KiB"];
    assert_eq!(label(long, 32.0, false), lines(&two));
    assert_eq!(label(long, 31.0, false), None);
    let longest = [0, (1 << 47) - 0x1000, 0xffff_ffff, 0x7fff_ffff_0000];
    let three = ["object 4294967295", "+ 0x7fff_ffff_0000", "almost 128 TiB"];
    assert_eq!(label(longest, 47.0, false), lines(&three));
    assert_eq!(label(longest, 46.0, false), None);
}

#[test]
fn a_mappings_label_stands_above_its_zigzags() {
    let mapping = Mapping::of([0, 1 << 30, 7, 0]).unwrap();
    let place = place(
        mapping.range,
        What::Mapping(mapping),
        480.0,
        &[120.0, 360.0],
    );
    let label = place.mapping_label(&mapping, false).unwrap();
    assert_eq!(label.middle, TOP + (120.0 - BARE / 2.0) / 2.0);
}

#[test]
fn another_label_stands_in_the_middle_or_in_a_zigzag_there() {
    let range = Range {
        start: 0,
        end: 0xe000,
    };
    let middle = |what, height, zigzags: &[f64]| {
        let label = place(range, what, height, zigzags).other_label()?;
        Some(label.middle - TOP)
    };
    assert_eq!(middle(What::Gap, 56.0, &[28.0]), Some(28.0));
    assert_eq!(middle(What::Gap, 72.0, &[44.0]), Some(44.0));
    assert_eq!(middle(What::Gap, 112.0, &[84.0]), Some(56.0));
    assert_eq!(middle(What::Gap, 300.0, &[28.0, 272.0]), Some(150.0));
    assert_eq!(middle(What::Gap, 30.0, &[]), Some(15.0));
    assert_eq!(middle(What::Gap, 29.0, &[]), None);
    assert_eq!(middle(What::Reservation, 20.0, &[]), Some(10.0));
    assert_eq!(middle(What::Reservation, 18.0, &[]), None);
    assert_eq!(middle(What::LeftOut(9), 40.0, &[20.0]), Some(20.0));
}

#[test]
fn a_thin_gap_is_told_nowhere_and_others_beside() {
    let range = Range {
        start: 0,
        end: 0x1000,
    };
    let mapping = Mapping::of([0, 0x1000, 7, 0]).unwrap();
    assert!(!place(range, What::Gap, 9.0, &[]).is_untold());
    assert!(place(range, What::Reservation, 9.0, &[]).is_untold());
    assert!(place(range, What::Mapping(mapping), 9.0, &[]).is_untold());
}

#[test]
fn dots_are_to_be_seen_beside_a_label() {
    let mapping = [0x1000, 0x3000, 7, 0x1_2000];
    assert_eq!(
        label(mapping, 32.0, true),
        lines(&["object 7 + 0x1_2000", "12 KiB"])
    );
    assert_eq!(label(mapping, 31.0, true), None);
}
