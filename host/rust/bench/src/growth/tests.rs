//! Pictures: the curves go through their figures, and each text can be read.

use super::*;
use waylluqen_svg::read::{elements, Element};
use waylluqen_svg::room::{disturbs, overlap, points, room};

const WHAT: [&str; 8] = [
    "map over one mapping",
    "map into one and undo",
    "the same at the front",
    "unmap and map",
    "map into an empty table",
    "map over one of 16",
    "look-up",
    "look-up among 16",
];

/// Panels whose times at each size are those of a curve, times these for the three.
fn panels_of(curve: Curve, times: [f64; 3]) -> Vec<Panel> {
    let curves = times.map(|times| curve.map(|number| number * times));
    WHAT.map(|what| Panel { what, curves }).into()
}

const USUAL: Curve = [41.0, 102.0, 260.0, 467.0, 1_220.0, 4_710.0];

/// Panels of which every other one has level curves, as those of small tables can be.
fn mixed() -> Vec<Panel> {
    let growing = panels_of(USUAL, [1.0, 1.3, 2.9]);
    let level = panels_of([40.0; SIZES.len()], [1.0, 0.7, 1.6]);
    let pairs = growing.into_iter().zip(level).enumerate();
    let one = |(place, (growing, level))| if place % 2 == 0 { growing } else { level };
    pairs.map(one).collect()
}

/// Usual figures, and others: level curves, all the same, very low, very high.
fn examples() -> Vec<Vec<Panel>> {
    vec![
        panels_of(USUAL, [1.0, 1.3, 2.9]),
        panels_of(USUAL, [1.0, 1.0, 1.0]),
        panels_of(USUAL, [1.0, 0.6, 0.03]),
        mixed(),
        panels_of([1.0; SIZES.len()], [1.0, 1.0, 1.0]),
        panels_of([2e5; SIZES.len()], [1.0, 0.5, 2.0]),
        panels_of([1.0, 1.0, 1.0, 1.0, 1.0, 9e5], [1.0, 2.0, 3.0]),
    ]
}

fn named<'a>(all: &'a [Element], name: &str) -> Vec<&'a Element> {
    all.iter().filter(|one| one.name == name).collect()
}

#[test]
fn nothing_is_outside_and_nothing_in_the_way_of_a_text() {
    for panels in examples() {
        let all = elements(&draw(&panels));
        let root = all.last().unwrap();
        let [width, height] = ["width", "height"].map(|name| root.number(name).unwrap());
        for [left, top, right, bottom] in all.iter().filter_map(room) {
            assert!(left >= 0.0 && top >= 0.0 && right <= width && bottom <= height);
        }
        let texts = named(&all, "text");
        for (at, text) in texts.iter().enumerate() {
            let place = room(text).unwrap();
            // Texts beside one another have half a letter between them.
            let [left, top, right, bottom] = place;
            let wider = [left - 3.0, top, right + 3.0, bottom];
            for other in &texts[..at] {
                let is_apart = !overlap(room(other).unwrap(), wider);
                assert!(is_apart, "'{}' and '{}'", text.text, other.text);
            }
            let is_in_the_way = |one: &Element| match one.name.as_str() {
                "polygon" => overlap(room(one).unwrap(), place),
                _ => disturbs(one, place),
            };
            assert!(!all.iter().any(is_in_the_way), "'{}'", text.text);
        }
    }
}

#[test]
fn plots_are_apart_and_hold_their_curves() {
    for panels in examples() {
        let all = elements(&draw(&panels));
        let is_frame = |one: &&Element| one.name == "rect" && one.get("fill") == Some("none");
        let frames: Vec<_> = all.iter().filter(is_frame).filter_map(room).collect();
        assert_eq!(frames.len(), WHAT.len());
        for (at, frame) in frames.iter().enumerate() {
            assert!(frames[..at].iter().all(|other| !overlap(*other, *frame)));
        }
        for curves in STYLES.map(|style| drawn(&all, style.colour)) {
            for (curve, [left, top, right, bottom]) in curves.iter().zip(&frames) {
                let inside = |(x, y): &(f64, f64)| left < x && x < right && top <= y && y <= bottom;
                assert!(curve.iter().all(inside));
            }
        }
    }
}

/// The curves drawn in a style, without the legend's.
fn drawn(all: &[Element], colour: &str) -> Vec<Vec<(f64, f64)>> {
    let lines = named(all, "polyline");
    let lines = lines.iter().filter(|one| one.get("stroke") == Some(colour));
    let lines = lines.map(|one| points(one));
    lines.filter(|line| line.len() > 2).collect()
}

#[test]
fn curves_go_through_their_figures() {
    let mut panels = panels_of(USUAL, [1.0, 1.3, 2.9]);
    // Each panel another one.
    for (place, panel) in panels.iter_mut().enumerate() {
        let shift = 1.0 + place as f64 / 100.0;
        panel.curves = panel.curves.map(|curve| curve.map(|number| number * shift));
    }
    let all = elements(&draw(&panels));
    for (which, style) in STYLES.iter().enumerate() {
        let curves = drawn(&all, style.colour);
        assert_eq!(curves.len(), panels.len());
        for (place, (curve, panel)) in curves.iter().zip(&panels).enumerate() {
            // The axis of times goes from 10 to 20,000.
            let plot = Plot::of(place, (10.0, 20_000.0));
            for ((x, y), number) in curve.iter().zip(&panel.curves[which]) {
                let tenfolds = (number / 10.0).log10() / 2_000_f64.log10();
                assert!((plot.bottom - tenfolds * PLOT.1 - y).abs() < 0.051);
                assert!(plot.left < *x && *x < plot.right);
            }
            let steps: Vec<f64> = curve.windows(2).map(|pair| pair[1].0 - pair[0].0).collect();
            // 16, 64, 256, 512, 1,024, 4,096: an octave is as long everywhere.
            let octave = (PLOT.0 - 2.0 * INSET) / 8.0;
            for (step, octaves) in steps.iter().zip([2.0, 2.0, 1.0, 1.0, 2.0]) {
                assert!((step - octaves * octave).abs() < 0.11);
            }
        }
    }
}

#[test]
fn curves_differ_without_colours() {
    let all = elements(&draw(&panels_of(USUAL, [1.0, 1.3, 2.9])));
    let lines = named(&all, "polyline");
    let dashes = [0, 1, 2].map(|which: usize| {
        let mut lines = lines.iter();
        let line = lines.find(|one| one.get("stroke") == Some(STYLES[which].colour));
        line.unwrap().get("stroke-dasharray")
    });
    let [library, plain, tree] = dashes;
    assert!(library.is_none() && plain.is_some() && tree.is_some() && plain != tree);
}

#[test]
fn texts_tell_the_calls_the_numbers_and_the_time_of_a_mapping() {
    let all = elements(&draw(&panels_of(USUAL, [1.0, 1.3, 2.9])));
    let texts = named(&all, "text");
    let times = |words: &str| texts.iter().filter(|text| text.text == words).count();
    for what in WHAT {
        assert_eq!(times(what), 1, "{what}");
    }
    // 4,710 ns at 4,096 mappings.
    for words in [
        "1.15 ns",
        "a mapping",
        "16",
        "512",
        "1,024",
        "4,096",
        "10",
        "100",
        "10,000",
    ] {
        assert_eq!(times(words), WHAT.len(), "{words}");
    }
    assert_eq!(times("100,000"), 0);
    for style in &STYLES {
        assert_eq!(times(style.name), 1);
    }
}

#[test]
fn the_figures_are_those_of_the_tables() {
    let lines = crate::line::lines();
    let times: Vec<Times> = (0..lines.len())
        .map(|line| {
            let first = 100.0 * (line + 1) as f64;
            // The last plain version is the quickest of them.
            let round = [0.0, 9.0, 3.0, 7.0, 4.0, 6.0, 2.0, 5.0].map(|more| first + more);
            Times::of_rounds(vec![round.to_vec()])
        })
        .collect();
    let panels = panels(&lines, &times);
    assert_eq!(
        panels.iter().map(|panel| panel.what).collect::<Vec<_>>(),
        WHAT
    );
    for (place, panel) in panels.iter().enumerate() {
        for (more, curve) in [0.0, 2.0, 5.0].into_iter().zip(panel.curves) {
            let first = |size: usize| 100.0 * (place * SIZES.len() + size + 1) as f64;
            assert_eq!(curve, array::from_fn(|size| first(size) + more));
        }
    }
}
