//! A colour for each object.

use crate::layout::Layout;
use crate::mapping::Mapping;
use crate::replay::Grant;

/// Paul Tol's light scheme: told apart by colour-blind readers too, and dark text stands out on it.
const FILLS: [&str; 8] = [
    "#77aadd", "#ee8866", "#eedd88", "#44bb99", "#ffaabb", "#99ddff", "#bbcc33", "#aaaa00",
];

/// Each fill plain, and then each with dots.
pub const DISTINCT: usize = 2 * FILLS.len();

pub struct Colours {
    /// In rising order, those that are shown in the columns: an object has one colour in both.
    pub objects: Vec<u64>,
}

impl Colours {
    pub fn of(grant: &Grant, layout: &Layout) -> Colours {
        let is_shown = |mapping: &&Mapping| layout.span(&mapping.range).is_some();
        let tables = grant.before.iter().chain(&grant.after).filter(is_shown);
        let mut objects: Vec<u64> = tables.map(|mapping| mapping.object).collect();
        objects.sort_unstable();
        objects.dedup();
        Colours { objects }
    }

    fn place(&self, object: u64) -> usize {
        self.objects.partition_point(|&other| other < object) % DISTINCT
    }

    pub fn fill(&self, object: u64) -> &'static str {
        FILLS[self.place(object) % FILLS.len()]
    }

    pub fn is_dotted(&self, object: u64) -> bool {
        self.place(object) >= FILLS.len()
    }
}

#[cfg(test)]
mod tests {
    use super::*;
    use crate::mapping::Space;
    use crate::svg::INK;

    /// How light a colour is for the eye, from 0 to 1, as the W3C's WCAG defines it.
    fn luminance(colour: &str) -> f64 {
        let part = |at: usize| {
            let byte = u8::from_str_radix(&colour[at..at + 2], 16).unwrap();
            let part = f64::from(byte) / 255.0;
            match part <= 0.04045 {
                true => part / 12.92,
                false => ((part + 0.055) / 1.055).powf(2.4),
            }
        };
        0.2126 * part(1) + 0.7152 * part(3) + 0.0722 * part(5)
    }

    #[test]
    fn text_stands_out_on_each_colour() {
        // Well above the 4.5 that WCAG asks for.
        for fill in FILLS {
            let contrast = (luminance(fill) + 0.05) / (luminance(INK) + 0.05);
            assert!(contrast > 6.0, "{fill}: {contrast}");
        }
    }

    fn table(objects: impl Iterator<Item = u64>) -> Vec<Mapping> {
        let mapping = |(at, object)| [(at as u64) << 13, 4096, object, 0];
        let words = objects.enumerate().map(mapping);
        words.map(|words| Mapping::of(words).unwrap()).collect()
    }

    fn colours(grant: &Grant) -> Colours {
        let space = Space::around(grant.before.iter().chain(&grant.after)).unwrap();
        Colours::of(grant, &Layout::of(&space, grant, 0.0))
    }

    #[test]
    fn sixteen_objects_are_told_apart() {
        let grant = Grant {
            before: table([900, 7].into_iter()),
            after: table(21..37),
            ..Grant::default()
        };
        let colours = colours(&grant);
        assert_eq!(colours.objects[..2], [7, 21]);
        assert_eq!(colours.objects.len(), 18);
        let look = |&object: &u64| (colours.fill(object), colours.is_dotted(object));
        let mut looks: Vec<(&str, bool)> = colours.objects.iter().map(look).collect();
        assert_eq!(looks[16..], looks[..2]);
        looks.sort_unstable();
        looks.dedup();
        assert_eq!(looks.len(), DISTINCT);
    }

    #[test]
    fn objects_left_out_take_no_colour() {
        let before = table(1..=40);
        let mut grant = Grant {
            after: before[1..].to_vec(),
            before,
            ..Grant::default()
        };
        assert_eq!(colours(&grant).objects.len(), 40);
        grant.operations.push(crate::replay::Operation {
            kind: crate::text::Kind::Unmap,
            named: grant.before[0],
            keep: false,
            rests: Vec::new(),
        });
        assert_eq!(colours(&grant).objects, [1, 2, 3, 4, 5]);
    }
}
