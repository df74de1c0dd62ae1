//! Places for labels and boxes, so that none lies over another.

use std::ops::Range;

/// Two that touch can seem to be this far apart.
const ROUNDING: f64 = 1e-6;

/// A box that wants its middle at a height.
#[derive(Clone, Copy)]
pub struct Wanted {
    pub middle: f64,
    pub height: f64,
}

/// Boxes that touch and move together.
struct Group {
    boxes: usize,
    height: f64,
    /// The sum of the tops that the group would have if each box alone decided.
    tops: f64,
}

impl Group {
    fn top(&self, (top, bottom): (f64, f64)) -> f64 {
        (self.tops / self.boxes as f64)
            .min(bottom - self.height)
            .max(top)
    }
}

/// The tops of the boxes, in their order, from `limits.0` to `limits.1`: each as near to where it
/// wants to be as the others allow.
pub fn spread(wanted: &[Wanted], limits: (f64, f64)) -> Vec<f64> {
    let mut groups: Vec<Group> = Vec::new();
    for one in wanted {
        let mut group = Group {
            boxes: 1,
            height: one.height,
            tops: one.middle - one.height / 2.0,
        };
        while let Some(last) = groups.pop() {
            if last.top(limits) + last.height <= group.top(limits) {
                groups.push(last);
                break;
            }
            group.tops += last.tops - group.boxes as f64 * last.height;
            group.boxes += last.boxes;
            group.height += last.height;
        }
        groups.push(group);
    }
    let mut tops = Vec::new();
    for group in groups {
        let mut top = group.top(limits);
        for one in &wanted[tops.len()..][..group.boxes] {
            tops.push(top);
            top += one.height;
        }
    }
    tops
}

/// The labels that touch the one at `at`, from the first to behind the last.
fn crowd(places: &[f64], line: f64, at: usize) -> Range<usize> {
    let touch = |low: usize| places[low + 1] - places[low] < line + ROUNDING;
    let first = (0..at).rev().take_while(|&low| touch(low)).count();
    let last = (at..places.len() - 1).take_while(|&low| touch(low)).count();
    at - first..at + last + 1
}

/// The places of those that go from a crowd. A long one keeps what can stand at its very place;
/// of a short one a label goes, of the highest rank and with the least room around its wish.
fn crowded_out(crowd: &[(f64, u8)], line: f64, most: f64) -> Vec<usize> {
    let every = 0..crowd.len();
    let long = crowd[crowd.len() - 1].0 - crowd[0].0 > 2.0 * most;
    let stays = thin_out(crowd, line);
    if long && stays.contains(&false) {
        return every.filter(|&at| !stays[at]).collect();
    }
    let room = |at: usize| match at > 0 && at + 1 < crowd.len() {
        true => crowd[at + 1].0 - crowd[at - 1].0,
        false => f64::MAX,
    };
    let order = |&a: &usize, &b: &usize| {
        let ranks = crowd[b].1.cmp(&crowd[a].1);
        ranks.then(room(a).total_cmp(&room(b)))
    };
    every.min_by(order).into_iter().collect()
}

/// Places for labels of a height and a rank, in order and between the limits; none for some of a
/// crowd in which one would stand more than `most` away.
pub fn near_enough(
    labels: &[(f64, u8)],
    line: f64,
    most: f64,
    limits: (f64, f64),
) -> Vec<Option<f64>> {
    let (first, last) = (limits.0 + line / 2.0, limits.1 - line / 2.0);
    let wanted = |&(middle, _): &(f64, u8)| Wanted {
        middle: middle.min(last).max(first),
        height: line,
    };
    let mut out = vec![None; labels.len()];
    let mut kept: Vec<usize> = (0..labels.len()).collect();
    loop {
        let labels: Vec<(f64, u8)> = kept.iter().map(|&at| labels[at]).collect();
        let wanted: Vec<Wanted> = labels.iter().map(wanted).collect();
        let tops = spread(&wanted, limits);
        let places: Vec<f64> = tops.iter().map(|top| top + line / 2.0).collect();
        let is_far = |&at: &usize| {
            (places[at] - wanted[at].middle).abs() > most || places[at] > last + ROUNDING
        };
        let Some(far) = (0..kept.len()).find(is_far) else {
            let kept = kept.iter().zip(places);
            kept.for_each(|(&at, place)| out[at] = Some(place));
            return out;
        };
        let crowd = crowd(&places, line, far);
        for at in crowded_out(&labels[crowd.clone()], line, most)
            .into_iter()
            .rev()
        {
            kept.remove(crowd.start + at);
        }
    }
}

/// Which of the labels can stand at their very places; where two are too near, the lower rank.
pub fn thin_out(labels: &[(f64, u8)], line: f64) -> Vec<bool> {
    let mut order: Vec<usize> = (0..labels.len()).collect();
    order.sort_by_key(|&at| labels[at].1);
    let mut kept = vec![false; labels.len()];
    for at in order {
        let is_near = |other: usize| (labels[other].0 - labels[at].0).abs() < line;
        kept[at] = !(0..labels.len()).any(|other| kept[other] && is_near(other));
    }
    kept
}

#[cfg(test)]
mod tests {
    use super::*;

    fn tops(middles: &[f64], limits: (f64, f64)) -> Vec<f64> {
        let wanted = |&middle: &f64| Wanted {
            middle,
            height: 10.0,
        };
        spread(&middles.iter().map(wanted).collect::<Vec<_>>(), limits)
    }

    #[test]
    fn boxes_stand_where_they_want_to() {
        assert_eq!(tops(&[], (0.0, 100.0)), []);
        assert_eq!(tops(&[15.0, 25.0, 80.0], (0.0, 100.0)), [10.0, 20.0, 75.0]);
    }

    #[test]
    fn boxes_in_each_others_way_share_the_room() {
        assert_eq!(tops(&[50.0, 50.0], (0.0, 100.0)), [40.0, 50.0]);
        // The last one moves the first two, which touch already.
        assert_eq!(tops(&[50.0, 50.0, 50.0], (0.0, 100.0)), [35.0, 45.0, 55.0]);
        // In their order, even if they want another.
        assert_eq!(tops(&[80.0, 20.0], (0.0, 100.0)), [40.0, 50.0]);
    }

    #[test]
    fn boxes_stay_within_the_limits() {
        assert_eq!(tops(&[0.0, 1.0, 99.0], (0.0, 100.0)), [0.0, 10.0, 90.0]);
        assert_eq!(tops(&[99.0, 99.0], (0.0, 100.0)), [80.0, 90.0]);
        assert_eq!(tops(&[70.0, 99.0, 99.0], (0.0, 100.0)), [65.0, 80.0, 90.0]);
    }

    #[test]
    fn labels_stand_around_what_they_tell_of() {
        let near = |labels: &[f64]| {
            let labels: Vec<(f64, u8)> = labels.iter().map(|&label| (label, 0)).collect();
            near_enough(&labels, 10.0, 20.0, (0.0, 100.0))
        };
        assert_eq!(near(&[]), []);
        assert_eq!(near(&[30.0, 50.0]), [Some(30.0), Some(50.0)]);
        assert_eq!(near(&[50.0; 3]), [Some(40.0), Some(50.0), Some(60.0)]);
        // Above and below there is an end.
        assert_eq!(near(&[0.0, 1.0]), [Some(5.0), Some(15.0)]);
        assert_eq!(
            near(&[50.0, 99.0, 100.0]),
            [Some(50.0), Some(85.0), Some(95.0)]
        );
    }

    #[test]
    fn of_a_crowd_some_labels_go() {
        let places = |labels: &[(f64, u8)], limits| near_enough(labels, 10.0, 20.0, limits);
        let kept = |labels: &[(f64, u8)], limits| -> Vec<usize> {
            let places = places(labels, limits);
            let told = |&at: &usize| places[at].is_some();
            (0..labels.len()).filter(told).collect()
        };
        // Five stand within 20 of their place, and a sixth does not.
        assert_eq!(kept(&[(50.0, 0); 5], (0.0, 100.0)).len(), 5);
        assert_eq!(kept(&[(50.0, 0); 6], (0.0, 100.0)).len(), 5);
        // It is the one with the least room, or of a higher rank.
        let six = [40.0, 45.0, 50.0, 51.0, 52.0, 55.0];
        let labels = |ranks: [u8; 6]| -> Vec<(f64, u8)> { six.into_iter().zip(ranks).collect() };
        let tight = |ranks| near_enough(&labels(ranks), 10.0, 16.0, (0.0, 100.0));
        assert_eq!(tight([0; 6]).iter().position(Option::is_none), Some(3));
        assert_eq!(
            tight([0, 1, 0, 0, 0, 0]).iter().position(Option::is_none),
            Some(1)
        );
        // Between narrow limits there is room for two.
        assert_eq!(
            kept(&[(10.0, 0), (11.0, 0), (12.0, 0)], (0.0, 25.0)),
            [0, 2]
        );
        // In a long crowd those that stay stand at their very places.
        let long: Vec<(f64, u8)> = (0..40).map(|at| (100.0 + 4.0 * f64::from(at), 0)).collect();
        for (place, (wanted, _)) in places(&long, (0.0, 500.0)).into_iter().zip(&long) {
            assert!(place.is_none() || place == Some(*wanted));
        }
        assert_eq!(kept(&long, (0.0, 500.0)).len(), 14);
    }

    #[test]
    fn of_labels_too_near_the_lower_rank_stays() {
        let kept = thin_out(&[(0.0, 2), (5.0, 1), (14.0, 0), (24.0, 2)], 10.0);
        assert_eq!(kept, [true, false, true, true]);
    }
}
