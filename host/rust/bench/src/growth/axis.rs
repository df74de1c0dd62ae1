//! Logarithmic axes, and their numbers.

/// An axis on which every tenfold is as long: where its lowest and its highest number stand.
pub struct Axis {
    pub numbers: (f64, f64),
    ends: (f64, f64),
}

impl Axis {
    pub fn new(numbers: (f64, f64), ends: (f64, f64)) -> Axis {
        Axis { numbers, ends }
    }

    pub fn place(&self, number: f64) -> f64 {
        let ((low, high), (start, end)) = (self.numbers, self.ends);
        let part = (number / low).ln() / (high / low).ln();
        start + part * (end - start)
    }
}

/// What an axis for these numbers, of 1 or more, goes from and to: a power of ten and, a tenfold
/// higher at least, a number with 1, 2 or 5 in front of zeros.
pub fn range<'a>(numbers: impl Iterator<Item = &'a f64>) -> (f64, f64) {
    let ends = |(least, most): (f64, f64), number: &f64| (number.min(least), number.max(most));
    let (least, most) = numbers.fold((f64::MAX, f64::MIN), ends);
    let mut low = 1.0;
    while low * 10.0 <= least {
        low *= 10.0;
    }
    let mut high = low * 10.0;
    let mut steps = [2.0, 2.5, 2.0].iter().cycle();
    while high < most {
        high *= steps.next().unwrap_or(&2.0);
    }
    (low, high)
}

/// The powers of ten from the first, which is one, to the last.
pub fn decades((low, high): (f64, f64)) -> impl Iterator<Item = f64> {
    let next = |decade: &f64| Some(decade * 10.0);
    std::iter::successors(Some(low), next).take_while(move |decade| *decade <= high)
}

/// A number with a comma between thousands.
pub fn grouped(number: u64) -> String {
    match number {
        0..1000 => number.to_string(),
        _ => format!("{},{:03}", grouped(number / 1000), number % 1000),
    }
}

#[cfg(test)]
mod tests {
    use super::*;

    #[test]
    fn a_tenfold_is_as_long_everywhere() {
        let axis = Axis::new((10.0, 100_000.0), (500.0, 100.0));
        for (number, place) in [(10.0, 500.0), (100.0, 400.0), (1e4, 200.0), (1e5, 100.0)] {
            assert!((axis.place(number) - place).abs() < 1e-9, "{number}");
        }
        let sizes = Axis::new((16.0, 4096.0), (0.0, 80.0));
        for (size, place) in [(16.0, 0.0), (64.0, 20.0), (256.0, 40.0), (512.0, 50.0)] {
            assert!((sizes.place(size) - place).abs() < 1e-9, "{size}");
        }
    }

    #[test]
    fn an_axis_has_room_for_its_numbers() {
        for (numbers, expected) in [
            (&[36.0, 700.0, 13_500.0][..], (10.0, 20_000.0)),
            (&[10.0, 20_001.0], (10.0, 50_000.0)),
            (&[9.9, 50_001.0], (1.0, 100_000.0)),
            (&[100.0], (100.0, 1_000.0)),
            (&[1_000_000.0, 1.0], (1.0, 1_000_000.0)),
        ] {
            assert_eq!(range(numbers.iter()), expected);
        }
    }

    #[test]
    fn decades_of_an_axis() {
        let of = |ends| decades(ends).collect::<Vec<_>>();
        assert_eq!(of((10.0, 20_000.0)), [10.0, 100.0, 1_000.0, 10_000.0]);
        assert_eq!(of((1.0, 10.0)), [1.0, 10.0]);
    }

    #[test]
    fn commas_between_thousands() {
        let numbers = [0, 16, 999, 1_000, 4_096, 100_000, 1_002_003];
        let texts = ["0", "16", "999", "1,000", "4,096", "100,000", "1,002,003"];
        assert_eq!(numbers.map(grouped), texts);
    }
}
