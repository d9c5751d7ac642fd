//! The rows with a ratio, as they are printed, and the worst of them held to the bar.

use crate::timing::{self, Times};

/// The bar, and what a run may set in its place.
const BAR: f64 = 1.25;
const BAR_NAME: &str = "NUTRAMEZA_BAR";

/// A row over the bar is measured so many times at most, and its least ratio counts: what else the machine does slows
/// one of the two ways now and then, and seldom the same one every time.
pub const MOST_MEASURES: usize = 5;

/// What a run has found so far.
pub struct Report {
    pub bar: f64,
    /// Rows are timed only where their name has one of these in it, or where there is none.
    only: Vec<String>,
    worst: Option<(f64, String)>,
}

impl Report {
    pub fn new(bar: f64, only: Vec<String>) -> Report {
        Report { bar, only, worst: None }
    }

    /// The bar of the environment, or the usual one; the rows that the arguments name.
    pub fn of_run() -> Report {
        let bar = std::env::var(BAR_NAME).map_or(BAR, |bar| bar.parse().expect("the bar is a number"));
        Report::new(bar, std::env::args().skip(1).collect())
    }

    pub fn wants(&self, name: &str) -> bool {
        self.only.is_empty() || self.only.iter().any(|part| name.contains(part))
    }

    /// Measures two ways until their ratio is not over the bar, a few times at most; the measure with the least ratio
    /// counts.
    pub fn beside(&mut self, name: &str, kit: &mut dyn FnMut(), plain: &mut dyn FnMut()) -> Times {
        let least = least(self.bar, || timing::beside(kit, plain));
        self.count(name, least.ratio);
        least
    }

    /// Prints a row of kit and plain.
    pub fn row(&mut self, name: &str, kit: &mut dyn FnMut(), plain: &mut dyn FnMut()) {
        if self.wants(name) {
            let Times { first, second, ratio } = self.beside(name, kit, plain);
            println!("{name:<44} {first:>12.0} {second:>12.0} {ratio:>7.2}");
        }
    }

    /// A row's ratio is counted.
    fn count(&mut self, name: &str, ratio: f64) {
        if self.worst.as_ref().is_none_or(|(worst, _)| *worst < ratio) {
            self.worst = Some((ratio, name.to_string()));
        }
    }

    /// The last line, and whether no row is over the bar. A run without a row shows nothing and fails.
    pub fn verdict(&self) -> (String, bool) {
        match &self.worst {
            None => ("worst ratio: no row was timed".to_string(), false),
            Some((ratio, name)) => {
                let held = *ratio <= self.bar;
                let word = if held { "not over" } else { "over" };
                (format!("worst ratio: {ratio:.2}, {word} the bar of {:.2}: {name}", self.bar), held)
            }
        }
    }
}

/// The measure with the least ratio, of those made until one is not over the bar.
pub fn least(bar: f64, mut measure: impl FnMut() -> Times) -> Times {
    let mut least = measure();
    for _ in 1..MOST_MEASURES {
        if least.ratio <= bar {
            break;
        }
        let again = measure();
        if again.ratio < least.ratio {
            least = again;
        }
    }
    least
}

#[cfg(test)]
mod tests {
    use super::*;

    fn of_ratio(ratio: f64) -> Times {
        Times { first: ratio, second: 1.0, ratio }
    }

    /// How many measures of such ratios are made, and which ratio counts.
    fn measured(ratios: &[f64]) -> (usize, f64) {
        let mut made = 0;
        let least = least(1.25, || {
            made += 1;
            of_ratio(ratios[made - 1])
        });
        (made, least.ratio)
    }

    #[test]
    fn a_row_under_the_bar_is_measured_once() {
        assert_eq!(measured(&[1.25, 0.5]), (1, 1.25));
    }

    #[test]
    fn a_row_over_the_bar_is_measured_until_it_is_not() {
        assert_eq!(measured(&[1.6, 1.4, 1.1, 0.9]), (3, 1.1));
    }

    #[test]
    fn of_a_row_that_stays_over_the_bar_the_least_counts() {
        assert_eq!(measured(&[1.6, 1.4, 1.7, 1.3, 1.5, 0.9]), (MOST_MEASURES, 1.3));
    }

    fn verdict(rows: &[(&str, f64)]) -> (String, bool) {
        let mut report = Report::new(1.25, Vec::new());
        rows.iter().for_each(|(name, ratio)| report.count(name, *ratio));
        report.verdict()
    }

    #[test]
    fn a_run_with_a_row_over_the_bar_fails_and_names_it() {
        let (line, held) = verdict(&[("one", 0.9), ("two", 1.26), ("three", 1.0)]);
        assert_eq!((line.as_str(), held), ("worst ratio: 1.26, over the bar of 1.25: two", false));
    }

    #[test]
    fn a_run_with_no_row_over_the_bar_does_not_fail() {
        let (line, held) = verdict(&[("one", 1.25), ("two", 1.2)]);
        assert_eq!((line.as_str(), held), ("worst ratio: 1.25, not over the bar of 1.25: one", true));
    }

    #[test]
    fn a_run_without_a_row_fails() {
        assert!(!verdict(&[]).1);
    }

    #[test]
    fn the_slower_way_is_over_the_bar() {
        let spin = |turns: u64| {
            (0..turns).for_each(|turn| {
                std::hint::black_box(turn);
            })
        };
        let mut report = Report::new(1.25, Vec::new());
        report.beside("slow", &mut || spin(4_000), &mut || spin(1_000));
        assert!(!report.verdict().1, "{}", report.verdict().0);
    }
}
