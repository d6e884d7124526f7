//! Medians, quartiles, and the exponent of a growth.

/// The median and the quartiles of some numbers.
pub struct Spread {
    pub median: f64,
    low: f64,
    high: f64,
}

impl Spread {
    pub fn of(numbers: impl Iterator<Item = f64>) -> Self {
        let mut sorted: Vec<f64> = numbers.collect();
        sorted.sort_by(f64::total_cmp);
        let at = |quarters: usize| sorted[(sorted.len() - 1) * quarters / 4];
        Self { median: at(2), low: at(1), high: at(3) }
    }

    pub fn shown(&self, digits: usize) -> String {
        let Self { median, low, high } = self;
        format!("{median:.digits$} ({low:.digits$} to {high:.digits$})")
    }
}

/// The slope of the line through the logarithms, by least squares.
pub fn exponent(points: &[(f64, f64)]) -> f64 {
    let logs: Vec<(f64, f64)> = points.iter().map(|(x, y)| (x.ln(), y.ln())).collect();
    let count = logs.len() as f64;
    let x_mean = logs.iter().map(|log| log.0).sum::<f64>() / count;
    let y_mean = logs.iter().map(|log| log.1).sum::<f64>() / count;
    let both: f64 = logs.iter().map(|(x, y)| (x - x_mean) * (y - y_mean)).sum();
    let square: f64 = logs.iter().map(|(x, _)| (x - x_mean).powi(2)).sum();
    both / square
}

#[cfg(test)]
mod tests {
    use super::{Spread, exponent};

    #[test]
    fn quartiles() {
        let spread = Spread::of([5.0, 1.0, 4.0, 2.0, 3.0].into_iter());
        assert_eq!(spread.shown(0), "3 (2 to 4)");
    }

    #[test]
    fn a_square_has_exponent_two() {
        let points = [1.0, 2.0, 5.0].map(|x: f64| (x, 7.0 * x * x));
        assert!((exponent(&points) - 2.0).abs() < 1e-9);
    }
}
