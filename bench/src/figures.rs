//! What pairs of times come to.

/// Medians of both sides and of their ratio. The ratio is that of each pair of runs; half of the pairs lie from `low` to
/// `high`.
pub struct Figures {
    pub ours: f64,
    pub other: f64,
    pub ratio: f64,
    pub low: f64,
    pub high: f64,
}

impl Figures {
    /// The figures of runs that were taken by turns: `pair` gives our time and the other's, ours first or the
    /// other's first.
    pub fn of(runs: usize, pair: impl Fn(bool) -> (f64, f64)) -> Figures {
        let pairs: Vec<(f64, f64)> = (0..runs).map(|i| pair(i % 2 == 0)).collect();
        let ratios = sorted(pairs.iter().map(|(ours, other)| ours / other));
        Figures {
            ours: sorted(pairs.iter().map(|pair| pair.0))[runs / 2],
            other: sorted(pairs.iter().map(|pair| pair.1))[runs / 2],
            ratio: ratios[runs / 2],
            low: ratios[runs / 4],
            high: ratios[runs - 1 - runs / 4],
        }
    }
}

fn sorted(numbers: impl Iterator<Item = f64>) -> Vec<f64> {
    let mut list: Vec<f64> = numbers.collect();
    list.sort_by(f64::total_cmp);
    list
}
