//! The times of repeated runs.

/// Nanoseconds, one for each run.
#[derive(Default)]
pub struct Samples(Vec<u64>);

impl Samples {
    pub fn add(&mut self, taken: impl IntoIterator<Item = u64>) {
        self.0.extend(taken);
    }

    pub fn len(&self) -> usize {
        self.0.len()
    }

    /// The time that so many of a hundred runs stay at or below.
    pub fn percentile(&self, of_hundred: usize) -> f64 {
        let mut sorted = self.0.clone();
        sorted.sort_unstable();
        match sorted.get((sorted.len() * of_hundred / 100).min(sorted.len().saturating_sub(1))) {
            Some(&time) => time as f64,
            None => f64::NAN,
        }
    }

    /// What the table gives: the tenth percentile, in microseconds.
    pub fn time(&self) -> f64 {
        self.percentile(10) / 1000.0
    }

    /// How far the median and the ninetieth percentile lie above the tenth, as ratios.
    pub fn spread(&self) -> (f64, f64) {
        let low = self.percentile(10);
        (self.percentile(50) / low, self.percentile(90) / low)
    }
}
