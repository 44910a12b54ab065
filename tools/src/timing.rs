//! What is said of the times of several rounds.

/// The median and the least of some times.
pub fn median_and_best(mut times: Vec<f64>) -> [f64; 2] {
    times.sort_by(f64::total_cmp);
    [times[times.len() / 2], times[0]]
}
