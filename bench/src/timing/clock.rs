//! Medians of several runs.

use std::time::{Duration, Instant};

/// How many runs the median is taken of.
pub const RUNS: usize = 11;

/// About how long a run is.
const RUN: Duration = Duration::from_millis(15);

/// How long each of some functions takes, in seconds. Their runs take turns, so that all have the same disturbances.
pub fn medians<T, const N: usize>(on: &mut T, sides: [fn(&mut T); N]) -> [f64; N] {
    let times = sides.map(|side| {
        time(on, side, 1);
        let once = time(on, side, 1);
        (RUN.as_secs_f64() / once).ceil().clamp(1.0, 1e6) as u32
    });
    let mut runs = [(); N].map(|()| Vec::with_capacity(RUNS));
    for _ in 0..RUNS {
        for (n, side) in sides.into_iter().enumerate() {
            runs[n].push(time(on, side, times[n]));
        }
    }
    runs.map(|mut runs| {
        runs.sort_by(f64::total_cmp);
        runs[RUNS / 2]
    })
}

/// The seconds that one call takes, of so many.
fn time<T>(on: &mut T, side: fn(&mut T), times: u32) -> f64 {
    let start = Instant::now();
    for _ in 0..times {
        side(on);
    }
    start.elapsed().as_secs_f64() / f64::from(times)
}
