//! Medians of many runs, in processor time, taken in turn so that what slows the machine slows all alike.

use super::clock;
use std::time::Duration;

/// The least time that is measured at once.
const LEAST: Duration = Duration::from_micros(200);

/// A run of something, as often as it is called.
pub type Run<'a> = Box<dyn FnMut() + 'a>;

/// The median seconds of one run of each, over so many samples. A sample is as many runs as take the least time; `told`
/// learns how many samples have been taken.
pub fn medians(runs: &mut [Run], samples: usize, mut told: impl FnMut(usize)) -> Vec<f64> {
    let often: Vec<u32> = runs.iter_mut().map(|run| often_enough(run)).collect();
    let mut all = vec![Vec::with_capacity(samples); runs.len()];
    for taken in 1..=samples {
        for ((run, times), seconds) in runs.iter_mut().zip(&often).zip(&mut all) {
            seconds.push(time(run, *times).as_secs_f64() / f64::from(*times));
        }
        told(taken);
    }
    all.into_iter().map(median).collect()
}

/// How many runs take the least time, after the first ones, which warm up.
fn often_enough(run: &mut Run) -> u32 {
    let mut times = 1;
    while time(run, times) < LEAST {
        times *= 2;
    }
    times
}

fn time(run: &mut Run, times: u32) -> Duration {
    let begun = clock::now();
    for _ in 0..times {
        run();
    }
    clock::now() - begun
}

/// The middle one in order of size.
pub fn median(mut numbers: Vec<f64>) -> f64 {
    numbers.sort_by(f64::total_cmp);
    numbers[numbers.len() / 2]
}

#[cfg(test)]
mod tests {
    use super::*;

    #[test]
    fn the_median_is_in_the_middle() {
        assert_eq!(median(vec![9.0, 1.0, 3.0]), 3.0);
    }

    #[test]
    fn what_does_more_takes_longer() {
        let sum = |end: u64| -> Run {
            Box::new(move || _ = std::hint::black_box((0..std::hint::black_box(end)).fold(0, |a, b| a ^ (b * b))))
        };
        let mut taken = 0;
        let found = medians(&mut [sum(1_000), sum(100_000)], 5, |samples| taken = samples);
        assert!(found[0] < found[1], "{found:?}");
        assert_eq!(taken, 5);
    }
}
