//! Times of repeated calls.

use std::time::{Duration, Instant};

/// A call to be measured.
pub type Call<'a> = Box<dyn FnMut() + 'a>;

/// How many batches of calls there are, how long each takes at least, and how
/// many entries the books have.
pub struct Effort {
    pub batches: usize,
    pub batch: Duration,
    pub books: &'static [usize],
}

impl Effort {
    pub fn full() -> Effort {
        Effort {
            batches: 11,
            batch: Duration::from_millis(20),
            books: &[100, 1000, 10000],
        }
    }

    pub fn quick() -> Effort {
        Effort {
            batches: 3,
            batch: Duration::from_millis(3),
            books: &[100, 1000],
        }
    }
}

/// The time of one call of each, in microseconds: the median of its batches.
/// Batches of different calls take turns, so that a slow moment of the machine
/// does not fall on one of them alone.
pub fn measure(calls: &mut [Call], effort: &Effort) -> Vec<f64> {
    let counts: Vec<u32> = calls.iter_mut().map(|c| count_for(c, effort)).collect();
    let mut times = vec![Vec::new(); calls.len()];
    for _ in 0..effort.batches {
        for (i, call) in calls.iter_mut().enumerate() {
            let time = time_of(call, counts[i]).as_secs_f64();
            times[i].push(1e6 * time / f64::from(counts[i]));
        }
    }
    times.into_iter().map(median).collect()
}

/// How many calls a batch has. Finding out is the warm-up.
fn count_for(call: &mut Call, effort: &Effort) -> u32 {
    let mut count = 1;
    while time_of(call, count) < effort.batch {
        count *= 2;
    }
    count
}

fn time_of(call: &mut Call, count: u32) -> Duration {
    let start = Instant::now();
    (0..count).for_each(|_| call());
    start.elapsed()
}

fn median(mut times: Vec<f64>) -> f64 {
    times.sort_by(f64::total_cmp);
    times[times.len() / 2]
}
