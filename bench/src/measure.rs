//! Calls timed beside each other: a batch of each in turn, so that a slow moment falls on all; the median batch counts.
use std::time::Instant;

const BATCHES: usize = 301;
const BATCH_NS: f64 = 200_000.0;

pub type Call<'a> = Box<dyn FnMut() + 'a>;

fn batch(call: &mut Call<'_>, turns: usize) -> f64 {
    let start = Instant::now();
    for _ in 0..turns {
        call();
    }
    start.elapsed().as_nanos() as f64 / turns as f64
}

/// So many turns that a batch takes about as long for each call.
fn turns_for(call: &mut Call<'_>) -> usize {
    batch(call, 100);
    (BATCH_NS / batch(call, 1000).max(0.1)) as usize + 1
}

fn median(mut times: Vec<f64>) -> f64 {
    times.sort_by(f64::total_cmp);
    times[times.len() / 2]
}

/// Nanoseconds a call of each.
pub fn all(calls: &mut [Call<'_>]) -> Vec<f64> {
    let turns: Vec<usize> = calls.iter_mut().map(turns_for).collect();
    let mut times = vec![Vec::with_capacity(BATCHES); calls.len()];
    for _ in 0..BATCHES {
        for (k, call) in calls.iter_mut().enumerate() {
            times[k].push(batch(call, turns[k]));
        }
    }
    times.into_iter().map(median).collect()
}
