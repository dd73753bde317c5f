//! Times: runs of both sides in turn, and how they spread.

use crate::system::timed;
use std::hint::black_box;
use std::time::{Duration, Instant};

/// How the times of some runs spread, in microseconds.
#[derive(Debug, Clone, Copy)]
pub struct Spread {
    /// The least.
    pub least: f64,
    /// The median.
    pub median: f64,
}

/// A run repeats its work until it took so long.
const LEAST_RUN: Duration = Duration::from_millis(3);

/// Works that take longer than this are run four times at most.
const LONG: Duration = Duration::from_millis(50);

/// A run in which the processor had a smaller part of the time was broken off by others, and is made again, up to so many times.
const PART: f64 = 0.97;
const TRIES: usize = 20;

/// One run: what its work takes on the mean, in microseconds by the clock on the wall, and the processor's part of that.
fn tried(work: &mut dyn FnMut() -> Duration) -> (f64, f64) {
    let mut sum = Duration::ZERO;
    let mut times = 0_u32;
    let start = Instant::now();
    let (processor, ()) = timed(|| {
        while sum < LEAST_RUN {
            sum += work();
            times += 1;
        }
    });
    let part = processor.as_secs_f64() / start.elapsed().as_secs_f64();
    (sum.as_secs_f64() * 1e6 / f64::from(times), part.min(1.0))
}

/// The time of one run in microseconds of processor time.
fn run(work: &mut dyn FnMut() -> Duration) -> f64 {
    let mut last = tried(work);
    for _ in 1..TRIES {
        if PART < last.1 || LONG.as_secs_f64() * 1e6 < last.0 {
            break;
        }
        last = tried(work);
    }
    last.0 * last.1
}

/// Runs a work so many bytes further down the stack.
fn lower<const BYTES: usize>(work: &mut dyn FnMut() -> Duration) -> f64 {
    let below = black_box([0_u8; BYTES]);
    let time = run(work);
    black_box(&below);
    time
}

/// One run at one of eight places of the stack, an eighth of a page apart: what stands across the end of a page there takes much longer, and
/// which array that is changes with every frame of the library.
fn run_at(place: usize, work: &mut dyn FnMut() -> Duration) -> f64 {
    match place % 8 {
        0 => run(work),
        1 => lower::<512>(work),
        2 => lower::<1024>(work),
        3 => lower::<1536>(work),
        4 => lower::<2048>(work),
        5 => lower::<2560>(work),
        6 => lower::<3072>(work),
        _ => lower::<3584>(work),
    }
}

/// The spread of some times.
fn spread(mut times: Vec<f64>) -> Spread {
    times.sort_by(f64::total_cmp);
    let half = times.len() / 2;
    let median = if times.len().is_multiple_of(2) { (times[half - 1] + times[half]) / 2.0 } else { times[half] };
    Spread { least: times[0], median }
}

/// Runs two works in turn, each so many times after one time that does not count, at eight places of the stack.
pub fn in_turn(
    runs: usize,
    one: &mut dyn FnMut() -> Duration,
    other: &mut dyn FnMut() -> Duration,
) -> (Spread, Spread) {
    let runs = if LONG < one().max(other()) { runs.min(4) } else { runs };
    let mut times = (Vec::new(), Vec::new());
    for place in 0..runs {
        times.0.push(run_at(place, one));
        times.1.push(run_at(place, other));
    }
    (spread(times.0), spread(times.1))
}
