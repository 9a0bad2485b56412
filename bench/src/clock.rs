//! Nanoseconds per call, the best of several rounds.

use std::hint::black_box;
use std::time::Instant;

const ROUNDS: usize = 25;
const CALLS: usize = 1 << 18;
const SLOW_CALLS: usize = 1 << 11;

/// Times both sides in turn over the same inputs: each call starts when it can.
pub fn throughput<I: Copy>(inputs: &[I], ours: impl Fn(I) -> u32, theirs: impl Fn(I) -> u32) -> [f64; 2] {
    best(
        CALLS,
        inputs.len(),
        || inputs.iter().fold(0u32, |sum, input| sum.wrapping_add(ours(*input))),
        || inputs.iter().fold(0u32, |sum, input| sum.wrapping_add(theirs(*input))),
    )
}

/// Times both sides in turn where each call waits for the one before it: `after` makes its input from one of the
/// inputs and a zero that is computed from the last answer. What that takes beside a function that answers at once,
/// `plain`, is taken off.
pub fn latency<I: Copy>(
    inputs: &[I],
    after: impl Fn(I, u32) -> I,
    plain: impl Fn(I) -> u32,
    ours: impl Fn(I) -> u32,
    theirs: impl Fn(I) -> u32,
) -> [f64; 2] {
    let none = black_box(0u32);
    let [alone, _] =
        best(CALLS, inputs.len(), || inputs.iter().fold(0u32, |last, input| plain(after(*input, last & none))), || 0);
    best(
        CALLS,
        inputs.len(),
        || inputs.iter().fold(0u32, |last, input| ours(after(*input, last & none))),
        || inputs.iter().fold(0u32, |last, input| theirs(after(*input, last & none))),
    )
    .map(|time| time - alone)
}

/// The same of calls that take long, with fewer in each round.
pub fn slow<I: Copy>(inputs: &[I], ours: impl Fn(I) -> u32, theirs: impl Fn(I) -> u32) -> [f64; 2] {
    best(
        SLOW_CALLS,
        inputs.len(),
        || inputs.iter().fold(0u32, |sum, input| sum.wrapping_add(ours(*input))),
        || inputs.iter().fold(0u32, |sum, input| sum.wrapping_add(theirs(*input))),
    )
}

/// Times both sides in turn on one large input, with a few calls in each round.
pub fn large(ours: impl Fn() -> u32, theirs: impl Fn() -> u32) -> [f64; 2] {
    repeated(16, ours, theirs)
}

/// The same with so many calls in each round.
pub fn repeated(calls: usize, ours: impl Fn() -> u32, theirs: impl Fn() -> u32) -> [f64; 2] {
    best(calls, 1, ours, theirs)
}

// both sides have as many calls in each round
fn best(least_calls: usize, calls: usize, ours: impl Fn() -> u32, theirs: impl Fn() -> u32) -> [f64; 2] {
    let mut least = [f64::INFINITY; 2];
    for _ in 0..ROUNDS {
        least[0] = least[0].min(round(least_calls, calls, &ours));
        least[1] = least[1].min(round(least_calls, calls, &theirs));
    }
    least
}

fn round(least_calls: usize, calls: usize, side: impl Fn() -> u32) -> f64 {
    let times = least_calls.div_ceil(calls);
    let began = Instant::now();
    for _ in 0..times {
        black_box(side());
    }
    began.elapsed().as_nanos() as f64 / (times * calls) as f64
}
