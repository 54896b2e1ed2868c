//! The processor time of calls: the best of several rounds, in each of which every side of every
//! input takes its turn.

use std::hint::black_box;

const ROUNDS: usize = 21;
/// How long one side's part of a round is to be, in nanoseconds.
const PART: u64 = 6_000_000;
const MOST_CALLS: u64 = 20_000;

pub type Side<'a> = Box<dyn Fn() -> usize + 'a>;

unsafe extern "C" {
    fn clock_gettime(clock: i32, time: *mut [i64; 2]) -> i32;
}

/// The processor time of this thread, in nanoseconds.
fn now() -> u64 {
    const CLOCK_THREAD_CPUTIME_ID: i32 = 3;
    let mut time = [0; 2];
    // SAFETY: a `timespec` of Linux on x86-64 is two numbers of 64 bits.
    assert_eq!(unsafe { clock_gettime(CLOCK_THREAD_CPUTIME_ID, &mut time) }, 0);
    (time[0] * 1_000_000_000 + time[1]) as u64
}

fn time_of(side: &Side, calls: u64) -> u64 {
    let start = now();
    for _ in 0..calls {
        black_box(side());
    }
    now() - start
}

/// The time of one call, in nanoseconds.
pub fn time_once(call: impl FnOnce() -> usize) -> f64 {
    let start = now();
    black_box(call());
    (now() - start) as f64
}

/// An input, and what each side does with it.
pub struct Input<'a> {
    pub name: &'static str,
    pub sides: Vec<Side<'a>>,
    /// Whether the last side gives another answer than the first.
    pub last_differs: bool,
}

impl Input<'_> {
    /// How many calls make up each side's part of a round. The first call warms up.
    fn calls(&self) -> Vec<u64> {
        let calls = |side| {
            time_of(side, 1);
            (PART / time_of(side, 2).div_ceil(2).max(1)).clamp(1, MOST_CALLS)
        };
        self.sides.iter().map(calls).collect()
    }
}

/// The best time of one call of each side, in nanoseconds, for each input.
pub fn best_times(inputs: &[&Input]) -> Vec<Vec<f64>> {
    let calls: Vec<Vec<u64>> = inputs.iter().map(|input| input.calls()).collect();
    let mut best: Vec<Vec<f64>> =
        inputs.iter().map(|input| vec![f64::MAX; input.sides.len()]).collect();
    for _ in 0..ROUNDS {
        for (at, input) in inputs.iter().enumerate() {
            for (side, work) in input.sides.iter().enumerate() {
                let count = calls[at][side];
                let time = time_of(work, count) as f64 / count as f64;
                best[at][side] = best[at][side].min(time);
            }
        }
    }
    best
}
