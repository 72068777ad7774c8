//! How long something takes.

use std::hint::black_box;
use std::os::raw::{c_int, c_long};

/// Nanoseconds of a round, at least.
const ROUND: u64 = 30_000_000;
const ROUNDS: usize = 15;

/// Nanoseconds for each time it is done, the best of several rounds.
pub fn best(work: &mut dyn FnMut() -> usize) -> f64 {
    // As many times as a round can hold.
    let mut times = 1;
    while round(work, times) < ROUND {
        times *= 2;
    }
    let best = (0..ROUNDS).map(|_| round(work, times)).min().unwrap_or(0);
    best as f64 / times as f64
}

fn round(work: &mut dyn FnMut() -> usize, times: usize) -> u64 {
    let start = now();
    for _ in 0..times {
        black_box(work());
    }
    now() - start
}

#[repr(C)]
struct Time {
    seconds: i64,
    nanoseconds: c_long,
}

extern "C" {
    fn clock_gettime(clock: c_int, time: &mut Time) -> c_int;
}

/// The processor's time that this process has had: what else runs here counts for less then.
fn now() -> u64 {
    const OF_THIS_PROCESS: c_int = 2;
    let mut time = Time { seconds: 0, nanoseconds: 0 };
    let failed = unsafe { clock_gettime(OF_THIS_PROCESS, &mut time) };
    assert_eq!(failed, 0, "there is no such clock");
    time.seconds as u64 * 1_000_000_000 + time.nanoseconds as u64
}
