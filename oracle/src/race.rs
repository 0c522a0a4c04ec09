//! Two sides timed by turns.

use std::ffi::{c_int, c_long};
use std::time::{Duration, Instant};

/// The times of each side, sorted. The sides take turns, so that a slow moment of the machine hits both, and the
/// first turn goes to each in every second round.
pub fn race(rounds: usize, mut call: impl FnMut(usize) -> Duration) -> [Vec<Duration>; 2] {
    let mut times = [Vec::new(), Vec::new()];
    for round in 0..rounds {
        for turn in 0..2 {
            let which = (round + turn) % 2;
            times[which].push(call(which));
        }
    }
    for times in &mut times {
        times.sort();
    }
    times
}

/// How long a call takes. Where another process had the processor in between, the processor's time is less than
/// the clock's, and counts. For a short call the clock's is nearer, since it is read inside.
pub fn timed(call: impl FnOnce()) -> Duration {
    let busy = processor_time();
    let start = Instant::now();
    call();
    let passed = start.elapsed();
    passed.min(processor_time() - busy)
}

/// What this thread has had of a processor.
fn processor_time() -> Duration {
    extern "C" {
        fn clock_gettime(clock: c_int, time: *mut [c_long; 2]) -> c_int;
    }
    /// CLOCK_THREAD_CPUTIME_ID of Linux.
    const OF_THIS_THREAD: c_int = 3;
    let mut time = [0; 2];
    // SAFETY: a timespec on x86-64 Linux is two long numbers, and `time` is writable.
    let status = unsafe { clock_gettime(OF_THIS_THREAD, &mut time) };
    assert!(status == 0, "the processor's time cannot be read");
    let [seconds, nanoseconds] = time;
    Duration::new(seconds as u64, nanoseconds as u32)
}
