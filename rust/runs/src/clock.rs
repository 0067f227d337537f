//! The processor time of this thread: a busy machine changes it less than the time of day. This module and `subject` have all that is
//! unsafe in the runs.
use std::time::Duration;

#[repr(C)]
struct TimeSpec {
    seconds: i64,
    nanoseconds: i64,
}

/// CLOCK_THREAD_CPUTIME_ID of Linux.
const THREAD_TIME: i32 = 3;

unsafe extern "C" {
    fn clock_gettime(clock: i32, time: *mut TimeSpec) -> i32;
}

fn thread_time() -> Duration {
    let mut time = TimeSpec { seconds: 0, nanoseconds: 0 };
    // SAFETY: the C library, which std links, writes one record.
    unsafe { clock_gettime(THREAD_TIME, &mut time) };
    Duration::new(time.seconds as u64, time.nanoseconds as u32)
}

/// How long a call takes.
pub fn time<R>(call: impl FnOnce() -> R) -> Duration {
    let before = thread_time();
    std::hint::black_box(call());
    thread_time() - before
}

/// The least times of two calls that are made in turn, for two seconds and five times at least.
pub fn least_in_turn(mut one: impl FnMut() -> Duration, mut other: impl FnMut() -> Duration) -> (Duration, Duration) {
    let mut least = (one(), other());
    let mut spent = least.0 + least.1;
    let mut calls = 1;
    while calls < 5 || spent < Duration::from_secs(2) {
        let times = (one(), other());
        least = (least.0.min(times.0), least.1.min(times.1));
        spent += times.0 + times.1;
        calls += 1;
    }
    least
}
