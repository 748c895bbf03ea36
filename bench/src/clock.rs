//! The time that the thread has run, without that of others whose turn it was meanwhile.
use std::ffi::{c_int, c_long};

/// As Linux gives it on 64-bit machines.
#[repr(C)]
struct Timespec {
    seconds: i64,
    nanoseconds: c_long,
}

const CLOCK_THREAD_CPUTIME_ID: c_int = 3;

extern "C" {
    fn clock_gettime(clock: c_int, time: *mut Timespec) -> c_int;
}

/// Nanoseconds since the thread began.
pub fn now() -> f64 {
    let mut time = Timespec { seconds: 0, nanoseconds: 0 };
    // SAFETY: the clock is one of Linux, and the time is written to a place of its own.
    let status = unsafe { clock_gettime(CLOCK_THREAD_CPUTIME_ID, &mut time) };
    assert_eq!(status, 0, "the clock of the thread's time");
    time.seconds as f64 * 1e9 + time.nanoseconds as f64
}
