//! The time that this thread has run. Other programs on the machine take turns
//! with it, which is not counted.

use std::os::raw::{c_int, c_long};
use std::time::Duration;

/// Linux's number for the clock of the calling thread.
const THREAD_CLOCK: c_int = 3;

#[repr(C)]
struct Time {
    seconds: c_long,
    nanoseconds: c_long,
}

extern "C" {
    fn clock_gettime(clock: c_int, time: *mut Time) -> c_int;
}

/// How long the calling thread has run.
pub fn thread_time() -> Duration {
    let mut time = Time {
        seconds: 0,
        nanoseconds: 0,
    };
    // SAFETY: the record is as the C library declares it, and is written whole.
    let result = unsafe { clock_gettime(THREAD_CLOCK, &mut time) };
    assert_eq!(result, 0, "the system has no clock for a thread");
    Duration::new(time.seconds as u64, time.nanoseconds as u32)
}
