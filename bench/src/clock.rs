//! The processor time of this thread. Unlike the time of day it stands still while another program
//! has the processor, so a shared machine disturbs it little.

/// Seconds and nanoseconds, as in C's `struct timespec` on 64-bit Linux.
#[repr(C)]
struct Time {
    seconds: i64,
    nanoseconds: i64,
}

/// Linux's number of the clock that counts the processor time of the calling thread.
const THREAD_CLOCK: i32 = 3;

extern "C" {
    /// Writes the time of a clock; not 0 where there is no such clock.
    fn clock_gettime(clock: i32, time: *mut Time) -> i32;
}

/// How many nanoseconds this thread has run.
pub fn nanoseconds_run() -> f64 {
    let mut time = Time {
        seconds: 0,
        nanoseconds: 0,
    };
    // `time` lives through the call and has the layout that the call writes.
    let failed = unsafe { clock_gettime(THREAD_CLOCK, &mut time) } != 0;
    assert!(!failed, "this system has no clock of a thread's time");
    1e9 * time.seconds as f64 + time.nanoseconds as f64
}
