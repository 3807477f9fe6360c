//! CPU time of this thread, which the standard library does not tell. Where cores are shared, the time
//! on the wall says little of one call.

use std::time::Duration;

/// `struct timespec` where a long has 64 bits.
#[repr(C)]
struct Timespec {
    seconds: i64,
    nanoseconds: i64,
}

/// `CLOCK_THREAD_CPUTIME_ID` of Linux.
const THREAD_CPU: i32 = 3;

extern "C" {
    fn clock_gettime(clock: i32, time: *mut Timespec) -> i32;
}

fn now() -> Duration {
    let mut time = Timespec {
        seconds: 0,
        nanoseconds: 0,
    };
    // Sound: the pointer is to a whole timespec that outlives the call, and nothing else is touched.
    let failed = unsafe { clock_gettime(THREAD_CPU, &mut time) };
    assert_eq!(failed, 0, "the clock is there");
    Duration::new(time.seconds as u64, time.nanoseconds as u32)
}

/// What a call took, and what it gave.
pub fn timed<T>(call: impl FnOnce() -> T) -> (Duration, T) {
    let start = now();
    let given = call();
    (now() - start, given)
}
