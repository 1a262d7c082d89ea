//! The processor time of this thread, which leaves out waiting for a processor.
use std::time::Duration;

#[repr(C)]
struct Time {
    seconds: i64,
    nanoseconds: i64,
}

extern "C" {
    fn clock_gettime(clock: i32, time: *mut Time) -> i32;
}

/// Linux's number for the clock of the calling thread.
const THREAD_CLOCK: i32 = 3;

pub fn now() -> Duration {
    let mut time = Time { seconds: 0, nanoseconds: 0 };
    // The call writes one time and nothing else.
    let result = unsafe { clock_gettime(THREAD_CLOCK, &mut time) };
    assert_eq!(result, 0, "the clock of a thread can be read");
    Duration::new(time.seconds as u64, time.nanoseconds as u32)
}
