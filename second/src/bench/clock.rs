//! The processor time of this thread, which other programs on the machine do not add to.

#![allow(unsafe_code)]

use std::time::Duration;

/// As the C library of 64-bit Linux has it.
#[repr(C)]
struct Timespec {
    seconds: i64,
    nanoseconds: i64,
}

const CLOCK_THREAD_CPUTIME_ID: i32 = 3;

extern "C" {
    fn clock_gettime(clock: i32, time: *mut Timespec) -> i32;
}

/// How long this thread has run on a processor.
pub fn now() -> Duration {
    let mut time = Timespec { seconds: 0, nanoseconds: 0 };
    // SAFETY: the time is lent for this call alone, and is as the C library has it.
    let failed = unsafe { clock_gettime(CLOCK_THREAD_CPUTIME_ID, &mut time) };
    assert_eq!(failed, 0, "this clock is on every Linux");
    Duration::new(time.seconds as u64, time.nanoseconds as u32)
}
