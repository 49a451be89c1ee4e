//! The time that the processor has spent on this thread.

use std::time::Duration;

#[repr(C)]
struct Timespec {
    seconds: i64,
    nanoseconds: i64,
}

const THREAD_CPUTIME: i32 = 3;

unsafe extern "C" {
    fn clock_gettime(clock: i32, time: *mut Timespec) -> i32;
}

pub fn processor_time() -> Duration {
    let mut t = Timespec { seconds: 0, nanoseconds: 0 };
    // SAFETY: the address is that of a `timespec` of 64-bit Linux, which is written and no more.
    let status = unsafe { clock_gettime(THREAD_CPUTIME, &raw mut t) };
    assert_eq!(status, 0, "the clock of this thread");
    Duration::new(t.seconds as u64, t.nanoseconds as u32)
}
