//! The processor time of the running thread, which does not count the time that
//! other programs take.

use std::ffi::{c_int, c_long};
use std::time::Duration;

/// C's `struct timespec` and the clock of the thread, for x86-64 Linux like the archive.
#[repr(C)]
#[derive(Default)]
struct TimeSpec {
    seconds: i64,
    nanoseconds: c_long,
}

const CLOCK_THREAD_CPUTIME_ID: c_int = 3;

extern "C" {
    fn clock_gettime(clock: c_int, time: *mut TimeSpec) -> c_int;
}

pub fn thread_time() -> Duration {
    let mut time = TimeSpec::default();
    // SAFETY: the pointer is to a whole TimeSpec.
    let failed = unsafe { clock_gettime(CLOCK_THREAD_CPUTIME_ID, &mut time) };
    assert_eq!(failed, 0, "the system has no clock of the thread");
    Duration::new(time.seconds as u64, time.nanoseconds as u32)
}
