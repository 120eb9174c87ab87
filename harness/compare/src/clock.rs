//! The processor time of a thread, which other processes of the machine don't count in.
use std::ffi::{c_int, c_long};

#[repr(C)]
struct Timespec {
    seconds: i64,
    nanoseconds: c_long,
}

extern "C" {
    fn clock_gettime(clock: c_int, time: *mut Timespec) -> c_int;
}

/// Linux's number of the clock.
const THREAD_CPUTIME: c_int = 3;

pub fn nanoseconds() -> u64 {
    let mut time = Timespec { seconds: 0, nanoseconds: 0 };
    // SAFETY: `time` is a timespec of Linux on 64 bits, valid for writing.
    let failed = unsafe { clock_gettime(THREAD_CPUTIME, &mut time) };
    assert_eq!(failed, 0, "no clock");
    time.seconds as u64 * 1_000_000_000 + time.nanoseconds as u64
}
