//! The time that this thread has had on a core. A run takes milliseconds, in which a busy machine
//! would run something else as well.
use std::time::Duration;

#[repr(C)]
struct Timespec {
    seconds: i64,
    nanos: i64,
}

extern "C" {
    fn clock_gettime(clock: i32, to: *mut Timespec) -> i32;
}

/// Linux's number of the clock.
const THREAD_CPU: i32 = 3;

pub fn thread_time() -> Duration {
    let mut t = Timespec { seconds: 0, nanos: 0 };
    // SAFETY: the C library writes one timespec, which on 64-bit Linux is two 64-bit numbers.
    let failed = unsafe { clock_gettime(THREAD_CPU, &mut t) };
    assert_eq!(failed, 0, "no clock");
    Duration::new(t.seconds as u64, t.nanos as u32)
}
