//! Time on the processor.

#[repr(C)]
struct Timespec {
    seconds: i64,
    nanoseconds: i64,
}

extern "C" {
    fn clock_gettime(clock: i32, time: *mut Timespec) -> i32;
}

/// Linux's number of the clock of the calling thread's time on a processor.
const THREAD_TIME: i32 = 3;

/// Nanoseconds that this thread has had on a processor: what others do on the machine does not count, but for the
/// caches.
pub fn thread_time() -> f64 {
    let mut time = Timespec { seconds: 0, nanoseconds: 0 };
    // SAFETY: `time` is a struct timespec of 64-bit Linux, and lives through the call.
    let answer = unsafe { clock_gettime(THREAD_TIME, &mut time) };
    assert_eq!(answer, 0, "Linux has a clock for each thread");
    time.seconds as f64 * 1e9 + time.nanoseconds as f64
}
