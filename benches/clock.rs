//! The clock of measurements.

#[repr(C)]
struct Timespec {
    seconds: i64,
    nanoseconds: i64,
}

unsafe extern "C" {
    fn clock_gettime(clock: i32, time: *mut Timespec) -> i32;
}

/// The processor time of this thread in nanoseconds (Linux, 64 bits): what others take of a shared machine isn't in it.
pub fn now() -> f64 {
    const THREAD_CPU: i32 = 3;
    let mut time = Timespec { seconds: 0, nanoseconds: 0 };
    assert_eq!(unsafe { clock_gettime(THREAD_CPU, &mut time) }, 0);
    time.seconds as f64 * 1e9 + time.nanoseconds as f64
}
