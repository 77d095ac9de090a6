//! The processor time of this process: what other processes take is not in it.

#[repr(C)]
struct Time {
    seconds: i64,
    nanoseconds: i64,
}

extern "C" {
    fn clock_gettime(clock: i32, time: *mut Time) -> i32;
}

const PROCESS: i32 = 2;

/// Nanoseconds of processor time since the process began.
pub fn now() -> f64 {
    let mut time = Time { seconds: 0, nanoseconds: 0 };
    // SAFETY: the C library of every Linux has this function, and the pointer is to a value of its type.
    let answer = unsafe { clock_gettime(PROCESS, &mut time) };
    assert_eq!(answer, 0, "the processor's clock");
    time.seconds as f64 * 1e9 + time.nanoseconds as f64
}
