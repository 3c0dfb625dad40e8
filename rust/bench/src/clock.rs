//! The processor time of the calling thread: POSIX `clock_gettime`, with the numbers of 64-bit Linux.

#[repr(C)]
struct TimeSpec {
    seconds: i64,
    nanoseconds: i64,
}

extern "C" {
    fn clock_gettime(clock: i32, time: *mut TimeSpec) -> i32;
}

const THREAD_PROCESSOR_TIME: i32 = 3;

pub fn seconds() -> f64 {
    let mut time = TimeSpec { seconds: 0, nanoseconds: 0 };
    let answer = unsafe { clock_gettime(THREAD_PROCESSOR_TIME, &mut time) };
    assert_eq!(answer, 0);
    time.seconds as f64 + 1e-9 * time.nanoseconds as f64
}
