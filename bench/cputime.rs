//! A clock for programs that are measured beside ours: loaded before the C library (LD_PRELOAD), it gives the thread's processor time where they ask for the wall's, so that other
//! programs on the machine do not count. For x86-64 Linux.
#[repr(C)]
pub struct Time {
    seconds: i64,
    nanoseconds: i64,
}

extern "C" {
    fn syscall(number: i64, clock: i64, time: *mut Time) -> i64;
}

const CLOCK_GETTIME: i64 = 228;
const MONOTONIC: i32 = 1;
const THREAD_CPUTIME: i32 = 3;

/// # Safety
/// As the C library's.
#[no_mangle]
pub unsafe extern "C" fn clock_gettime(clock: i32, time: *mut Time) -> i32 {
    let clock = if clock == MONOTONIC { THREAD_CPUTIME } else { clock };
    unsafe { syscall(CLOCK_GETTIME, clock as i64, time) as i32 }
}
