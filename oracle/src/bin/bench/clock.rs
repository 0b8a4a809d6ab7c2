//! The processor's time of this thread: what other programs take of the processor is not in it. Of two calls the longer one would
//! else seem longer still on a machine that has more to do.

#[repr(C)]
struct Timespec {
    seconds: i64,
    nanoseconds: i64,
}

extern "C" {
    fn clock_gettime(clock: i32, time: *mut Timespec) -> i32;
}

/// Linux's number for it, on x86-64 and aarch64.
const CLOCK_THREAD_CPUTIME_ID: i32 = 3;

pub fn now() -> f64 {
    let mut time = Timespec { seconds: 0, nanoseconds: 0 };
    // SAFETY: the call writes one such struct, which is ours.
    let status = unsafe { clock_gettime(CLOCK_THREAD_CPUTIME_ID, &mut time) };
    assert_eq!(status, 0, "this system has no such clock");
    time.seconds as f64 + time.nanoseconds as f64 * 1e-9
}
