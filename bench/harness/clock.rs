//! The processor's time of this process, in nanoseconds.

#[repr(C)]
struct Time {
    seconds: i64,
    nanoseconds: i64,
}

/// POSIX: the clock of the process's own processor time.
const CLOCK_PROCESS_CPUTIME_ID: i32 = 2;

extern "C" {
    fn clock_gettime(clock: i32, time: *mut Time) -> i32;
}

fn now() -> i64 {
    let mut time = Time { seconds: 0, nanoseconds: 0 };
    // SAFETY: `time` is one timespec of 64-bit Linux, which the call writes.
    let failed = unsafe { clock_gettime(CLOCK_PROCESS_CPUTIME_ID, &mut time) };
    assert_eq!(failed, 0, "the clock can be read");
    time.seconds * 1_000_000_000 + time.nanoseconds
}

/// The milliseconds that a call takes.
pub fn time(call: impl FnOnce()) -> f64 {
    let start = now();
    call();
    (now() - start) as f64 / 1e6
}
