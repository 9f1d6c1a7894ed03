//! The processor's time of the thread.

#[repr(C)]
struct Timespec {
    seconds: i64,
    nanoseconds: i64,
}

unsafe extern "C" {
    fn clock_gettime(clock: i32, time: *mut Timespec) -> i32;
}

/// The clock of the time that the thread took of its processor.
const THREAD: i32 = 3;

fn now() -> i64 {
    let mut time = Timespec { seconds: 0, nanoseconds: 0 };
    let status = unsafe { clock_gettime(THREAD, &mut time) };
    assert_eq!(status, 0, "the clock can be read");
    time.seconds * 1_000_000_000 + time.nanoseconds
}

/// What the work gives, and its nanoseconds.
pub fn timed<T>(work: impl FnOnce() -> T) -> (T, i64) {
    let start = now();
    let made = work();
    (made, now() - start)
}
