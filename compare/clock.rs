//! The processor's clock.
#[repr(C)]
struct Timespec {
    seconds: i64,
    nanoseconds: i64,
}

extern "C" {
    fn clock_gettime(clock: i32, to: &mut Timespec) -> i32;
}

/// The processor's time of this thread, in nanoseconds.
pub fn now() -> f64 {
    const THREAD: i32 = 3;
    let mut t = Timespec { seconds: 0, nanoseconds: 0 };
    // C's clock_gettime of a 64-bit system.
    assert!(unsafe { clock_gettime(THREAD, &mut t) } == 0);
    t.seconds as f64 * 1e9 + t.nanoseconds as f64
}
