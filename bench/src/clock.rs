//! The time that a piece of work takes.

use std::time::Duration;

/// The processor time this thread has used: what other programs use between
/// does not count, so that a busy machine disturbs the figures less.
#[cfg(all(target_os = "linux", target_pointer_width = "64"))]
pub fn now() -> Duration {
    use std::ffi::{c_int, c_long};

    #[repr(C)]
    struct Timespec {
        seconds: c_long,
        nanoseconds: c_long,
    }

    extern "C" {
        fn clock_gettime(clock: c_int, time: *mut Timespec) -> c_int;
    }

    const CLOCK_THREAD_CPUTIME_ID: c_int = 3;

    let mut time = Timespec {
        seconds: 0,
        nanoseconds: 0,
    };
    // Safety: the pointer is to a time of the C layout, which outlives the call.
    let failed = unsafe { clock_gettime(CLOCK_THREAD_CPUTIME_ID, &mut time) };
    assert_eq!(failed, 0, "the system has no clock for a thread");
    Duration::new(time.seconds as u64, time.nanoseconds as u32)
}

/// The time on the wall, where the time of a thread is not to be had.
#[cfg(not(all(target_os = "linux", target_pointer_width = "64")))]
pub fn now() -> Duration {
    use std::sync::OnceLock;
    use std::time::Instant;

    static FIRST: OnceLock<Instant> = OnceLock::new();
    FIRST.get_or_init(Instant::now).elapsed()
}
