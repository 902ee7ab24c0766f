//! The time that this thread has worked. Other programs on the machine do not count, so a shared
//! machine gives the same ratios as a free one.

pub use clock::worked;

#[cfg(all(target_os = "linux", target_pointer_width = "64"))]
mod clock {
    use std::time::Duration;

    const THREAD_CPU_TIME: i32 = 3;

    #[repr(C)]
    struct Time {
        seconds: i64,
        nanoseconds: i64,
    }

    extern "C" {
        fn clock_gettime(clock: i32, time: *mut Time) -> i32;
    }

    pub fn worked() -> Duration {
        let mut time = Time {
            seconds: 0,
            nanoseconds: 0,
        };
        // SAFETY: the C library writes one time to the place it is given.
        let failed = unsafe { clock_gettime(THREAD_CPU_TIME, &mut time) };
        assert_eq!(failed, 0, "this system has a clock for every thread");
        Duration::new(time.seconds as u64, time.nanoseconds as u32)
    }
}

/// Elsewhere the time of day has to do.
#[cfg(not(all(target_os = "linux", target_pointer_width = "64")))]
mod clock {
    use std::sync::OnceLock;
    use std::time::{Duration, Instant};

    pub fn worked() -> Duration {
        static START: OnceLock<Instant> = OnceLock::new();
        START.get_or_init(Instant::now).elapsed()
    }
}
