//! The clock by which work is timed.
use std::time::Duration;

/// The processor time of this thread, so that what other processes take meanwhile is not counted. (std has wall time alone.)
fn processor_time() -> Duration {
    #[repr(C)]
    struct Time {
        seconds: i64,
        nanoseconds: i64,
    }
    extern "C" {
        fn clock_gettime(clock: i32, time: *mut Time) -> i32;
    }
    const THREAD_ON_LINUX: i32 = 3;
    let mut time = Time {
        seconds: 0,
        nanoseconds: 0,
    };
    // The call writes one struct of this layout on 64-bit Linux, and `time` is one.
    let status = unsafe { clock_gettime(THREAD_ON_LINUX, &mut time) };
    assert!(status == 0, "no clock of this thread's processor time");
    Duration::new(time.seconds as u64, time.nanoseconds as u32)
}

/// The time of the work, done so many times.
pub fn time(times: u32, work: &mut dyn FnMut()) -> Duration {
    let start = processor_time();
    (0..times).for_each(|_| work());
    processor_time() - start
}
