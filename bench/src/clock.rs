//! The clock: CPU time of the calling thread, which other work on the machine disturbs least.

/// Nanoseconds that this thread has run so far.
pub fn cpu_time() -> u64 {
    let mut time = libc::timespec {
        tv_sec: 0,
        tv_nsec: 0,
    };
    // SAFETY: `time` is a timespec that the call may write to.
    let status = unsafe { libc::clock_gettime(libc::CLOCK_THREAD_CPUTIME_ID, &raw mut time) };
    assert_eq!(status, 0, "the thread's clock can be read");
    time.tv_sec.cast_unsigned() * 1_000_000_000 + time.tv_nsec.cast_unsigned()
}

/// Nanoseconds that `work` takes.
pub fn timed(work: impl FnOnce()) -> u64 {
    let begun = cpu_time();
    work();
    cpu_time() - begun
}
