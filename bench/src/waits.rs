//! How often the calling thread gave its processor away, or spun, since it waited for another. What sleeps is counted by the kernel: see `Switches`.
use std::sync::atomic::{AtomicU64, Ordering::Relaxed};

thread_local! {
    static WAITS: AtomicU64 = const { AtomicU64::new(0) };
}

unsafe extern "C" {
    fn __sched_yield() -> i32;
}

/// To be called by what spins until another thread is done.
pub fn note() {
    WAITS.with(|waits| waits.store(waits.load(Relaxed) + 1, Relaxed));
}

#[inline(always)]
pub fn count() -> u64 {
    WAITS.with(|waits| waits.load(Relaxed))
}

/// Stands in front of the C library's, in all that is linked: the kernel counts a yield as it does a thread that it puts aside.
#[unsafe(no_mangle)]
pub extern "C" fn sched_yield() -> i32 {
    note();
    // SAFETY: it is the C library's, under its other name.
    unsafe { __sched_yield() }
}
