//! Suspends threads, wherever they are: by a signal whose handler sleeps.
use std::ptr::null_mut;
use std::sync::atomic::{AtomicU64, Ordering::Relaxed};
use std::thread::sleep;
use std::time::{Duration, Instant};

/// How often one of the threads is suspended, and for how many nanoseconds.
const EVERY: Duration = Duration::from_millis(50);
const PAUSE: i64 = 20_000_000;

/// The signal, SIGUSR1.
const SUSPEND: i32 = 10;

/// A thread, as the C library names it.
pub type Thread = u64;

#[repr(C)]
struct Time {
    seconds: i64,
    nanoseconds: i64,
}

unsafe extern "C" {
    fn signal(number: i32, handler: extern "C" fn(i32)) -> usize;
    fn pthread_self() -> Thread;
    fn pthread_kill(thread: Thread, number: i32) -> i32;
    fn nanosleep(time: *const Time, left: *mut Time) -> i32;
    fn __errno_location() -> *mut i32;
}

thread_local! {
    /// How often the thread was suspended.
    static SUSPENSIONS: AtomicU64 = const { AtomicU64::new(0) };
}

/// A call that it interrupts finds the error number as it was.
extern "C" fn pause(_: i32) {
    let time = Time { seconds: 0, nanoseconds: PAUSE };
    SUSPENSIONS.with(|count| count.store(count.load(Relaxed) + 1, Relaxed));
    // SAFETY: each thread has its error number, and what is left of the time may be unknown.
    unsafe {
        let number = *__errno_location();
        nanosleep(&time, null_mut());
        *__errno_location() = number;
    }
}

/// How often the calling thread was suspended.
#[inline(always)]
pub fn suspensions() -> u64 {
    SUSPENSIONS.with(|count| count.load(Relaxed))
}

/// The calling thread.
pub fn own() -> Thread {
    // SAFETY: it asks for nothing.
    unsafe { pthread_self() }
}

/// Suspends one thread after the other, for so long. None of them ends meanwhile.
pub fn suspend_in_turn(threads: &[Thread], length: Duration) {
    // SAFETY: the handler does only what a handler may.
    unsafe { signal(SUSPEND, pause) };
    let end = Instant::now() + length;
    for &thread in threads.iter().cycle() {
        sleep(EVERY.min(end.saturating_duration_since(Instant::now())));
        if Instant::now() >= end {
            return;
        }
        // SAFETY: the thread did not end.
        assert_eq!(unsafe { pthread_kill(thread, SUSPEND) }, 0, "a thread could not be suspended");
    }
}
