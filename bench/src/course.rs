use std::sync::atomic::{AtomicBool, AtomicUsize, Ordering::SeqCst};
use std::thread::{sleep, yield_now};
use std::time::{Duration, Instant};

/// Where threads begin and end together.
pub struct Course {
    threads: usize,
    come: AtomicUsize,
    over: AtomicBool,
}

impl Course {
    pub fn new(threads: usize) -> Course {
        Course { threads, come: AtomicUsize::new(0), over: AtomicBool::new(false) }
    }

    /// Waits for all threads.
    pub fn begin(&self) {
        self.come.fetch_add(1, SeqCst);
        while self.come.load(SeqCst) < self.threads {
            yield_now();
        }
    }

    #[inline(always)]
    pub fn is_over(&self) -> bool {
        self.over.load(SeqCst)
    }

    /// Waits for all threads, and does not begin.
    pub fn wait(&self) {
        while self.come.load(SeqCst) < self.threads {
            sleep(Duration::from_micros(200));
        }
    }

    /// Ends it, and says when.
    pub fn end(&self) -> Instant {
        let end = Instant::now();
        self.over.store(true, SeqCst);
        end
    }
}
