/// How often a thread lost its processor.
pub struct Switches {
    /// When it slept, or waited for a lock.
    pub given: i64,
    /// When the system put it aside, or it yielded.
    pub taken: i64,
}

/// As the kernel has it: two times, and 14 numbers.
type Usage = [i64; 18];

unsafe extern "C" {
    fn getrusage(who: i32, usage: *mut Usage) -> i32;
}

const CALLING_THREAD: i32 = 1;

impl Switches {
    /// Those of the calling thread up to now.
    pub fn now() -> Switches {
        let mut usage: Usage = [0; 18];
        // SAFETY: the place has the size of what is written.
        assert_eq!(unsafe { getrusage(CALLING_THREAD, &mut usage) }, 0, "the kernel says nothing of a thread");
        Switches { given: usage[16], taken: usage[17] }
    }
}
