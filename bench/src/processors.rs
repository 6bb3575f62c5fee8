//! The processors that the program may use.

/// As the kernel has them: 1,024 bits.
type Mask = [u64; 16];

unsafe extern "C" {
    fn sched_getaffinity(process: i32, size: usize, mask: *mut Mask) -> i32;
    fn sched_setaffinity(process: i32, size: usize, mask: *const Mask) -> i32;
}

/// Their numbers. Called before any thread is placed.
pub fn allowed() -> Vec<usize> {
    let mut mask: Mask = [0; 16];
    // SAFETY: the mask has as many bytes as are said.
    unsafe { sched_getaffinity(0, size_of::<Mask>(), &mut mask) };
    (0..64 * mask.len()).filter(|number| mask[number / 64] >> (number % 64) & 1 == 1).collect()
}

/// Keeps the calling thread on some processors.
pub fn place(numbers: &[usize]) {
    let mut mask: Mask = [0; 16];
    numbers.iter().for_each(|number| mask[number / 64] |= 1 << (number % 64));
    // SAFETY: the mask has as many bytes as are said.
    assert_eq!(unsafe { sched_setaffinity(0, size_of::<Mask>(), &mask) }, 0, "a thread could not be placed");
}
