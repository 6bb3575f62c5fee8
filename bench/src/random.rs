/// Draws numbers: splitmix64.
pub struct Random(u64);

impl Random {
    /// A row of its own for each seed and each of 64 threads.
    pub fn of(seed: u64, thread: u64) -> Random {
        let mut random = Random(seed << 6 | thread);
        Random(random.draw())
    }

    #[inline(always)]
    pub fn draw(&mut self) -> u64 {
        self.0 = self.0.wrapping_add(0x9e37_79b9_7f4a_7c15);
        let mut z = self.0;
        z = (z ^ z >> 30).wrapping_mul(0xbf58_476d_1ce4_e5b9);
        z = (z ^ z >> 27).wrapping_mul(0x94d0_49bb_1331_11eb);
        z ^ z >> 31
    }
}
