/// Numbers of blocks, and their sums: a Fenwick tree. The blocks are a power of two.
pub struct Fenwick(Vec<u64>);

impl Fenwick {
    pub fn new(blocks: usize) -> Fenwick {
        Fenwick(vec![0; blocks + 1])
    }

    /// Adds to a block's number, modulo 2^64.
    pub fn add(&mut self, block: usize, more: u64) {
        let mut at = block + 1;
        while at < self.0.len() {
            self.0[at] = self.0[at].wrapping_add(more);
            at += at & at.wrapping_neg();
        }
    }

    /// The sum of the numbers of the blocks below one.
    pub fn below(&self, block: usize) -> u64 {
        let (mut at, mut sum) = (block, 0u64);
        while at > 0 {
            sum = sum.wrapping_add(self.0[at]);
            at &= at - 1;
        }
        sum
    }

    /// The last block with a sum of at most `index` below it, and what is left of `index`.
    pub fn find(&self, mut index: u64) -> (usize, u64) {
        let (mut at, mut step) = (0, self.0.len() - 1);
        while step > 0 {
            if at + step < self.0.len() && self.0[at + step] <= index {
                at += step;
                index -= self.0[at];
            }
            step /= 2;
        }
        (at, index)
    }
}
