/// What the members below a node come to. An extent is the least member in the upper half and the greatest in the lower one.
#[derive(Clone, Copy)]
pub struct Summary {
    pub count: u64,
    pub sum: u64,
    pub extent: u64,
}

impl Summary {
    pub const NOTHING: Summary = Summary { count: 0, sum: 0, extent: 0xffff_ffff_0000_0000 };

    #[inline(always)]
    pub fn of_leaf(key: u64, word: u64) -> Summary {
        if word >> 32 & 1 == 1 { Summary { count: 1, sum: word & 0xffff_ffff, extent: key << 32 | key } } else { Summary::NOTHING }
    }

    #[inline(always)]
    pub fn join(self, other: Summary) -> Summary {
        let least = (self.extent >> 32).min(other.extent >> 32);
        let greatest = (self.extent & 0xffff_ffff).max(other.extent & 0xffff_ffff);
        Summary { count: self.count + other.count, sum: self.sum.wrapping_add(other.sum), extent: least << 32 | greatest }
    }
}
