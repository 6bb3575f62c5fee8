use super::orders::Orders;
use super::words::Words;
use std::ops::Range;

/// What makes updates of the trie.
pub struct Pass<'t, O, const CHECKED: bool> {
    pub words: Words<'t, O, CHECKED>,
    /// The numbers of its records that were not used.
    pub left: &'t mut Range<u64>,
}

impl<O: Orders, const CHECKED: bool> Pass<'_, O, CHECKED> {
    /// Puts a key in, if it is absent.
    #[inline(never)]
    pub fn insert(&mut self, key: u64) -> bool {
        self.turn(key, 0)
    }

    /// Takes a key out, if it is there.
    #[inline(never)]
    pub fn remove(&mut self, key: u64) -> bool {
        self.turn(key, 1)
    }

    /// Changes a key whose serial has this parity.
    #[inline(always)]
    fn turn(&mut self, key: u64, parity: u64) -> bool {
        let word = self.words.load(key as usize);
        let fits = word >> 32 & 1 == parity;
        let new = ((word >> 32) + 1) << 32 | key;
        let accepted = fits && self.words.exchange(key as usize, word, new);
        self.climb(key);
        accepted
    }

    /// Puts a key in with a weight, or gives it the weight: 1 if it was absent, 2 if it was there, 0 if another pass was faster.
    #[inline(never)]
    pub fn put(&mut self, key: u64, weight: u64) -> u64 {
        let word = self.words.load(key as usize);
        let serial = word >> 32;
        let new = (serial + 1 + (serial & 1)) << 32 | weight;
        let accepted = self.words.exchange(key as usize, word, new);
        self.climb(key);
        if accepted { 1 + (serial & 1) } else { 0 }
    }

    /// Brings a key's leaf to the root: at each node of its path, two tries at most.
    #[inline(always)]
    fn climb(&mut self, key: u64) {
        assert!(!self.left.is_empty(), "no update is left");
        let words = self.words;
        let mut place = key as usize;
        for level in 0..words.bits {
            let left = place & !1;
            let node = (1 << words.bits) + place / 2;
            let first = (key >> (level + 1)) << (level + 1);
            if !words.refresh(level, left, node, first, self.left.start) {
                words.refresh(level, left, node, first, self.left.start);
            }
            self.left.start += 1;
            place = node;
        }
    }
}
